/* Channel opening (RFC 4254 sections 5.1, 6.3.2, 7.2), and a place, judged. */
#include "check.h"

#include <string.h>

/* sender 0x01020304, window 2,097,152, maximum packet 32,768 */
#define OFFER "\x01\x02\x03\x04" "\0\x20\0\0" "\0\0\x80\0"
#define OFFERED \
    .what = DONE, .recipient_channel = 0x01020304, .recipient_window_size = 2097152, .recipient_maximum_packet_size = 32768

static void opens(const char *what, const uint8_t *body, size_t len, harupesat_open want)
{
    trying(what);
    is_open(harupesat_read_open(body, len), want);
}

static void p10(void)
{
    opens("P10", BYTES("\0\0\0\x07" "session" "\0\0\0\0" "\0\x20\0\0" "\0\0\x80\0"),
          (harupesat_open){.what = DONE, .typ = HARUPESAT_SESSION, .recipient_window_size = 2097152,
                           .recipient_maximum_packet_size = 32768});
    opens("P10 with a byte more", BYTES("\0\0\0\x07" "session" "\0\0\0\0" "\0\x20\0\0" "\0\0\x80\0" "\0"),
          (harupesat_open){.number = 5, .offset = 23});
    opens("P10 with a byte more and maximum 0", BYTES("\0\0\0\x07" "session" "\0\0\0\0" "\0\x20\0\0" "\0\0\0\0" "\0"),
          (harupesat_open){.number = 6, .offset = 19});
}

static void types(void)
{
    opens("session", BYTES("\0\0\0\x07" "session" OFFER), (harupesat_open){OFFERED, .typ = 0});
    opens("x11", BYTES("\0\0\0\x03" "x11" OFFER "\0\0\0\x07" "::1%lo0" "\0\0\x17\x70"),
          (harupesat_open){OFFERED, .typ = 1, .originator_start = 23, .originator_len = 7, .originator_port = 6000});
    opens("direct-tcpip",
          BYTES("\0\0\0\x0c" "direct-tcpip" OFFER "\0\0\0\x05" "depot" "\0\0\0\x16" "\0\0\0\x03" "::1" "\0\x01\0\0"),
          (harupesat_open){OFFERED, .typ = 2, .text_start = 32, .text_len = 5, .port = 22, .originator_start = 45,
                           .originator_len = 3, .originator_port = 65536});
    opens("direct-streamlocal@openssh.com",
          BYTES("\0\0\0\x1e" "direct-streamlocal@openssh.com" OFFER "\0\0\0\x06" "/run/s" "\0\0\0\x01" "r" "\0\0\0\x09"),
          (harupesat_open){OFFERED, .typ = 3, .text_start = 50, .text_len = 6});
    opens("forwarded-tcpip",
          BYTES("\0\0\0\x0f" "forwarded-tcpip" OFFER "\0\0\0\0" "\0\0\0\x50" "\0\0\0\x02" "\xc3\xa9" "\0\0\0\x02"),
          (harupesat_open){OFFERED, .typ = 4, .text_start = 35, .text_len = 0, .port = 80, .originator_start = 43,
                           .originator_len = 2, .originator_port = 2});
    opens("forwarded-streamlocal@openssh.com",
          BYTES("\0\0\0\x21" "forwarded-streamlocal@openssh.com" OFFER "\0\0\0\x02" "/s" "\0\0\0\0"),
          (harupesat_open){OFFERED, .typ = 5, .text_start = 53, .text_len = 2});
    opens("auth-agent@openssh.com", BYTES("\0\0\0\x16" "auth-agent@openssh.com" OFFER),
          (harupesat_open){OFFERED, .typ = 6});
    opens("an unknown type", BYTES("\0\0\0\x04" "tun@" OFFER "what\xff"),
          (harupesat_open){OFFERED, .typ = 7, .text_start = 4, .text_len = 4, .rest_start = 20, .rest_len = 5});
    opens("an unknown type with nothing behind it", BYTES("\0\0\0\x04" "tun@" OFFER),
          (harupesat_open){OFFERED, .typ = 7, .text_start = 4, .text_len = 4, .rest_start = 20});
}

static void open_refusals(void)
{
    static uint8_t body[262176];
    opens("a type past the end", BYTES("\0\0\0\x08" "session"), (harupesat_open){.number = 2});
    opens("a type that is not UTF-8", BYTES("\0\0\0\x02" "\xc3\x28" OFFER), (harupesat_open){.number = 3});
    opens("a number cut short", BYTES("\0\0\0\x07" "session" "\0\0\0"), (harupesat_open){.number = 2, .offset = 11});
    opens("an address that is not UTF-8", BYTES("\0\0\0\x03" "x11" OFFER "\0\0\0\x01" "\x80" "\0\0\0\0"),
          (harupesat_open){.number = 3, .offset = 19});
    opens("a reserved string that is not UTF-8",
          BYTES("\0\0\0\x21" "forwarded-streamlocal@openssh.com" OFFER "\0\0\0\0" "\0\0\0\x01" "\xff"),
          (harupesat_open){.number = 3, .offset = 53});
    memcpy(body, "\0\0\0\0" OFFER, 16);
    opens("the longest body", LENT(body, 262175),
          (harupesat_open){OFFERED, .typ = 7, .text_start = 4, .rest_start = 16, .rest_len = 262159});
    opens("a longer body", LENT(body, 262176), (harupesat_open){.number = 1});
}

static void confirmations(void)
{
    static const uint8_t zeros[262176];
    trying("a confirmation");
    is_confirmation(harupesat_read_confirmation(BYTES("\0\0\0\x05" OFFER)),
                    (harupesat_confirmation){.what = DONE, .recipient_channel = 5, .sender_channel = 0x01020304,
                                             .initial_window_size = 2097152, .maximum_packet_size = 32768});
    trying("a confirmation with later bytes");
    is_confirmation(harupesat_read_confirmation(BYTES("\xff\xff\xff\xff" "\0\0\0\x01" "\0\0\0\x02" "\0\0\0\x03" "more")),
                    (harupesat_confirmation){.what = DONE, .recipient_channel = UINT32_MAX, .sender_channel = 1,
                                             .initial_window_size = 2, .maximum_packet_size = 3});
    trying("a confirmation cut short");
    is_confirmation(harupesat_read_confirmation(BYTES("\0\0\0\x05" "\0\0\0\x01" "\0\0\0\x02" "\0\0\0")),
                    (harupesat_confirmation){.number = 2, .offset = 12});
    trying("a confirmation with maximum 0");
    is_confirmation(harupesat_read_confirmation(LENT(zeros, 262175)), (harupesat_confirmation){.number = 6, .offset = 12});
    trying("a confirmation that is too long");
    is_confirmation(harupesat_read_confirmation(LENT(zeros, 262176)), (harupesat_confirmation){.number = 1});
}

/* "92, recipient u32, reason u32 (0 to 255), text (any bytes), "en"" */
static void failures(void)
{
    static uint8_t text[1025], payload[1043] = "\x5c" "\0\0\0\x09" "\0\0\0\xff" "\0\0\x04\0";
    trying("a failure");
    uint8_t *out = lend(30);
    is_written(harupesat_fail(0x01020304, 2, BYTES("\xff no"), out, 30), (harupesat_written){.what = DONE, .len = 23});
    holds("\x5c" "\x01\x02\x03\x04" "\0\0\0\x02" "\0\0\0\x04" "\xff no" "\0\0\0\x02" "en", 23);
    trying("the longest text");
    memset(text, 'x', sizeof text);
    memset(payload + 13, 'x', 1024);
    memcpy(payload + 1037, "\0\0\0\x02" "en", 6);
    out = lend(1043);
    is_written(harupesat_fail(9, 255, LENT(text, 1024), out, 1043), (harupesat_written){.what = DONE, .len = 1043});
    holds(payload, 1043);
    trying("a longer text, 1 before 8");
    out = lend(0);
    is_written(harupesat_fail(9, 255, LENT(text, 1025), out, 0), (harupesat_written){.number = 1});
    untouched();
    trying("a failure without room");
    out = lend(22);
    is_written(harupesat_fail(1, 2, BYTES("\xff no"), out, 22), (harupesat_written){.number = 8});
    untouched();
}

static void unknown_types(void)
{
    trying("the failure for an unknown type");
    uint8_t *out = lend(40);
    is_written(harupesat_unknown_type(0x01020304, out, 40), (harupesat_written){.what = DONE, .len = 39});
    holds("\x5c" "\x01\x02\x03\x04" "\0\0\0\x03" "\0\0\0\x14" "Unknown channel type" "\0\0\0\x02" "en", 39);
    trying("the failure for an unknown type without room");
    out = lend(38);
    is_written(harupesat_unknown_type(0x01020304, out, 38), (harupesat_written){.number = 8});
    untouched();
}

static void shows(harupesat_size len, harupesat_size start, harupesat_size count, harupesat_shown want)
{
    is_shown(harupesat_show(LENT("0123456789", len), start, count), want);
}

static void places(void)
{
    trying("a place inside");
    shows(10, 3, 4, (harupesat_shown){.what = DONE, .start = 3, .len = 4});
    shows(10, 0, 10, (harupesat_shown){.what = DONE, .start = 0, .len = 10});
    trying("an empty place at the very end");
    shows(10, 10, 0, (harupesat_shown){.what = DONE, .start = 10, .len = 0});
    trying("a place outside");
    shows(10, 11, 0, (harupesat_shown){.number = 2});
    shows(10, 3, 8, (harupesat_shown){.number = 2});
    trying("a place whose end no number holds");
    shows(10, 1, UINT64_MAX, (harupesat_shown){.number = 2});
    shows(10, UINT64_MAX, 1, (harupesat_shown){.number = 2});
    shows(10, UINT64_MAX, UINT64_MAX, (harupesat_shown){.number = 2});
}

void channels(void)
{
    p10();
    types();
    open_refusals();
    confirmations();
    failures();
    unknown_types();
    places();
}
