/* Where a reader refuses: number and offset, by hand from the lengths of the fields. Those of document 01's KEXINIT of 182
 * bytes start at 17, 38, 53, 86, 119, 136, 153, 161, 169, 173, 177 and 178. */
#include "kex.h"

#include <string.h>

/* Both sides refuse it alike. */
static void peer(const char *what, uint8_t cipher, struct peer p, uint8_t number, harupesat_size offset)
{
    const harupesat_names want = {.number = number, .offset = offset};
    trying(what);
    is_names(read_peer(client(cipher), false, p), want);
    is_names(read_peer(server(cipher), false, p), want);
}

static void length(const char *what, size_t len, uint8_t number, harupesat_size offset)
{
    const harupesat_names want = {.number = number, .offset = offset};
    trying(what);
    is_names(read_of_length(client(CHACHA20), plain_peer(), len), want);
    is_names(read_of_length(server(CHACHA20), plain_peer(), len), want);
}

static void lengths(void)
{
    length("a KEXINIT cut to 16", 16, 6, 0);
    length("a KEXINIT cut to 17: no kex list", 17, 2, 17);
    length("a KEXINIT cut to 20: a byte of its length is missing", 20, 2, 17);
    length("a KEXINIT cut to 21: none of its names", 21, 2, 17);
    length("a KEXINIT cut to 37: the last byte of its names is missing", 37, 2, 17);
    length("a KEXINIT cut to 38: no key list", 38, 2, 38);
    length("a KEXINIT cut to 177: no follows byte", 177, 2, 177);
    length("a KEXINIT cut to 178: no reserved number", 178, 2, 178);
    length("a KEXINIT cut to 181", 181, 2, 178);
    length("a KEXINIT with a byte more", 183, 5, 182);
    length("a KEXINIT with two bytes more", 184, 5, 182);
}

static void lists(void)
{
    static char long_list[16386];
    struct peer p;
    memset(long_list, 'a', 16385);
    peer("kex foo", CHACHA20, (p = plain_peer(), p.kex = "foo", p), 10, 17);
    peer("kex a,,b", CHACHA20, (p = plain_peer(), p.kex = "a,,b", p), 3, 17);
    peer("kex of 16,385 bytes", CHACHA20, (p = plain_peer(), p.kex = long_list, p), 2, 17);
    peer("key foo", CHACHA20, (p = plain_peer(), p.key = "foo", p), 11, 38);
    peer("cipher to server foo", CHACHA20, (p = plain_peer(), p.cipher[0] = "foo", p), 12, 53);
    peer("cipher to client FF", CHACHA20, (p = plain_peer(), p.cipher[1] = "\xff", p), 3, 86);
    peer("MAC to client FF", CHACHA20, (p = plain_peer(), p.mac[1] = "\xff", p), 3, 136);
    peer("MAC to client, FF its last byte", CHACHA20, (p = plain_peer(), p.mac[1] = "hmac-sha2-256,\xff", p), 3, 136);
    peer("compression to client zlib", CHACHA20, (p = plain_peer(), p.compression[1] = "zlib", p), 14, 161);
    peer("compression zlib", CHACHA20, (p.compression[0] = "zlib", p), 14, 153);
    peer("language FF", CHACHA20, (p = plain_peer(), p.language[0] = "\xff", p), 3, 169);
    peer("second language FF", CHACHA20, (p = plain_peer(), p.language[1] = "\xff", p), 3, 173);
}

/* The MAC lists start at 81 and 98 then. */
static void macs(void)
{
    struct peer p = plain_peer();
    p.cipher[0] = p.cipher[1] = "aes128-ctr";
    p.mac[1] = "none";
    peer("aes128-ctr, MAC to client none", AES128_CTR, p, 13, 98);
    p.mac[0] = "none";
    peer("aes128-ctr, MAC none", AES128_CTR, p, 13, 81);
    p.mac[1] = "hmac-sha2-256";
    peer("aes128-ctr, MAC to server none", AES128_CTR, p, 13, 81);
}

static void judged_before_fields(void)
{
    static const uint8_t zeros[262177];
    struct tables t = client(CHACHA20);
    trying("262,177 bytes");
    is_names(read_kex(t, false, LENT(zeros, 262177)), (harupesat_names){.number = 1, .offset = 0});
    trying("kex number 13");
    t.kex = NUMBERS(13);
    is_names(read_peer(t, false, plain_peer()), (harupesat_names){.number = 9, .offset = 0});
}

static void opening(const char *what, const uint8_t *body, size_t len, uint8_t number, harupesat_size offset)
{
    trying(what);
    is_open(harupesat_read_open(body, len), (harupesat_open){.number = number, .offset = offset});
}

#define SESSION "\0\0\0\x07" "session" "\0\0\0\0" "\0\x20\0\0"
#define DIRECT_TCPIP "\0\0\0\x0c" "direct-tcpip" "\0\0\0\x01" "\0\0\0\x02" "\0\0\0\x03"
#define LOCALHOST "\0\0\0\x09" "localhost" "\0\0\0\x16"
#define ORIGINATOR "\0\0\0\x08" "10.0.0.1" "\0\0\x04\xd2"

static void openings(void)
{
    opening("an empty body", BYTES(""), 2, 0);
    opening("P10 cut to 22", BYTES(SESSION "\0\0\x80"), 2, 19);
    opening("P10 with a byte more", BYTES(SESSION "\0\0\x80\0" "\0"), 5, 23);
    opening("P10 with maximum 0 and a byte more", BYTES(SESSION "\0\0\0\0" "\0"), 6, 19);
    opening("host FF", BYTES(DIRECT_TCPIP "\0\0\0\x01" "\xff" "\0\0\0\x16" ORIGINATOR), 3, 28);
    opening("originator FF", BYTES(DIRECT_TCPIP LOCALHOST "\0\0\0\x01" "\xff" "\0\0\x04\xd2"), 3, 45);
    opening("61 bytes cut to 60", LENT(DIRECT_TCPIP LOCALHOST ORIGINATOR, 60), 2, 57);
    opening("61 bytes and one more", BYTES(DIRECT_TCPIP LOCALHOST ORIGINATOR "\0"), 5, 61);
    trying("61 bytes");
    is("their count", sizeof(DIRECT_TCPIP LOCALHOST ORIGINATOR) - 1, 61);
    is_open(harupesat_read_open(BYTES(DIRECT_TCPIP LOCALHOST ORIGINATOR)),
            (harupesat_open){.what = DONE, .typ = HARUPESAT_DIRECT_TCPIP, .recipient_channel = 1,
                             .recipient_window_size = 2, .recipient_maximum_packet_size = 3, .text_start = 32,
                             .text_len = 9, .port = 22, .originator_start = 49, .originator_len = 8,
                             .originator_port = 1234});
}

static void confirmation(size_t len, uint8_t number, harupesat_size offset)
{
    static const uint8_t zeros[16];
    trying("a confirmation of bytes 0");
    is_confirmation(harupesat_read_confirmation(LENT(zeros, len)),
                    (harupesat_confirmation){.number = number, .offset = offset});
}

static void confirmations(void)
{
    confirmation(0, 2, 0);
    confirmation(3, 2, 0);
    confirmation(4, 2, 4);
    confirmation(11, 2, 8);
    confirmation(12, 2, 12);
    confirmation(15, 2, 12);
    confirmation(16, 6, 12);
}

static void a_place(void)
{
    trying("a place outside 5 bytes");
    is_shown(harupesat_show(BYTES("depot"), 5, 1), (harupesat_shown){.number = 2, .offset = 0});
}

static void packets(void)
{
    trying("a packet length of 262,178");
    is_frame(harupesat_frame_read(BYTES("\0\x04\0\x22" "\x04"), 7, 9), (harupesat_frame){.number = 4, .offset = 0});
    trying("padding of 12 in a packet of 11");
    is_frame(harupesat_frame_read(BYTES("\0\0\0\x0b\x0c" "0123456789"), 7, 9), (harupesat_frame){.number = 7, .offset = 4});
}

void offsets(void)
{
    lengths();
    lists();
    macs();
    judged_before_fields();
    openings();
    confirmations();
    a_place();
    packets();
}
