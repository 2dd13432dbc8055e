/* What the header says without a call: the places of fields, worked out by hand from their types (a field stands at the
 * next multiple of its size: harupesat_size and uint64_t 8 bytes, uint32_t 4, uint8_t and bool 1; so on x86-64, aarch64,
 * riscv64 and armv7), and the constants. */
#include "check.h"

#define AT(type, field, place) is("the place of " #type "." #field, offsetof(type, field), place)
#define SIZE(type, size) is("the size of " #type, sizeof(type), size)
#define CONSTANT(name, value) is(#name, name, value)

static void structs(void)
{
    AT(harupesat_frame, what, 0);
    AT(harupesat_frame, number, 1);
    AT(harupesat_frame, offset, 8);
    AT(harupesat_frame, need, 16);
    AT(harupesat_frame, start, 24);
    AT(harupesat_frame, len, 32);
    AT(harupesat_frame, end, 40);
    AT(harupesat_frame, taken, 48);
    AT(harupesat_frame, seqn, 56);
    AT(harupesat_frame, bytes, 64);
    SIZE(harupesat_frame, 72);

    AT(harupesat_sealed, what, 0);
    AT(harupesat_sealed, number, 1);
    AT(harupesat_sealed, len, 8);
    AT(harupesat_sealed, seqn, 16);
    AT(harupesat_sealed, bytes, 24);
    SIZE(harupesat_sealed, 32);

    AT(harupesat_written, what, 0);
    AT(harupesat_written, number, 1);
    AT(harupesat_written, len, 8);
    SIZE(harupesat_written, 16);

    AT(harupesat_names, what, 0);
    AT(harupesat_names, number, 1);
    AT(harupesat_names, offset, 8);
    AT(harupesat_names, kex, 16);
    AT(harupesat_names, key, 17);
    AT(harupesat_names, cipher, 18);
    AT(harupesat_names, client_mac, 19);
    AT(harupesat_names, server_mac, 20);
    AT(harupesat_names, client_compression, 21);
    AT(harupesat_names, server_compression, 22);
    AT(harupesat_names, host_key_is_certificate, 23);
    AT(harupesat_names, ignore_guessed, 24);
    AT(harupesat_names, strict_kex, 25);
    SIZE(harupesat_names, 32);

    AT(harupesat_open, what, 0);
    AT(harupesat_open, number, 1);
    AT(harupesat_open, offset, 8);
    AT(harupesat_open, typ, 16);
    AT(harupesat_open, recipient_channel, 20);
    AT(harupesat_open, recipient_window_size, 24);
    AT(harupesat_open, recipient_maximum_packet_size, 28);
    AT(harupesat_open, text_start, 32);
    AT(harupesat_open, text_len, 40);
    AT(harupesat_open, port, 48);
    AT(harupesat_open, originator_start, 56);
    AT(harupesat_open, originator_len, 64);
    AT(harupesat_open, originator_port, 72);
    AT(harupesat_open, rest_start, 80);
    AT(harupesat_open, rest_len, 88);
    SIZE(harupesat_open, 96);

    AT(harupesat_confirmation, what, 0);
    AT(harupesat_confirmation, number, 1);
    AT(harupesat_confirmation, offset, 8);
    AT(harupesat_confirmation, recipient_channel, 16);
    AT(harupesat_confirmation, sender_channel, 20);
    AT(harupesat_confirmation, initial_window_size, 24);
    AT(harupesat_confirmation, maximum_packet_size, 28);
    SIZE(harupesat_confirmation, 32);

    AT(harupesat_shown, what, 0);
    AT(harupesat_shown, number, 1);
    AT(harupesat_shown, offset, 8);
    AT(harupesat_shown, start, 16);
    AT(harupesat_shown, len, 24);
    SIZE(harupesat_shown, 32);

    AT(harupesat_found, what, 0);
    AT(harupesat_found, number, 1);
    AT(harupesat_found, value, 2);
    SIZE(harupesat_found, 3);

    AT(harupesat_flag, what, 0);
    AT(harupesat_flag, number, 1);
    AT(harupesat_flag, value, 2);
    SIZE(harupesat_flag, 3);
}

/* Document 01's numbers, and those that the header gives to answers, kinds, key kinds and types. */
static void constants(void)
{
    CONSTANT(HARUPESAT_REFUSED, 0);
    CONSTANT(HARUPESAT_DONE, 1);
    CONSTANT(HARUPESAT_NEED, 2);
    CONSTANT(HARUPESAT_UNKNOWN, 3);

    CONSTANT(HARUPESAT_TOO_LONG, 1);
    CONSTANT(HARUPESAT_PAST_END, 2);
    CONSTANT(HARUPESAT_NOT_UTF8, 3);
    CONSTANT(HARUPESAT_PACKET_SIZE, 4);
    CONSTANT(HARUPESAT_TRAILING, 5);
    CONSTANT(HARUPESAT_INCONSISTENT, 6);
    CONSTANT(HARUPESAT_PADDING, 7);
    CONSTANT(HARUPESAT_NO_ROOM, 8);
    CONSTANT(HARUPESAT_BAD_TABLE, 9);
    CONSTANT(HARUPESAT_NO_KEX, 10);
    CONSTANT(HARUPESAT_NO_KEY, 11);
    CONSTANT(HARUPESAT_NO_CIPHER, 12);
    CONSTANT(HARUPESAT_NO_MAC, 13);
    CONSTANT(HARUPESAT_NO_COMPRESSION, 14);

    CONSTANT(HARUPESAT_KEX, 0);
    CONSTANT(HARUPESAT_KEY, 1);
    CONSTANT(HARUPESAT_CERTIFICATE, 2);
    CONSTANT(HARUPESAT_CIPHER, 3);
    CONSTANT(HARUPESAT_MAC, 4);
    CONSTANT(HARUPESAT_COMPRESSION, 5);

    CONSTANT(HARUPESAT_ED25519, 0);
    CONSTANT(HARUPESAT_P256, 1);
    CONSTANT(HARUPESAT_P384, 2);
    CONSTANT(HARUPESAT_P521, 3);
    CONSTANT(HARUPESAT_RSA, 4);

    CONSTANT(HARUPESAT_SESSION, 0);
    CONSTANT(HARUPESAT_X11, 1);
    CONSTANT(HARUPESAT_DIRECT_TCPIP, 2);
    CONSTANT(HARUPESAT_DIRECT_STREAMLOCAL, 3);
    CONSTANT(HARUPESAT_FORWARDED_TCPIP, 4);
    CONSTANT(HARUPESAT_FORWARDED_STREAMLOCAL, 5);
    CONSTANT(HARUPESAT_AUTH_AGENT, 6);
    CONSTANT(HARUPESAT_UNKNOWN_TYPE, 7);
}

void layout(void)
{
    trying("layout");
    structs();
    trying("constants");
    constants();
}
