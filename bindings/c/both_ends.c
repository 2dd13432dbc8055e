/* Both ends of a connection on the default tables, over include/harupesat.h: each writes its first packet, each reads the
 * other's, and what they settle on is printed name by name. In a real program the two ends are two machines, the packets
 * go through a socket, and the cookies come from the system's random numbers.
 *
 *     bindings/example.sh            or, on x86-64,
 *     cc -I include bindings/c/both_ends.c target/staticlib/libdoor.a -o both_ends && ./both_ends
 */
#include "harupesat.h"

#include <stdio.h>
#include <stdlib.h>

/* A preference list of each kind. */
struct side {
    bool server;
    uint8_t list[6][16];
    harupesat_size len[6];
};

/* A server's host keys: one, of kind Ed25519, which this program knows as number 1. */
static const uint8_t key_kinds[] = {HARUPESAT_ED25519};
static const uint32_t key_ids[] = {1};

static void stop_at(const char *what, uint8_t number)
{
    fprintf(stderr, "%s: refused with %d\n", what, number);
    exit(EXIT_FAILURE);
}

/* A reader's refusal says where, too. */
static void stop_reading(const char *what, uint8_t number, harupesat_size offset)
{
    fprintf(stderr, "%s: refused with %d at byte %llu\n", what, number, (unsigned long long)offset);
    exit(EXIT_FAILURE);
}

static struct side default_side(bool server)
{
    struct side side = {.server = server};
    for (uint8_t kind = HARUPESAT_KEX; kind <= HARUPESAT_COMPRESSION; kind++) {
        harupesat_written w = harupesat_default_list(kind, side.list[kind], sizeof side.list[kind]);
        if (w.what == HARUPESAT_REFUSED)
            stop_at("default list", w.number);
        side.len[kind] = w.len;
    }
    return side;
}

#define LIST(side, kind) (side)->list[HARUPESAT_##kind], (side)->len[HARUPESAT_##kind]
#define LISTS(side) \
    (side)->server, LIST(side, KEX), LIST(side, KEY), LIST(side, CERTIFICATE), LIST(side, CIPHER), LIST(side, MAC), \
        LIST(side, COMPRESSION), key_kinds, (side)->server ? 1 : 0, key_ids, (side)->server ? 1 : 0, NULL, 0, NULL, 0

/* A side's first packet: its KEXINIT, framed. */
static harupesat_size first_packet(const struct side *side, const uint8_t cookie[16], uint8_t *packet,
                                   harupesat_size packet_len)
{
    uint8_t payload[4096];
    harupesat_written kexinit = harupesat_write_kex(LISTS(side), cookie, 16, payload, sizeof payload);
    if (kexinit.what == HARUPESAT_REFUSED)
        stop_at("write_kex", kexinit.number);
    harupesat_sealed sealed = harupesat_frame_write(payload, kexinit.len, 0, 0, packet, packet_len);
    if (sealed.what == HARUPESAT_REFUSED)
        stop_at("frame_write", sealed.number);
    return sealed.len;
}

/* What a side settles on when the peer's first packet has come. A socket's reader would read on at HARUPESAT_NEED. */
static harupesat_names settle(const struct side *side, const uint8_t *packet, harupesat_size packet_len)
{
    harupesat_frame frame = harupesat_frame_read(packet, packet_len, 0, 0);
    if (frame.what != HARUPESAT_DONE)
        stop_reading("frame_read", frame.number, frame.offset);
    harupesat_names names = harupesat_read_kex(LISTS(side), false, packet + frame.start, frame.len);
    if (names.what == HARUPESAT_REFUSED)
        stop_reading("read_kex", names.number, names.offset);
    return names;
}

static void print_name(const char *what, uint8_t kind, uint8_t number)
{
    uint8_t name[64];
    harupesat_written w = harupesat_spelling(kind, number, name, sizeof name);
    if (w.what == HARUPESAT_REFUSED)
        stop_at("spelling", w.number);
    printf("  %-22s%.*s\n", what, (int)w.len, (const char *)name);
}

static void print_names(const char *side, harupesat_names n)
{
    printf("%s\n", side);
    print_name("kex", HARUPESAT_KEX, n.kex);
    print_name("host key", n.host_key_is_certificate ? HARUPESAT_CERTIFICATE : HARUPESAT_KEY, n.key);
    print_name("cipher", HARUPESAT_CIPHER, n.cipher);
    print_name("MAC to server", HARUPESAT_MAC, n.client_mac);
    print_name("MAC to client", HARUPESAT_MAC, n.server_mac);
    print_name("compression to server", HARUPESAT_COMPRESSION, n.client_compression);
    print_name("compression to client", HARUPESAT_COMPRESSION, n.server_compression);
    printf("  %-22s%s\n", "strict kex", n.strict_kex ? "yes" : "no");
    printf("  %-22s%s\n", "ignore the guess", n.ignore_guessed ? "yes" : "no");
}

static bool equal(harupesat_names a, harupesat_names b)
{
    return a.kex == b.kex && a.key == b.key && a.cipher == b.cipher && a.client_mac == b.client_mac &&
           a.server_mac == b.server_mac && a.client_compression == b.client_compression &&
           a.server_compression == b.server_compression && a.host_key_is_certificate == b.host_key_is_certificate &&
           a.ignore_guessed == b.ignore_guessed && a.strict_kex == b.strict_kex;
}

int main(void)
{
    const uint8_t client_cookie[16] = "not random: one", server_cookie[16] = "not random: two";
    uint8_t client_packet[4096 + 16], server_packet[4096 + 16];
    const struct side client = default_side(false), server = default_side(true);
    harupesat_size client_len = first_packet(&client, client_cookie, client_packet, sizeof client_packet);
    harupesat_size server_len = first_packet(&server, server_cookie, server_packet, sizeof server_packet);
    harupesat_names client_names = settle(&client, server_packet, server_len);
    harupesat_names server_names = settle(&server, client_packet, client_len);
    print_names("client", client_names);
    print_names("server", server_names);
    bool agree = equal(client_names, server_names);
    printf("%s\n", agree ? "both ends agree" : "the two ends differ");
    return agree ? EXIT_SUCCESS : EXIT_FAILURE;
}
