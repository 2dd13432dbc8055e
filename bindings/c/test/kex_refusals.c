/* KEXINIT refused: each number of `read_kex` and `write_kex`, and their order. A plain peer's fields start at 17, 38, 53,
 * 86, 119, 136, 153, 161, 169, 173, 177 and 178. */
#include "kex.h"

#include <string.h>

static void refuses(const char *what, struct tables t, struct peer p, uint8_t number,
                    harupesat_size offset)
{
    trying(what);
    is_names(read_peer(t, false, p), (harupesat_names){.number = number, .offset = offset});
}

/* One field of a plain peer's, spoilt. */
static void fields(void)
{
    static char long_list[16386], many[2 * 1026 + 1];
    struct peer p = plain_peer();
    memset(long_list, 'a', 16385);
    for (size_t i = 0; i < 1026; i++)
        memcpy(many + 2 * i, "a,", 2);
    p.kex = long_list;
    refuses("a name-list of 16,385 bytes", client(CHACHA20), p, 2, 17);
    long_list[16384] = 0;
    refuses("a name-list of 16,384 bytes", client(CHACHA20), p, 10, 17);
    p.kex = many;
    refuses("1,026 names", client(CHACHA20), p, 2, 17);
    many[2 * 1025] = 0;
    refuses("1,025 names and a comma", client(CHACHA20), p, 10, 17);
    p.kex = "curve25519-sha256,,";
    refuses("an empty name", client(CHACHA20), p, 3, 17);
    p.kex = "curve25519-sha256,\xc3\xa9";
    refuses("a name that is not ASCII", client(CHACHA20), p, 3, 17);
    p = plain_peer();
    p.cipher[1] = "\xff";
    refuses("the string that is not used, not UTF-8", client(CHACHA20), p, 3, 86);
    p.cipher[1] = "\xc3\xa9,,";
    trying("the string that is not used, UTF-8");
    is("what", read_peer(client(CHACHA20), false, p).what, DONE);
}

static void no_choice(void)
{
    struct peer p = plain_peer();
    p.kex = "ecdh-sha2-nistp256";
    refuses("no shared kex", client(CHACHA20), p, 10, 17);
    p = plain_peer();
    p.key = "ssh-ed25519-cert-v01@openssh.com";
    refuses("no shared key", client(CHACHA20), p, 11, 38);
    p = plain_peer();
    p.cipher[0] = "aes128-ctr";
    refuses("no shared cipher", client(CHACHA20), p, 12, 53);
    p = plain_peer();
    p.cipher[0] = "aes128-ctr";
    p.mac[1] = "hmac-sha1";
    refuses("no shared MAC", client(AES128_CTR), p, 13, 117);
    p = plain_peer();
    p.compression[1] = "zlib";
    refuses("no shared compression", client(CHACHA20), p, 14, 161);
    p.language[0] = "\xff";
    refuses("14 before the fields after it", client(CHACHA20), p, 14, 161);
}

/* P9, the longest payload and a byte more, bytes after the end. */
static void lengths(void)
{
    static const uint8_t zeros[262177];
    trying("P9, 16 bytes");
    is_names(read_kex(client(CHACHA20), false, LENT(zeros, 16)), (harupesat_names){.number = 6});
    trying("P9, 17 bytes");
    is_names(read_kex(client(CHACHA20), false, LENT(zeros, 17)), (harupesat_names){.number = 2, .offset = 17});
    trying("262,176 bytes");
    is_names(read_kex(client(CHACHA20), false, LENT(zeros, 262176)), (harupesat_names){.number = 10, .offset = 17});
    trying("262,177 bytes");
    is_names(read_kex(client(CHACHA20), false, LENT(zeros, 262177)), (harupesat_names){.number = 1});
    trying("a byte after the end");
    uint8_t *out = lend(4096);
    harupesat_written w = write_kex(client(CHACHA20), BYTES("sixteen of them."), out, 4096);
    is_names(read_kex(server(CHACHA20), false, LENT(out, w.len + 1)), (harupesat_names){.number = 5, .offset = 182});
    trying("a byte short");
    is_names(read_kex(server(CHACHA20), false, LENT(out, w.len - 1)), (harupesat_names){.number = 2, .offset = 178});
}

/* 9 of the writer and of the reader, before 8 and 6. */
static void bad(const char *what, struct tables t)
{
    trying(what);
    uint8_t *out = lend(4096);
    is_written(write_kex(t, BYTES("sixteen of them."), out, 4096), (harupesat_written){.number = 9});
    untouched();
    out = lend(0);
    is_written(write_kex(t, BYTES("sixteen of them."), out, 0), (harupesat_written){.number = 9});
    untouched();
    is_names(read_kex(t, false, BYTES("sixteen of them.")), (harupesat_names){.number = 9});
}

static const uint8_t same[17];

static void long_lists(void)
{
    const struct numbers seventeen = {same, 17};
    bad("17 kex names", (struct tables){.kex = seventeen});
    bad("17 key names", (struct tables){.key = seventeen});
    bad("17 certificate names", (struct tables){.certificate = seventeen});
    bad("17 cipher names", (struct tables){.cipher = seventeen});
    bad("17 MAC names", (struct tables){.mac = seventeen});
    bad("17 compression names", (struct tables){.compression = seventeen});
    bad("a server's 17 certificate names, which it does not use",
        (struct tables){.server = true, .certificate = seventeen});
    trying("16 compression names");
    uint8_t *out = lend(4096);
    is_written(write_kex((struct tables){.compression = {same, 16}}, BYTES("sixteen of them."), out, 4096),
               (harupesat_written){.what = DONE, .len = 17 + 10 * 4 + 2 * (16 * 5 - 1) + 5});
}

static void outside(void)
{
    bad("kex 13", (struct tables){.kex = NUMBERS(0, 13)});
    bad("key 7", (struct tables){.key = NUMBERS(0, 7)});
    bad("certificate 7", (struct tables){.certificate = NUMBERS(0, 7)});
    bad("cipher 11", (struct tables){.cipher = NUMBERS(0, 11)});
    bad("MAC 5", (struct tables){.mac = NUMBERS(0, 5)});
    bad("compression 1", (struct tables){.compression = NUMBERS(0, 1)});
}

static void rows(void)
{
    static const uint32_t ids[9];
    const struct numbers kinds = {same, 9};
    const struct identities nine = {ids, 9};
    bad("9 key rows", (struct tables){.server = true, .key_kinds = kinds, .key_ids = nine});
    bad("9 certificate rows", (struct tables){.server = true, .cert_kinds = kinds, .cert_ids = nine});
    bad("a key row of kind 5", (struct tables){.server = true, .key_kinds = NUMBERS(5), .key_ids = {ids, 1}});
    bad("a certificate row of kind 5", (struct tables){.server = true, .cert_kinds = NUMBERS(5), .cert_ids = {ids, 1}});
    bad("a key's identity without a kind", (struct tables){.server = true, .key_ids = {ids, 1}});
    bad("a certificate's kind without an identity", (struct tables){.server = true, .cert_kinds = {same, 1}});
    bad("two kinds of one identity",
        (struct tables){.server = true, .key_kinds = NUMBERS(0, 4), .key_ids = IDENTITIES(3, 3)});
    bad("two kinds of one identity, key and certificate",
        (struct tables){.server = true, .key_kinds = NUMBERS(0), .key_ids = IDENTITIES(3), .cert_kinds = NUMBERS(4),
                        .cert_ids = IDENTITIES(3)});
    bad("a client with a key row", (struct tables){.key_kinds = {same, 1}, .key_ids = {ids, 1}});
    bad("a client with a certificate row", (struct tables){.cert_kinds = {same, 1}, .cert_ids = {ids, 1}});
}

static void cookies(void)
{
    static const uint8_t cookie[17];
    uint8_t *out = lend(4096);
    trying("a cookie of 15 bytes");
    is_written(write_kex(client(CHACHA20), LENT(cookie, 15), out, 4096), (harupesat_written){.number = 9});
    untouched();
    trying("a cookie of 17 bytes");
    out = lend(0);
    is_written(write_kex(client(CHACHA20), LENT(cookie, 17), out, 0), (harupesat_written){.number = 9});
    untouched();
}

static void no_room(void)
{
    trying("KEXINIT of 182 bytes with 181 of room");
    uint8_t *out = lend(181);
    is_written(write_kex(client(CHACHA20), BYTES("sixteen of them."), out, 181), (harupesat_written){.number = 8});
    untouched();
    trying("KEXINIT of 182 bytes with 182 of room");
    out = lend(182);
    is_written(write_kex(client(CHACHA20), BYTES("sixteen of them."), out, 182),
               (harupesat_written){.what = DONE, .len = 182});
}

void kex_refusals(void)
{
    fields();
    no_choice();
    lengths();
    long_lists();
    outside();
    rows();
    cookies();
    no_room();
}
