#include "kex.h"

#include <stdio.h>
#include <stdlib.h>
#include <string.h>

#define LIST(list) LENT((list).at, (list).len)
#define TABLES(t) \
    (t).server, LIST((t).kex), LIST((t).key), LIST((t).certificate), LIST((t).cipher), LIST((t).mac), \
        LIST((t).compression), LIST((t).key_kinds), LIST((t).key_ids), LIST((t).cert_kinds), LIST((t).cert_ids)

harupesat_written write_kex(struct tables t, const uint8_t *cookie, harupesat_size cookie_len, uint8_t *out,
                            harupesat_size out_len)
{
    return harupesat_write_kex(TABLES(t), cookie, cookie_len, out, out_len);
}

harupesat_names read_kex(struct tables t, bool strict_agreed, const uint8_t *payload, harupesat_size payload_len)
{
    return harupesat_read_kex(TABLES(t), strict_agreed, payload, payload_len);
}

struct tables client(uint8_t cipher)
{
    static const uint8_t n[] = {0, 1, 2, 3, 4, 5, 6, 7, 8, 9, 10};
    return (struct tables){.kex = {n + 1, 1}, .key = {n, 1}, .cipher = {n + cipher, 1}, .mac = {n + 4, 1},
                           .compression = {n, 1}};
}

struct tables server(uint8_t cipher)
{
    static const uint8_t kinds[] = {HARUPESAT_ED25519};
    static const uint32_t ids[] = {7};
    struct tables t = client(cipher);
    t.server = true;
    t.key_kinds = (struct numbers){kinds, 1};
    t.key_ids = (struct identities){ids, 1};
    return t;
}

struct peer plain_peer(void)
{
    return (struct peer){
        .kex = "curve25519-sha256",
        .key = "ssh-ed25519",
        .cipher = {"chacha20-poly1305@openssh.com", "chacha20-poly1305@openssh.com"},
        .mac = {"hmac-sha2-256", "hmac-sha2-256"},
        .compression = {"none", "none"},
        .language = {"", ""},
    };
}

static uint8_t payload[65536];
static size_t payload_len;

static void put(const void *bytes, size_t len)
{
    if (len > sizeof payload - payload_len) {
        fprintf(stderr, "a peer's KEXINIT is too long for this test\n");
        exit(EXIT_FAILURE);
    }
    memcpy(payload + payload_len, bytes, len);
    payload_len += len;
}

static void put_string(const char *s)
{
    size_t len = strlen(s);
    put((const uint8_t[]){(uint8_t)(len >> 24), (uint8_t)(len >> 16), (uint8_t)(len >> 8), (uint8_t)len}, 4);
    put(s, len);
}

static void put_kexinit(struct peer p)
{
    payload_len = 0;
    put("\x14" "a peer's cookie.", 17);
    put_string(p.kex);
    put_string(p.key);
    put_string(p.cipher[0]);
    put_string(p.cipher[1]);
    put_string(p.mac[0]);
    put_string(p.mac[1]);
    put_string(p.compression[0]);
    put_string(p.compression[1]);
    put_string(p.language[0]);
    put_string(p.language[1]);
    put(&p.follows, 1);
    put("\0\0\0\0", 4);
}

harupesat_names read_peer(struct tables t, bool strict_agreed, struct peer p)
{
    put_kexinit(p);
    return read_kex(t, strict_agreed, LENT(payload, payload_len));
}

harupesat_names read_of_length(struct tables t, struct peer p, size_t len)
{
    put_kexinit(p);
    while (payload_len < len)
        put("", 1);
    return read_kex(t, false, LENT(payload, len));
}
