/* A side's tables in one piece, and a peer's KEXINIT, made here from RFC 4253 section 7.1 and not by the library. */
#ifndef KEX_H
#define KEX_H

#include "check.h"

struct numbers {
    const uint8_t *at;
    size_t len;
};

struct identities {
    const uint32_t *at;
    size_t len;
};

/* Numbers, and identities, in braces' stead. */
#define NUMBERS(...) ((struct numbers){(const uint8_t[]){__VA_ARGS__}, sizeof((const uint8_t[]){__VA_ARGS__})})
#define IDENTITIES(...) \
    ((struct identities){(const uint32_t[]){__VA_ARGS__}, sizeof((const uint32_t[]){__VA_ARGS__}) / sizeof(uint32_t)})

/* A list that is not named is empty, and its pointer null. */
struct tables {
    bool server;
    struct numbers kex, key, certificate, cipher, mac, compression, key_kinds;
    struct identities key_ids;
    struct numbers cert_kinds;
    struct identities cert_ids;
};

/* The lists are lent from guarded memory here; cookie, payload and output are the caller's to lend. */
harupesat_written write_kex(struct tables t, const uint8_t *cookie, harupesat_size cookie_len, uint8_t *out,
                            harupesat_size out_len);
harupesat_names read_kex(struct tables t, bool strict_agreed, const uint8_t *payload, harupesat_size payload_len);

/* Lists curve25519-sha256, ssh-ed25519, a cipher, hmac-sha2-256, none; of a server one Ed25519 key. */
struct tables client(uint8_t cipher);
struct tables server(uint8_t cipher);

/* A peer's lists as it sends them, the client-to-server one before the server-to-client one. */
struct peer {
    const char *kex, *key, *cipher[2], *mac[2], *compression[2], *language[2];
    uint8_t follows;
};

/* curve25519-sha256, ssh-ed25519, chacha20-poly1305@openssh.com, hmac-sha2-256, none. */
struct peer plain_peer(void);
harupesat_names read_peer(struct tables t, bool strict_agreed, struct peer p);
/* The same KEXINIT cut to a length, or filled up to it with bytes 0. */
harupesat_names read_of_length(struct tables t, struct peer p, size_t len);

enum { CHACHA20 = 10, AES128_CTR = 2 };

#endif
