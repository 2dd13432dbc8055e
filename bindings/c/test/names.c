/* Names: document 01's tables, both ways; the default lists (russh 0.65.0, src/negotiation.rs, `Preferred::DEFAULT`). */
#include "check.h"

#include <string.h>

static const char *const kex[] = {
    "mlkem768x25519-sha256",
    "curve25519-sha256",
    "curve25519-sha256@libssh.org",
    "diffie-hellman-group-exchange-sha256",
    "diffie-hellman-group18-sha512",
    "diffie-hellman-group17-sha512",
    "diffie-hellman-group16-sha512",
    "diffie-hellman-group15-sha512",
    "diffie-hellman-group14-sha256",
    "ext-info-c",
    "ext-info-s",
    "kex-strict-c-v00@openssh.com",
    "kex-strict-s-v00@openssh.com",
    NULL,
};
static const char *const key[] = {
    "ssh-ed25519", "ecdsa-sha2-nistp256", "ecdsa-sha2-nistp384", "ecdsa-sha2-nistp521", "rsa-sha2-512", "rsa-sha2-256",
    "ssh-rsa", NULL,
};
static const char *const certificate[] = {
    "ssh-ed25519-cert-v01@openssh.com",
    "ecdsa-sha2-nistp256-cert-v01@openssh.com",
    "ecdsa-sha2-nistp384-cert-v01@openssh.com",
    "ecdsa-sha2-nistp521-cert-v01@openssh.com",
    "rsa-sha2-512-cert-v01@openssh.com",
    "rsa-sha2-256-cert-v01@openssh.com",
    "ssh-rsa-cert-v01@openssh.com",
    NULL,
};
static const char *const cipher[] = {
    "clear", "none", "aes128-ctr", "aes192-ctr", "aes256-ctr", "aes128-gcm@openssh.com", "aes256-gcm@openssh.com",
    "aes128-cbc", "aes192-cbc", "aes256-cbc", "chacha20-poly1305@openssh.com", NULL,
};
static const char *const mac[] = {
    "none", "hmac-sha2-512-etm@openssh.com", "hmac-sha2-256-etm@openssh.com", "hmac-sha2-512", "hmac-sha2-256", NULL,
};
static const char *const compression[] = {"none", NULL};

static const char *const *const kinds[] = {kex, key, certificate, cipher, mac, compression};

static void spells(uint8_t kind, uint8_t number, const char *name)
{
    size_t len = strlen(name);
    trying(name);
    uint8_t *out = lend(64);
    is_written(harupesat_spelling(kind, number, out, 64), (harupesat_written){.what = DONE, .len = len});
    holds(name, len);
    out = lend(len);
    is_written(harupesat_spelling(kind, number, out, len), (harupesat_written){.what = DONE, .len = len});
    holds(name, len);
    out = lend(len - 1);
    is_written(harupesat_spelling(kind, number, out, len - 1), (harupesat_written){.number = 8});
    untouched();
}

static void finds(uint8_t kind, uint8_t number, const char *name)
{
    size_t len = strlen(name);
    trying(name);
    is_found(harupesat_lookup(kind, LENT(name, len)), (harupesat_found){.what = DONE, .value = number});
    is_found(harupesat_lookup(kind, LENT(name, len - 1)), (harupesat_found){.what = UNKNOWN});
}

static void tables(void)
{
    for (uint8_t kind = 0; kind < 6; kind++) {
        uint8_t number = 0;
        for (; kinds[kind][number]; number++) {
            spells(kind, number, kinds[kind][number]);
            finds(kind, number, kinds[kind][number]);
        }
        trying("a number outside its table, 9 before 8");
        uint8_t *out = lend(64);
        is_written(harupesat_spelling(kind, number, out, 64), (harupesat_written){.number = 9});
        untouched();
        out = lend(0);
        is_written(harupesat_spelling(kind, 255, out, 0), (harupesat_written){.number = 9});
        untouched();
    }
}

static void outside(void)
{
    for (unsigned kind = 6; kind < 256; kind++) {
        trying("a kind that is none");
        uint8_t *out = lend(64);
        is_written(harupesat_spelling((uint8_t)kind, 0, out, 64), (harupesat_written){.number = 9});
        untouched();
        out = lend(0);
        is_written(harupesat_default_list((uint8_t)kind, out, 0), (harupesat_written){.number = 9});
        untouched();
        is_found(harupesat_lookup((uint8_t)kind, BYTES("none")), (harupesat_found){.number = 9});
    }
}

static void elsewhere(void)
{
    trying("a name of another kind");
    is_found(harupesat_lookup(HARUPESAT_KEX, BYTES("ssh-rsa")), (harupesat_found){.what = UNKNOWN});
    is_found(harupesat_lookup(HARUPESAT_KEY, BYTES("ssh-rsa-cert-v01@openssh.com")), (harupesat_found){.what = UNKNOWN});
    is_found(harupesat_lookup(HARUPESAT_KEX, BYTES("none")), (harupesat_found){.what = UNKNOWN});
    trying("one name in three kinds");
    is_found(harupesat_lookup(HARUPESAT_CIPHER, BYTES("none")), (harupesat_found){.what = DONE, .value = 1});
    is_found(harupesat_lookup(HARUPESAT_MAC, BYTES("none")), (harupesat_found){.what = DONE, .value = 0});
    is_found(harupesat_lookup(HARUPESAT_COMPRESSION, BYTES("none")), (harupesat_found){.what = DONE, .value = 0});
    trying("another case, another end");
    is_found(harupesat_lookup(HARUPESAT_KEY, BYTES("SSH-RSA")), (harupesat_found){.what = UNKNOWN});
    is_found(harupesat_lookup(HARUPESAT_KEY, BYTES("ssh-rsa\0")), (harupesat_found){.what = UNKNOWN});
}

/* "The ctr and cbc names need a MAC; the others do not, and of those gcm and chacha20 have built-in integrity." */
static void flags(void)
{
    for (unsigned number = 0; number < 11; number++) {
        const char *name = cipher[number];
        trying(name);
        bool needs = strstr(name, "-ctr") || strstr(name, "-cbc");
        bool built_in = strstr(name, "-gcm") || strstr(name, "chacha20");
        is_flag(harupesat_needs_mac((uint8_t)number), (harupesat_flag){.what = DONE, .value = needs});
        is_flag(harupesat_built_in_integrity((uint8_t)number), (harupesat_flag){.what = DONE, .value = built_in});
    }
    for (unsigned number = 11; number < 256; number++) {
        trying("a cipher that is none");
        is_flag(harupesat_needs_mac((uint8_t)number), (harupesat_flag){.number = 9});
        is_flag(harupesat_built_in_integrity((uint8_t)number), (harupesat_flag){.number = 9});
    }
}

static void lists(uint8_t kind, const char *want, size_t len)
{
    trying("a default list");
    uint8_t *out = lend(16);
    is_written(harupesat_default_list(kind, out, 16), (harupesat_written){.what = DONE, .len = len});
    holds(want, len);
    if (len == 0)
        return;
    trying("a default list without room");
    out = lend(len - 1);
    is_written(harupesat_default_list(kind, out, len - 1), (harupesat_written){.number = 8});
    untouched();
}

static void defaults(void)
{
    lists(HARUPESAT_KEX, "\0\x01\x02\x03\x04\x05\x06\x07\x08\x09\x0a\x0b\x0c", 13);
    lists(HARUPESAT_KEY, "\0\x01\x02\x03\x04\x05\x06", 7);
    lists(HARUPESAT_CERTIFICATE, "", 0);
    lists(HARUPESAT_CIPHER, "\x0a\x06\x04\x03\x02", 5);
    lists(HARUPESAT_MAC, "\x01\x02\x03\x04", 4);
    lists(HARUPESAT_COMPRESSION, "\0", 1);
}

void names(void)
{
    tables();
    outside();
    elsewhere();
    flags();
    defaults();
}
