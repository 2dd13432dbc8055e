/* KEXINIT (RFC 4253 section 7.1), written and read, where nothing is refused. */
#include "kex.h"

#include <string.h>

/* "Lists curve25519-sha256, ssh-ed25519, chacha20, hmac-sha2-256, none: payload 182" and "With aes128-ctr instead" */
#define FRONT "\x14" "sixteen of them." "\0\0\0\x11" "curve25519-sha256" "\0\0\0\x0b" "ssh-ed25519"
#define BACK \
    "\0\0\0\x0d" "hmac-sha2-256" "\0\0\0\x0d" "hmac-sha2-256" "\0\0\0\x04" "none" "\0\0\0\x04" "none" \
    "\0\0\0\0" "\0\0\0\0" "\0" "\0\0\0\0"
#define CHACHA20_NAME "\0\0\0\x1d" "chacha20-poly1305@openssh.com"
#define AES128_CTR_NAME "\0\0\0\x0a" "aes128-ctr"
static const char chacha20_kexinit[] = FRONT CHACHA20_NAME CHACHA20_NAME BACK;
static const char aes128_ctr_kexinit[] = FRONT AES128_CTR_NAME AES128_CTR_NAME BACK;

static void writes(const char *what, struct tables t, const char *want, size_t len)
{
    trying(what);
    uint8_t *out = lend(4096);
    is_written(write_kex(t, BYTES("sixteen of them."), out, 4096), (harupesat_written){.what = DONE, .len = len});
    holds(want, len);
}

static void written(void)
{
    is("the length in document 01", sizeof chacha20_kexinit - 1, 182);
    is("the length in document 01", sizeof aes128_ctr_kexinit - 1, 144);
    writes("KEXINIT with chacha20", client(CHACHA20), chacha20_kexinit, 182);
    writes("KEXINIT with aes128-ctr", client(AES128_CTR), aes128_ctr_kexinit, 144);
    writes("a server's KEXINIT", server(AES128_CTR), aes128_ctr_kexinit, 144);
}

static void framed(void)
{
    trying("the KEXINIT of 182 bytes, framed");
    uint8_t *out = lend(192);
    is_sealed(harupesat_frame_write(LENT(chacha20_kexinit, 182), 0, 0, out, 192),
              (harupesat_sealed){.what = DONE, .len = 192, .seqn = 1, .bytes = 182});
    is("the length's last byte", out[3], 0xbc);
    is("the padding", out[4], 5);
    is("the message's number", out[5], 20);
}

/* "A server's kex list drops ext-info-c and kex-strict-c; a client's drops the -s pair." */
static void each_side_s_names(void)
{
    struct tables t = {.kex = NUMBERS(9, 10, 11, 12)};
    writes("a client's extension names", t,
           "\x14" "sixteen of them." "\0\0\0\x27" "ext-info-c,kex-strict-c-v00@openssh.com"
           "\0\0\0\0" "\0\0\0\0" "\0\0\0\0" "\0\0\0\0" "\0\0\0\0" "\0\0\0\0" "\0\0\0\0" "\0\0\0\0" "\0\0\0\0" "\0"
           "\0\0\0\0", 101);
    t.server = true;
    writes("a server's extension names", t,
           "\x14" "sixteen of them." "\0\0\0\x27" "ext-info-s,kex-strict-s-v00@openssh.com"
           "\0\0\0\0" "\0\0\0\0" "\0\0\0\0" "\0\0\0\0" "\0\0\0\0" "\0\0\0\0" "\0\0\0\0" "\0\0\0\0" "\0\0\0\0" "\0"
           "\0\0\0\0", 101);
}

/* "certificate names, then key names"; of a server those of its rows: every RSA name goes with an RSA key, and only a
 * certificate whose identity a key row has is written */
static void key_lists(void)
{
    struct tables t = {.key = NUMBERS(0), .certificate = NUMBERS(6)};
    writes("a client's certificate names", t,
           "\x14" "sixteen of them." "\0\0\0\0" "\0\0\0\x28" "ssh-rsa-cert-v01@openssh.com,ssh-ed25519"
           "\0\0\0\0" "\0\0\0\0" "\0\0\0\0" "\0\0\0\0" "\0\0\0\0" "\0\0\0\0" "\0\0\0\0" "\0\0\0\0" "\0" "\0\0\0\0", 102);
    t = (struct tables){.server = true, .key = NUMBERS(6, 0, 5), .certificate = NUMBERS(1),
                        .key_kinds = NUMBERS(HARUPESAT_RSA), .key_ids = IDENTITIES(0x01020304),
                        .cert_kinds = NUMBERS(HARUPESAT_P256, HARUPESAT_RSA), .cert_ids = IDENTITIES(4, 0x01020304)};
    writes("a server's certificate names", t,
           "\x14" "sixteen of them." "\0\0\0\0" "\0\0\0\x53"
           "ssh-rsa-cert-v01@openssh.com,rsa-sha2-256-cert-v01@openssh.com,ssh-rsa,rsa-sha2-256"
           "\0\0\0\0" "\0\0\0\0" "\0\0\0\0" "\0\0\0\0" "\0\0\0\0" "\0\0\0\0" "\0\0\0\0" "\0\0\0\0" "\0" "\0\0\0\0", 145);
}

/* Sixteen of each kind's longest name: 36, 19, 40, 29, 29 and 4 bytes. "4,096 bytes of out are always enough" */
static void longest(void)
{
    uint8_t kex[16], ecdsa[16], cipher[16], mac[16], compression[16];
    memset(kex, 3, 16);
    memset(ecdsa, 2, 16);
    memset(cipher, CHACHA20, 16);
    memset(mac, 1, 16);
    memset(compression, 0, 16);
    struct tables t = {.kex = {kex, 16}, .key = {ecdsa, 16}, .certificate = {ecdsa, 16}, .cipher = {cipher, 16},
                       .mac = {mac, 16}, .compression = {compression, 16}};
    size_t want = 17 + 10 * 4 + (16 * 37 - 1) + (16 * 41 + 16 * 20 - 1) + 4 * (16 * 30 - 1) + 2 * (16 * 5 - 1) + 5;
    trying("the longest KEXINIT");
    uint8_t *out = lend(4096);
    is_written(write_kex(t, BYTES("sixteen of them."), out, 4096), (harupesat_written){.what = DONE, .len = want});
}

static void reads(const char *what, struct tables t, struct peer p, harupesat_names want)
{
    trying(what);
    is_names(read_peer(t, false, p), want);
}

/* curve25519-sha256, ssh-ed25519, chacha20, hmac-sha2-256 both ways, none. */
static const harupesat_names plain = {.what = DONE, .kex = 1, .cipher = CHACHA20, .client_mac = 4, .server_mac = 4};

static void read_plain(void)
{
    harupesat_names want = plain;
    reads("a plain peer, read as a client", client(CHACHA20), plain_peer(), want);
    reads("a plain peer, read as a server", server(CHACHA20), plain_peer(), want);
    trying("our own KEXINIT");
    is_names(read_kex(server(CHACHA20), false, LENT(chacha20_kexinit, 182)), want);
}

/* "Strict: own preferences hold the own-side strict name and the peer's kex list holds the other; or the caller's
 * strict-rekey flag." */
static void strict(void)
{
    struct tables c = client(CHACHA20), s = server(CHACHA20);
    struct peer p = plain_peer();
    harupesat_names not_strict = plain, is_strict = plain;
    is_strict.strict_kex = true;
    p.kex = "curve25519-sha256,kex-strict-c-v00@openssh.com,kex-strict-s-v00@openssh.com";
    reads("a client without its strict name", (c.kex = NUMBERS(1, 9, 10, 12), c), p, not_strict);
    reads("a server without its strict name", (s.kex = NUMBERS(1, 9, 10, 11), s), p, not_strict);
    reads("a client with its strict name", (c.kex = NUMBERS(1, 11), c), p, is_strict);
    reads("a server with its strict name", (s.kex = NUMBERS(1, 12), s), p, is_strict);
    p.kex = "curve25519-sha256,kex-strict-c-v00@openssh.com";
    reads("a client whose peer lacks its strict name", c, p, not_strict);
    p.kex = "curve25519-sha256,kex-strict-s-v00@openssh.com";
    reads("a server whose peer lacks its strict name", s, p, not_strict);
    trying("strict, as was agreed before");
    is_names(read_peer(client(CHACHA20), true, plain_peer()), is_strict);
    is_names(read_peer(server(CHACHA20), true, plain_peer()), is_strict);
}

/* Every field of the record in turn differs from 0 and from its neighbours'. */
static void each_name(void)
{
    struct tables t = {.kex = NUMBERS(12, 8), .key = NUMBERS(3, 2), .cipher = NUMBERS(2, 9), .mac = NUMBERS(1, 2, 3),
                       .compression = NUMBERS(0), .server = true, .key_kinds = NUMBERS(HARUPESAT_P521),
                       .key_ids = IDENTITIES(1), .cert_kinds = NUMBERS(HARUPESAT_P521), .cert_ids = IDENTITIES(1)};
    struct peer p = {.kex = "kex-strict-c-v00@openssh.com,diffie-hellman-group14-sha256",
                     .key = "ecdsa-sha2-nistp521-cert-v01@openssh.com",
                     .cipher = {"aes256-cbc,aes128-ctr", "3des-cbc"},
                     .mac = {"hmac-sha2-256-etm@openssh.com", "hmac-sha1,hmac-sha2-512"},
                     .compression = {"zlib,none", "none"}, .language = {"en", "fr"}, .follows = 1};
    reads("a peer with a name of its own in each list", t, p,
          (harupesat_names){.what = DONE, .kex = 8, .key = 3, .cipher = 9, .client_mac = 2, .server_mac = 3,
                            .host_key_is_certificate = true, .ignore_guessed = true, .strict_kex = true});
}

/* P11: "client MACs none, hmac-sha2-256; server the reverse; aes128-ctr: 13. With chacha20: `none`." */
static void p11(void)
{
    struct peer p = plain_peer();
    struct tables t = server(CHACHA20);
    p.mac[0] = p.mac[1] = "none,hmac-sha2-256";
    t.mac = NUMBERS(4, 0);
    harupesat_names want = plain;
    want.client_mac = want.server_mac = 0;
    reads("P11 with chacha20", t, p, want);
    t = server(AES128_CTR);
    t.mac = NUMBERS(4, 0);
    p.cipher[0] = "aes128-ctr";
    reads("P11 with aes128-ctr", t, p, (harupesat_names){.number = 13, .offset = 100});
}

/* P12; the second list ignores the guess too (docs/DIFFERENCES.md, C1), and the third does not. */
static void p12(void)
{
    struct peer p = plain_peer();
    harupesat_names want = plain;
    p.follows = 1;
    want.ignore_guessed = true;
    p.kex = "foo,curve25519-sha256";
    reads("P12, an unknown name first", server(CHACHA20), p, want);
    p.kex = "ext-info-c,curve25519-sha256";
    reads("P12, an extension name first", server(CHACHA20), p, want);
    want.ignore_guessed = false;
    p.kex = "curve25519-sha256,ext-info-c";
    reads("P12's neighbour, the guess is right", server(CHACHA20), p, want);
}

/* Document 01: "The client's first name that the server lists", whichever side reads. */
static void whose_order(void)
{
    struct peer p = plain_peer();
    struct tables t = client(CHACHA20);
    harupesat_names want = plain;
    p.kex = "diffie-hellman-group14-sha256,curve25519-sha256";
    t.kex = NUMBERS(1, 8);
    reads("the client's order, read as a client", t, p, want);
    t = server(CHACHA20);
    t.kex = NUMBERS(1, 8);
    want.kex = 8;
    reads("the client's order, read as a server", t, p, want);
}

void kexinits(void)
{
    trying("the KEXINITs of document 01");
    written();
    framed();
    each_side_s_names();
    key_lists();
    longest();
    read_plain();
    strict();
    each_name();
    p11();
    p12();
    whose_order();
}
