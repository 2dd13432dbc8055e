/* Harupesat: the opening messages of an SSH service port, proved right from the wire to the record.
 *
 * The exports of crates/door_c, for C and whatever speaks C's calling convention. The static library is made by
 *
 *     bindings/library.sh        -> target/staticlib/libdoor.a            (x86-64)
 *     bindings/cross.sh aarch64  -> target/staticlib/aarch64/libdoor.a    (riscv64 and armv7 likewise)
 *
 * and wants no more than memcpy, memmove and memset.
 *
 * Slices are a pointer and a count of elements; an empty one may be null. Nothing is kept or allocated: an answer is a
 * struct by value, and a text in it is a place in the bytes that the caller lent. Any bytes, numbers, tables and
 * lengths get an answer. A refusal has what == HARUPESAT_REFUSED, its number from the table below, a reader's also the
 * offset at which the offending field starts, and 0 in every other field; it has changed no byte of `out`.
 *
 * What the caller must see to, since nothing here can: that each pointer has so many elements behind it, that `out`
 * overlaps no other slice, and that nothing else writes to lent bytes during the call.
 *
 * Copyright 2016 Pierre-Etienne Meunier for what is ported from russh 0.65.0; Apache License, Version 2.0 (see NOTICE).
 */
#ifndef HARUPESAT_H
#define HARUPESAT_H

#include <stdbool.h>
#include <stddef.h>
#include <stdint.h>

#ifdef __cplusplus
extern "C" {
#endif

/* A count or a place. It has 64 bits on every processor, since the library's have. */
#if SIZE_MAX == UINT64_MAX
typedef size_t harupesat_size;
#else
typedef uint64_t harupesat_size;
#endif

/* What an answer is. */
enum {
    HARUPESAT_REFUSED = 0,
    HARUPESAT_DONE = 1,
    HARUPESAT_NEED = 2,   /* a frame: more bytes are needed */
    HARUPESAT_UNKNOWN = 3 /* a lookup: the kind has no such name */
};

/* The numbers of refusals. */
enum {
    HARUPESAT_TOO_LONG = 1,       /* KEXINIT over 262,176 bytes, channel body over 262,175, failure text over 1,024 */
    HARUPESAT_PAST_END = 2,       /* a field runs past the end, a name-list is over 16,384 bytes or 1,025 names; a
                                     place lies outside the slice lent */
    HARUPESAT_NOT_UTF8 = 3,       /* a string is not UTF-8; a name in a list is empty or not ASCII */
    HARUPESAT_PACKET_SIZE = 4,    /* packet length over 262,177, read or to be written */
    HARUPESAT_TRAILING = 5,       /* bytes left after the last field */
    HARUPESAT_INCONSISTENT = 6,   /* KEXINIT under 17 bytes; maximum packet size 0 */
    HARUPESAT_PADDING = 7,        /* padding longer than the packet */
    HARUPESAT_NO_ROOM = 8,        /* `out` is shorter than what is to be written */
    HARUPESAT_BAD_TABLE = 9,      /* a local number outside its table, a list or row table over its limit, two rows of
                                     equal identity but different kind, a client with rows, a cookie not of 16 bytes */
    HARUPESAT_NO_KEX = 10,        /* no shared name: kex .. */
    HARUPESAT_NO_KEY = 11,
    HARUPESAT_NO_CIPHER = 12,
    HARUPESAT_NO_MAC = 13,
    HARUPESAT_NO_COMPRESSION = 14
};

/* Where a reader was refused: `offset`, counted from the first byte of the payload or body that was lent, in framing from
 * the packet's.
 *
 *     2, 3       the first byte of the field, which is its length's; of a name-list too, whichever name offends. It may
 *                be one past the last byte: the field that is missing
 *     5          the first byte left over
 *     6          the maximum packet size's field; 0 for a short KEXINIT
 *     7          4, the padding's byte
 *     10 to 14   the length of the peer's list; of 13 and 14 the list of the direction that failed
 *     1, 4, 8, 9, and 2 of a place outside the slice: 0
 *
 * Writers' answers (harupesat_written, harupesat_sealed) and those about numbers of names have none. */

/* Whose table a name's number counts in. A certificate's number is its key's. */
enum {
    HARUPESAT_KEX = 0,         /* 13 names */
    HARUPESAT_KEY = 1,         /* 7 */
    HARUPESAT_CERTIFICATE = 2, /* 7 */
    HARUPESAT_CIPHER = 3,      /* 11 */
    HARUPESAT_MAC = 4,         /* 5 */
    HARUPESAT_COMPRESSION = 5  /* 1 */
};

/* The kind of a key row or a certificate row. */
enum { HARUPESAT_ED25519 = 0, HARUPESAT_P256 = 1, HARUPESAT_P384 = 2, HARUPESAT_P521 = 3, HARUPESAT_RSA = 4 };

/* The type of a channel that is opened. */
enum {
    HARUPESAT_SESSION = 0,
    HARUPESAT_X11 = 1,                    /* originator, originator_port */
    HARUPESAT_DIRECT_TCPIP = 2,           /* text: the host to connect; port; originator, originator_port */
    HARUPESAT_DIRECT_STREAMLOCAL = 3,     /* text: the socket's path */
    HARUPESAT_FORWARDED_TCPIP = 4,        /* as direct-tcpip */
    HARUPESAT_FORWARDED_STREAMLOCAL = 5,  /* text: the socket's path */
    HARUPESAT_AUTH_AGENT = 6,
    HARUPESAT_UNKNOWN_TYPE = 7            /* text: the type's name; rest: what follows the four fields */
};

/* ---- Clear packets (RFC 4253 section 6) */

typedef struct {
    uint8_t what;          /* REFUSED, DONE or NEED */
    uint8_t number;
    harupesat_size offset; /* REFUSED: where */
    harupesat_size need;   /* NEED: so many bytes in all */
    harupesat_size start;  /* the payload: s[start .. start + len] */
    harupesat_size len;
    harupesat_size end;    /* where the padding starts */
    harupesat_size taken;  /* the packet's bytes, padding and all */
    uint32_t seqn;         /* the direction's counters after the packet */
    uint64_t bytes;
} harupesat_frame;

/* The packet at the front of s. seqn and bytes are the direction's counters: 0 and 0 when the connection starts. A
 * refusal and NEED count nothing: go on with the old ones. Refuses with 4, 7. */
harupesat_frame harupesat_frame_read(const uint8_t *s, harupesat_size s_len, uint32_t seqn, uint64_t bytes);

typedef struct {
    uint8_t what;
    uint8_t number;
    harupesat_size len;  /* out[0 .. len] is the packet */
    uint32_t seqn;
    uint64_t bytes;
} harupesat_sealed;

/* The packet of a payload of up to 262,167 bytes. It takes 5 + payload_len bytes and 4 to 11 of padding: an out of
 * payload_len + 16 bytes is always enough. Refuses with 4, 8. */
harupesat_sealed harupesat_frame_write(const uint8_t *payload, harupesat_size payload_len, uint32_t seqn, uint64_t bytes,
                                       uint8_t *out, harupesat_size out_len);

/* ---- KEXINIT (RFC 4253 section 7.1)
 *
 * A side's tables: six preference lists of numbers, up to 16 each, best first; of a server up to 8 key rows and up to 8
 * certificate rows, two columns each (kinds, identities), of one length. Equal identity stands for equal public key data.
 * A client lends no rows. A server's certificate list is not used, and is judged for 9 all the same.
 *
 * Strict key exchange: a kex list holds extension names too, and each side writes its own and drops the other's. A side
 * whose list lacks its strict name (11, kex-strict-c-v00@openssh.com, of a client; 12, kex-strict-s-v00@openssh.com, of a
 * server) settles without strict key exchange, whatever the peer lists. Somebody between the two ends can then take away
 * the first packets under the new keys unnoticed (Terrapin, CVE-2023-48795). The default kex list holds both names. */

typedef struct {
    uint8_t what;
    uint8_t number;
    harupesat_size len;  /* out[0 .. len] is what was written */
} harupesat_written;

/* The KEXINIT payload with a 16-byte cookie of random bytes. It has at most 3,702 bytes (proved: `kex-fits`), so an out of
 * 4,096 is always enough. Refuses with 9, 8. */
harupesat_written harupesat_write_kex(bool server,
                                      const uint8_t *kex, harupesat_size kex_len,
                                      const uint8_t *key, harupesat_size key_len,
                                      const uint8_t *certificate, harupesat_size certificate_len,
                                      const uint8_t *cipher, harupesat_size cipher_len,
                                      const uint8_t *mac, harupesat_size mac_len,
                                      const uint8_t *compression, harupesat_size compression_len,
                                      const uint8_t *key_kinds, harupesat_size key_kinds_len,
                                      const uint32_t *key_ids, harupesat_size key_ids_len,
                                      const uint8_t *cert_kinds, harupesat_size cert_kinds_len,
                                      const uint32_t *cert_ids, harupesat_size cert_ids_len,
                                      const uint8_t *cookie, harupesat_size cookie_len,
                                      uint8_t *out, harupesat_size out_len);

typedef struct {
    uint8_t what;
    uint8_t number;
    harupesat_size offset;
    uint8_t kex;                 /* numbers of their kinds */
    uint8_t key;                 /* the plain key's, also where a certificate's name was chosen */
    uint8_t cipher;
    uint8_t client_mac;
    uint8_t server_mac;
    uint8_t client_compression;
    uint8_t server_compression;
    bool host_key_is_certificate;
    bool ignore_guessed;         /* the peer's guessed packet is to be dropped */
    bool strict_kex;             /* the caller then keeps to its rules: docs/LINKING.md */
} harupesat_names;

/* What a side with these tables settles on when it reads the peer's KEXINIT payload. Refuses with 9, 1, 6, then in field
 * order 2, 3, 10 to 14, 5.
 *
 * strict_agreed: strict key exchange was agreed in the connection's first exchange. In that exchange it is false, in
 * later ones that exchange's strict_kex; where it is true strict_kex is true, whatever the lists say. A wrong true, and
 * this end starts its sequence numbers anew after NEWKEYS while the peer counts on. A wrong false in a later exchange,
 * where the peer need not list its strict name again, and the peer starts anew while this end counts on. Either way the
 * two ends no longer take each other's packets (but under a gcm cipher, which does not look at the number): the
 * connection is lost. */
harupesat_names harupesat_read_kex(bool server,
                                   const uint8_t *kex, harupesat_size kex_len,
                                   const uint8_t *key, harupesat_size key_len,
                                   const uint8_t *certificate, harupesat_size certificate_len,
                                   const uint8_t *cipher, harupesat_size cipher_len,
                                   const uint8_t *mac, harupesat_size mac_len,
                                   const uint8_t *compression, harupesat_size compression_len,
                                   const uint8_t *key_kinds, harupesat_size key_kinds_len,
                                   const uint32_t *key_ids, harupesat_size key_ids_len,
                                   const uint8_t *cert_kinds, harupesat_size cert_kinds_len,
                                   const uint32_t *cert_ids, harupesat_size cert_ids_len,
                                   bool strict_agreed,
                                   const uint8_t *payload, harupesat_size payload_len);

/* ---- Channel opening (RFC 4254 sections 5.1, 6.3.2, 7.2)
 *
 * A body starts after the message number; what is written is a payload and starts with it. */

typedef struct {
    uint8_t what;
    uint8_t number;
    harupesat_size offset;
    uint8_t typ;
    uint32_t recipient_channel;              /* the sender's number: the recipient of the answer */
    uint32_t recipient_window_size;
    uint32_t recipient_maximum_packet_size;
    harupesat_size text_start;               /* body[text_start .. text_start + text_len], and so on */
    harupesat_size text_len;
    uint32_t port;
    harupesat_size originator_start;
    harupesat_size originator_len;
    uint32_t originator_port;
    harupesat_size rest_start;
    harupesat_size rest_len;
} harupesat_open;

/* CHANNEL_OPEN (90). Refuses with 1, then in field order 2, 3, 6, 5. */
harupesat_open harupesat_read_open(const uint8_t *body, harupesat_size body_len);

typedef struct {
    uint8_t what;
    uint8_t number;
    harupesat_size offset;
    uint32_t recipient_channel;
    uint32_t sender_channel;
    uint32_t initial_window_size;
    uint32_t maximum_packet_size;
} harupesat_confirmation;

/* CHANNEL_OPEN_CONFIRMATION (91). Refuses with 1, 2, 6; later bytes are accepted. */
harupesat_confirmation harupesat_read_confirmation(const uint8_t *body, harupesat_size body_len);

/* CHANNEL_OPEN_FAILURE (92) with any text of up to 1,024 bytes: 19 + text_len bytes. Refuses with 1, 8. */
harupesat_written harupesat_fail(uint32_t recipient, uint8_t reason, const uint8_t *text, harupesat_size text_len,
                                 uint8_t *out, harupesat_size out_len);

/* The failure for a type that is not known, reason 3, "Unknown channel type": 39 bytes. Refuses with 8. */
harupesat_written harupesat_unknown_type(uint32_t recipient, uint8_t *out, harupesat_size out_len);

/* ---- A place, judged */

typedef struct {
    uint8_t what;
    uint8_t number;
    harupesat_size offset; /* always 0: a place is no field */
    harupesat_size start;  /* s[start .. start + len] may be shown */
    harupesat_size len;
} harupesat_shown;

/* Whether a place lies inside s: an empty one at the very end does. Refuses with 2. */
harupesat_shown harupesat_show(const uint8_t *s, harupesat_size s_len, harupesat_size start, harupesat_size len);

/* ---- Names */

/* The name of a number of a kind; 64 bytes of out are always enough. Refuses with 9, 8. */
harupesat_written harupesat_spelling(uint8_t kind, uint8_t number, uint8_t *out, harupesat_size out_len);

typedef struct {
    uint8_t what;    /* REFUSED, DONE or UNKNOWN */
    uint8_t number;
    uint8_t value;   /* the name's number */
} harupesat_found;

/* The number of a name of a kind. Refuses with 9 (no such kind). */
harupesat_found harupesat_lookup(uint8_t kind, const uint8_t *name, harupesat_size name_len);

typedef struct {
    uint8_t what;
    uint8_t number;
    bool value;
} harupesat_flag;

/* Whether a cipher needs a MAC; whether it has integrity built in. Refuse with 9. */
harupesat_flag harupesat_needs_mac(uint8_t cipher);
harupesat_flag harupesat_built_in_integrity(uint8_t cipher);

/* The default preference list of a kind, as numbers; 16 bytes of out are always enough. The certificates' is empty.
 * Refuses with 9 (no such kind), 8. */
harupesat_written harupesat_default_list(uint8_t kind, uint8_t *out, harupesat_size out_len);

#ifdef __cplusplus
}
#endif

#endif
