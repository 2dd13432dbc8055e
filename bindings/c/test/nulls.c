/* "An empty one may be null": every slice of every function, one by one. */
#include "kex.h"

#define COOKIE BYTES("sixteen of them.")

static void frame(void)
{
    uint8_t *out = lend(16);
    trying("null: bytes to read");
    is_frame(harupesat_frame_read(NULL, 0, 3, 4), (harupesat_frame){.what = NEED, .need = 4});
    trying("null: a payload");
    is_sealed(harupesat_frame_write(NULL, 0, 3, 4, out, 16),
              (harupesat_sealed){.what = DONE, .len = 16, .seqn = 4, .bytes = 4});
    holds("\0\0\0\x0c\x0b\0\0\0\0\0\0\0\0\0\0\0", 16);
    trying("null: a packet's output");
    is_sealed(harupesat_frame_write(BYTES("abc"), 3, 4, NULL, 0), (harupesat_sealed){.number = 8});
}

/* The KEXINIT of 182 bytes is so much shorter, and reading its like refuses with this number at this offset, or settles. */
static void list(const char *what, struct tables t, size_t shorter, uint8_t number, harupesat_size offset)
{
    trying(what);
    uint8_t *out = lend(4096);
    is_written(write_kex(t, COOKIE, out, 4096), (harupesat_written){.what = DONE, .len = 182 - shorter});
    harupesat_names got = read_peer(t, false, plain_peer());
    is("what", got.what, number == 0 ? DONE : REFUSED);
    is("number", got.number, number);
    is("offset", got.offset, offset);
}

static const struct numbers none;
static const struct identities nobody;

static void lists(void)
{
    struct tables t;
    list("null: kex", (t = client(CHACHA20), t.kex = none, t), 17, 10, 17);
    list("null: key", (t = client(CHACHA20), t.key = none, t), 11, 11, 38);
    list("null: certificate", (t = client(CHACHA20), t.certificate = none, t), 0, 0, 0);
    list("null: cipher", (t = client(CHACHA20), t.cipher = none, t), 58, 12, 53);
    list("null: MAC", (t = client(CHACHA20), t.mac = none, t), 26, 0, 0);
    list("null: compression", (t = client(CHACHA20), t.compression = none, t), 8, 14, 153);
    list("null: certificate rows", (t = server(CHACHA20), t.cert_kinds = none, t.cert_ids = nobody, t), 0, 0, 0);
    list("null: key rows", (t = server(CHACHA20), t.key_kinds = none, t.key_ids = nobody, t), 11, 11, 38);
}

static void kex(void)
{
    trying("null: a column of two");
    struct tables t = server(CHACHA20);
    uint8_t *out = lend(4096);
    t.key_kinds = none;
    is_written(write_kex(t, COOKIE, out, 4096), (harupesat_written){.number = 9});
    is_names(read_kex(t, false, NULL, 0), (harupesat_names){.number = 9});
    t = server(CHACHA20);
    t.key_ids = nobody;
    is_written(write_kex(t, COOKIE, out, 4096), (harupesat_written){.number = 9});
    is_names(read_kex(t, false, NULL, 0), (harupesat_names){.number = 9});
    trying("null: a cookie");
    is_written(write_kex(client(CHACHA20), NULL, 0, out, 4096), (harupesat_written){.number = 9});
    untouched();
    trying("null: a KEXINIT's output");
    is_written(write_kex(client(CHACHA20), COOKIE, NULL, 0), (harupesat_written){.number = 8});
    trying("null: a KEXINIT payload");
    is_names(read_kex(client(CHACHA20), true, NULL, 0), (harupesat_names){.number = 6});
    trying("null: everything");
    out = lend(62);
    is_written(write_kex((struct tables){0}, COOKIE, out, 62), (harupesat_written){.what = DONE, .len = 62});
    is_names(read_peer((struct tables){0}, false, plain_peer()), (harupesat_names){.number = 10, .offset = 17});
}

static void channel(void)
{
    trying("null: an opening body");
    is_open(harupesat_read_open(NULL, 0), (harupesat_open){.number = 2});
    trying("null: a confirmation body");
    is_confirmation(harupesat_read_confirmation(NULL, 0), (harupesat_confirmation){.number = 2});
    trying("null: a failure's text");
    uint8_t *out = lend(19);
    is_written(harupesat_fail(1, 4, NULL, 0, out, 19), (harupesat_written){.what = DONE, .len = 19});
    holds("\x5c" "\0\0\0\x01" "\0\0\0\x04" "\0\0\0\0" "\0\0\0\x02" "en", 19);
    trying("null: a failure's output");
    is_written(harupesat_fail(1, 4, BYTES("no"), NULL, 0), (harupesat_written){.number = 8});
    is_written(harupesat_unknown_type(1, NULL, 0), (harupesat_written){.number = 8});
    trying("null: a place's slice");
    is_shown(harupesat_show(NULL, 0, 0, 0), (harupesat_shown){.what = DONE});
    is_shown(harupesat_show(NULL, 0, 0, 1), (harupesat_shown){.number = 2});
}

static void name(void)
{
    trying("null: a spelling's output");
    is_written(harupesat_spelling(HARUPESAT_KEX, 1, NULL, 0), (harupesat_written){.number = 8});
    trying("null: a name");
    is_found(harupesat_lookup(HARUPESAT_KEX, NULL, 0), (harupesat_found){.what = UNKNOWN});
    trying("null: a default list's output");
    is_written(harupesat_default_list(HARUPESAT_CERTIFICATE, NULL, 0), (harupesat_written){.what = DONE});
    is_written(harupesat_default_list(HARUPESAT_KEX, NULL, 0), (harupesat_written){.number = 8});
}

void nulls(void)
{
    frame();
    lists();
    kex();
    channel();
    name();
}
