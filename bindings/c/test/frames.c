/* Clear packets (RFC 4253 section 6): document 01's tried bytes, the counters, what is left alone. */
#include "check.h"

static const uint8_t zeros[262168];

/* A payload of up to 16 of these bytes, written with an output of `room` bytes. */
static void writes(const char *what, size_t len, size_t room, const void *packet, size_t total)
{
    trying(what);
    uint8_t *out = lend(room);
    harupesat_sealed got = harupesat_frame_write(LENT("0123456789abcdef", len), 41, 1000, out, room);
    is_sealed(got, (harupesat_sealed){.what = DONE, .len = total, .seqn = 42, .bytes = 1000 + len});
    holds(packet, total);
}

static void written(void)
{
    writes("P1, payload 0", 0, 16, "\0\0\0\x0c\x0b\0\0\0\0\0\0\0\0\0\0\0", 16);
    writes("P2, payload 7", 7, 16, "\0\0\0\x0c\x04" "0123456\0\0\0\0", 16);
    writes("P3, payload 8", 8, 24, "\0\0\0\x14\x0b" "01234567\0\0\0\0\0\0\0\0\0\0\0", 24);
    writes("P3 with room to spare", 8, 40, "\0\0\0\x14\x0b" "01234567\0\0\0\0\0\0\0\0\0\0\0", 24);
}

static void largest(void)
{
    static uint8_t packet[262176] = {0x00, 0x04, 0x00, 0x1c, 0x04};
    trying("the largest payload");
    uint8_t *out = lend(262176);
    is_sealed(harupesat_frame_write(LENT(zeros, 262167), 0, 0, out, 262176),
              (harupesat_sealed){.what = DONE, .len = 262176, .seqn = 1, .bytes = 262167});
    holds(packet, sizeof packet);
    trying("one byte over the largest payload");
    out = lend(262240);
    is_sealed(harupesat_frame_write(LENT(zeros, 262168), 5, 6, out, 262240), (harupesat_sealed){.number = 4});
    untouched();
    trying("4 before 8");
    out = lend(0);
    is_sealed(harupesat_frame_write(LENT(zeros, 262168), 5, 6, out, 0), (harupesat_sealed){.number = 4});
    untouched();
}

static void no_room(void)
{
    for (size_t room = 0; room < 24; room++) {
        trying("payload 8 with less than 24 bytes of room");
        uint8_t *out = lend(room);
        is_sealed(harupesat_frame_write(LENT(zeros, 8), 1, 2, out, room), (harupesat_sealed){.number = 8});
        untouched();
    }
}

/* "The sequence number goes up by one, modulo 2^32 .. The byte count (u64) stops at its largest value" */
static void counters(void)
{
    trying("written: counters at their ends");
    uint8_t *out = lend(16);
    is_sealed(harupesat_frame_write(LENT(zeros, 7), UINT32_MAX, UINT64_MAX - 3, out, 16),
              (harupesat_sealed){.what = DONE, .len = 16, .seqn = 0, .bytes = UINT64_MAX});
    trying("read: counters at their ends");
    is_frame(harupesat_frame_read(BYTES("\0\0\0\x0c\x04" "abcdefg\0\0\0\0"), UINT32_MAX, UINT64_MAX - 7),
             (harupesat_frame){.what = DONE, .start = 5, .len = 7, .end = 12, .taken = 16, .seqn = 0, .bytes = UINT64_MAX});
    trying("read: a byte count that would pass its end");
    is_frame(harupesat_frame_read(BYTES("\0\0\0\x0c\x04" "abcdefg\0\0\0\0"), 0x01020304, UINT64_MAX - 6),
             (harupesat_frame){.what = DONE, .start = 5, .len = 7, .end = 12, .taken = 16, .seqn = 0x01020305,
                               .bytes = UINT64_MAX});
}

static void tried_bytes(void)
{
    trying("P4");
    is_frame(harupesat_frame_read(BYTES("\0\0\0\x01\x01"), 7, 9),
             (harupesat_frame){.what = DONE, .start = 4, .end = 4, .taken = 5, .seqn = 8, .bytes = 9});
    trying("P5");
    is_frame(harupesat_frame_read(BYTES("\0\0\0\x01\x02"), 7, 9), (harupesat_frame){.number = 7, .offset = 4});
    trying("P6");
    is_frame(harupesat_frame_read(BYTES("\0\0\0\0"), 7, 9),
             (harupesat_frame){.what = DONE, .start = 4, .end = 4, .taken = 4, .seqn = 8, .bytes = 9});
    trying("P7");
    is_frame(harupesat_frame_read(BYTES("\0\x04\0\x21"), 7, 9), (harupesat_frame){.what = NEED, .need = 262181});
    trying("P8");
    is_frame(harupesat_frame_read(BYTES("\0\x04\0\x22"), 7, 9), (harupesat_frame){.number = 4});
}

static void need(void)
{
    trying("under 4 bytes");
    is_frame(harupesat_frame_read(BYTES("\xff\xff\xff"), 7, 9), (harupesat_frame){.what = NEED, .need = 4});
    trying("a byte short");
    is_frame(harupesat_frame_read(BYTES("\0\0\0\x0c\x04" "abcdefg\0\0\0"), 7, 9),
             (harupesat_frame){.what = NEED, .need = 16});
    trying("need before the padding is judged");
    is_frame(harupesat_frame_read(BYTES("\0\0\0\x02\xff"), 7, 9), (harupesat_frame){.what = NEED, .need = 6});
}

static void followed(void)
{
    trying("a packet with another behind it");
    is_frame(harupesat_frame_read(BYTES("\0\0\0\x03\x01xy" "\0\0\0\x01\x01"), 7, 9),
             (harupesat_frame){.what = DONE, .start = 5, .len = 1, .end = 6, .taken = 7, .seqn = 8, .bytes = 10});
    trying("padding 0");
    is_frame(harupesat_frame_read(BYTES("\0\0\0\x03\0xy"), 0, 0),
             (harupesat_frame){.what = DONE, .start = 5, .len = 2, .end = 7, .taken = 7, .seqn = 1, .bytes = 2});
}

void frames(void)
{
    written();
    largest();
    no_room();
    counters();
    tried_bytes();
    need();
    followed();
}
