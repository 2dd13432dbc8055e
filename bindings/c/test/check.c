#include "check.h"

#include <inttypes.h>
#include <signal.h>
#include <stdio.h>
#include <stdlib.h>

static unsigned passed, failed;
static const char *tried = "";

void trying(const char *what)
{
    tried = what;
}

static const char *where(void)
{
    return edge == AT_END ? "lent at the end" : "lent at the start";
}

/* It is the library that strays, in the midst of no function of stdio: so this may call them. The access is then made once
 * more, and ends the run. */
static void stray(int number)
{
    fflush(stdout);
    fprintf(stderr, "a stray read or write: %s, %s\n", tried, where());
    signal(number, SIG_DFL);
}

void watch(void)
{
    signal(SIGSEGV, stray);
}

void is(const char *field, uint64_t got, uint64_t want)
{
    if (got == want) {
        passed++;
        return;
    }
    failed++;
    printf("FAILED: %s, %s: %s is %" PRIu64 ", not %" PRIu64 "\n", tried, where(), field, got, want);
}

int summary(void)
{
    printf("%u passed, %u failed\n", passed, failed);
    return failed == 0 && passed > 0 ? EXIT_SUCCESS : EXIT_FAILURE;
}

#define SAME(field) is(#field, got.field, want.field)

void is_frame(harupesat_frame got, harupesat_frame want)
{
    SAME(what);
    SAME(number);
    SAME(offset);
    SAME(need);
    SAME(start);
    SAME(len);
    SAME(end);
    SAME(taken);
    SAME(seqn);
    SAME(bytes);
}

void is_sealed(harupesat_sealed got, harupesat_sealed want)
{
    SAME(what);
    SAME(number);
    SAME(len);
    SAME(seqn);
    SAME(bytes);
}

void is_written(harupesat_written got, harupesat_written want)
{
    SAME(what);
    SAME(number);
    SAME(len);
}

void is_names(harupesat_names got, harupesat_names want)
{
    SAME(what);
    SAME(number);
    SAME(offset);
    SAME(kex);
    SAME(key);
    SAME(cipher);
    SAME(client_mac);
    SAME(server_mac);
    SAME(client_compression);
    SAME(server_compression);
    SAME(host_key_is_certificate);
    SAME(ignore_guessed);
    SAME(strict_kex);
}

void is_open(harupesat_open got, harupesat_open want)
{
    SAME(what);
    SAME(number);
    SAME(offset);
    SAME(typ);
    SAME(recipient_channel);
    SAME(recipient_window_size);
    SAME(recipient_maximum_packet_size);
    SAME(text_start);
    SAME(text_len);
    SAME(port);
    SAME(originator_start);
    SAME(originator_len);
    SAME(originator_port);
    SAME(rest_start);
    SAME(rest_len);
}

void is_confirmation(harupesat_confirmation got, harupesat_confirmation want)
{
    SAME(what);
    SAME(number);
    SAME(offset);
    SAME(recipient_channel);
    SAME(sender_channel);
    SAME(initial_window_size);
    SAME(maximum_packet_size);
}

void is_shown(harupesat_shown got, harupesat_shown want)
{
    SAME(what);
    SAME(number);
    SAME(offset);
    SAME(start);
    SAME(len);
}

void is_found(harupesat_found got, harupesat_found want)
{
    SAME(what);
    SAME(number);
    SAME(value);
}

void is_flag(harupesat_flag got, harupesat_flag want)
{
    SAME(what);
    SAME(number);
    SAME(value);
}

/* The field that output is lent from: no two neighbouring bytes are equal, so that a shift shows too. */
enum { ROOM = 262176 + 64 };
static struct pages field;
static size_t start; /* where in it the bytes lent start */

static uint8_t sentinel(size_t i)
{
    return (uint8_t)(i * 167 + i / 256 + 29);
}

uint8_t *lend(size_t len)
{
    if (field.at == NULL)
        field = guarded(ROOM);
    for (size_t i = 0; i < field.len; i++)
        field.at[i] = sentinel(i);
    uint8_t *out = place(field, len);
    start = (size_t)(out - field.at);
    return out;
}

void holds(const void *want, size_t len)
{
    const uint8_t *front = want;
    size_t differing = 0;
    for (size_t i = 0; i < field.len; i++) {
        bool written = start <= i && i < start + len;
        differing += field.at[i] != (written ? front[i - start] : sentinel(i));
    }
    is("the count of bytes that are not as they should be", differing, 0);
}

void untouched(void)
{
    holds(NULL, 0);
}
