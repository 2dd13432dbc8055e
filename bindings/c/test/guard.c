#define _DEFAULT_SOURCE /* for MAP_ANONYMOUS */

#include "guard.h"

#include <stdio.h>
#include <stdlib.h>
#include <string.h>
#include <sys/mman.h>
#include <unistd.h>

enum { INPUTS = 16, LONGEST_INPUT = 262177 };

enum edge edge;

static void stop(const char *what)
{
    perror(what);
    exit(EXIT_FAILURE);
}

static void allow(struct pages p, int access)
{
    if (mprotect(p.at, p.len, access) != 0)
        stop("mprotect");
}

struct pages guarded(size_t least)
{
    size_t page = (size_t)sysconf(_SC_PAGESIZE), len = (least + page - 1) / page * page;
    uint8_t *front = mmap(NULL, page + len + page, PROT_NONE, MAP_PRIVATE | MAP_ANONYMOUS, -1, 0);
    if (front == MAP_FAILED)
        stop("mmap");
    struct pages p = {front + page, len};
    allow(p, PROT_READ | PROT_WRITE);
    return p;
}

uint8_t *place(struct pages p, size_t len)
{
    if (len > p.len) {
        fprintf(stderr, "%zu bytes are to be lent, and there is room for %zu\n", len, p.len);
        exit(EXIT_FAILURE);
    }
    return edge == AT_END ? p.at + (p.len - len) : p.at;
}

const void *input(const void *bytes, size_t len)
{
    static struct pages inputs[INPUTS];
    static unsigned asked;
    if (bytes == NULL)
        return NULL;
    struct pages *p = &inputs[asked++ % INPUTS];
    if (p->at == NULL)
        *p = guarded(LONGEST_INPUT);
    allow(*p, PROT_READ | PROT_WRITE);
    uint8_t *copy = place(*p, len);
    memcpy(copy, bytes, len);
    allow(*p, PROT_READ);
    return copy;
}
