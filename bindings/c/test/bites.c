/* That the guard bites: whoever strays from what is lent dies of it, and whoever keeps inside lives. */
#define _XOPEN_SOURCE 700 /* for fork and setrlimit */

#include "check.h"

#include <signal.h>
#include <stdio.h>
#include <stdlib.h>
#include <sys/resource.h>
#include <sys/wait.h>
#include <unistd.h>

static void reads(const uint8_t *at)
{
    (void)*(const volatile uint8_t *)at;
}

static void writes(const uint8_t *at)
{
    *(volatile uint8_t *)at = 1;
}

static const uint8_t *depot(void)
{
    return input("depot", 5);
}

static void keeps_inside(void)
{
    const uint8_t *in = depot();
    uint8_t *out = lend(5);
    reads(in);
    reads(in + 4);
    writes(out);
    writes(out + 4);
}

static void reads_before_an_input(void)
{
    reads(depot() - 1);
}

static void reads_past_an_input(void)
{
    reads(depot() + 5);
}

static void writes_to_an_input(void)
{
    writes(depot() + 2);
}

static void writes_before_out(void)
{
    writes(lend(5) - 1);
}

static void writes_past_out(void)
{
    writes(lend(5) + 5);
}

/* Its death is wanted: no core is kept of it, and no emulator reports it. */
static void child(void (*does)(void))
{
    setrlimit(RLIMIT_CORE, &(struct rlimit){0, 0});
    close(STDERR_FILENO);
    does();
    _exit(EXIT_SUCCESS);
}

static void ends(const char *what, enum edge where, void (*does)(void), int by)
{
    trying(what);
    edge = where;
    fflush(stdout);
    pid_t id = fork();
    if (id == 0)
        child(does);
    int status;
    if (id == -1 || waitpid(id, &status, 0) != id) {
        perror(what);
        exit(EXIT_FAILURE);
    }
    is("whether a signal ends it", WIFSIGNALED(status), by != 0);
    is("the signal, or what it exits with", (uint64_t)(WIFSIGNALED(status) ? WTERMSIG(status) : WEXITSTATUS(status)),
       (uint64_t)by);
}

void bites(void)
{
    ends("a call that keeps inside", AT_END, keeps_inside, 0);
    ends("a call that keeps inside", AT_START, keeps_inside, 0);
    ends("a read past an input", AT_END, reads_past_an_input, SIGSEGV);
    ends("a read before an input", AT_START, reads_before_an_input, SIGSEGV);
    ends("a write to an input", AT_END, writes_to_an_input, SIGSEGV);
    ends("a write to an input", AT_START, writes_to_an_input, SIGSEGV);
    ends("a write past out", AT_END, writes_past_out, SIGSEGV);
    ends("a write before out", AT_START, writes_before_out, SIGSEGV);
}
