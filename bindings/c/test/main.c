/* Calls every function of include/harupesat.h and compares every field of its answer with a known one, since nothing
 * checks a C declaration against the library's source. Known answers are from document 01, the RFCs and the name tables.
 * Everything is lent from guarded memory, twice: so that it ends, and so that it starts, where nothing can be touched. */
#include "check.h"

static void calls(enum edge where)
{
    edge = where;
    frames();
    kexinits();
    kex_refusals();
    offsets();
    channels();
    names();
    nulls();
}

int main(void)
{
    watch();
    bites();
    layout();
    calls(AT_END);
    calls(AT_START);
    return summary();
}
