/* Comparisons that are counted, one function for each struct of the header: every field is compared, and a field that is
 * not named in `want` must be 0. */
#ifndef CHECK_H
#define CHECK_H

#include "guard.h"
#include "harupesat.h"

#define REFUSED HARUPESAT_REFUSED
#define DONE HARUPESAT_DONE
#define NEED HARUPESAT_NEED
#define UNKNOWN HARUPESAT_UNKNOWN

/* Two arguments, a slice of so many elements, lent from guarded memory; and a string's bytes, without the 0 at its end. */
#define LENT(at, count) input((at), (size_t)(count) * sizeof *(at)), (count)
#define BYTES(text) LENT(text, sizeof(text) - 1)

/* What is tried from here on: said with every comparison that fails, and where a stray read or write ends the run. */
void trying(const char *what);
void watch(void);
void is(const char *field, uint64_t got, uint64_t want);
int summary(void);

void is_frame(harupesat_frame got, harupesat_frame want);
void is_sealed(harupesat_sealed got, harupesat_sealed want);
void is_written(harupesat_written got, harupesat_written want);
void is_names(harupesat_names got, harupesat_names want);
void is_open(harupesat_open got, harupesat_open want);
void is_confirmation(harupesat_confirmation got, harupesat_confirmation want);
void is_shown(harupesat_shown got, harupesat_shown want);
void is_found(harupesat_found got, harupesat_found want);
void is_flag(harupesat_flag got, harupesat_flag want);

/* Lends so many bytes at the edge of a guarded field of known bytes. */
uint8_t *lend(size_t len);
/* The bytes lent start with these, and every other byte of the field is what it was. */
void holds(const void *want, size_t len);
/* No byte of the field has changed. */
void untouched(void);

void bites(void);
void layout(void);
void frames(void);
void kexinits(void);
void kex_refusals(void);
void offsets(void);
void channels(void);
void names(void);
void nulls(void);

#endif
