/* Allocations that are refused by turns: for programs that are linked with the archive, so that malloc and realloc are
 * those of this file (--wrap). */
#ifndef REFUSING_H
#define REFUSING_H

#include <errno.h>
#include <limits.h>
#include <stdlib.h>

/* How many allocations there were, and the first and the last that is refused. */
static unsigned long allocations, first_refused = ULONG_MAX, last_refused;

void *__real_malloc(size_t size);
void *__real_realloc(void *held, size_t size);

static int is_refused(void) {
  allocations++;
  if (allocations < first_refused || allocations > last_refused) return 0;
  errno = ENOMEM;
  return 1;
}

void *__wrap_malloc(size_t size) { return is_refused() ? NULL : __real_malloc(size); }

void *__wrap_realloc(void *held, size_t size) { return is_refused() ? NULL : __real_realloc(held, size); }

/* Counts from here, and refuses the allocations from the n-th on, up to the last-th. */
static inline void refuse(unsigned long n, unsigned long last) {
  allocations = 0;
  first_refused = n;
  last_refused = last;
}

static inline void refuse_none(void) { first_refused = ULONG_MAX; }

#endif
