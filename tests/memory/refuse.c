/* Preloaded by tests/memory/command.t: refuses the Nth allocation of a program, counted from 1, N from
 * the variable REFUSED_ALLOCATION. Where N is 0 it refuses none, and writes at the end how many there
 * were. */
#define _GNU_SOURCE
#include <dlfcn.h>
#include <errno.h>
#include <stdio.h>
#include <stdlib.h>

static unsigned long count, refused;
static void *(*next_malloc)(size_t);
static void *(*next_realloc)(void *, size_t);

__attribute__((constructor)) static void begin(void) {
  const char *word = getenv("REFUSED_ALLOCATION");
  next_malloc = dlsym(RTLD_NEXT, "malloc");
  next_realloc = dlsym(RTLD_NEXT, "realloc");
  refused = word ? strtoul(word, NULL, 10) : 0;
  count = 0;
}

static int is_refused(void) {
  count++;
  if (refused == 0 || count != refused) return 0;
  errno = ENOMEM;
  return 1;
}

void *malloc(size_t size) {
  if (!next_malloc) next_malloc = dlsym(RTLD_NEXT, "malloc");
  return is_refused() ? NULL : next_malloc(size);
}

void *realloc(void *held, size_t size) {
  if (!next_realloc) next_realloc = dlsym(RTLD_NEXT, "realloc");
  return is_refused() ? NULL : next_realloc(held, size);
}

__attribute__((destructor)) static void end(void) {
  if (refused == 0) fprintf(stderr, "allocations=%lu\n", count);
}
