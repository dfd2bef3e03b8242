/* What the programs that measure have in common. */
#ifndef MEASURING_H
#define MEASURING_H

#include <stdint.h>
#include <stdio.h>
#include <stdlib.h>
#include <time.h>

#define BYTES(literal) (const uint8_t *)(literal), sizeof(literal) - 1

/* The processor time of this process, in nanoseconds. */
static inline double now(void) {
  struct timespec time;
  clock_gettime(CLOCK_PROCESS_CPUTIME_ID, &time);
  return (double)time.tv_sec * 1e9 + (double)time.tv_nsec;
}

/* That of a call, the least of five rounds of so many. */
static inline double least_of(void call(void), int calls) {
  double least = 1e18;
  for (int round = 0; round < 5; round++) {
    double start = now();
    for (int at = 0; at < calls; at++) call();
    double took = (now() - start) / calls;
    if (took < least) least = took;
  }
  return least;
}

/* The whole file; ends the program where it cannot be read. */
static inline uint8_t *file(const char *name, size_t *len) {
  FILE *from = fopen(name, "rb");
  if (!from || fseek(from, 0, SEEK_END)) exit(2);
  *len = (size_t)ftell(from);
  rewind(from);
  uint8_t *text = malloc(*len);
  if (!text || fread(text, 1, *len, from) != *len) exit(2);
  fclose(from);
  return text;
}

#endif
