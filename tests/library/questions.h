/* What the programs of tests/library have in common: texts with a length, and faults that are counted. */
#ifndef QUESTIONS_H
#define QUESTIONS_H

#include <silkwaram.h>
#include <stdio.h>
#include <stdlib.h>
#include <string.h>

typedef struct {
  uint8_t *bytes;
  size_t len;
} text;

/* A text as a pointer and a length, as the calls take it. */
#define BYTES(text) (text).bytes, (text).len
/* The text of a literal, zero bytes inside too. */
#define T(literal) ((text){(uint8_t *)(literal), sizeof(literal) - 1})
#define NO_TEXT ((text){NULL, 0})
/* Rules with an offer and a table of fallbacks, which are not read before they are asked by. */
#define RULES(offer, table) (&(sw_rules){BYTES(offer), BYTES(table)})
#define OFFERS(offer) RULES(offer, NO_TEXT)

enum { UNTOUCHED = 0xA5 };

/* Returns a block of just this size, so that valgrind sees a byte too many; ends the program where there is none. */
static inline uint8_t *block(size_t size) {
  uint8_t *made = malloc(size ? size : 1);
  if (!made) exit(3);
  memset(made, UNTOUCHED, size);
  return made;
}

static inline int is_untouched(const uint8_t *bytes, size_t len) {
  for (size_t at = 0; at < len; at++)
    if (bytes[at] != UNTOUCHED) return 0;
  return 1;
}

static inline int same_told(const sw_told *one, const sw_told *other) {
  return one->len == other->len && one->offset == other->offset && one->row == other->row &&
         one->count == other->count && one->number == other->number && one->given == other->given;
}

/* The whole file; ends the program where it cannot be read. */
static inline text file(const char *name) {
  FILE *from = fopen(name, "rb");
  if (!from || fseek(from, 0, SEEK_END)) exit(3);
  text read = {NULL, (size_t)ftell(from)};
  rewind(from);
  read.bytes = block(read.len);
  if (fread(read.bytes, 1, read.len, from) != read.len) exit(3);
  fclose(from);
  return read;
}

#endif
