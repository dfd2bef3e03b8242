/* Rows of what a call has to answer: its status, its report, and its bytes in a buffer that is otherwise untouched. A
 * row that is wrong is reported by its line. */
#ifndef ROWS_H
#define ROWS_H

#include "questions.h"

enum { ROOM = 256 };

/* What a call has to answer. */
typedef struct {
  int32_t status;
  sw_told told;
  const char *answer;
} wanted;

static unsigned rows, faults;
static uint8_t out[ROOM];
static sw_told told;

static inline wanted answers(int32_t status, size_t count, const char *answer) {
  return (wanted){status, {.len = strlen(answer), .count = count}, answer};
}

/* A refusal; more of its report may follow the number. */
#define REFUSED(...) ((wanted){SW_REFUSED, {.number = __VA_ARGS__}, ""})

static inline wanted refused(uint32_t number) { return REFUSED(number); }

static inline wanted refused_at(uint32_t number, size_t offset) {
  return REFUSED(number, .offset = offset, .given = SW_HAS_OFFSET);
}

static inline wanted refused_in_row(uint32_t number, size_t row) {
  return REFUSED(number, .row = row, .given = SW_HAS_ROW);
}

static inline wanted refused_with(uint32_t number, size_t count) {
  return REFUSED(number, .count = count, .given = SW_HAS_COUNT);
}

static inline wanted nothing_told(int32_t status) { return (wanted){status, {0}, ""}; }

static inline void holds_at(int line, int is_well) {
  rows++;
  if (is_well) return;
  faults++;
  fprintf(stderr, "line %d: status or answer; len %zu offset %zu row %zu count %zu number %u given %u\n", line,
          told.len, told.offset, told.row, told.count, told.number, told.given);
}

/* Makes a buffer and a `told` that no call has written to. */
static inline void begin(void) {
  memset(out, UNTOUCHED, sizeof out);
  memset(&told, UNTOUCHED, sizeof told);
}

/* An answer with more bytes than there was room for is not in the buffer. */
static inline void compare(int line, int32_t status, size_t room, wanted it) {
  size_t written = it.told.len <= room ? it.told.len : 0;
  holds_at(line, status == it.status && same_told(&told, &it.told) && !memcmp(out, it.answer, written) &&
                     is_untouched(out + written, sizeof out - written));
}

#define HOLDS(condition) holds_at(__LINE__, condition)
/* A call to which `out` was passed with this room (0 where it takes none), and what it has to answer. */
#define ROW(room, call, ...) (begin(), compare(__LINE__, call, room, __VA_ARGS__))

#endif
