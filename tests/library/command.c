/* Asks sw_command each question that it reads, and writes its answers (commands.py has the form of both). Each is asked
 * without an input and without room, with its input, with a byte of room too few, and with just the room that it
 * needs: status, lengths and buffers have to be as the header says, or the program ends with 1. */
#include <inttypes.h>
#include <silkwaram_command.h>
#include <stdio.h>
#include <stdlib.h>
#include <string.h>

enum { UNTOUCHED = 0xA5 };

typedef struct {
  uint8_t *bytes;
  size_t len;
} room;

typedef struct {
  int32_t status;
  sw_command_told told;
} answer;

/* A block of just this size, so that valgrind sees a byte too many; none for no bytes. */
static room with_room(size_t len) {
  room made = {len ? malloc(len) : NULL, len};
  if (len && !made.bytes) exit(3);
  if (len) memset(made.bytes, UNTOUCHED, len);
  return made;
}

static int is_untouched(room it) {
  for (size_t at = 0; at < it.len; at++)
    if (it.bytes[at] != UNTOUCHED) return 0;
  return 1;
}

static int reads(void *to, size_t len) { return fread(to, 1, len, stdin) == len; }

static room text_of(size_t len) {
  room it = with_room(len);
  if (len && !reads(it.bytes, len)) exit(3);
  return it;
}

/* The question that is read: its words, each in a block of its own, and its input. */
static sw_text *words;
static uint32_t count;
static room input;

static int next_question(void) {
  uint32_t len;
  uint64_t size;
  if (!reads(&count, sizeof count)) return 0;
  words = count ? calloc(count, sizeof *words) : NULL;
  for (uint32_t at = 0; at < count; at++) {
    if (!reads(&len, sizeof len)) exit(3);
    room word = text_of(len);
    words[at] = (sw_text){word.bytes, word.len};
  }
  if (!reads(&size, sizeof size)) exit(3);
  input = text_of(size);
  return 1;
}

static void end_question(void) {
  for (uint32_t at = 0; at < count; at++) free((void *)words[at].text);
  free(words);
  free(input.bytes);
}

static answer asked(room given, room out, room err) {
  answer it;
  memset(&it, UNTOUCHED, sizeof it);
  it.status = sw_command(words, count, given.bytes, given.len, out.bytes, out.len, err.bytes, err.len, &it.told);
  return it;
}

static int same(answer one, answer other) {
  return one.status == other.status && one.told.out_len == other.told.out_len &&
         one.told.err_len == other.told.err_len && one.told.input_read == other.told.input_read;
}

static void writes(uint64_t len, const uint8_t *bytes) {
  fwrite(&len, sizeof len, 1, stdout);
  if (len) fwrite(bytes, 1, len, stdout);
}

/* Whether a byte of room too few in one buffer leaves just that one as it was. */
static int leaves_alone(answer it, room whole_out, room whole_err, size_t less_out, size_t less_err) {
  room out = with_room(whole_out.len - less_out), err = with_room(whole_err.len - less_err);
  int is_well = same(it, asked(input, out, err)) &&
                (less_out ? is_untouched(out) : !out.len || !memcmp(out.bytes, whole_out.bytes, out.len)) &&
                (less_err ? is_untouched(err) : !err.len || !memcmp(err.bytes, whole_err.bytes, err.len));
  free(out.bytes);
  free(err.bytes);
  return is_well;
}

/* Whether the answer is the same however it is asked for; it is written. */
static int answers_alike(void) {
  static const room nothing = {NULL, 0};
  answer unread = asked(nothing, nothing, nothing), it = asked(input, nothing, nothing);
  room out = with_room(it.told.out_len), err = with_room(it.told.err_len);
  int is_well = same(it, asked(input, out, err)) && unread.told.input_read == it.told.input_read &&
                it.told.input_read <= 1 && (it.told.input_read || same(unread, it));
  if (out.len) is_well &= leaves_alone(it, out, err, 1, 0);
  if (err.len) is_well &= leaves_alone(it, out, err, 0, 1);
  fwrite(&it.status, sizeof it.status, 1, stdout);
  fwrite(&it.told.input_read, sizeof it.told.input_read, 1, stdout);
  writes(out.len, out.bytes);
  writes(err.len, err.bytes);
  free(out.bytes);
  free(err.bytes);
  return is_well;
}

int main(void) {
  unsigned questions = 0, faults = 0;
  while (next_question()) {
    questions++;
    if (!answers_alike()) {
      faults++;
      fprintf(stderr, "command: question %u: another answer to another room or input\n", questions);
    }
    end_question();
  }
  return faults > 0;
}
