/* Answers the questions of standard input by the library, a line each: the name of a call, its flags, three texts as
 * digits base 16 ("-" where one has no bytes), a place, and two more for the offer and the table of fallbacks. It
 * prints the status, the fields of `told`, and the answer.
 *
 * Each is asked with no room, with room that is too small by one byte, and with just the room that is needed. All three
 * have to tell the same, and the first two must leave the buffer alone. */
#include "questions.h"

enum { WORDS = 9 };

static sw_site site;

static unsigned digit(char letter) { return (unsigned)(letter <= '9' ? letter - '0' : letter - 'a' + 10); }

static text text_of(const char *digits) {
  text made = {NULL, strcmp(digits, "-") ? strlen(digits) / 2 : 0};
  made.bytes = block(made.len);
  for (size_t at = 0; at < made.len; at++)
    made.bytes[at] = (uint8_t)(16 * digit(digits[2 * at]) + digit(digits[2 * at + 1]));
  return made;
}

/* The call that the words name, with this room for its answer. */
static int32_t ask(char **words, uint8_t *out, size_t room, sw_told *told) {
  const char *call = words[0];
  uint32_t flags = (uint32_t)strtoul(words[1], NULL, 10);
  size_t place = strtoul(words[5], NULL, 10);
  text one = text_of(words[2]), two = text_of(words[3]), three = text_of(words[4]);
  text offer = text_of(words[6]), table = text_of(words[7]);
  const sw_rules *rules = RULES(offer, table);
  int32_t status = -1;
  if (!strcmp(call, "open"))
    status = sw_site_open(BYTES(one), &site, told);
  else if (!strcmp(call, "pick"))
    status = sw_pick(flags, rules, BYTES(one), BYTES(two), BYTES(three), out, room, told);
  else if (!strcmp(call, "lookup"))
    status = sw_site_lookup(&site, rules, flags, BYTES(one), BYTES(two), BYTES(three), out, room, told);
  else if (!strcmp(call, "text"))
    status = sw_site_text(&site, rules, flags, BYTES(one), BYTES(two), BYTES(three), place, out, room, told);
  else if (!strcmp(call, "filter"))
    status = sw_site_filter(&site, rules, flags, BYTES(one), BYTES(two), out, room, told);
  else if (!strcmp(call, "bundle"))
    status = sw_site_bundle(&site, rules, flags, BYTES(one), BYTES(two), out, room, told);
  free(one.bytes);
  free(two.bytes);
  free(three.bytes);
  free(offer.bytes);
  free(table.bytes);
  return status;
}

/* Asks with this room. Returns whether the status and what is told are those that are wanted, and whether the buffer is
 * left alone. */
static int leaves_alone(char **words, size_t room, int32_t wanted, const sw_told *wanted_told) {
  sw_told told;
  memset(&told, UNTOUCHED, sizeof told);
  uint8_t *out = block(room);
  int32_t status = ask(words, out, room, &told);
  int is_well = status == wanted && same_told(&told, wanted_told) && is_untouched(out, room);
  free(out);
  return is_well;
}

static void answer(char **words) {
  sw_told first;
  memset(&first, UNTOUCHED, sizeof first);
  int32_t status = ask(words, NULL, 0, &first);
  if (first.len > 0 && !leaves_alone(words, first.len - 1, status, &first)) status = -2;

  sw_told told;
  memset(&told, UNTOUCHED, sizeof told);
  size_t after = 3;
  uint8_t *out = block(first.len + after);
  if (ask(words, out, first.len + after, &told) != status || !same_told(&first, &told)) status = -3;
  if (!is_untouched(out + told.len, after)) status = -4;
  printf("%d %u %u %zu %zu %zu ", status, told.number, told.given, told.offset, told.row, told.count);
  for (size_t at = 0; at < told.len; at++) printf("%02x", out[at]);
  printf("\n");
  free(out);
}

int main(void) {
  char *line = NULL;
  size_t room = 0;
  while (getline(&line, &room, stdin) > 0) {
    char *words[WORDS] = {"", "0", "-", "-", "-", "0", "-", "-", NULL}, *rest = line;
    for (int at = 0; at < WORDS - 1; at++) {
      char *word = strtok_r(rest, " \n", &rest);
      if (word) words[at] = word;
    }
    answer(words);
  }
  free(line);
  sw_site_free(&site);
  return 0;
}
