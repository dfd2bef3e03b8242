/* Refuses each allocation of sw_command in turn, alone and with all that come after it, for some lines of each command.
 * It has to answer as with ample memory, or with status 5, nothing in `out` and the line of refusal 26 in `err`; and a
 * repeat has to answer. */
#include <silkwaram_command.h>
#include <stdio.h>
#include <string.h>

#include "refusing.h"

enum { WORDS = 10, ROOM = 4096, UNTOUCHED = 0xA5 };

#define ONE                                                                                                          \
  "{\"cells\":[[\"m\",\"en\",5,\"paris\",0,[\"a\"]],[\"n\",\"de\",6,\"paris\",0,[\"b\",\"c\"]]],\"kind\":\"site\"," \
  "\"site\":\"paris\",\"version\":2}\n"
#define TWO "{\"cells\":[[\"m\",\"en\",7,\"rome\",0,null]],\"kind\":\"site\",\"site\":\"oslo\",\"version\":2}\n"
#define SUMMARY "{\"kind\":\"summary\",\"owner\":\"oslo\",\"stamps\":[[\"m\",\"en\",5,\"paris\",0]],\"version\":2}\n"
#define DELTA "{\"cells\":[[\"m\",\"fr\",8,\"rome\",0,[\"d\"]]],\"kind\":\"delta\",\"to\":\"paris\",\"version\":2}\n"
#define MAPS "{\"m\":{\"EN\":\"a\",\"fr\":[\"b\",null]},\"o\":{\"@none\":\"c\"}}\n"
#define SCRIPT                                                                                                        \
  "{\"kind\":\"script\",\"sites\":2,\"steps\":[[\"tell\",1],[\"edit\",0,[\"m\",\"en\",5,\"a\",0,[\"x\"]]],[\"post\"," \
  "0,0],[\"deliver\",0],[\"cells\",1],[\"lookup\",1,\"m\",\"en-GB\",null]],\"version\":2}\n"

static const struct {
  const char *words[WORDS], *input;
} LINES[] = {
    {{"pick", "de-CH, en;q=0.5", "en", "de"}, ""},
    {{"pick", "--lenient", "--default", "en", "de_CH, fr;q=0.5", "en", "de"}, ""},
    {{"pick", "--widen", "--default", "en", "de-CH, en;q=0.5", "en-US", "de-AT"}, ""},
    {{"pick", "--all", "de, en;q=0.5", "en-US", "de-AT"}, ""},
    {{"pick", "en", "e"}, ""},
    {{"explain", "9"}, ""},
    {{"explain", "32"}, ""},
    {{"new", "--site", "paris"}, ""},
    {{"--version"}, ""},
    {{"help", "sync"}, ""},
    {{"sink"}, ""},
    {{"pick", "en", "\xff"}, ""},
    {{NULL}, ""},
    {{"put", "--now", "9", "--id", "m", "--lang", "fr", "a", "b"}, ONE},
    {{"put", "--now", "9", "--id", "@m", "--lang", "fr", "a"}, ONE},
    {{"delete", "--now", "9", "--id", "m", "--lang", "en"}, ONE},
    {{"import", "--now", "9"}, ONE MAPS},
    {{"update", "--now", "9"}, ONE "{\"m\":{\"en\":\"a\"}}\n" MAPS},
    {{"export"}, ONE},
    {{"filter", "--id", "m", "fr;q=0.5, en"}, ONE},
    {{"lookup", "--id", "m", "--widen", "--default", "en", "de"}, ONE},
    {{"bundle", "--lenient", "--default", "en", "de, fr_CA"}, ONE},
    {{"missing", "--lang", "de"}, ONE},
    {{"outdated", "--lang", "de", "--source", "en"}, ONE},
    {{"changes"}, ONE TWO},
    {{"summary"}, ONE},
    {{"summary", "--labels"}, ONE},
    {{"delta"}, ONE SUMMARY},
    {{"take", "--not-after", "8"}, ONE DELTA},
    {{"take", "--not-after", "7"}, ONE DELTA},
    {{"take", "--check-own"}, ONE DELTA},
    {{"sync"}, ONE TWO},
    {{"sync", "--check-own"}, ONE TWO},
    {{"merge"}, ONE TWO ONE},
    {{"merge", "--check-own"}, ONE TWO},
    {{"merge", "--not-after", "7"}, ONE TWO},
    {{"merge", "--not-after", "6"}, ONE TWO},
    {{"status"}, ONE},
    {{"status"}, "{"},
    {{"replay"}, SCRIPT},
};

static unsigned long all;

typedef struct {
  int32_t status;
  sw_command_told told;
  uint8_t out[ROOM], err[ROOM];
} answer;

/* What a line answers with the allocations from the n-th on refused, up to the last-th. */
static void ask(size_t line, answer *it, unsigned long n, unsigned long last) {
  sw_text words[WORDS];
  size_t count = 0;
  for (; count < WORDS && LINES[line].words[count]; count++)
    words[count] = (sw_text){(const uint8_t *)LINES[line].words[count], strlen(LINES[line].words[count])};
  memset(it, UNTOUCHED, sizeof *it);
  memset(&it->told, 0, sizeof it->told);
  refuse(n, last);
  it->status = sw_command(words, count, (const uint8_t *)LINES[line].input, strlen(LINES[line].input), it->out, ROOM,
                          it->err, ROOM, &it->told);
  refuse_none();
}

static int same(const answer *one, const answer *other) {
  return one->status == other->status && one->told.out_len == other->told.out_len &&
         one->told.err_len == other->told.err_len && one->told.input_read == other->told.input_read &&
         !memcmp(one->out, other->out, ROOM) && !memcmp(one->err, other->err, ROOM);
}

/* Whether memory ended: nothing in `out`, and just the line in `err`. */
static int is_out_of_memory(const answer *it) {
  static const char said[] = "refused 26: out of memory\n";
  size_t len = sizeof said - 1;
  for (size_t at = 0; at < ROOM; at++)
    if (it->out[at] != UNTOUCHED || (at >= len && it->err[at] != UNTOUCHED)) return 0;
  return it->status == 5 && !it->told.out_len && it->told.err_len == len && !memcmp(it->err, said, len);
}

/* How many answers of a line were wrong. */
static unsigned refuse_each(size_t line) {
  static answer ample, it;
  unsigned wrong = 0, ended = 0;
  ask(line, &ample, ULONG_MAX, 0);
  unsigned long there_are = allocations;
  all += there_are;
  for (unsigned long n = 1; n <= there_are; n++)
    for (int alone = 0; alone <= 1; alone++) {
      ask(line, &it, n, alone ? n : ULONG_MAX);
      ended += is_out_of_memory(&it);
      wrong += !same(&it, &ample) && !is_out_of_memory(&it);
      ask(line, &it, ULONG_MAX, 0);
      wrong += !same(&it, &ample);
    }
  /* (a line that goes on without any of its memory says nothing of the others) */
  if (there_are && !ended) wrong++;
  if (wrong || ample.told.out_len > ROOM || ample.told.err_len > ROOM)
    fprintf(stderr, "refused_command: line %zu: %u answers of %lu allocations\n", line, wrong, there_are);
  return wrong;
}

int main(void) {
  unsigned wrong = 0;
  size_t lines = sizeof LINES / sizeof *LINES;
  for (size_t line = 0; line < lines; line++) wrong += refuse_each(line);
  printf("refused_command: %zu command lines, %lu allocations, each refused alone and with all after it\n", lines, all);
  return wrong > 0;
}
