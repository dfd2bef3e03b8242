/* Measures the stack of each call, with what a thread needs for itself. Then it makes each call once more, on a thread
 * that has no more than its header allows: under that stack is a page that nothing can touch, so a call that takes more
 * ends this program. */
#include <calls.h>
#include <pthread.h>
#include <silkwaram_command.h>
#include <sys/mman.h>

#include "questions.h"

enum { ALLOWED = 128 * 1024, COMMAND_ALLOWED = 160 * 1024, MEASURED = 4 * ALLOWED, GUARD = 4096, LEVELS = 127, ROOM = 256 };

#define PARIS \
  "{\"cells\":[[\"m\",\"en\",5,\"paris\",0,[\"Hello\"]]],\"kind\":\"site\",\"site\":\"paris\",\"version\":2}\n"
#define PARIS_1 "{\"cells\":[[\"m\",\"en\",5,1,0,[\"Hello\"]]],\"kind\":\"site\",\"site\":1,\"version\":1}\n"
#define REVERSED                                                                                              \
  "{\"version\":2,\"site\":\"paris\",\"kind\":\"site\",\"cells\":[[\"m\",\"en-x-a-private-tag\",5,\"paris\",0,[" \
  "\"\\u00e9\"]]]}"
#define SUMMARY "{\"kind\":\"summary\",\"owner\":\"oslo\",\"stamps\":[[\"m\",\"en\",5,\"paris\",0]],\"version\":2}\n"
#define LONG_ID "a-message-id-that-has-more-than-32-bytes"
#define DELTA                                                                                                      \
  "{\"cells\":[[\"" LONG_ID "\",\"nb\",7,\"oslo\",0,[\"x\"]]],\"kind\":\"delta\",\"to\":" \
  "\"paris\",\"version\":2}\n"
#define MAPS "{\"m\":{\"de\":\"Tag\",\"en\":[\"one\",\"two\"],\"fr-x-a-private-tag\":\"Bonjour\"}}"
#define NEW_MAPS "{\"m\":{\"en\":\"Good day\",\"fr-x-a-private-tag\":\"Bonjour\"}}"
#define LONG_FIELD "zh-Hant-CN-x-private1-private2;q=0.8, de-*-DE, *;q=0.1, en_US, en-GB;q=0.7, "

static sw_site site, other;
static sw_rules rules;
static text deep;

static void call_nothing(void) {}

/* Ends the program where a call did not come to its end: its stack would say nothing. */
static void found(int32_t status) {
  if (status != SW_FOUND) exit(4);
}

#define RUNS(name, ...)         \
  static void call_##name(void) { \
    sw_told told;                 \
    __VA_ARGS__;                  \
  }
/* A call that takes no more than `told`, and one that takes a buffer too. */
#define MAKES(name, ...) RUNS(name, found(name(__VA_ARGS__, &told)))
#define ASKS(name, ...) RUNS(name, uint8_t out[ROOM]; found(name(__VA_ARGS__, out, ROOM, &told)))

#define OFFER T("zh-Hant-CN-x-private1-private2;q=0.8, *;q=0.1")
#define TABLE T("zh=de-x-a-private-tag, de=zh-Hans-x-a-private-tag, en-GB=fr, fr=de")
#define BY_BOTH RULES(OFFER, TABLE)
ASKS(sw_pick, SW_LENIENT, BY_BOTH, BYTES(T(LONG_FIELD "en")), BYTES(T("fr\nen-x-a\nEN")), BYTES(T("fr")))
ASKS(sw_filter, SW_LENIENT, BY_BOTH, BYTES(T(LONG_FIELD "en")), BYTES(T("fr\nen-x-a\nEN")))
ASKS(sw_refusal, 18)
ASKS(sw_refusal_code, 18)
ASKS(sw_refusal_text, 18)

MAKES(sw_site_open, BYTES(T(PARIS)), &site)
RUNS(open_version_1, found(sw_site_open(BYTES(T(PARIS_1)), &site, &told)))
RUNS(open_reversed, found(sw_site_open(BYTES(T(REVERSED)), &site, &told)))
MAKES(sw_site_new, BYTES(T("oslo")), &other)

/* (the handle is the only one of its site) */
MAKES(sw_site_put, &site, 9, BYTES(T(LONG_ID)), BYTES(T("zh-Hant-CN-x-private1")), BYTES(T("some text")))
MAKES(sw_site_delete, &site, 9, BYTES(T(LONG_ID)), BYTES(T("zh-Hant-CN-x-private1")))

/* (the handle is not) */
static void call_put_shared(void) {
  sw_told told;
  sw_site share = {0};
  found(sw_site_share(&site, &share));
  found(sw_site_put(&site, 9, BYTES(T("m")), BYTES(T("fr")), BYTES(T("some text")), &told));
  sw_site_free(&share);
}

MAKES(sw_site_import, &site, 9, BYTES(T(MAPS)))
MAKES(sw_site_update, &site, 10, BYTES(T(MAPS)), BYTES(T(NEW_MAPS)))
MAKES(sw_site_take, &site, SW_CHECK_OWN, BYTES(T(DELTA)), 100)
MAKES(sw_site_merge, &site, SW_CHECK_OWN, &other, 100)

ASKS(sw_site_write, &site)
ASKS(sw_site_summary, &site, SW_LABELS)
ASKS(sw_site_status, &site)
ASKS(sw_site_export, &site)
ASKS(sw_site_labels, &site)
ASKS(sw_site_delta, &site, BYTES(T(SUMMARY)))
ASKS(sw_site_missing, &site, BYTES(T("nb")))
ASKS(sw_site_outdated, &site, BYTES(T("fr-x-a-private-tag")), BYTES(T("en")))
ASKS(sw_site_changes, &other, &site)
/* Questions, to the site and to a document where it lies. */
#define LOOKED_UP BY_BOTH, SW_LENIENT, BYTES(T("m")), BYTES(T(LONG_FIELD)), BYTES(T("en"))
#define FILTERED BY_BOTH, SW_EXTENDED | SW_LENIENT, BYTES(T("m")), BYTES(T(LONG_FIELD "en"))
MAKES(sw_rules_new, BYTES(OFFER), BYTES(TABLE), &rules)
ASKS(sw_site_lookup, &site, LOOKED_UP)
ASKS(sw_site_text, &site, LOOKED_UP, 0)
ASKS(sw_site_filter, &site, FILTERED)
ASKS(sw_site_bundle, &site, BY_BOTH, SW_LENIENT, BYTES(T(LONG_FIELD)), BYTES(T("en")))
ASKS(sw_text_lookup, BYTES(T(PARIS)), LOOKED_UP)
ASKS(sw_text_text, BYTES(T(PARIS)), LOOKED_UP, 0)
ASKS(sw_text_filter, BYTES(T(PARIS)), FILTERED)

static void call_sw_site_share(void) {
  sw_site one = {0};
  found(sw_site_share(&site, &one));
  sw_site_free(&one);
}

RUNS(open_deep, sw_site_open(BYTES(deep), &site, &told))
RUNS(take_deep, sw_site_take(&site, 0, BYTES(deep), 0, &told))
RUNS(import_deep, sw_site_import(&site, 9, BYTES(deep), &told))
RUNS(update_deep, sw_site_update(&site, 9, BYTES(T("{}")), BYTES(deep), &told))
RUNS(delta_deep, uint8_t out[ROOM]; sw_site_delta(&site, BYTES(deep), out, ROOM, &told))

static void *runs(void *call) {
  (*(void (**)(void))call)();
  return NULL;
}

/* The bytes of a stack of this size that a thread touches which makes this call alone. */
static size_t touched(void call(void), size_t size) {
  uint8_t *at = mmap(NULL, GUARD + size, PROT_READ | PROT_WRITE, MAP_PRIVATE | MAP_ANONYMOUS, -1, 0);
  if (at == MAP_FAILED || mprotect(at, GUARD, PROT_NONE)) exit(3);
  uint8_t *stack = at + GUARD;
  memset(stack, UNTOUCHED, size);
  pthread_attr_t attributes;
  pthread_t thread;
  if (pthread_attr_init(&attributes) || pthread_attr_setstack(&attributes, stack, size) ||
      pthread_create(&thread, &attributes, runs, &call) || pthread_join(thread, NULL))
    exit(3);
  size_t untouched = 0;
  while (untouched < size && stack[untouched] == UNTOUCHED) untouched++;
  munmap(at, GUARD + size);
  return size - untouched;
}

/* The stack of a call, which is made again on one that has no more than is allowed. */
static size_t stack_of(void call(void), size_t allowed) {
  size_t taken = touched(call, MEASURED);
  if (taken > allowed) {
    fprintf(stderr, "stacks: a call takes %zu bytes, and %zu are allowed\n", taken, allowed);
    exit(5);
  }
  touched(call, allowed);
  return taken;
}

/* A document with a value that is nested this deep: `before`, then each `begin`, a 1, each `end`, then `after`. */
static text nested(const char *before, const char *begin, const char *end, const char *after, unsigned levels) {
  size_t size = strlen(before) + levels * (strlen(begin) + strlen(end)) + 1 + strlen(after) + 1;
  char *made = (char *)block(size);
  strcpy(made, before);
  for (unsigned it = 0; it < levels; it++) strcat(made, begin);
  strcat(made, "1");
  for (unsigned it = 0; it < levels; it++) strcat(made, end);
  strcat(made, after);
  return (text){(uint8_t *)made, strlen(made)};
}

/* Documents with a nested value, of each kind and at each place where one may be. */
static const struct {
  void (*call)(void);
  const char *before, *begin, *end, *after;
} DEEP[] = {
#define SITE ",\"kind\":\"site\",\"site\":\"paris\",\"version\":2}"
#define TO_PARIS ",\"kind\":\"delta\",\"to\":\"paris\",\"version\":2}"
#define OF_OSLO ",\"kind\":\"summary\",\"owner\":\"oslo\",\"version\":2}"
    {call_open_deep, "{\"cells\":[", "[", "]", "]" SITE},
    {call_open_deep, "{\"cells\":[", "{\"a\":", "}", "]" SITE},
    {call_open_deep, "{\"cells\":[[\"m\",\"en\",5,\"paris\",0,", "[", "]", "]]" SITE},
    {call_open_deep, "{\"a\":", "[", "]", ",\"cells\":[]" SITE},
    {call_open_deep, "{\"a\":", "{\"a\":1,\"b\":", "}", ",\"cells\":[]" SITE},
    {call_open_deep, "", "[", "]", ""},
    {call_open_deep, "", "{\"a\":", "}", ""},
    {call_take_deep, "{\"cells\":[", "[", "]", "]" TO_PARIS},
    {call_take_deep, "{\"cells\":[[\"m\",\"en\",5,\"paris\",0,", "{\"a\":", "}", "]]" TO_PARIS},
    {call_take_deep, "{\"a\":", "{\"a\":1,\"b\":", "}", ",\"cells\":[]" TO_PARIS},
    {call_delta_deep, "{\"stamps\":[", "[", "]", "]" OF_OSLO},
    {call_delta_deep, "{\"a\":", "{\"a\":1,\"b\":", "}", ",\"stamps\":[]" OF_OSLO},
    {call_import_deep, "{\"m\":{\"en\":", "[", "]", "}}"},
    {call_import_deep, "{\"m\":{\"en\":", "{\"a\":", "}", "}}"},
    {call_import_deep, "{\"m\":", "{\"a\":1,\"b\":", "}", "}"},
    {call_import_deep, "", "{\"a\":", "}", ""},
    {call_update_deep, "{\"m\":{\"en\":", "{\"a\":", "}", "}}"},
    {call_update_deep, "", "{\"a\":1,\"b\":", "}", ""},
};

static const char *line[2];
static text input;

static void command(void) {
  uint8_t out[ROOM];
  sw_text words[2];
  sw_command_told told;
  size_t count = 0;
  for (; count < 2 && line[count]; count++) words[count] = (sw_text){(const uint8_t *)line[count], strlen(line[count])};
  sw_command(words, count, BYTES(input), out, ROOM, out, 0, &told);
}

/* The command line that reads such a document, and what comes before it in its input. */
static const struct {
  void (*call)(void);
  const char *line[2], *before;
} LINES[] = {
    {call_open_deep, {"status"}, ""},      {call_open_deep, {"replay"}, ""},         {call_take_deep, {"take"}, PARIS},
    {call_delta_deep, {"delta"}, PARIS},   {call_import_deep, {"import", "--now=9"}, PARIS},
    {call_update_deep, {"update", "--now=9"}, PARIS "{}\n"}, {call_nothing, {"help", "put"}, ""},
    {call_nothing, {"pick"}, ""},
};

/* The stack of the command line that takes the most, over this document and where that is none. */
static size_t of_command_lines(void call(void)) {
  size_t deepest = 0;
  for (size_t it = 0; it < sizeof LINES / sizeof *LINES; it++) {
    if (LINES[it].call != call && LINES[it].call != call_nothing) continue;
    size_t before = strlen(LINES[it].before);
    input = (text){block(before + deep.len), before + deep.len};
    memcpy(input.bytes, LINES[it].before, before);
    if (deep.len) memcpy(input.bytes + before, deep.bytes, deep.len);
    memcpy(line, LINES[it].line, sizeof line);
    size_t taken = stack_of(command, COMMAND_ALLOWED);
    if (taken > deepest) deepest = taken;
    free(input.bytes);
  }
  return deepest;
}

static size_t most_of_command;

/* The stack of the document that takes the most: one that is nested as deep as is read, or nearly. */
static size_t of_deep_documents(void) {
  size_t deepest = 0;
  for (size_t it = 0; it < sizeof DEEP / sizeof *DEEP; it++)
    for (unsigned levels = LEVELS - 4; levels <= LEVELS + 1; levels++) {
      deep = nested(DEEP[it].before, DEEP[it].begin, DEEP[it].end, DEEP[it].after, levels);
      size_t taken = stack_of(DEEP[it].call, ALLOWED), of_lines = of_command_lines(DEEP[it].call);
      if (taken > deepest) deepest = taken;
      if (of_lines > most_of_command) most_of_command = of_lines;
      free(deep.bytes);
    }
  return deepest;
}

#define ROW(name) {#name, call_##name},
static const struct {
  const char *name;
  void (*call)(void);
} CALLS[] = {ROW(nothing) EACH_CALL(ROW) ROW(open_version_1) ROW(open_reversed) ROW(put_shared)};

int main(void) {
  printf("stacks:");
  for (size_t it = 0; it < sizeof CALLS / sizeof *CALLS; it++)
    printf(" %s %zu,", CALLS[it].name, stack_of(CALLS[it].call, ALLOWED));
  printf(" the deepest documents %zu,", of_deep_documents());
  printf(" sw_command %zu; the headers allow %d and %d bytes\n", most_of_command, ALLOWED, COMMAND_ALLOWED);
  sw_site_free(&site);
  sw_site_free(&other);
  return 0;
}
