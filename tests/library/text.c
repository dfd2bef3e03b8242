/* Asks documents where they lie (sw_text_lookup, sw_text_text, sw_text_filter).
 *
 * usage: text ask SEED SITES QUESTIONS    of each of so many generated sites so many questions: the answers have to be
 *                                         those of the site that its document opens, with its last LF and without
 *        text mutate SEED COUNT           so many mutated documents: each question ends in an answer, the same wherever
 *                                         the bytes lie; that of the site, where they are still what is written for one
 *        text expect FILE                 documents and questions of a file, which has the answers (rewritten.py)
 *
 * A document lies before a page that nothing may touch, or just behind one, so a byte that is read outside of it ends
 * this program. */
#include <sys/mman.h>
#include <unistd.h>

#include "generated.h"

enum { PAGE = 4096, ARENA = 1 << 23, AFTER = 3, MOST_FAULTS = 10, SECONDS = 120, A_SITE_LASTS = 40 };

/* Whom a question is asked: a site, or a text where there is none. */
typedef struct {
  sw_site *site;
  text document;
} source;

/* What was answered, in a block of just its size and a few bytes more. */
typedef struct {
  int32_t status;
  sw_told told;
  uint8_t *out;
} answer;

static uint8_t *arenas[2];
static generated made;
static question asked;
static unsigned long turn, questions, faults, answered[SW_REFUSED + 1];

static uint8_t *new_arena(void) {
  uint8_t *at = mmap(NULL, PAGE + ARENA + PAGE, PROT_NONE, MAP_PRIVATE | MAP_ANONYMOUS, -1, 0);
  if (at == MAP_FAILED || mprotect(at + PAGE, ARENA, PROT_READ | PROT_WRITE)) exit(3);
  return at + PAGE;
}

/* The text before the page behind an arena. */
static text at_the_end(uint8_t *arena, text it) {
  if (it.len > ARENA) exit(3);
  uint8_t *at = arena + ARENA - it.len;
  memmove(at, BYTES(it));
  return (text){at, it.len};
}

/* The text behind the page before an arena. */
static text at_the_beginning(uint8_t *arena, text it) {
  if (it.len > ARENA) exit(3);
  memmove(arena, BYTES(it));
  return (text){arena, it.len};
}

static void wrong(const char *what, const answer *it) {
  if (faults++ >= MOST_FAULTS) return;
  fprintf(stderr, "text: %s: turn %lu call %d flags %u id ", what, turn, (int)asked.call, asked.flags);
  for (size_t at = 0; at < asked.id.len; at++) fprintf(stderr, "%02x", asked.id.bytes[at]);
  fprintf(stderr, " field %.60s default %.*s place %zu: status %d number %u len %zu\n",
          asked.field.len ? (char *)asked.field.bytes : "", (int)asked.dflt.len, (char *)asked.dflt.bytes, asked.place,
          it->status, it->told.number, it->told.len);
}

#define SITE_OR_TEXT(name, ...)                                                 \
  (of->site ? sw_site_##name(of->site, NULL, asked.flags, __VA_ARGS__, told) \
            : sw_text_##name(BYTES(of->document), NULL, asked.flags, __VA_ARGS__, told))

static int32_t ask_once(const source *of, uint8_t *out, size_t room, sw_told *told) {
  memset(told, UNTOUCHED, sizeof *told);
  if (asked.call == LOOKUP)
    return SITE_OR_TEXT(lookup, BYTES(asked.id), BYTES(asked.field), BYTES(asked.dflt), out, room);
  if (asked.call == TEXT)
    return SITE_OR_TEXT(text, BYTES(asked.id), BYTES(asked.field), BYTES(asked.dflt), asked.place, out, room);
  return SITE_OR_TEXT(filter, BYTES(asked.id), BYTES(asked.field), out, room);
}

static int same(const answer *one, const answer *other) {
  return one->status == other->status && same_told(&one->told, &other->told) &&
         !memcmp(one->out, other->out, one->told.len + AFTER);
}

/* Asks without room, with a byte too few, and with some more than is needed. */
static answer ask(const source *of) {
  answer it, small;
  it.status = ask_once(of, NULL, 0, &it.told);
  size_t len = it.told.len;
  it.out = block(len + AFTER);
  small.status = len ? ask_once(of, it.out, len - 1, &small.told) : it.status;
  if (!is_untouched(it.out, len + AFTER) || small.status != it.status) wrong("a room that is too small", &it);
  small.status = ask_once(of, it.out, len + AFTER, &small.told);
  if (small.status != it.status || !same_told(&small.told, &it.told)) wrong("another answer with room", &it);
  if (!is_untouched(it.out + len, AFTER)) wrong("bytes behind the answer", &it);
  if (it.status < 0 || it.status > SW_REFUSED)
    wrong("no answer", &it);
  else
    answered[it.status]++;
  return it;
}

/* Asks a source, which has to give this answer. */
static void expect(const answer *wanted, const source *of, const char *what) {
  answer got = ask(of);
  questions++;
  if (!same(wanted, &got)) {
    wrong(what, wanted);
    wrong("which is", &got);
  }
  free(got.out);
}

static void ask_site(unsigned long count) {
  static uint8_t room[ARENA];
  static sw_site opened;
  sw_told told;
  alarm(SECONDS);
  make(&made);
  text document = written(&made.site, room, sizeof room), without = {document.bytes, document.len - 1};
  if (sw_site_open(BYTES(document), &opened, &told)) exit(3);
  source site = {&opened, NO_TEXT}, whole = {NULL, at_the_end(arenas[0], document)},
         most = {NULL, at_the_end(arenas[1], without)};
  for (; count > 0; count--) {
    ask_about(&asked, &made);
    answer wanted = ask(&site);
    expect(&wanted, &whole, "another answer than the site's");
    expect(&wanted, &most, "another answer without the last LF");
    free(wanted.out);
  }
  sw_site_free(&opened);
  sw_site_free(&made.site);
}

/* Opens the bytes, where they are just what is written for a site. */
static int is_written(text document, sw_site *site) {
  static uint8_t again[ARENA];
  sw_told told;
  if (sw_site_open(BYTES(document), site, &told)) return 0;
  int is_it = !sw_site_write(site, again, sizeof again, &told) && told.len == document.len &&
              !memcmp(again, document.bytes, told.len);
  if (!is_it) sw_site_free(site);
  return is_it;
}

/* Asks a mutated document, at both places. */
static void ask_mutated(const growing *document) {
  sw_site site = {0};
  text bytes = {BYTES(*document)};
  ask_about(&asked, &made);
  asked.flags &= asked.call == FILTER ? SW_EXTENDED | SW_LENIENT : SW_EXTENDED | SW_LENIENT | SW_WIDEN;
  source last = {NULL, at_the_end(arenas[0], bytes)}, front = {NULL, at_the_beginning(arenas[1], bytes)};
  answer first = ask(&last);
  expect(&first, &front, "another answer elsewhere");
  if (is_written(bytes, &site)) {
    source of = {&site, NO_TEXT};
    expect(&first, &of, "another answer than the site's");
  }
  sw_site_free(&site);
  free(first.out);
}

static void mutate_all(unsigned long count) {
  static uint8_t held[ARENA], room[ARENA];
  text document = NO_TEXT;
  for (; turn < count; turn++) {
    if (turn % A_SITE_LASTS == 0) {
      sw_site_free(&made.site);
      make(&made);
      document = written(&made.site, held, sizeof held);
    }
    growing it = {room, 0, sizeof room / 2};
    add(&it, document);
    mutate(&it);
    alarm(SECONDS);
    ask_mutated(&it);
  }
  sw_site_free(&made.site);
}

static int reports(void) {
  printf("text: %lu questions, answers: %lu found, %lu nothing, %lu usage, %lu refused; %lu wrong\n", questions,
         answered[SW_FOUND], answered[SW_NOTHING], answered[SW_USAGE], answered[SW_REFUSED], faults);
  return faults != 0;
}

/* The next text of a file: its length in four bytes, the least one first, and its bytes. */
static text taken(text *left) {
  if (left->len < 4) exit(3);
  size_t len = 0;
  for (int at = 3; at >= 0; at--) len = len << 8 | left->bytes[at];
  if (left->len - 4 < len) exit(3);
  text it = {left->bytes + 4, len};
  *left = (text){left->bytes + 4 + len, left->len - 4 - len};
  return it;
}

/* Asks a document the next question of a file, after its call and the status that is wanted. */
static void expect_taken(text head, text *left, text document) {
  const char *call = memchr("ltf", head.bytes[0], 3);
  if (!call || head.len != 2) exit(3);
  asked.call = (enum call)(LOOKUP + (call - "ltf"));
  asked.id = taken(left);
  asked.field = taken(left);
  text wanted = taken(left);
  source of = {NULL, document};
  answer got = ask(&of);
  questions++;
  if (got.status != head.bytes[1] - '0' || got.told.len != wanted.len || memcmp(got.out, BYTES(wanted)))
    wrong("another answer than its labels have", &got);
  free(got.out);
}

/* Asks what a file has: a document, then questions to it, then the next one. */
static void expect_all(text left) {
  text document = NO_TEXT;
  while (left.len) {
    text head = taken(&left);
    if (head.len == 1) {
      alarm(SECONDS);
      document = at_the_end(arenas[0], taken(&left));
      turn++;
    } else {
      expect_taken(head, &left, document);
    }
  }
}

int main(int count, char **words) {
  if (count < 3) return 2;
  for (int at = 0; at < 2; at++) arenas[at] = new_arena();
  if (!strcmp(words[1], "expect")) {
    expect_all(file(words[2]));
    return reports();
  }
  if (count < 4) return 2;
  seed = strtoul(words[2], NULL, 10);
  unsigned long many = strtoul(words[3], NULL, 10);
  if (!strcmp(words[1], "ask") && count == 5)
    for (; turn < many; turn++) ask_site(strtoul(words[4], NULL, 10));
  else if (!strcmp(words[1], "mutate") && count == 4)
    mutate_all(many);
  else
    return 2;
  return reports();
}
