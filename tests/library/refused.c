/* Refuses each allocation of each call in turn, alone and with all that come after it. A call has to end as with ample
 * memory, or with status 5 and 26, nothing written and its handles as they were; a take or a merge in place may leave
 * each cell as it was or as it was to be. A repeat then makes the whole. A share that was taken before keeps what it
 * held. */
#include "questions.h"
#include "refusing.h"
#include <calls.h>

#define PARIS                                                                                                        \
  "{\"cells\":[[\"m\",\"en\",6,\"paris\",0,[\"Hello\",\"Hi\"]],[\"m\",\"zh-hant-cn-x-private1-private2\",5,\"paris\"," \
  "1,[\"a\"]],[\"n\",\"de\",5,\"paris\",2,[\"b\"]]],\"kind\":\"site\",\"site\":\"paris\",\"version\":2}\n"
#define OSLO                                                                                                     \
  "{\"cells\":[[\"" LONG_ID "\",\"nb\",7,\"oslo\",0,[\"x\"]],[\"m\",\"en\",8,\"oslo\",0,[\"Good day\"]]],\"kind\":" \
  "\"site\",\"site\":\"oslo\",\"version\":2}\n"
#define LONG_TAG "zh-Hant-CN-x-private1-private2"
#define LONG_ID "a-message-id-that-has-more-than-32-bytes"
#define DELTA                                                                                                    \
  "{\"cells\":[[\"" LONG_ID "\",\"nb\",7,\"oslo\",0,[\"x\"]],[\"m\",\"en\",8,\"oslo\",0,[\"Good day\"]]],\"kind\":" \
  "\"delta\",\"to\":\"paris\",\"version\":2}\n"
#define SUMMARY "{\"kind\":\"summary\",\"owner\":\"oslo\",\"stamps\":[[\"m\",\"en\",5,\"paris\",0]],\"version\":2}\n"
#define MAPS "{\"" LONG_ID "\":{\"nb\":\"x\"},\"m\":{\"en\":[\"one\",\"two\"],\"fr\":\"Bonjour\"}}"

enum { ROOM = 1024 };

static unsigned long all_allocations;

/* A site, a share of it, another site twice, and what a call ended with. `given` is what sw_site_share writes to, and
 * `rules` what sw_rules_new does. */
typedef struct {
  sw_site site, share, other, given;
  sw_rules rules;
  int32_t status;
  sw_told told;
  uint8_t out[ROOM];
} trial;

/* A document, as sw_site_write has it. */
typedef struct {
  uint8_t bytes[ROOM];
  size_t len;
} document;

typedef void act(trial *);

/* Whether a call leaves the site, changes it, joins cells to it, in part where memory ends, or takes no memory. */
enum kind { ASKS, EDITS, JOINS, FIXED };

typedef struct {
  const char *name;
  act *call;
  enum kind kind;
} refusable;

#define CASE(name, kind, ...)                                       \
  static void name##_acts(trial *it) { it->status = __VA_ARGS__; } \
  static const refusable name##_case = {#name, name##_acts, kind};
#define ACT(name, kind, ...) CASE(name, kind, name(__VA_ARGS__))
/* Rules of questions. */
#define OFFER T("*;q=0.5, " LONG_TAG)
#define TABLE T("da=zh-Hans-CN-x-private3, zh-Hans=" LONG_TAG ", en=de")
#define BOTH RULES(OFFER, TABLE)
/* Where a call reports that has no answer, and one that has. */
#define TOLD &it->told
#define ANSWER it->out, ROOM, TOLD

ACT(sw_site_new, EDITS, BYTES(T("lyon")), &it->site, TOLD)
CASE(puts_long, EDITS, sw_site_put(&it->site, 9, BYTES(T(LONG_ID)), BYTES(T(LONG_TAG)), BYTES(T("some text")), TOLD))
ACT(sw_site_put, EDITS, &it->site, 9, BYTES(T("m")), BYTES(T("en")), BYTES(T("Good day")), TOLD)
ACT(sw_site_delete, EDITS, &it->site, 9, BYTES(T(LONG_ID)), BYTES(T("en")), TOLD)
ACT(sw_site_import, EDITS, &it->site, 9, BYTES(T(MAPS)), TOLD)
ACT(sw_site_update, EDITS, &it->site, 9, BYTES(T("{\"m\":{\"en\":[\"Hello\",\"Hi\"]}}")), BYTES(T(MAPS)), TOLD)
ACT(sw_site_take, JOINS, &it->site, SW_CHECK_OWN, BYTES(T(DELTA)), 100, TOLD)
ACT(sw_site_merge, JOINS, &it->site, SW_CHECK_OWN, &it->other, 100, TOLD)
ACT(sw_site_write, ASKS, &it->site, ANSWER)
ACT(sw_site_export, ASKS, &it->site, ANSWER)
ACT(sw_site_labels, ASKS, &it->site, ANSWER)
ACT(sw_site_summary, ASKS, &it->site, SW_LABELS, ANSWER)
ACT(sw_site_status, ASKS, &it->site, ANSWER)
ACT(sw_site_missing, ASKS, &it->site, BYTES(T("fr")), ANSWER)
ACT(sw_site_outdated, ASKS, &it->site, BYTES(T(LONG_TAG)), BYTES(T("en")), ANSWER)
ACT(sw_site_delta, ASKS, &it->site, BYTES(T(SUMMARY)), ANSWER)
ACT(sw_site_changes, ASKS, &it->site, &it->other, ANSWER)
ACT(sw_filter, ASKS, 0, OFFERS(OFFER), BYTES(T("da, " LONG_TAG ";q=0.8")), BYTES(T("da\n" LONG_TAG "-more\n")), ANSWER)
ACT(sw_refusal, FIXED, 18, ANSWER)
ACT(sw_refusal_code, FIXED, 18, ANSWER)
ACT(sw_refusal_text, FIXED, 18, ANSWER)
ACT(sw_pick, ASKS, 0, BOTH, BYTES(T("da, " LONG_TAG ";q=0.8")), BYTES(T("en\n" LONG_TAG)), BYTES(T(LONG_TAG)), ANSWER)
CASE(widens, ASKS, sw_pick(SW_WIDEN, NULL, BYTES(T("de, zh")), BYTES(T("en\n" LONG_TAG)), BYTES(T("en")), ANSWER))
ACT(sw_site_open, EDITS, BYTES(T(OSLO)), &it->site, TOLD)

/* A handle that is not open stays so. (No status is -1.) */
static void opens_first(trial *it) {
  sw_site first = {0};
  it->status = sw_site_open(BYTES(T(OSLO)), &first, &it->told);
  if (!first.held != (it->status != SW_FOUND)) it->status = -1;
  sw_site_free(&first);
}

/* (it reports nothing but its status) */
static void shares(trial *it) {
  it->status = sw_site_share(&it->site, &it->given);
  it->told.number = it->status == SW_NO_MEMORY ? 26 : 0;
}

/* Questions about the message `m`, to the site and to a document where it lies. */
#define LOOKED_UP BOTH, 0, BYTES(T("m")), BYTES(T("da, " LONG_TAG)), BYTES(T(LONG_TAG "-more"))
#define TEXT_OF NULL, SW_EXTENDED, BYTES(T("m")), BYTES(T("*-de, zh-*-CN-x-private1-private2, en")), BYTES(T("en")), 0
#define FILTERED NULL, 0, BYTES(T("m")), BYTES(T("en;q=0.5, zh-hant-cn-x-private1"))
ACT(sw_rules_new, ASKS, BYTES(OFFER), BYTES(TABLE), &it->rules, TOLD)
ACT(sw_site_lookup, ASKS, &it->site, LOOKED_UP, ANSWER)
ACT(sw_site_text, ASKS, &it->site, TEXT_OF, ANSWER)
ACT(sw_site_filter, ASKS, &it->site, FILTERED, ANSWER)
ACT(sw_site_bundle, ASKS, &it->site, NULL, SW_LENIENT, BYTES(T("en_US, " LONG_TAG)), BYTES(T("de")), ANSWER)
ACT(sw_text_lookup, ASKS, BYTES(T(PARIS)), LOOKED_UP, ANSWER)
ACT(sw_text_text, ASKS, BYTES(T(PARIS)), TEXT_OF, ANSWER)
ACT(sw_text_filter, ASKS, BYTES(T(PARIS)), FILTERED, ANSWER)

static const refusable opens_first_case = {"sw_site_open, first", opens_first, ASKS};
static const refusable sw_site_share_case = {"sw_site_share", shares, ASKS};

#define ROW(name) &name##_case,
static const refusable *const CASES[] = {EACH_CALL(ROW) ROW(puts_long) ROW(widens) ROW(opens_first)};

/* Whether the site is shared, so that an edit is made apart: in a copy, or in the state before. */
enum { ALONE, SHARED, SPARED, WAYS };

static const char *const WAY_NAMES[WAYS] = {"", ", shared", ", with the state before"};

static document written(sw_site *site) {
  document it;
  sw_told told;
  if (sw_site_write(site, it.bytes, ROOM, &told) != SW_FOUND || told.len > ROOM) exit(3);
  it.len = told.len;
  return it;
}

static int equal(const document *one, const document *other) {
  return one->len == other->len && !memcmp(one->bytes, other->bytes, one->len);
}

/* A row of a document of a site, and how much of it is its key. */
typedef struct {
  const uint8_t *at;
  size_t len, key;
} row;

/* The row that begins at or after this place; one of no length after the last. (No text here has a quote.) */
static row row_after(const document *it, size_t place) {
  row found = {it->bytes + place, 0, 0};
  int depth = 0, commas = 0, quoted = 0;
  while (place < it->len && memcmp(it->bytes + place, "[\"", 2)) place++;
  found.at = it->bytes + place;
  for (size_t at = place; at < it->len; at++) {
    uint8_t byte = it->bytes[at];
    if (byte == '"') quoted = !quoted;
    if (quoted) continue;
    depth += (byte == '[') - (byte == ']');
    if (byte == ',' && ++commas == 2) found.key = at + 1 - place;
    if (depth == 0) {
      found.len = at + 1 - place;
      break;
    }
  }
  return found;
}

static int has(const document *it, const uint8_t *bytes, size_t len) {
  return memmem(it->bytes, it->len, bytes, len) != NULL;
}

/* Whether each cell is that of one document or of the other, and no key of the first is lacking. */
static int is_between(const document *now, const document *old, const document *wanted) {
  row it;
  for (size_t at = 0; (it = row_after(now, at)).len; at = (size_t)(it.at - now->bytes) + it.len)
    if (!has(old, it.at, it.len) && !has(wanted, it.at, it.len)) return 0;
  for (size_t at = 0; (it = row_after(old, at)).len; at = (size_t)(it.at - old->bytes) + it.len)
    if (!has(now, it.at, it.key)) return 0;
  return 1;
}

static void begin(trial *it, int way) {
  sw_told told;
  memset(it, 0, sizeof *it);
  if (sw_site_open(BYTES(T(PARIS)), &it->site, &told) || sw_site_open(BYTES(T(OSLO)), &it->other, &told) ||
      sw_site_open(BYTES(T(OSLO)), &it->given, &told))
    exit(3);
  if (way != ALONE && sw_site_share(&it->site, &it->share)) exit(3);
  /* (a merge with itself changes nothing, and leaves the state before, which its share then lets go) */
  if (way == SPARED && (sw_site_merge(&it->site, 0, &it->share, 0, &told) || sw_site_share(&it->site, &it->share))) exit(3);
  memset(it->out, UNTOUCHED, ROOM);
}

static void end(trial *it) {
  sw_site_free(&it->site);
  sw_site_free(&it->share);
  sw_site_free(&it->other);
  sw_site_free(&it->given);
}

/* Makes the call with the allocations from the n-th on refused, up to the last-th. */
static void try(act *call, trial *it, unsigned long n, unsigned long last) {
  memset(&it->told, 0, sizeof it->told);
  refuse(n, last);
  call(it);
  refuse_none();
}

static int same(const trial *one, const trial *other) {
  return one->status == other->status && same_told(&one->told, &other->told) && !memcmp(one->out, other->out, ROOM);
}

/* Whether the sites that no edit is of are as they were; after a call that is not refused `given` has what it gave. */
static int others_are_kept(trial *it, const document *paris, const document *oslo) {
  document share, other = written(&it->other), given = written(&it->given);
  if (it->share.held) {
    share = written(&it->share);
    if (!equal(&share, paris)) return 0;
  }
  if (!equal(&other, oslo)) return 0;
  return it->status != SW_NO_MEMORY || (equal(&given, oslo) && !it->rules.offer && !it->rules.fallbacks);
}

static unsigned refuse_each(unsigned of, int way) {
  trial ample, it;
  begin(&ample, way);
  document paris = written(&ample.site), oslo = written(&ample.other);
  try(CASES[of]->call, &ample, ULONG_MAX, 0);
  unsigned long count = allocations;
  document wanted = written(&ample.site);
  int leaves = CASES[of]->kind == ASKS || CASES[of]->kind == FIXED;
  unsigned wrong = ample.status != SW_FOUND || equal(&wanted, &paris) != leaves;
  for (unsigned long n = 1; n <= count; n++)
    for (int all = 0; all < 2; all++) {
      begin(&it, way);
      try(CASES[of]->call, &it, n, all ? ULONG_MAX : n);
      int32_t status = it.status;
      sw_told none = {.number = 26};
      document now = written(&it.site);
      int is_well = others_are_kept(&it, &paris, &oslo);
      int may_join = CASES[of]->kind == JOINS && way == ALONE;
      if (status == SW_NO_MEMORY)
        is_well = is_well && same_told(&it.told, &none) && is_untouched(it.out, ROOM) &&
                  (may_join ? is_between(&now, &paris, &wanted) : equal(&now, &paris));
      else
        is_well = is_well && same(&it, &ample) && equal(&now, &wanted);
      try(CASES[of]->call, &it, ULONG_MAX, 0);
      now = written(&it.site);
      /* (an edit that was made already takes a further stamp, so a repeat counts where it was refused) */
      if (it.status != SW_FOUND || (status == SW_NO_MEMORY && !equal(&now, &wanted))) is_well = 0;
      if (!is_well) {
        wrong++;
        fprintf(stderr, "refused: %s%s: allocation %lu%s: status %d\n", CASES[of]->name, WAY_NAMES[way], n,
                all ? " and on" : "", status);
      }
      end(&it);
    }
  if ((count == 0) != (CASES[of]->kind == FIXED)) wrong++;
  if (wrong) fprintf(stderr, "refused: %s: status %d, %lu allocations\n", CASES[of]->name, ample.status, count);
  all_allocations += count;
  end(&ample);
  return wrong;
}

int main(void) {
  unsigned wrong = 0;
  for (unsigned of = 0; of < sizeof CASES / sizeof *CASES; of++)
    for (int way = 0; way < WAYS; way++) wrong += refuse_each(of, way);
  printf("refused: %lu allocations of %zu calls, each alone and with all after it; %u wrong\n", all_allocations,
         sizeof CASES / sizeof *CASES, wrong);
  return wrong != 0;
}
