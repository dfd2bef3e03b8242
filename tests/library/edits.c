/* What each call answers that makes, edits and exchanges a site, what it leaves, and what an editor asks: each status,
 * each refusal and each answer once, by hand. The command's answers to edits are compared by edits.py. */
#include "rows.h"

#define SITE_A "{\"cells\":[[\"m\",\"en\",5,\"a\",0,[\"Hello\"]]],\"kind\":\"site\",\"site\":\"a\",\"version\":2}\n"
#define SUMMARY_OF_A \
  "{\"kind\":\"summary\",\"owner\":\"a\",\"stamps\":[[\"m\",\"en\",5,\"a\",0]],\"version\":2}\n"
#define DELTA_OF_B \
  "{\"cells\":[[\"m\",\"fr\",7,\"b\",0,[\"Bonjour\"]]],\"kind\":\"delta\",\"to\":\"a\",\"version\":2}\n"
#define CLASH "{\"cells\":[[\"m\",\"en\",5,\"a\",0,[\"Hi\"]]],\"kind\":\"delta\",\"to\":\"a\",\"version\":2}\n"
#define ENGLISH "{\"m\":{\"en\":\"Hello\"}}\n"
#define BOTH "{\"m\":{\"en\":\"Hello\",\"fr\":\"Bonjour\"}}\n"

static const wanted done = {SW_FOUND, {0}, ""}, usage = {SW_USAGE, {0}, ""};

/* A call that has no buffer, and what it has to answer. */
#define DONE(call, ...) ROW(0, call, __VA_ARGS__)
#define FILTER(flags, rules, field, tags, ...) \
  ROW(ROOM, sw_filter(flags, rules, BYTES(field), BYTES(tags), out, ROOM, &told), __VA_ARGS__)
/* The labels of a site, as language maps. */
#define HAS(site, maps) ROW(ROOM, sw_site_export(site, out, ROOM, &told), answers(SW_FOUND, 0, maps))

/* A site `a` whose one label was put at the time 5. */
static sw_site site_a(void) {
  sw_site site = {0};
  DONE(sw_site_open(BYTES(T(SITE_A)), &site, &told), done);
  return site;
}

static void made_and_edited(void) {
  sw_site site = {0};
  text m = T("m"), en = T("en");
  DONE(sw_site_new(BYTES(T("A")), &site, &told), refused(27));
  HOLDS(!site.held);
  DONE(sw_site_new(BYTES(T("a")), &site, &told), done);
  DONE(sw_site_put(&site, 5, BYTES(m), BYTES(en), BYTES(T("Hello")), &told), done);
  HAS(&site, ENGLISH);
  DONE(sw_site_put(&site, 6, BYTES(T("@")), BYTES(T("e n")), BYTES(T("\xff")), &told), refused(10));
  DONE(sw_site_put(&site, 6, BYTES(m), BYTES(T("e n")), BYTES(T("\xff")), &told), refused_at(3, 0));
  DONE(sw_site_put(&site, 6, BYTES(m), BYTES(en), BYTES(T("a\xff")), &told), refused_at(18, 1));
  DONE(sw_site_delete(&site, 6, BYTES(T("@")), BYTES(T("e n")), &told), refused(10));
  DONE(sw_site_delete(&site, 6, BYTES(m), BYTES(T("e n")), &told), refused_at(3, 0));
  HAS(&site, ENGLISH);
  /* (a time of more than 32 bits) */
  DONE(sw_site_delete(&site, 1099511627776, BYTES(m), BYTES(en), &told), done);
  ROW(ROOM, sw_site_status(&site, out, ROOM, &told),
      answers(SW_FOUND, 0, "site a cells 1 labels 0 last 1099511627776 a 0\n"));
  sw_site_free(&site);
}

static void long_texts(void) {
  sw_site site = site_a();
  size_t most = 65535;
  uint8_t *label = block(most + 1);
  memset(label, 'x', most + 1);
  DONE(sw_site_put(&site, 6, BYTES(T("n")), BYTES(T("en")), label, most + 1, &told), refused_with(11, 0));
  HAS(&site, ENGLISH);
  DONE(sw_site_put(&site, 6, BYTES(T("n")), BYTES(T("en")), label, most, &told), done);
  ROW(0, sw_site_text(&site, NULL, 0, BYTES(T("n")), BYTES(T("en")), NULL, 0, 0, NULL, 0, &told),
      (wanted){SW_FOUND, {.len = most, .count = 1}, ""});
  free(label);
  sw_site_free(&site);
}

static void language_maps(void) {
  sw_site site = site_a();
  text english = T(ENGLISH), both = T(BOTH);
  DONE(sw_site_import(&site, 6, BYTES(T("{\"m\":{\"fr\":[\"Bonjour\"]}}")), &told), done);
  HAS(&site, BOTH);
  DONE(sw_site_import(&site, 6, BYTES(T("[]")), &told), refused(20));
  DONE(sw_site_update(&site, 6, BYTES(T("[]")), BYTES(T("{")), &told), refused(20));
  DONE(sw_site_update(&site, 6, BYTES(both), BYTES(T("{")), &told), REFUSED(19, .given = SW_OF_SECOND));
  text wrong = T("{\"a\":{\"en\":\"x\"},\"m\":{\"en-f r\":\"y\"}}");
  DONE(sw_site_update(&site, 6, BYTES(wrong), BYTES(both), &told),
       REFUSED(3, .offset = 3, .row = 1, .given = SW_HAS_OFFSET | SW_HAS_ROW));
  DONE(sw_site_update(&site, 6, BYTES(both), BYTES(wrong), &told),
       REFUSED(3, .offset = 3, .row = 1, .given = SW_HAS_OFFSET | SW_HAS_ROW | SW_OF_SECOND));
  HAS(&site, BOTH);
  DONE(sw_site_update(&site, 6, BYTES(both), BYTES(english), &told), done);
  HAS(&site, ENGLISH);
  sw_site_free(&site);
}

static void deltas(void) {
  sw_site site = site_a();
  text delta = T(DELTA_OF_B), other = T("{\"cells\":[],\"kind\":\"delta\",\"to\":\"b\",\"version\":2}");
  DONE(sw_site_take(&site, 0, BYTES(delta), 6, &told), refused_in_row(29, 0));
  DONE(sw_site_take(&site, 0, BYTES(other), 0, &told), refused(15));
  DONE(sw_site_take(&site, 0, BYTES(T(CLASH)), 0, &told), refused_with(13, 0));
  DONE(sw_site_take(&site, 0, BYTES(T("{")), 0, &told), refused(19));
  HAS(&site, ENGLISH);
  DONE(sw_site_take(&site, 0, BYTES(delta), 7, &told), done);
  HAS(&site, BOTH);
  DONE(sw_site_take(&site, 0, BYTES(delta), 0, &told), done);
  HAS(&site, BOTH);
  sw_site_free(&site);
}

/* A site of this document. */
static sw_site site_of(const char *document) {
  sw_site site = {0};
  DONE(sw_site_open((const uint8_t *)document, strlen(document), &site, &told), done);
  return site;
}

/* The document of a site, or of a delta for it, with these rows. */
#define SITE(name, rows) "{\"cells\":[" rows "],\"kind\":\"site\",\"site\":\"" name "\",\"version\":2}\n"
#define DELTA_TO(name, rows) "{\"cells\":[" rows "],\"kind\":\"delta\",\"to\":\"" name "\",\"version\":2}\n"
#define LATER "[\"m\",\"en\",6,\"a\",0,[\"Hi\"]]"

/* An edit of the site itself that it lacks. */
static void own_edits_in_deltas(void) {
  sw_site site = site_a();
  DONE(sw_site_take(&site, SW_CHECK_OWN, BYTES(T(DELTA_TO("b", LATER))), 0, &told), refused(15));
  DONE(sw_site_take(&site, SW_CHECK_OWN, BYTES(T(DELTA_TO("a", LATER))), 5, &told), refused_in_row(29, 0));
  DONE(sw_site_take(&site, SW_CHECK_OWN, BYTES(T(DELTA_TO("a", LATER))), 6, &told), refused_in_row(30, 0));
  text second = T(DELTA_TO("a", "[\"m\",\"de\",9,\"b\",0,[\"Hallo\"]]," LATER));
  DONE(sw_site_take(&site, SW_CHECK_OWN, BYTES(second), 0, &told), refused_in_row(30, 1));
  DONE(sw_site_take(&site, SW_CHECK_OWN, BYTES(T(CLASH)), 0, &told), refused_with(13, 0));
  HAS(&site, ENGLISH);
  DONE(sw_site_take(&site, SW_CHECK_OWN, BYTES(T(DELTA_OF_B)), 0, &told), done);
  HAS(&site, BOTH);
  DONE(sw_site_take(&site, 0, BYTES(T(DELTA_TO("a", LATER))), 0, &told), done);
  HAS(&site, "{\"m\":{\"en\":\"Hi\",\"fr\":\"Bonjour\"}}\n");
  text earlier = T(DELTA_TO("a", "[\"m\",\"en\",5,\"a\",0,[\"Hello\"]]"));
  DONE(sw_site_take(&site, SW_CHECK_OWN, BYTES(earlier), 0, &told), done);
  sw_site_free(&site);
}

/* The limit, and the site's own edits, in a merge. */
static void checked_merges(void) {
  sw_site site = site_a(), other = site_of(SITE("b", "[\"m\",\"de\",5,\"b\",0,[\"Hallo\"]]," LATER));
  DONE(sw_site_merge(&site, SW_CHECK_OWN, &other, 5, &told), refused_in_row(29, 1));
  DONE(sw_site_merge(&site, SW_CHECK_OWN, &other, 6, &told), refused_in_row(30, 1));
  HAS(&site, ENGLISH);
  DONE(sw_site_merge(&other, SW_CHECK_OWN, &site, 5, &told), done);
  DONE(sw_site_merge(&site, 0, &other, 6, &told), done);
  HAS(&site, "{\"m\":{\"de\":\"Hallo\",\"en\":\"Hi\"}}\n");
  sw_site_free(&site);
  sw_site_free(&other);
}

/* A summary that shows labels, and the delta for it. The digests are FNV-1a's of `["a"]` and of `null`. */
#define SHOWN                                                                                               \
  "{\"kind\":\"summary\",\"labels\":[\"2b288c997252f102\",\"5b9bc4ba528108e4\"],\"owner\":\"a\","             \
  "\"stamps\":[[\"m\",\"en\",5,\"a\",0],[\"n\",\"en\",6,\"a\",0]],\"version\":2}\n"
#define LACKED DELTA_TO("a", "[\"m\",\"en\",5,\"a\",0,[\"b\"]]")
static void labels_shown(void) {
  sw_site site = site_of(SITE("a", "[\"m\",\"en\",5,\"a\",0,[\"a\"]],[\"n\",\"en\",6,\"a\",0,null]"));
  sw_site other = site_of(SITE("b", "[\"m\",\"en\",5,\"a\",0,[\"b\"]],[\"n\",\"en\",6,\"a\",0,null]"));
  text summary = T(SHOWN), delta = T(LACKED);
  ROW(ROOM, sw_site_summary(&site, SW_LABELS, out, ROOM, &told), answers(SW_FOUND, 0, SHOWN));
  ROW(ROOM, sw_site_delta(&other, BYTES(summary), out, ROOM, &told), answers(SW_FOUND, 0, LACKED));
  DONE(sw_site_take(&site, 0, BYTES(delta), 0, &told), refused_with(13, 0));
  sw_site_free(&site);
  sw_site_free(&other);
}

/* Flags that are of no exchange, or of another call. */
static void unknown_flags(void) {
  static const uint32_t of_no_take[] = {1, 2, 4, 16, 24, 32, UINT32_MAX};
  static const uint32_t of_no_summary[] = {1, 2, 4, 8, 24, 32, UINT32_MAX};
  sw_site site = site_a(), other = {0};
  HOLDS(sw_site_share(&site, &other) == SW_FOUND);
  for (size_t it = 0; it < sizeof of_no_take / sizeof *of_no_take; it++) {
    DONE(sw_site_take(&site, of_no_take[it], BYTES(T(DELTA_OF_B)), 0, &told), usage);
    DONE(sw_site_merge(&site, of_no_take[it], &other, 0, &told), usage);
    ROW(ROOM, sw_site_summary(&site, of_no_summary[it], out, ROOM, &told), usage);
  }
  HAS(&site, ENGLISH);
  sw_site_free(&site);
  sw_site_free(&other);
}

static void shares(void) {
  sw_site site = site_a(), share = {0};
  HOLDS(sw_site_share(&site, &share) == SW_FOUND);
  DONE(sw_site_take(&site, 0, BYTES(T(DELTA_OF_B)), 0, &told), done);
  HAS(&site, BOTH);
  HAS(&share, ENGLISH);
  ROW(ROOM, sw_site_changes(&share, &site, out, ROOM, &told),
      answers(SW_FOUND, 0, "changes 1\n[\"m\",\"fr\",null,[7,\"b\",0,[\"Bonjour\"]]]\n"));
  DONE(sw_site_merge(&share, 0, &site, 0, &told), done);
  HAS(&share, BOTH);
  ROW(ROOM, sw_site_changes(&share, &site, out, ROOM, &told), answers(SW_NOTHING, 0, "changes 0\n"));
  sw_site_free(&site);
  sw_site_free(&share);
}

static void clashes(void) {
  sw_site site = site_a(), other = {0};
  DONE(sw_site_new(BYTES(T("a")), &other, &told), done);
  DONE(sw_site_put(&other, 5, BYTES(T("m")), BYTES(T("en")), BYTES(T("Hi")), &told), done);
  DONE(sw_site_merge(&site, 0, &other, 0, &told), refused_with(13, 0));
  HAS(&site, ENGLISH);
  sw_site_free(&site);
  sw_site_free(&other);
}

static void documents(void) {
  sw_site site = site_a();
  text summary = T(SUMMARY_OF_A);
  ROW(ROOM, sw_site_write(&site, out, ROOM, &told), answers(SW_FOUND, 0, SITE_A));
  ROW(ROOM, sw_site_summary(&site, 0, out, ROOM, &told), answers(SW_FOUND, 0, SUMMARY_OF_A));
  ROW(ROOM, sw_site_delta(&site, BYTES(summary), out, ROOM, &told),
      answers(SW_FOUND, 0, "{\"cells\":[],\"kind\":\"delta\",\"to\":\"a\",\"version\":2}\n"));
  ROW(ROOM, sw_site_delta(&site, BYTES(T(SITE_A)), out, ROOM, &told), refused(20));
  for (size_t room = 0; room <= summary.len; room++)
    ROW(room, sw_site_summary(&site, 0, room ? out : NULL, room, &told), answers(SW_FOUND, 0, SUMMARY_OF_A));
  sw_site_free(&site);
}

static void questions(void) {
  sw_site site = site_a();
  ROW(ROOM, sw_site_missing(&site, BYTES(T("fr")), out, ROOM, &told), answers(SW_FOUND, 0, ENGLISH));
  ROW(ROOM, sw_site_missing(&site, BYTES(T("en")), out, ROOM, &told), answers(SW_NOTHING, 0, "{}\n"));
  ROW(ROOM, sw_site_missing(&site, BYTES(T("e n")), out, ROOM, &told), refused_at(3, 0));
  ROW(ROOM, sw_site_outdated(&site, BYTES(T("en")), BYTES(T("fr")), out, ROOM, &told), answers(SW_NOTHING, 0, "{}\n"));
  ROW(ROOM, sw_site_labels(&site, out, ROOM, &told), answers(SW_FOUND, 0, "labels 1\nen 1\n"));
  DONE(sw_site_take(&site, 0, BYTES(T(DELTA_OF_B)), 0, &told), done);
  ROW(ROOM, sw_site_outdated(&site, BYTES(T("en")), BYTES(T("fr")), out, ROOM, &told), answers(SW_FOUND, 0, BOTH));
  ROW(ROOM, sw_site_outdated(&site, BYTES(T("e n")), BYTES(T("a")), out, ROOM, &told), refused_at(3, 0));
  ROW(ROOM, sw_site_outdated(&site, BYTES(T("en")), BYTES(T("a")), out, ROOM, &told), refused(4));
  sw_site_free(&site);
}

/* Each call to a handle that is not open, alone or beside one that is. */
static void closed_handles(void) {
  sw_site site = site_a(), none = {0};
  text m = T("m"), en = T("en"), maps = T(ENGLISH);
  DONE(sw_site_put(&none, 6, BYTES(m), BYTES(en), BYTES(m), &told), usage);
  DONE(sw_site_delete(&none, 6, BYTES(m), BYTES(en), &told), usage);
  DONE(sw_site_merge(&none, 0, &site, 0, &told), usage);
  DONE(sw_site_merge(&site, 0, &none, 0, &told), usage);
  DONE(sw_site_take(&none, 0, BYTES(T(DELTA_OF_B)), 0, &told), usage);
  DONE(sw_site_import(&none, 6, BYTES(maps), &told), usage);
  DONE(sw_site_update(&none, 6, BYTES(maps), BYTES(maps), &told), usage);
  ROW(ROOM, sw_site_write(&none, out, ROOM, &told), usage);
  ROW(ROOM, sw_site_summary(&none, 0, out, ROOM, &told), usage);
  ROW(ROOM, sw_site_status(&none, out, ROOM, &told), usage);
  ROW(ROOM, sw_site_delta(&none, BYTES(T(SUMMARY_OF_A)), out, ROOM, &told), usage);
  ROW(ROOM, sw_site_export(&none, out, ROOM, &told), usage);
  ROW(ROOM, sw_site_labels(&none, out, ROOM, &told), usage);
  ROW(ROOM, sw_site_missing(&none, BYTES(en), out, ROOM, &told), usage);
  ROW(ROOM, sw_site_outdated(&none, BYTES(en), BYTES(en), out, ROOM, &told), usage);
  ROW(ROOM, sw_site_changes(&none, &site, out, ROOM, &told), usage);
  ROW(ROOM, sw_site_changes(&site, &none, out, ROOM, &told), usage);
  HOLDS(!none.held);
  HAS(&site, ENGLISH);
  sw_site_free(&site);
}

static void without_a_site(void) {
  text en = T("en"), tags = T("EN\nde"), sentence = T("a site name has 1 to 16 bytes of a to z, 0 to 9 and -");
  wanted one = answers(SW_FOUND, 0, "filter 1\nEN 1000\n"), nothing = answers(SW_NOTHING, 0, "filter 0\n");
  FILTER(0, NULL, en, tags, one);
  FILTER(0, NULL, T("ja"), tags, nothing);
  FILTER(0, NULL, T("fr, e n"), T("e n"), refused_at(9, 4));
  FILTER(0, NULL, en, T("en\n\n"), refused(1));
  FILTER(SW_WIDEN, NULL, en, tags, usage);
  FILTER(0, OFFERS(T("*, de;q=0")), T("*"), tags, one);
  FILTER(0, OFFERS(T("fr")), T("*"), tags, nothing);
  FILTER(0, OFFERS(NO_TEXT), T("*"), T("EN\nx-a"), one);
  FILTER(0, NULL, T("x-a"), T("EN\nx-a"), answers(SW_FOUND, 0, "filter 1\nx-a 1000\n"));
  FILTER(0, OFFERS(T("fr, e n")), T("e n"), T("e n"), refused_at(9, 4));
  FILTER(0, OFFERS(T("fr")), en, T("de\ne n"), refused_at(3, 0));
  ROW(ROOM, sw_refusal(27, out, ROOM, &told), answers(SW_FOUND, 0, (const char *)sentence.bytes));
  ROW(sentence.len - 1, sw_refusal(27, out, sentence.len - 1, &told),
      answers(SW_FOUND, 0, (const char *)sentence.bytes));
  ROW(ROOM, sw_refusal_code(29, out, ROOM, &told), answers(SW_FOUND, 0, "clock-ahead"));
  ROW(10, sw_refusal_code(29, out, 10, &told), answers(SW_FOUND, 0, "clock-ahead"));
  ROW(ROOM, sw_refusal_text(3, out, ROOM, &told), answers(SW_FOUND, 0, "subtag at OFFSET"));
  ROW(15, sw_refusal_text(3, out, 15, &told), answers(SW_FOUND, 0, "subtag at OFFSET"));
  ROW(ROOM, sw_refusal_text(12, out, ROOM, &told), answers(SW_FOUND, 0, "label has COUNT texts"));
  static const uint32_t none[] = {0, 32, 256 + 3, UINT32_MAX};
  for (size_t it = 0; it < sizeof none / sizeof *none; it++) {
    ROW(ROOM, sw_refusal(none[it], out, ROOM, &told), nothing_told(SW_NOTHING));
    ROW(ROOM, sw_refusal_code(none[it], out, ROOM, &told), nothing_told(SW_NOTHING));
    ROW(ROOM, sw_refusal_text(none[it], out, ROOM, &told), nothing_told(SW_NOTHING));
  }
}

int main(void) {
  made_and_edited();
  long_texts();
  language_maps();
  deltas();
  own_edits_in_deltas();
  checked_merges();
  labels_shown();
  unknown_flags();
  shares();
  clashes();
  documents();
  questions();
  closed_handles();
  without_a_site();
  printf("edits: %u rows, %u wrong\n", rows, faults);
  return faults != 0;
}
