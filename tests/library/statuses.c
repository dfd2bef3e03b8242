/* What each call answers to questions that the command cannot be asked, and what it leaves: unknown flags, handles that
 * are not open, bytes that are no text, room that is too small, a site that is shared or read anew, offers, rules. */
#include "rows.h"

#define PARIS                                                                                               \
  "{\"cells\":[[\"m\",\"en\",5,\"paris\",0,[\"Hello\",\"Hi\"]],[\"m\",\"fr\",5,\"paris\",1,[\"Bonjour\"]]," \
  "[\"n\",\"de\",5,\"paris\",2,[\"\"]]],\"kind\":\"site\",\"site\":\"paris\",\"version\":2}\n"
#define OSLO \
  "{\"cells\":[[\"m\",\"en\",6,\"oslo\",0,[\"Good day\"]]],\"kind\":\"site\",\"site\":\"oslo\",\"version\":2}\n"
#define UNSORTED                                                                                              \
  "{\"cells\":[[\"n\",\"en\",5,\"paris\",0,[\"a\"]],[\"m\",\"en\",5,\"paris\",1,[\"b\"]]],\"kind\":\"site\"," \
  "\"site\":\"paris\",\"version\":2}\n"

/* Each call with room, and what it has to answer. */
#define ANSWER out, ROOM, &told
#define PICK(flags, field, tags, dflt, ...) \
  PICK_BY(NULL, flags, field, tags, dflt, __VA_ARGS__)
#define PICK_BY(rules, flags, field, tags, dflt, ...) \
  ROW(ROOM, sw_pick(flags, rules, BYTES(field), BYTES(tags), BYTES(dflt), ANSWER), __VA_ARGS__)
#define OPEN(site, document, ...) ROW(0, sw_site_open(BYTES(document), site, &told), __VA_ARGS__)
#define LOOKUP(site, flags, id, field, dflt, ...) \
  ROW(ROOM, sw_site_lookup(site, NULL, flags, BYTES(id), BYTES(field), BYTES(dflt), ANSWER), __VA_ARGS__)
#define LABEL_TEXT(site, flags, id, field, dflt, place, ...) \
  ROW(ROOM, sw_site_text(site, NULL, flags, BYTES(id), BYTES(field), BYTES(dflt), place, ANSWER), __VA_ARGS__)
#define FILTER(site, flags, id, field, ...) \
  ROW(ROOM, sw_site_filter(site, NULL, flags, BYTES(id), BYTES(field), ANSWER), __VA_ARGS__)
#define BUNDLE(site, flags, field, dflt, ...) \
  ROW(ROOM, sw_site_bundle(site, NULL, flags, BYTES(field), BYTES(dflt), ANSWER), __VA_ARGS__)
/* The same question by rules. */
#define LOOKUP_BY(rules, site, id, field, dflt, ...) \
  ROW(ROOM, sw_site_lookup(site, rules, 0, BYTES(id), BYTES(field), BYTES(dflt), ANSWER), __VA_ARGS__)
/* The questions to a document where it lies. */
#define LOOKUP_IN(text, flags, id, field, dflt, ...) \
  ROW(ROOM, sw_text_lookup(BYTES(text), NULL, flags, BYTES(id), BYTES(field), BYTES(dflt), ANSWER), __VA_ARGS__)
#define TEXT_IN(text, flags, id, field, dflt, place, ...) \
  ROW(ROOM, sw_text_text(BYTES(text), NULL, flags, BYTES(id), BYTES(field), BYTES(dflt), place, ANSWER), __VA_ARGS__)
#define FILTER_IN(text, flags, id, field, ...) \
  ROW(ROOM, sw_text_filter(BYTES(text), NULL, flags, BYTES(id), BYTES(field), ANSWER), __VA_ARGS__)

static void picks(void) {
  PICK(0, T("da, en-GB;q=0.8, en;q=0.7"), T("en\nfr"), NO_TEXT, answers(SW_FOUND, 0, "en"));
  PICK(0, T("fr-ca"), T("en\nFR\nfr\n"), NO_TEXT, answers(SW_FOUND, 0, "FR"));
  PICK(0, T("ja"), T("en\nEN-gb\n"), T("En-GB"), answers(SW_FOUND, 1, "EN-gb"));
  PICK(0, T("ja, *;q=0"), T("en"), T("en"), nothing_told(SW_NOTHING));
  PICK(0, T("ja, *;q=0"), T("en\n@none"), T("@none"), answers(SW_FOUND, 1, "@none"));
  PICK(0, T("ja"), T("en"), T("de"), nothing_told(SW_NOTHING));
  PICK(0, NO_TEXT, T("en"), NO_TEXT, nothing_told(SW_NOTHING));
  PICK(0, T("en"), NO_TEXT, NO_TEXT, nothing_told(SW_NOTHING));
  PICK(0, T("en"), NO_TEXT, T("en"), nothing_told(SW_NOTHING));
  PICK(SW_EXTENDED, T("de-*-DE"), T("de\nde-DE"), NO_TEXT, answers(SW_FOUND, 0, "de-DE"));
  PICK(SW_LENIENT, T("en_US, fr;q=0.5"), T("en\nfr"), NO_TEXT, answers(SW_FOUND, 0, "fr"));
  PICK(0, T("de-*-DE"), T("de"), NO_TEXT, refused_at(9, 0));
  PICK(SW_EXTENDED, T("de-*-DE"), T("de"), NO_TEXT, answers(SW_FOUND, 0, "de"));
  PICK(SW_LENIENT, T("en_US, de-DE;q=0.5, en;q=0.1"), T("en\nde"), NO_TEXT, answers(SW_FOUND, 0, "de"));
  PICK(SW_EXTENDED | SW_LENIENT, T("en_US, de-DE;q=0.5, en;q=0.1"), T("en\nde"), NO_TEXT, nothing_told(SW_NOTHING));
  PICK(0, T("en"), T("en-US"), NO_TEXT, nothing_told(SW_NOTHING));
  PICK(SW_WIDEN, T("en"), T("en-US"), NO_TEXT, answers(SW_FOUND, 0, "en-US"));
  PICK(SW_EXTENDED | SW_LENIENT, T("de;q=0.5, fr"), T("de\nfr"), NO_TEXT, answers(SW_FOUND, 0, "fr"));

  PICK(0, T("en"), T("\n"), NO_TEXT, refused(1));
  PICK(0, T("en"), T("en\n\nfr"), NO_TEXT, refused(1));
  PICK(0, T("en"), T("en\n\n"), NO_TEXT, refused(1));
  PICK(0, T("en"), T("en\nfr-é\n"), NO_TEXT, refused_at(3, 3));
  PICK(0, T("en"), T("en\0"), NO_TEXT, refused_at(3, 0));
  PICK(0, T("en"), T("en\n\xff"), NO_TEXT, refused_at(3, 0));
  PICK(0, T("en"), T("en\r\nfr\r\n"), NO_TEXT, refused_at(3, 0));
  PICK(0, T("fr, e n"), T("e n"), NO_TEXT, refused_at(9, 4));
  PICK(0, T("en\0"), T("en"), NO_TEXT, refused_at(9, 0));
  PICK(0, T("fr,\xff"), T("en"), NO_TEXT, refused_at(9, 3));
  PICK(0, T("e n"), T("e n"), T("de-\xff"), refused_at(3, 3));
  PICK(0, T("e n"), T("e n"), T("a"), refused(4));
  PICK(SW_LENIENT, T("\xff, en"), T("en"), NO_TEXT, answers(SW_FOUND, 0, "en"));
}

static void long_fields(void) {
  size_t most = 65535;
  uint8_t *field = block(most + 1);
  memset(field, ',', most + 1);
  for (uint32_t flags = 0; flags < 4; flags++) {
    PICK(flags, ((text){field, most}), T("en"), T("en"), answers(SW_FOUND, 1, "en"));
    PICK(flags, ((text){field, most + 1}), T("en"), T("en"), refused(8));
  }
  free(field);
}

static void unknown_flags(sw_site *site) {
  FILTER(site, SW_WIDEN, T("m"), T("en"), nothing_told(SW_USAGE));
  for (int bit = 3; bit < 32; bit++) {
    uint32_t flags = (uint32_t)1 << bit | (bit % 2 ? SW_LENIENT : 0u);
    PICK(flags, T("e n"), T("e n"), NO_TEXT, nothing_told(SW_USAGE));
    LOOKUP(site, flags, T("@"), T("en"), NO_TEXT, nothing_told(SW_USAGE));
    LABEL_TEXT(site, flags, T("m"), T("en"), NO_TEXT, 0, nothing_told(SW_USAGE));
    FILTER(site, flags, T("m"), T("en"), nothing_told(SW_USAGE));
    BUNDLE(site, flags, T("en"), NO_TEXT, nothing_told(SW_USAGE));
  }
}

static void closed_handles(void) {
  sw_site site = {0}, other = {0};
  LOOKUP(&site, 0, T("m"), T("en"), NO_TEXT, nothing_told(SW_USAGE));
  LABEL_TEXT(&site, 0, T("m"), T("en"), NO_TEXT, 0, nothing_told(SW_USAGE));
  FILTER(&site, 0, T("m"), T("en"), nothing_told(SW_USAGE));
  BUNDLE(&site, 0, T("en"), NO_TEXT, nothing_told(SW_USAGE));
  HOLDS(sw_site_share(&site, &other) == SW_USAGE && !other.held && !site.held);
  OPEN(&site, T("{"), refused(19));
  HOLDS(!site.held);
  sw_site_free(&site);
  sw_site_free(&site);
  HOLDS(!site.held);
}

static void questions(sw_site *site) {
  LOOKUP(site, 0, T("m"), T("fr-CA, en;q=0.5"), NO_TEXT, answers(SW_FOUND, 0, "matched fr [\"Bonjour\"]\n"));
  LOOKUP(site, 0, T("m"), T("ja"), T("EN"), answers(SW_FOUND, 0, "default en [\"Hello\",\"Hi\"]\n"));
  LOOKUP(site, 0, T("m"), T("ja"), NO_TEXT, answers(SW_NOTHING, 0, "nothing\n"));
  LOOKUP(site, 0, T("none"), T("en"), T("en"), answers(SW_NOTHING, 0, "nothing\n"));
  LOOKUP(site, 0, T("\xff"), T("e n"), T("e n"), refused(10));
  LOOKUP(site, 0, T("m\0"), T("en"), NO_TEXT, refused(10));
  LOOKUP(site, 0, NO_TEXT, T("en"), NO_TEXT, refused(10));
  LOOKUP(site, 0, T("m"), T("e n"), T("en-"), refused_at(3, 3));
  LOOKUP(site, 0, T("m"), T("fr, en;q=2"), T("en"), refused_at(9, 4));

  LABEL_TEXT(site, 0, T("m"), T("en"), NO_TEXT, 0, answers(SW_FOUND, 2, "Hello"));
  LABEL_TEXT(site, 0, T("m"), T("en"), NO_TEXT, 1, answers(SW_FOUND, 2, "Hi"));
  LABEL_TEXT(site, 0, T("m"), T("en"), NO_TEXT, 2, ((wanted){SW_NOTHING, {.count = 2}, ""}));
  LABEL_TEXT(site, 0, T("m"), T("en"), NO_TEXT, SIZE_MAX, ((wanted){SW_NOTHING, {.count = 2}, ""}));
  LABEL_TEXT(site, 0, T("n"), T("de"), NO_TEXT, 0, answers(SW_FOUND, 1, ""));
  LABEL_TEXT(site, 0, T("m"), T("ja"), T("fr"), 0, answers(SW_FOUND, 1, "Bonjour"));
  LABEL_TEXT(site, 0, T("m"), T("ja"), NO_TEXT, 0, nothing_told(SW_NOTHING));
  LABEL_TEXT(site, 0, T("m"), T("e n"), NO_TEXT, 0, refused_at(9, 0));

  FILTER(site, 0, T("m"), T("fr;q=0.5, en"),
         answers(SW_FOUND, 0, "filter 2\nen 1000 [\"Hello\",\"Hi\"]\nfr 500 [\"Bonjour\"]\n"));
  FILTER(site, 0, T("m"), T("ja"), answers(SW_NOTHING, 0, "filter 0\n"));
  FILTER(site, 0, T("@"), T("e n"), refused(10));
  FILTER(site, 0, T("m"), T("fr, en_US"), refused_at(9, 4));

  BUNDLE(site, 0, T("fr, de;q=0.5"), NO_TEXT,
         answers(SW_FOUND, 0, "{\"m\":{\"fr\":\"Bonjour\"},\"n\":{\"de\":\"\"}}\n"));
  BUNDLE(site, 0, T("ja"), NO_TEXT, answers(SW_NOTHING, 0, "{}\n"));
  BUNDLE(site, 0, T("e n"), T("a"), refused(4));
  BUNDLE(site, 0, T("fr, en_US"), NO_TEXT, refused_at(9, 4));
}

static void rooms(sw_site *site) {
  const char *line = "matched fr [\"Bonjour\"]\n";
  for (size_t room = 0; room <= strlen(line) + 1; room++) {
    begin();
    int32_t status =
        sw_site_lookup(site, NULL, 0, BYTES(T("m")), BYTES(T("fr")), NULL, 0, room ? out : NULL, room, &told);
    compare(__LINE__, status, room, answers(SW_FOUND, 0, line));
  }
  text m = T("m"), ja = T("ja"), tag = T("de-CH");
  for (size_t room = 0; room <= tag.len; room++)
    ROW(room, sw_pick(0, NULL, BYTES(tag), BYTES(tag), NULL, 0, out, room, &told), answers(SW_FOUND, 0, "de-CH"));
  ROW(7, sw_site_lookup(site, NULL, 0, BYTES(m), BYTES(ja), NULL, 0, out, 7, &told),
      answers(SW_NOTHING, 0, "nothing\n"));
  ROW(4, sw_site_text(site, NULL, 0, BYTES(m), BYTES(T("en")), NULL, 0, 0, out, 4, &told),
      answers(SW_FOUND, 2, "Hello"));
  ROW(8, sw_site_filter(site, NULL, 0, BYTES(m), BYTES(ja), out, 8, &told), answers(SW_NOTHING, 0, "filter 0\n"));
  ROW(2, sw_site_bundle(site, NULL, 0, BYTES(ja), NULL, 0, out, 2, &told), answers(SW_NOTHING, 0, "{}\n"));
}

static void reads_anew(sw_site *site) {
  OPEN(site, T("not JSON"), refused(19));
  OPEN(site, T("{\"a\xff"), refused_at(18, 3));
  OPEN(site, NO_TEXT, refused(19));
  OPEN(site, T(UNSORTED), refused_in_row(21, 1));
  LABEL_TEXT(site, 0, T("m"), T("en"), NO_TEXT, 0, answers(SW_FOUND, 2, "Hello"));
  OPEN(site, T(OSLO), nothing_told(SW_FOUND));
  LABEL_TEXT(site, 0, T("m"), T("en"), NO_TEXT, 0, answers(SW_FOUND, 1, "Good day"));
}

/* A document that is asked where it lies: all other refusals come before those of the text. What is no site is refused
 * as sw_site_open refuses it. */
static void written_texts(void) {
  text paris = T(PARIS), m = T("m"), none = T("{}"), most = {paris.bytes, paris.len - 1};
  const struct {
    text text;
    uint32_t number;
  } others[] = {{NO_TEXT, 19}, {T("\n"), 19}, {T("[]"), 20}, {{paris.bytes + 1, paris.len - 1}, 19},
                {{paris.bytes, paris.len - 9}, 19}};
  LOOKUP_IN(paris, 0, m, T("fr-CA, en;q=0.5"), NO_TEXT, answers(SW_FOUND, 0, "matched fr [\"Bonjour\"]\n"));
  LOOKUP_IN(most, 0, m, T("ja"), T("EN"), answers(SW_FOUND, 0, "default en [\"Hello\",\"Hi\"]\n"));
  LOOKUP_IN(paris, 0, T("l"), T("en"), NO_TEXT, answers(SW_NOTHING, 0, "nothing\n"));
  TEXT_IN(paris, SW_WIDEN, m, T("en"), NO_TEXT, 1, answers(SW_FOUND, 2, "Hi"));
  TEXT_IN(paris, 0, m, T("en"), NO_TEXT, SIZE_MAX, ((wanted){SW_NOTHING, {.count = 2}, ""}));
  FILTER_IN(paris, 0, m, T("fr;q=0.5, en"),
            answers(SW_FOUND, 0, "filter 2\nen 1000 [\"Hello\",\"Hi\"]\nfr 500 [\"Bonjour\"]\n"));
  FILTER_IN(paris, 0, T("o"), T("en"), answers(SW_NOTHING, 0, "filter 0\n"));

  LOOKUP_IN(none, 8, T("@"), T("e n"), NO_TEXT, nothing_told(SW_USAGE));
  FILTER_IN(none, SW_WIDEN, m, m, nothing_told(SW_USAGE));
  LOOKUP_IN(none, 0, T("\xff"), T("e n"), T("a"), refused(10));
  TEXT_IN(none, 0, m, T("e n"), T("en-"), 0, refused_at(3, 3));
  FILTER_IN(none, 0, m, T("fr, en_US"), refused_at(9, 4));
  for (size_t it = 0; it < sizeof others / sizeof *others; it++) {
    LOOKUP_IN(others[it].text, 0, m, T("en"), NO_TEXT, refused(others[it].number));
    TEXT_IN(others[it].text, 0, m, T("en"), NO_TEXT, 0, refused(others[it].number));
    FILTER_IN(others[it].text, 0, m, T("en"), refused(others[it].number));
  }
}

/* A handle that is shared outlives the first, and keeps what it held. */
static void shares(void) {
  sw_site first = {0}, second = {0}, third = {0};
  OPEN(&first, T(PARIS), nothing_told(SW_FOUND));
  OPEN(&third, T(OSLO), nothing_told(SW_FOUND));
  HOLDS(sw_site_share(&first, &second) == SW_FOUND && second.held && first.held);
  HOLDS(sw_site_share(&second, &third) == SW_FOUND && third.held);
  reads_anew(&first);
  LABEL_TEXT(&second, 0, T("m"), T("en"), NO_TEXT, 0, answers(SW_FOUND, 2, "Hello"));
  sw_site_free(&first);
  sw_site_free(&second);
  HOLDS(!first.held && !second.held);
  LABEL_TEXT(&third, 0, T("m"), T("en"), NO_TEXT, 0, answers(SW_FOUND, 2, "Hello"));
  sw_site closed = {0};
  HOLDS(sw_site_share(&closed, &third) == SW_USAGE);
  LABEL_TEXT(&third, 0, T("m"), T("en"), NO_TEXT, 0, answers(SW_FOUND, 2, "Hello"));
  sw_site_free(&third);
}

#define NOTES                                                                                     \
  "{\"cells\":[[\"m\",\"@none\",5,\"paris\",0,[\"\"]],[\"m\",\"de\",5,\"paris\",1,[\"Hallo\"]],"  \
  "[\"m\",\"x-note\",5,\"paris\",2,[\"ask Anna\"]],[\"n\",\"x-note\",5,\"paris\",3,[\"soon\"]]]," \
  "\"kind\":\"site\",\"site\":\"paris\",\"version\":2}\n"

/* Each question of a reader with notes of translators in the site: without an offer they are hidden, and a default that
 * is not offered is none. */
static void offers(void) {
  sw_site site = {0};
  text m = T("m"), notes = T(NOTES), star = T("*"), note = T("x-note");
  OPEN(&site, notes, nothing_told(SW_FOUND));
  LOOKUP(&site, 0, m, note, NO_TEXT, answers(SW_NOTHING, 0, "nothing\n"));
  LOOKUP(&site, 0, m, T("fr"), note, answers(SW_NOTHING, 0, "nothing\n"));
  LOOKUP(&site, SW_WIDEN, m, T("x"), NO_TEXT, answers(SW_NOTHING, 0, "nothing\n"));
  LABEL_TEXT(&site, 0, m, note, NO_TEXT, 0, nothing_told(SW_NOTHING));
  FILTER(&site, 0, m, star, answers(SW_FOUND, 0, "filter 1\nde 1000 [\"Hallo\"]\n"));
  BUNDLE(&site, 0, T("x-note, de"), note, answers(SW_FOUND, 0, "{\"m\":{\"de\":\"Hallo\"}}\n"));
  LOOKUP_IN(notes, 0, m, note, NO_TEXT, answers(SW_NOTHING, 0, "nothing\n"));
  TEXT_IN(notes, 0, m, note, NO_TEXT, 0, nothing_told(SW_NOTHING));
  FILTER_IN(notes, 0, m, note, answers(SW_NOTHING, 0, "filter 0\n"));

  LOOKUP_BY(OFFERS(star), &site, m, note, NO_TEXT, answers(SW_FOUND, 0, "matched x-note [\"ask Anna\"]\n"));
  LOOKUP_BY(OFFERS(star), &site, m, T("fr"), note, answers(SW_FOUND, 0, "default x-note [\"ask Anna\"]\n"));
  ROW(ROOM, sw_site_text(&site, OFFERS(star), 0, BYTES(m), BYTES(note), NULL, 0, 0, ANSWER),
      answers(SW_FOUND, 1, "ask Anna"));
  ROW(ROOM, sw_site_bundle(&site, OFFERS(star), 0, BYTES(note), NULL, 0, ANSWER),
      answers(SW_FOUND, 0, "{\"m\":{\"x-note\":\"ask Anna\"},\"n\":{\"x-note\":\"soon\"}}\n"));
  ROW(ROOM, sw_text_lookup(BYTES(notes), OFFERS(star), 0, BYTES(m), BYTES(note), NULL, 0, ANSWER),
      answers(SW_FOUND, 0, "matched x-note [\"ask Anna\"]\n"));
  ROW(ROOM, sw_text_text(BYTES(notes), OFFERS(star), 0, BYTES(m), BYTES(note), NULL, 0, 0, ANSWER),
      answers(SW_FOUND, 1, "ask Anna"));
  ROW(ROOM, sw_text_filter(BYTES(notes), OFFERS(star), 0, BYTES(m), BYTES(note), ANSWER),
      answers(SW_FOUND, 0, "filter 1\nx-note 1000 [\"ask Anna\"]\n"));

  text only = T("x-note, *;q=0");
  ROW(ROOM, sw_site_filter(&site, OFFERS(only), 0, BYTES(m), BYTES(star), ANSWER),
      answers(SW_FOUND, 0, "filter 1\nx-note 1000 [\"ask Anna\"]\n"));
  LOOKUP_BY(OFFERS(only), &site, m, T("de"), T("de"), answers(SW_NOTHING, 0, "nothing\n"));
  LOOKUP_BY(OFFERS(only), &site, m, T("de"), T("@none"), answers(SW_FOUND, 0, "default @none [\"\"]\n"));
  LOOKUP_BY(OFFERS(T(",")), &site, m, T("de, x-note"), T("de"), answers(SW_NOTHING, 0, "nothing\n"));

  /* (the offer is refused after the default, and before the field) */
  LOOKUP_BY(OFFERS(T("de, e n")), &site, m, T("fr"), NO_TEXT, refused_at(9, 4));
  LOOKUP_BY(OFFERS(T("de;q=2")), &site, m, T("fr, e n"), NO_TEXT, refused_at(9, 0));
  LOOKUP_BY(OFFERS(T("de;q=2")), &site, m, T("fr"), T("a"), refused(4));
  ROW(ROOM, sw_text_filter(BYTES(T("{}")), OFFERS(T("e n")), 0, BYTES(m), BYTES(note), ANSWER), refused_at(9, 0));
  sw_site_free(&site);
}

/* Lookups by a table of fallbacks, and tags that are offered. */
static void fallbacks(void) {
  sw_site site = {0};
  text notes = T(NOTES), m = T("m"), gsw = T("gsw-CH"), table = T("gsw=de, no=nb, en=en-US");
  wanted german = answers(SW_FOUND, 0, "matched de [\"Hallo\"]\n");
  const sw_rules *by = RULES(NO_TEXT, table), *few = RULES(T("fr, x"), table);
  OPEN(&site, notes, nothing_told(SW_FOUND));
  LOOKUP_BY(by, &site, m, gsw, NO_TEXT, german);
  LOOKUP_BY(few, &site, m, gsw, T("x-note"), answers(SW_FOUND, 0, "default x-note [\"ask Anna\"]\n"));
  LOOKUP_BY(by, &site, m, T("gsw, de;q=0"), NO_TEXT, answers(SW_NOTHING, 0, "nothing\n"));
  LOOKUP_BY(by, &site, m, T("fr"), T("gsw"), answers(SW_NOTHING, 0, "nothing\n"));
  ROW(ROOM, sw_site_text(&site, by, 0, BYTES(m), BYTES(gsw), NULL, 0, 0, ANSWER), answers(SW_FOUND, 1, "Hallo"));
  ROW(ROOM, sw_site_bundle(&site, by, 0, BYTES(gsw), NULL, 0, ANSWER),
      answers(SW_FOUND, 0, "{\"m\":{\"de\":\"Hallo\"}}\n"));
  ROW(ROOM, sw_site_filter(&site, by, 0, BYTES(m), BYTES(gsw), ANSWER), answers(SW_NOTHING, 0, "filter 0\n"));
  ROW(ROOM, sw_text_lookup(BYTES(notes), by, 0, BYTES(m), BYTES(gsw), NULL, 0, ANSWER), german);
  ROW(ROOM, sw_text_text(BYTES(notes), by, 0, BYTES(m), BYTES(gsw), NULL, 0, 0, ANSWER),
      answers(SW_FOUND, 1, "Hallo"));

  PICK_BY(by, 0, T("no, da"), T("da\nNB"), NO_TEXT, answers(SW_FOUND, 0, "NB"));
  PICK_BY(by, SW_WIDEN, T("en"), T("en-AU\nen-US"), NO_TEXT, answers(SW_FOUND, 0, "en-US"));
  PICK_BY(by, 0, T("ja"), T("nb"), T("no"), nothing_told(SW_NOTHING));
  PICK_BY(by, 0, T("x-a, en;q=0.5"), T("x-a\nen"), NO_TEXT, answers(SW_FOUND, 0, "en"));
  PICK_BY(few, 0, T("en, fr;q=0.5"), T("en\nfr"), T("en"), answers(SW_FOUND, 0, "fr"));
  PICK_BY(few, 0, T("ja"), T("en\nfr"), T("en"), nothing_told(SW_NOTHING));
  PICK_BY(few, 0, T("ja"), T("en\n@none"), T("@none"), answers(SW_FOUND, 1, "@none"));
  PICK(0, T("x-a"), T("x-a"), NO_TEXT, answers(SW_FOUND, 0, "x-a"));

  /* (refused in this order: the default, the offer, the table, the field, then all tags) */
  const sw_rules *wrong = RULES(T("fr, e n"), T("a")), *worse = RULES(NO_TEXT, T(" ,en=fr, EN=de"));
  PICK_BY(wrong, 0, T("e n"), T("e n"), T("a"), refused(4));
  PICK_BY(wrong, 0, T("e n"), T("e n"), NO_TEXT, refused_at(9, 4));
  PICK_BY(worse, 0, T("e n"), T("e n"), NO_TEXT, refused_at(31, 9));
  PICK_BY(few, 0, T("fr, e n"), T("e n"), NO_TEXT, refused_at(9, 4));
  PICK_BY(few, 0, T("fr"), T("en\nen-"), NO_TEXT, refused_at(3, 3));
  PICK_BY(worse, 8, T("e n"), T("e n"), NO_TEXT, nothing_told(SW_USAGE));
  LOOKUP_BY(worse, &site, T("@"), T("e n"), NO_TEXT, refused(10));
  LOOKUP_BY(worse, &site, m, T("e n"), T("a"), refused(4));
  LOOKUP_BY(worse, &site, m, T("e n"), NO_TEXT, refused_at(31, 9));
  LOOKUP_BY(wrong, &site, m, T("e n"), NO_TEXT, refused_at(9, 4));
  ROW(ROOM, sw_text_lookup(BYTES(T("{}")), worse, 0, BYTES(m), BYTES(m), NULL, 0, ANSWER), refused_at(31, 9));
  sw_site_free(&site);
}

/* Rules that are made, refused and let go, beside rules of zeros. */
static void made_rules(void) {
  sw_site site = {0};
  sw_rules rules = {0}, zeros = {0};
  text m = T("m"), note = T("x-note"), table = T("gsw=de"), commas = {block(65536), 65536};
  wanted shown = answers(SW_FOUND, 0, "matched x-note [\"ask Anna\"]\n"), hidden = answers(SW_NOTHING, 0, "nothing\n");
  memset(commas.bytes, ',', commas.len);
  OPEN(&site, T(NOTES), nothing_told(SW_FOUND));
  ROW(0, sw_rules_new(BYTES(T("fr, e n")), BYTES(table), &rules, &told), refused_at(9, 4));
  ROW(0, sw_rules_new(BYTES(T("fr")), BYTES(T("en=fr, EN=de")), &rules, &told), refused_at(31, 7));
  HOLDS(!rules.offer && !rules.offer_len && !rules.fallbacks && !rules.fallbacks_len);
  ROW(0, sw_rules_new(BYTES(T("*")), BYTES(table), &rules, &told), nothing_told(SW_FOUND));
  ROW(0, sw_rules_new(BYTES(commas), NULL, 0, &rules, &told), refused(8));
  ROW(0, sw_rules_new(NULL, 0, BYTES(commas), &rules, &told), refused(8));
  ROW(0, sw_rules_new(BYTES(T("e n")), BYTES(T("a")), &rules, &told), refused_at(9, 0));
  LOOKUP_BY(&rules, &site, m, T("gsw-CH"), NO_TEXT, answers(SW_FOUND, 0, "matched de [\"Hallo\"]\n"));
  ROW(ROOM, sw_site_lookup(&site, &rules, 0, BYTES(m), BYTES(note), NULL, 0, ANSWER), shown);
  ROW(ROOM, sw_text_lookup(BYTES(T(NOTES)), &rules, 0, BYTES(m), BYTES(note), NULL, 0, ANSWER), shown);
  ROW(ROOM, sw_site_lookup(&site, &zeros, 0, BYTES(m), BYTES(note), NULL, 0, ANSWER), hidden);
  /* (not by its macro, which lets NULL be rules) */
  ROW(ROOM, (sw_site_lookup)(&site, &zeros, 0, BYTES(m), BYTES(note), NULL, 0, ANSWER), hidden);
  sw_rules_free(&rules);
  HOLDS(!rules.offer_len && !rules.fallbacks_len);
  LOOKUP_BY(&rules, &site, m, T("gsw-CH"), NO_TEXT, hidden);
  ROW(ROOM, sw_site_lookup(&site, &rules, 0, BYTES(m), BYTES(note), NULL, 0, ANSWER), hidden);
  ROW(0, sw_rules_new(NULL, 0, NULL, 0, &rules, &told), nothing_told(SW_FOUND));
  free(commas.bytes);
  sw_site_free(&site);
}

int main(void) {
  sw_site site = {0};
  HOLDS(sw_version() == SW_VERSION);
  picks();
  long_fields();
  closed_handles();
  OPEN(&site, T(PARIS), nothing_told(SW_FOUND));
  unknown_flags(&site);
  questions(&site);
  rooms(&site);
  written_texts();
  sw_site_free(&site);
  HOLDS(!site.held);
  shares();
  offers();
  fallbacks();
  made_rules();
  printf("statuses: %u rows, %u wrong\n", rows, faults);
  return faults != 0;
}
