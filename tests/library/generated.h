/* Sites, questions and mutated documents that are made at random, always the same ones of a seed. Ids, texts and what
 * is put into documents are made of what could be taken for the border of two rows. */
#ifndef GENERATED_H
#define GENERATED_H

#include "questions.h"

enum { MOST_IDS = 64, MANY = 400, MOST_ID = 128, MOST_TEXT = 65535, MOST_TEXTS = 64, ROOM_OF_FIELD = 65536 + 64 };

/* Bytes that grow in a block of `room`. */
typedef struct {
  uint8_t *bytes;
  size_t len, room;
} growing;

#define PIECE(literal) {(uint8_t *)(literal), sizeof(literal) - 1}
#define ONE_OF(list) (&(list)[below(sizeof(list) / sizeof *(list))])

static const text PIECES[] = {
    PIECE("],["), PIECE("\",\""), PIECE("\""), PIECE("\\"), PIECE("[\""), PIECE("]]"), PIECE("\\\""), PIECE(",null]"),
    PIECE("\\u0022"), PIECE("],[\""), PIECE("\",\"en\","), PIECE("[],["), PIECE("{\"cells\":["), PIECE("}"),
    PIECE("],[\"m\",\"en\","), PIECE("\",5,\"paris\",0,[\""), PIECE("a"), PIECE("7"), PIECE("en"), PIECE(" "),
    PIECE("/"), PIECE(","), PIECE(",en"), PIECE("message-"),
    PIECE("gr\xc3\xb6\xc3\x9f"), PIECE("\xf0\x9f\x98\x80"), PIECE("\xe2\x80\xa8"),
    PIECE("],\"kind\":\"site\",\"site\":\"paris\",\"version\":2}"),
};
/* (in texts and documents alone) */
static const text WILD[] = {
    PIECE("[\"m\",\"en\",5,\"paris\",0,[\"x\"]]"),
    PIECE("]],[\"m\",\"en\",5,\"paris\",0,[\"x\"]],[\"n\",\"fr\",6,\"oslo\",1,null],"),
    PIECE("\n"), PIECE("\0"), PIECE("\x01\x1f"), PIECE("\x7f"), PIECE("\t\r\b\f"), PIECE("\\n\\"), PIECE("null"),
};
static const text TAGS[] = {
    PIECE("@none"), PIECE("en"), PIECE("en-gb"), PIECE("en-US"), PIECE("de"), PIECE("de-latn-de-1996"), PIECE("fr"),
    PIECE("fr-ca"), PIECE("zh"), PIECE("zh-hant-tw"), PIECE("pt-br"), PIECE("i-klingon"), PIECE("x-private"),
    PIECE("sr-latn"), PIECE("en-x-a-b"), PIECE("zh-hant-cn-x-private1-private2"),
};
static const text BAD_TAGS[] = {
    PIECE("e n"), PIECE("a"), PIECE("en-"), PIECE("en_US"), PIECE("toolongsubtag"), PIECE("@NONE"), PIECE("\xff"),
};
static const text RANGES[] = {
    PIECE("*"), PIECE("de-*"), PIECE("*-ch"), PIECE("zh-hant-cn-x-private1-private2-more"), PIECE("a b"),
};
static const text WEIGHTS[] = {
    PIECE(""), PIECE(""), PIECE(""), PIECE(";q=0.5"), PIECE(";q=0.123"), PIECE(";q=0"),
};
static const text BAD_IDS[] = {PIECE(""), PIECE("@m"), PIECE("a\tb"), PIECE("m\0"), PIECE("\xff"), PIECE("gr\xc3")};

static uint64_t seed;

/* A number below `bound` (SplitMix64). */
static size_t below(size_t bound) {
  uint64_t it = seed += 0x9E3779B97F4A7C15u;
  it = (it ^ it >> 30) * 0xBF58476D1CE4E5B9u;
  it = (it ^ it >> 27) * 0x94D049BB133111EBu;
  return (size_t)((it ^ it >> 31) % bound);
}

static int one_in(size_t many) { return below(many) == 0; }

/* What has no room stays out. */
static void add(growing *it, text more) {
  if (more.len > it->room - it->len) return;
  if (more.len) memcpy(it->bytes + it->len, more.bytes, more.len);
  it->len += more.len;
}

/* Some pieces, as far as they fit. */
static void add_pieces(growing *it, size_t most, int is_wild) {
  for (size_t left = below(most + 1); left > 0; left--) add(it, is_wild && one_in(3) ? *ONE_OF(WILD) : *ONE_OF(PIECES));
}

static void add_json(growing *it, text given) {
  char escaped[7];
  for (size_t at = 0; at < given.len; at++) {
    uint8_t byte = given.bytes[at];
    int is_plain = byte >= ' ' && byte != '"' && byte != '\\';
    int len = snprintf(escaped, sizeof escaped, is_plain ? "%c" : "\\u%04x", byte);
    add(it, (text){(uint8_t *)escaped, (size_t)len});
  }
}

/* ---- Sites. */

/* A site, and the ids that it was given. */
typedef struct {
  sw_site site;
  uint8_t rooms[MOST_IDS][MOST_ID];
  text ids[MOST_IDS];
  size_t count;
} generated;

static text new_id(uint8_t *room) {
  growing id = {room, 0, MOST_ID};
  do add_pieces(&id, 5, 0);
  while (id.len == 0);
  return (text){room, id.len};
}

/* Mostly short, sometimes as long as a text may be. */
static void add_text(growing *it) {
  add_pieces(it, 6, 1);
  if (!one_in(3000)) return;
  while (it->len < MOST_TEXT) it->bytes[it->len++] = "x],["[below(4)];
}

/* Mostly one of the first few. */
static text any_tag(void) { return one_in(3) ? *ONE_OF(TAGS) : TAGS[below(5)]; }

/* A text of a label that has several: all are one piece, each is some piece, or each is as other texts are. */
static text one_of_several(size_t kind, text piece) {
  static uint8_t room[MOST_TEXT];
  growing one = {room, 0, sizeof room};
  if (kind == 0) return piece;
  if (kind == 1) return one_in(4) ? NO_TEXT : *ONE_OF(PIECES);
  add_text(&one);
  return (text){BYTES(one)};
}

/* Puts a label of several texts, by language maps. */
static void import(sw_site *site, text id, text tag) {
  static uint8_t room[1 << 23];
  growing maps = {room, 0, sizeof room};
  sw_told told;
  add(&maps, T("{\""));
  add_json(&maps, id);
  add(&maps, T("\":{\""));
  add(&maps, tag);
  add(&maps, T("\":["));
  text piece = *ONE_OF(PIECES);
  size_t kind = below(3);
  for (size_t left = one_in(4) ? MOST_TEXTS : 1 + below(4); left > 0; left--) {
    add(&maps, T("\""));
    add_json(&maps, one_of_several(kind, piece));
    add(&maps, left > 1 ? T("\",") : T("\"]}}"));
  }
  sw_site_import(site, 1 + below(9), maps.bytes, maps.len, &told);
}

static void put(sw_site *site, text id, text tag) {
  static uint8_t room[MOST_TEXT];
  growing one = {room, 0, sizeof room};
  sw_told told;
  add_text(&one);
  sw_site_put(site, 1 + below(9), BYTES(id), BYTES(tag), BYTES(one), &told);
}

static void edit(sw_site *site, text id, text tag) {
  sw_told told;
  size_t kind = below(10);
  if (kind == 0)
    sw_site_delete(site, 1 + below(9), BYTES(id), BYTES(tag), &told);
  else if (kind < 3)
    import(site, id, tag);
  else
    put(site, id, tag);
}

/* A language of its own for each number. */
static text numbered_tag(size_t number) {
  static char room[32];
  int len = snprintf(room, sizeof room, "%cb-x-%zu", (char)('a' + number % 7), number);
  return (text){(uint8_t *)room, (size_t)len};
}

/* An id of its own for each number. */
static text numbered_id(size_t number) {
  static char room[32];
  return (text){(uint8_t *)room, (size_t)snprintf(room, sizeof room, "message-%zu", number)};
}

/* Makes a site: one without cells, with one, with one message of many languages, with some messages, or with many. */
static void make(generated *it) {
  sw_told told;
  size_t kind = below(16), most = kind == 0 ? 0 : kind < 3 ? 1 : MOST_IDS, languages = kind == 1 ? 1 : 1 + below(5);
  if (sw_site_new(BYTES(T("paris")), &it->site, &told)) exit(3);
  it->count = most ? 1 + below(most) : 0;
  for (size_t at = 0; at < it->count; at++) {
    it->ids[at] = new_id(it->rooms[at]);
    for (size_t left = languages; left > 0; left--) edit(&it->site, it->ids[at], any_tag());
  }
  for (size_t left = kind == 2 ? MANY : 0; left > 0; left--) edit(&it->site, it->ids[0], numbered_tag(left));
  for (size_t left = kind == 3 ? MANY : 0; left > 0; left--) put(&it->site, numbered_id(left), any_tag());
}

/* The document of a site, in a block of `room` bytes. */
static text written(sw_site *site, uint8_t *bytes, size_t room) {
  sw_told told;
  if (sw_site_write(site, bytes, room, &told) || told.len > room) exit(3);
  return (text){bytes, told.len};
}

/* ---- Questions. */

enum call { LOOKUP, TEXT, FILTER, CALLS };

typedef struct {
  enum call call;
  uint32_t flags;
  text id, field, dflt;
  size_t place;
  uint8_t of_id[MOST_ID + 2], of_field[ROOM_OF_FIELD];
} question;

/* An id of the site, one that is near one, another one, or none. */
static void ask_id(question *it, const generated *of) {
  growing id = {it->of_id, 0, sizeof it->of_id};
  if (of->count && !one_in(5)) {
    add(&id, one_in(5) ? numbered_id(1 + below(MANY)) : of->ids[below(of->count)]);
    if (one_in(8))
      id.len -= one_in(2) ? 1 : below(id.len);
    else if (one_in(8))
      add(&id, *ONE_OF(PIECES));
  } else if (one_in(4)) {
    add(&id, *ONE_OF(BAD_IDS));
  } else {
    id.len = new_id(id.bytes).len;
  }
  it->id = (text){BYTES(id)};
}

static void ask_field(question *it) {
  growing field = {it->of_field, 0, ROOM_OF_FIELD};
  for (size_t left = below(6); left > 0; left--) {
    add(&field, one_in(16) ? *ONE_OF(RANGES) : one_in(8) ? numbered_tag(1 + below(MANY)) : any_tag());
    if (!(it->flags & SW_EXTENDED)) add(&field, one_in(40) ? T(";q=2") : *ONE_OF(WEIGHTS));
    if (left > 1) add(&field, one_in(2) ? T(", ") : T(","));
  }
  if (one_in(400)) {
    while (field.len < 65535) field.bytes[field.len++] = ',';
    if (one_in(2)) field.bytes[field.len++] = ',';
  }
  it->field = (text){BYTES(field)};
}

static void ask_about(question *it, const generated *of) {
  it->call = (enum call)below(CALLS);
  it->flags = (uint32_t)below(it->call == FILTER ? 4 : 8) | (one_in(200) ? (uint32_t)1 << (3 + below(29)) : 0);
  ask_id(it, of);
  ask_field(it);
  it->dflt = one_in(2) ? NO_TEXT : one_in(20) ? *ONE_OF(BAD_TAGS) : any_tag();
  it->place = one_in(3) ? below(70) : one_in(20) ? SIZE_MAX : 0;
}

/* ---- Mutated documents. */

/* A place of a document: anywhere, behind its beginning and before its end, or where a row begins. */
static size_t place_in(const growing *it) {
  if (it->len < 80 || one_in(6)) return below(it->len + 1);
  size_t place = 10 + below(it->len - 70);
  const uint8_t *row = one_in(2) ? memmem(it->bytes + place, it->len - place, "],[\"", 4) : NULL;
  return row ? (size_t)(row - it->bytes) + 2 : place;
}

static void cut(growing *it, size_t from, size_t to) {
  memmove(it->bytes + from, it->bytes + to, it->len - to);
  it->len -= to - from;
}

static void insert(growing *it, size_t at, text more) {
  if (more.len > it->room - it->len) return;
  memmove(it->bytes + at + more.len, it->bytes + at, it->len - at);
  memcpy(it->bytes + at, more.bytes, more.len);
  it->len += more.len;
}

/* Puts a copy of a part elsewhere, and takes the part away where it is exchanged. */
static void double_part(growing *it, size_t from, size_t to, int is_exchanged) {
  static uint8_t part[1 << 16];
  size_t len = to - from < sizeof part ? to - from : sizeof part;
  memcpy(part, it->bytes + from, len);
  if (is_exchanged) cut(it, from, from + len);
  insert(it, place_in(it), (text){part, len});
}

static void mutate_once(growing *it) {
  size_t one = place_in(it), other = place_in(it), from = one < other ? one : other, to = one < other ? other : one;
  size_t few = from + below(20), near = few < it->len ? few : it->len;
  switch (below(10)) {
    case 0: it->len = one; break;
    case 1: cut(it, 0, one); break;
    case 2: cut(it, from, to); break;
    case 3: cut(it, from, near); break;
    case 4: double_part(it, from, to, 0); break;
    case 5: double_part(it, from, to, 1); break;
    case 6: insert(it, one, one_in(2) ? *ONE_OF(WILD) : *ONE_OF(PIECES)); break;
    case 7: if (one < it->len) it->bytes[one] = (uint8_t)"\"\\[],{}@0\xff\x80\xc3\n"[below(14)]; break;
    case 8: if (one < it->len) it->bytes[one] ^= (uint8_t)(1 << below(8)); break;
    default: if (one < it->len) it->bytes[one] = (uint8_t)below(256); break;
  }
}

/* Changes a document now and then into one that only begins and ends as one; mostly in some places. */
static void mutate(growing *it) {
  if (one_in(20)) {
    it->len = 0;
    add(it, T("{\"cells\":["));
    add_pieces(it, 200, 1);
    add(it, T("],\"kind\":\"site\",\"site\":\"paris\",\"version\":2}"));
  }
  for (size_t left = one_in(5) ? 1 + below(12) : 1 + below(2); left > 0; left--) mutate_once(it);
}

#endif
