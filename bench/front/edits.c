/* Makes edits of an open site, and prints the nanoseconds of processor time of each.
 *
 * usage: edits SITE.json put|take|write|put-shared|import TURNS
 *
 * The site has MESSAGES messages or more, named as `id_of` does, each in the languages below. A turn of `put` puts a
 * new state of a cell, one of `take` takes a delta of CELLS cells that are new states, one of `write` writes the
 * document, and one of `import` imports a label. The handle is the only one of the site, but for `put-shared`: a turn
 * of it puts, and then shares the handle anew and frees the share of the turn before. */
#include <silkwaram.h>
#include <string.h>

#include "measuring.h"

enum { MESSAGES = 10000, LANGUAGES = 10, CELLS = 100, ROOM = 100 + 80 * CELLS, ID_ROOM = 32 };

static const char *const LANGS[LANGUAGES] = {"de", "en", "es", "fr", "it", "ja", "nl", "pt", "ru", "zh"};

static sw_site site;

static void done(int32_t status) {
  if (status != SW_FOUND) exit(1);
}

static size_t id_of(char *id, unsigned message) {
  return (size_t)snprintf(id, ID_ROOM, "message-%05u", message % MESSAGES);
}

/* (a stride that meets all messages, far apart) */
static void put(unsigned turn) {
  char id[ID_ROOM];
  sw_told told;
  size_t len = id_of(id, turn * 6151u);
  const char *lang = LANGS[turn / MESSAGES % LANGUAGES];
  done(sw_site_put(&site, 2 + turn, (const uint8_t *)id, len, (const uint8_t *)lang, strlen(lang),
                   (const uint8_t *)"a new text", 10, &told));
}

/* The delta of a turn: a cell of each hundredth message, with stamps of another site. */
static size_t delta_of(char *out, unsigned turn) {
  size_t at = (size_t)snprintf(out, ROOM, "{\"cells\":[");
  for (unsigned cell = 0; cell < CELLS; cell++) {
    char id[ID_ROOM];
    id_of(id, cell * (MESSAGES / CELLS) + turn % (MESSAGES / CELLS));
    at += (size_t)snprintf(out + at, ROOM - at, "%s[\"%s\",\"%s\",%u,\"other\",%u,[\"a new text\"]]", cell ? "," : "", id,
                           LANGS[turn / (MESSAGES / CELLS) % LANGUAGES], 2 + turn, cell);
  }
  return at + (size_t)snprintf(out + at, ROOM - at, "],\"kind\":\"delta\",\"to\":\"front\",\"version\":2}\n");
}

static char *deltas;
static size_t *delta_lens;

/* (before the first is taken) */
static void make_deltas(unsigned turns) {
  deltas = malloc((size_t)turns * ROOM);
  delta_lens = malloc(turns * sizeof *delta_lens);
  if (!deltas || !delta_lens) exit(2);
  for (unsigned turn = 0; turn < turns; turn++) delta_lens[turn] = delta_of(deltas + (size_t)turn * ROOM, turn);
}

static void take(unsigned turn) {
  sw_told told;
  done(sw_site_take(&site, 0, (const uint8_t *)deltas + (size_t)turn * ROOM, delta_lens[turn], 0, &told));
}

static void put_shared(unsigned turn) {
  static sw_site reader;
  put(turn);
  done(sw_site_share(&site, &reader));
}

static void import(unsigned turn) {
  char id[ID_ROOM], maps[ROOM];
  sw_told told;
  id_of(id, turn * 6151u);
  size_t len = (size_t)snprintf(maps, sizeof maps, "{\"%s\":{\"%s\":\"a new text\"}}", id, LANGS[turn % LANGUAGES]);
  done(sw_site_import(&site, 2 + turn, (const uint8_t *)maps, len, &told));
}

static uint8_t *document;
static size_t document_len;

static void write_document(unsigned turn) {
  sw_told told;
  (void)turn;
  done(sw_site_write(&site, document, document_len, &told));
  if (told.len > document_len) exit(1);
}

/* What is measured, and the turns before: the first edits that are made apart copy the site, and look for its latest
 * stamp. */
static const struct {
  const char *name;
  void (*make)(unsigned turn);
  unsigned before;
} EDITS[] = {
    {"put", put, 0},
    {"take", take, 0},
    {"write", write_document, 0},
    {"put-shared", put_shared, 3},
    {"import", import, 3},
};

int main(int count, char **words) {
  if (count != 4) return 2;
  document = file(words[1], &document_len);
  sw_told told;
  done(sw_site_open(document, document_len, &site, &told));
  unsigned turns = (unsigned)strtoul(words[3], NULL, 10), it = 0, turn = 0;
  while (strcmp(words[2], EDITS[it].name))
    if (++it == sizeof EDITS / sizeof *EDITS) return 2;
  if (EDITS[it].make == take) make_deltas(turns);
  for (; turn < EDITS[it].before; turn++) EDITS[it].make(turn);
  double start = now();
  for (; turn < EDITS[it].before + turns; turn++) EDITS[it].make(turn);
  printf("%.0f\n", (now() - start) / turns);
  return 0;
}
