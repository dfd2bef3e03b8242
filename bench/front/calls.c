/* Nanoseconds of processor time of a call from C. usage: calls SITE.json */
#include <silkwaram.h>

#include "measuring.h"

enum { CALLS = 200000, ROOM = 256 };

static sw_site site;
static uint8_t out[ROOM];
static sw_told told;

/* (of 20 elements) */
#define TABLE                                                                                                      \
  "no=nb, nn=nb, da=nb, iw=he, in=id, zh-TW=zh-Hant, zh-HK=zh-Hant-HK, zh-MO=zh-Hant-HK, zh-CN=zh-Hans, "           \
  "zh-SG=zh-Hans, en-AU=en-001, en-NZ=en-001, en-IN=en-001, en-001=en-GB, en=en-US, es-MX=es-419, es-AR=es-419, " \
  "pt-AO=pt-PT, pt-MZ=pt-PT, sr-ME=sr-Latn"
static const sw_rules by_table = {(const uint8_t *)"*", 1, BYTES(TABLE)};

static void pick_by(const sw_rules *rules) {
  if (sw_pick(0, rules, BYTES("da, en-GB;q=0.8, en;q=0.7"), BYTES("en\nfr\nde\nes\nit\npt-BR\nja\nzh-Hant"), NULL, 0,
              out, ROOM, &told))
    exit(1);
}

static void pick(void) { pick_by(NULL); }

static void pick_by_table(void) { pick_by(&by_table); }

#define QUESTION &site, NULL, 0, BYTES("message-777"), BYTES("de-CH, fr;q=0.5"), BYTES("en")

static void lookup(void) {
  if (sw_site_lookup(QUESTION, out, ROOM, &told)) exit(1);
}

static void label_text(void) {
  if (sw_site_text(QUESTION, 0, out, ROOM, &told)) exit(1);
}

int main(int count, char **words) {
  if (count != 2) return 2;
  size_t len;
  uint8_t *text = file(words[1], &len);
  double start = now();
  if (sw_site_open(text, len, &site, &told)) return 1;
  double took = now() - start;
  printf("| `sw_pick` from C | %.0f |\n", least_of(pick, CALLS));
  printf("| `sw_pick` from C, by a table of 20 fallbacks | %.0f |\n", least_of(pick_by_table, CALLS));
  printf("| `sw_site_lookup` from C, 16,000 cells | %.0f |\n", least_of(lookup, CALLS));
  printf("| `sw_site_text` from C, 16,000 cells | %.0f |\n", least_of(label_text, CALLS));
  printf("| `sw_site_open` from C, 16,000 cells | %.0f |\n", took);
  sw_site_free(&site);
  free(text);
  return 0;
}
