/* Prints the text of a message for a reader.
 *
 * usage: label SITE.json ID FIELD [DEFAULT [FALLBACKS]]
 *
 *     cc label.c -o label $(pkg-config --cflags --libs silkwaram)
 *     ./label site.json greeting 'fr-CA, en;q=0.5' en
 *
 * FIELD is what the reader's Accept-Language header holds, or * if there is none. A reader who excludes the default too
 * (*;q=0) gets it nevertheless. FALLBACKS says which language is next to which, as 'zh-TW=zh-Hant, no=nb'.
 *
 * Ends with 0 if a text was printed, 1 if there is none for this reader, 2 for wrong usage, 3 if something is refused,
 * 4 if the file cannot be read or the text cannot be written, 5 if memory runs out. */
#include <silkwaram.h>
#include <stdio.h>
#include <stdlib.h>
#include <string.h>

/* What is offered, which is all but private use, and the fallbacks. */
static sw_rules rules;

static uint8_t *read_file(const char *name, size_t *len) {
  FILE *from = fopen(name, "rb");
  if (!from) return NULL;
  fseek(from, 0, SEEK_END);
  *len = (size_t)ftell(from);
  rewind(from);
  uint8_t *bytes = malloc(*len ? *len : 1);
  if (bytes && fread(bytes, 1, *len, from) != *len) {
    free(bytes);
    bytes = NULL;
  }
  fclose(from);
  return bytes;
}

static const uint8_t *bytes(const char *text) { return (const uint8_t *)text; }

/* Prints what a refusal means, and where it is. */
static void print_refusal(const sw_told *refused) {
  uint8_t wanted[255];
  sw_told told;
  sw_refusal(refused->number, wanted, sizeof wanted, &told);
  fprintf(stderr, "refused %u", refused->number);
  if (refused->given & SW_HAS_OFFSET) fprintf(stderr, " at byte %zu", refused->offset);
  if (refused->given & SW_HAS_ROW) fprintf(stderr, " in row %zu", refused->row);
  fprintf(stderr, ": %.*s\n", (int)told.len, (const char *)wanted);
}

/* Asks for the first text of the label: without what is malformed of the field, and a language finds its regions. */
static int32_t ask(sw_site *site, const char *id, const char *field, const char *dflt, uint8_t *out, size_t room,
                   sw_told *told) {
  return sw_site_text(site, &rules, SW_LENIENT | SW_WIDEN, bytes(id), strlen(id), bytes(field), strlen(field),
                      bytes(dflt), strlen(dflt), 0, out, room, told);
}

/* Prints the text, by a block of memory of just its size if the buffer has no room. */
static int32_t print_text(sw_site *site, const char *id, const char *field, const char *dflt, sw_told *told) {
  uint8_t buffer[80], *out = buffer;
  int32_t status = ask(site, id, field, dflt, out, sizeof buffer, told);
  if (status == SW_FOUND && told->len > sizeof buffer) {
    size_t room = told->len;
    out = malloc(room);
    if (!out) return SW_NO_MEMORY;
    status = ask(site, id, field, dflt, out, room, told);
  }
  if (status == SW_FOUND && (printf("%.*s\n", (int)told->len, (const char *)out) < 0 || fflush(stdout))) status = 4;
  if (out != buffer) free(out);
  return status;
}

int main(int count, char **words) {
  if (count < 4 || count > 6) {
    fprintf(stderr, "usage: label SITE.json ID FIELD [DEFAULT [FALLBACKS]]\n");
    return SW_USAGE;
  }
  size_t len;
  uint8_t *document = read_file(words[1], &len);
  if (!document) {
    perror(words[1]);
    return 4;
  }
  sw_site site = {0};
  sw_told told = {0};
  int32_t status = sw_site_open(document, len, &site, &told);
  free(document);
  const char *dflt = count > 4 ? words[4] : "", *fallbacks = count > 5 ? words[5] : "";
  if (status == SW_FOUND) status = sw_rules_new(NULL, 0, bytes(fallbacks), strlen(fallbacks), &rules, &told);
  if (status == SW_FOUND) status = print_text(&site, words[2], words[3], dflt, &told);
  if (status == SW_NOTHING) status = print_text(&site, words[2], "*", dflt, &told);
  if (told.number) print_refusal(&told);
  sw_site_free(&site);
  return status;
}
