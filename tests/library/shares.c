/* Measures the memory of handles, of which no proof speaks: that shares of a site take no copy of it, and that each
 * block is given back, by the last handle of a site and by a new state in its place. It is linked with the archive, so
 * that malloc, realloc and free are those of this file (--wrap). */
#include <malloc.h>

#include "questions.h"

enum { MESSAGES = 20000, SHARES = 100, MOST_OF_SHARE = 256, ROOM = 64 };

/* The bytes of all blocks that were taken and not given back. */
static size_t live;
static unsigned rows, faults;

void *__real_malloc(size_t size);
void *__real_realloc(void *held, size_t size);
void __real_free(void *held);

void *__wrap_malloc(size_t size) {
  void *made = __real_malloc(size);
  live += malloc_usable_size(made);
  return made;
}

void *__wrap_realloc(void *held, size_t size) {
  size_t before = malloc_usable_size(held);
  void *made = __real_realloc(held, size);
  if (made) live += malloc_usable_size(made) - before;
  return made;
}

void __wrap_free(void *held) {
  live -= malloc_usable_size(held);
  __real_free(held);
}

static void holds_at(int line, int is_well, size_t bytes) {
  rows++;
  if (is_well) return;
  faults++;
  fprintf(stderr, "shares.c:%d: %zu bytes\n", line, bytes);
}

#define HOLDS(condition, bytes) holds_at(__LINE__, condition, bytes)

static text document(void) {
  size_t most = 100 + 64 * MESSAGES, at = 0;
  char *made = (char *)block(most);
  at += (size_t)snprintf(made + at, most - at, "{\"cells\":[");
  for (unsigned message = 0; message < MESSAGES; message++)
    at += (size_t)snprintf(made + at, most - at, "%s[\"m%05u\",\"en\",5,\"paris\",%u,[\"Hello\"]]", message ? "," : "",
                           message, message);
  at += (size_t)snprintf(made + at, most - at, "],\"kind\":\"site\",\"site\":\"paris\",\"version\":2}\n");
  return (text){(uint8_t *)made, at};
}

static int opens(sw_site *site, text document) {
  sw_told told;
  return sw_site_open(BYTES(document), site, &told) == SW_FOUND;
}

static int answers(sw_site *site) {
  uint8_t out[ROOM];
  sw_told told;
  return sw_site_text(site, NULL, 0, BYTES(T("m12345")), BYTES(T("en")), NULL, 0, 0, out, sizeof out, &told) ==
             SW_FOUND &&
         told.len == 5 && !memcmp(out, "Hello", 5);
}

/* A hundred shares of a site, which outlive it: a new state is read into its handle, and let go. */
static void outlived(text document) {
  sw_site site = {0}, shares[SHARES] = {{0}};
  size_t before = live;
  HOLDS(opens(&site, document), 0);
  size_t of_site = live - before;
  HOLDS(of_site > MESSAGES * 64, of_site);
  for (unsigned it = 0; it < SHARES; it++) HOLDS(sw_site_share(&site, &shares[it]) == SW_FOUND, it);
  size_t of_shares = live - before - of_site;
  HOLDS(of_shares <= SHARES * MOST_OF_SHARE, of_shares);
  for (unsigned it = 0; it < SHARES; it++) HOLDS(answers(&shares[it]), it);

  size_t little = SHARES * MOST_OF_SHARE;
  HOLDS(opens(&site, document), 0);
  HOLDS(live - before > 2 * of_site - little && live - before <= 2 * of_site + little, live - before);
  sw_site_free(&site);
  HOLDS(live - before > of_site - little && live - before <= of_site + little, live - before);
  for (unsigned it = 0; it + 1 < SHARES; it++) sw_site_free(&shares[it]);
  HOLDS(live - before > of_site - little && answers(&shares[SHARES - 1]), live - before);
  sw_site_free(&shares[SHARES - 1]);
  HOLDS(live == before, live - before);
  printf("shares: a site of %zu bytes, %d shares of it take %zu bytes; ", of_site, SHARES, of_shares);
}

/* What is in a handle is let go when another site comes in its place, by a document or by a share. */
static void replaced(text document) {
  sw_site site = {0}, other = {0};
  size_t before = live;
  HOLDS(opens(&site, document), 0);
  size_t of_site = live - before;
  for (unsigned it = 0; it < 3; it++) {
    HOLDS(opens(&site, document), it);
    HOLDS(live - before <= of_site + MOST_OF_SHARE, live - before);
  }
  HOLDS(opens(&other, document), 0);
  HOLDS(sw_site_share(&site, &other) == SW_FOUND, 0);
  HOLDS(live - before <= of_site + 2 * MOST_OF_SHARE, live - before);
  HOLDS(!opens(&site, T("{")) && answers(&site), 0);
  sw_site_free(&site);
  sw_site_free(&other);
  HOLDS(live == before, live - before);
}

int main(void) {
  text large = document();
  outlived(large);
  replaced(large);
  free(large.bytes);
  printf("%u rows, %u wrong\n", rows, faults);
  return faults != 0;
}
