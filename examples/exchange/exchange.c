/* Two sites that edit apart and exchange over a queue.
 *
 * usage: exchange
 *
 *     cc exchange.c -o exchange $(pkg-config --cflags --libs silkwaram)
 *
 * Paris and Tokyo each put a label of one message while the other does not know of it. Then each is sent what it lacks:
 * a summary goes one way, a delta comes back. One delta is lost and asked for anew, one comes twice; both sites hold
 * the same cells at the end, which is printed. Ends with 0 if they do, 1 if not, and with the status of the call that
 * failed otherwise. */
#include <silkwaram.h>
#include <stdio.h>
#include <stdlib.h>
#include <string.h>
#include <time.h>

/* A text that a call answered, in memory of its own. */
typedef struct text {
  uint8_t *bytes;
  size_t len;
} text;

/* What waits at a site's door, oldest first. */
typedef struct queue {
  text waiting[8];
  size_t count;
} queue;

static const uint8_t *bytes(const char *it) { return (const uint8_t *)it; }

static void end_with(const char *what, int32_t status, const sw_told *told) {
  fprintf(stderr, "%s: status %d, refused %u\n", what, (int)status, told->number);
  exit(status);
}

static void put(sw_site *site, uint64_t now, const char *id, const char *lang, const char *label) {
  sw_told told;
  int32_t status = sw_site_put(site, now, bytes(id), strlen(id), bytes(lang), strlen(lang), bytes(label), strlen(label),
                               &told);
  if (status != SW_FOUND) end_with("put", status, &told);
}

/* The call is made once for its size, and once with room. */
static text summary_of(sw_site *site) {
  sw_told told;
  int32_t status = sw_site_summary(site, SW_LABELS, NULL, 0, &told);
  text made = {malloc(told.len), told.len};
  if (status == SW_FOUND && made.bytes) status = sw_site_summary(site, SW_LABELS, made.bytes, made.len, &told);
  if (status != SW_FOUND || !made.bytes) end_with("summary", status ? status : SW_NO_MEMORY, &told);
  return made;
}

static text delta_of(sw_site *site, text summary) {
  sw_told told;
  int32_t status = sw_site_delta(site, summary.bytes, summary.len, NULL, 0, &told);
  text made = {malloc(told.len), told.len};
  if (status == SW_FOUND && made.bytes)
    status = sw_site_delta(site, summary.bytes, summary.len, made.bytes, made.len, &told);
  if (status != SW_FOUND || !made.bytes) end_with("delta", status ? status : SW_NO_MEMORY, &told);
  return made;
}

/* What one site lacks of the other is put into its queue, `times` times: 0 is a message that gets lost. */
static void send_what_is_lacking(sw_site *from, sw_site *to, queue *door, size_t times) {
  text summary = summary_of(to);
  text delta = delta_of(from, summary);
  free(summary.bytes);
  for (; times > 0; times--) {
    text copy = {malloc(delta.len), delta.len};
    if (!copy.bytes) exit(SW_NO_MEMORY);
    memcpy(copy.bytes, delta.bytes, delta.len);
    door->waiting[door->count++] = copy;
  }
  free(delta.bytes);
}

/* The latest time that is taken, in milliseconds: a time far ahead would move every later edit ahead too. */
static uint64_t day_ahead(void) { return ((uint64_t)time(NULL) + 24 * 60 * 60) * 1000; }

/* Takes all that waits. */
static void take_all(sw_site *site, queue *door) {
  for (size_t at = 0; at < door->count; at++) {
    sw_told told;
    text delta = door->waiting[at];
    int32_t status = sw_site_take(site, SW_CHECK_OWN, delta.bytes, delta.len, day_ahead(), &told);
    if (status != SW_FOUND) end_with("take", status, &told);
    free(delta.bytes);
  }
  door->count = 0;
}

static void new_site(sw_site *site, const char *name) {
  sw_told told;
  int32_t status = sw_site_new(bytes(name), strlen(name), site, &told);
  if (status != SW_FOUND) end_with("new", status, &told);
}

int main(void) {
  sw_site paris = {0}, tokyo = {0};
  queue at_paris = {0}, at_tokyo = {0};
  new_site(&paris, "paris");
  new_site(&tokyo, "tokyo");
  put(&paris, 1000, "greeting", "en", "Hello");
  put(&paris, 1001, "greeting", "fr", "Salut");
  put(&tokyo, 1002, "greeting", "ja", "こんにちは");
  put(&tokyo, 1003, "greeting", "en", "Good day");
  send_what_is_lacking(&paris, &tokyo, &at_tokyo, 0);
  send_what_is_lacking(&paris, &tokyo, &at_tokyo, 1);
  put(&paris, 1004, "greeting", "fr", "Bonjour");
  send_what_is_lacking(&tokyo, &paris, &at_paris, 2);
  take_all(&tokyo, &at_tokyo);
  take_all(&paris, &at_paris);
  send_what_is_lacking(&paris, &tokyo, &at_tokyo, 1);
  take_all(&tokyo, &at_tokyo);

  sw_told told;
  uint8_t line[256];
  int32_t status = sw_site_changes(&paris, &tokyo, line, sizeof line, &told);
  if (status != SW_NOTHING) {
    printf("the sites differ: status %d\n", (int)status);
    return 1;
  }
  status = sw_site_export(&tokyo, line, sizeof line, &told);
  if (status != SW_FOUND || told.len > sizeof line) end_with("export", status, &told);
  printf("%.*s", (int)told.len, (const char *)line);
  sw_site_free(&paris);
  sw_site_free(&tokyo);
  return 0;
}
