/* Threads that ask shares of a site while it is edited.
 *
 * usage: editing THREADS SECONDS
 *
 * One thread edits: each edit puts a label of the same number into two messages, so that a state is whole where both
 * have one number. Every so often it publishes the site by a share, under a lock. The other threads take shares of what
 * was published, and each share has to answer with one number, whole, for as long as it is held. Where other work takes
 * the processors, it goes on until both were done, up to a hundred times the seconds. */
#include <pthread.h>
#include <stdatomic.h>
#include <time.h>

#include "questions.h"

enum { STRETCH = 200, ROOM = 64, MOST_THREADS = 64, MOST_TIMES = 100 };

static pthread_mutex_t lock = PTHREAD_MUTEX_INITIALIZER;
static sw_site published;
static atomic_int is_over;
static atomic_ulong asked, edited;

static int is_put(sw_site *site, const char *id, uint64_t now, unsigned long number) {
  char label[ROOM];
  sw_told told;
  int len = snprintf(label, sizeof label, "%lu", number);
  return sw_site_put(site, now, (const uint8_t *)id, strlen(id), BYTES(T("en")), (const uint8_t *)label, (size_t)len,
                     &told) == SW_FOUND;
}

/* The number that a message has, or -1. */
static long number_of(sw_site *site, const char *id) {
  uint8_t out[ROOM];
  sw_told told;
  if (sw_site_text(site, NULL, 0, (const uint8_t *)id, strlen(id), BYTES(T("en")), NULL, 0, 0, out, ROOM - 1, &told))
    return -1;
  out[told.len] = 0;
  return strtol((const char *)out, NULL, 10);
}

static void *asks(void *nothing) {
  unsigned long wrong = 0;
  (void)nothing;
  while (!is_over) {
    sw_site own = {0};
    pthread_mutex_lock(&lock);
    int32_t status = sw_site_share(&published, &own);
    pthread_mutex_unlock(&lock);
    long number = number_of(&own, "first");
    if (status != SW_FOUND || number < 0) wrong++;
    for (unsigned at = 0; at < STRETCH; at++)
      if (number_of(&own, "first") != number || number_of(&own, "second") != number) wrong++;
    asked += STRETCH;
    sw_site_free(&own);
  }
  return (void *)wrong;
}

static void *edits(void *nothing) {
  unsigned long wrong = 0, number = 0;
  sw_site site = {0};
  (void)nothing;
  pthread_mutex_lock(&lock);
  if (sw_site_share(&published, &site)) wrong++;
  pthread_mutex_unlock(&lock);
  while (!is_over) {
    number++;
    if (!is_put(&site, "first", number, number) || !is_put(&site, "second", number, number)) wrong++;
    edited += 2;
    if (number % 8 == 0) {
      pthread_mutex_lock(&lock);
      if (sw_site_share(&site, &published)) wrong++;
      pthread_mutex_unlock(&lock);
    }
  }
  sw_site_free(&site);
  return (void *)wrong;
}

int main(int count, char **words) {
  if (count != 3) return 2;
  unsigned threads = (unsigned)strtoul(words[1], NULL, 10);
  pthread_t ids[MOST_THREADS + 1];
  if (threads > MOST_THREADS) return 2;
  const struct timespec time = {.tv_sec = (time_t)strtoul(words[2], NULL, 10)};
  sw_told told;
  if (sw_site_new(BYTES(T("paris")), &published, &told) || !is_put(&published, "first", 1, 0) ||
      !is_put(&published, "second", 1, 0))
    return 1;
  for (unsigned it = 0; it <= threads; it++)
    if (pthread_create(&ids[it], NULL, it < threads ? asks : edits, NULL)) return 3;
  for (unsigned it = 0; it < MOST_TIMES && (it == 0 || asked == 0 || edited == 0); it++) nanosleep(&time, NULL);
  is_over = 1;
  unsigned long wrong = 0;
  for (unsigned it = 0; it <= threads; it++) {
    void *of_thread;
    pthread_join(ids[it], &of_thread);
    wrong += (unsigned long)of_thread;
  }
  sw_site_free(&published);
  if (asked == 0 || edited == 0) wrong++;
  printf("editing: %lu questions by %u threads, %lu edits meanwhile; %lu wrong\n", (unsigned long)asked, threads,
         (unsigned long)edited, wrong);
  return wrong != 0;
}
