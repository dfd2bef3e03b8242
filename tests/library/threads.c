/* Threads that ask at once, each by a handle of its own, while the site is read anew.
 *
 * usage: threads THREADS LOOKUPS
 *
 * Every so often a thread lets its handle go and takes a new one of the site as it is then, under a lock, and it
 * shares its own handle and frees that share, under none. Each answer has to be that of the state that it took. */
#include <pthread.h>
#include <stdatomic.h>
#include <time.h>

#include "questions.h"

enum { MESSAGES = 1000, STRETCH = 500, ROOM = 64, MOST_THREADS = 64 };

static pthread_mutex_t lock = PTHREAD_MUTEX_INITIALIZER;
static sw_site current;
static unsigned state; /* what `current` was read from */
static text documents[2];
static atomic_uint running;
static unsigned long lookups;

/* The document of a state: its number is in each label. */
static text document_of(unsigned number) {
  size_t most = 100 + 64 * MESSAGES, at = 0;
  char *made = (char *)block(most);
  at += (size_t)snprintf(made + at, most - at, "{\"cells\":[");
  for (unsigned message = 0; message < MESSAGES; message++)
    at += (size_t)snprintf(made + at, most - at, "%s[\"m%03u\",\"en\",5,\"paris\",%u,[\"%u of %u\"]]",
                           message ? "," : "", message, message, message, number);
  at += (size_t)snprintf(made + at, most - at, "],\"kind\":\"site\",\"site\":\"paris\",\"version\":2}\n");
  return (text){(uint8_t *)made, at};
}

static int is_answered(sw_site *site, unsigned message, unsigned number) {
  char id[8], wanted[ROOM];
  uint8_t out[ROOM];
  sw_told told;
  int id_len = snprintf(id, sizeof id, "m%03u", message);
  int len = snprintf(wanted, sizeof wanted, "matched en [\"%u of %u\"]\n", message, number);
  int32_t status = sw_site_lookup(site, NULL, 0, (const uint8_t *)id, (size_t)id_len, BYTES(T("de, en-GB;q=0.5")),
                                  NULL, 0, out, sizeof out, &told);
  return status == SW_FOUND && told.len == (size_t)len && !memcmp(out, wanted, told.len);
}

/* Takes a handle of the site as it is, in place of the one that is held. */
static int takes_anew(sw_site *own, unsigned *number) {
  pthread_mutex_lock(&lock);
  sw_site_free(own);
  int32_t status = sw_site_share(&current, own);
  *number = state;
  pthread_mutex_unlock(&lock);
  return status == SW_FOUND;
}

static int shares(sw_site *own, unsigned message, unsigned number) {
  sw_site other = {0};
  int is_well = sw_site_share(own, &other) == SW_FOUND && is_answered(&other, message, number);
  sw_site_free(&other);
  return is_well;
}

static void *asks(void *seed) {
  sw_site own = {0};
  unsigned number = 0, chance = *(unsigned *)seed;
  unsigned long wrong = 0;
  for (unsigned long at = 0; at < lookups; at++) {
    if (at % STRETCH == 0 && !takes_anew(&own, &number)) wrong++;
    chance = chance * 1664525u + 1013904223u;
    unsigned message = (chance >> 16) % MESSAGES;
    if (!is_answered(&own, message, number)) wrong++;
    if (at % STRETCH == STRETCH / 2 && !shares(&own, message, number)) wrong++;
  }
  sw_site_free(&own);
  running--;
  return (void *)wrong;
}

/* Reads the other state, while the threads run. */
static int reads_anew(void) {
  sw_told told;
  pthread_mutex_lock(&lock);
  int32_t status = sw_site_open(BYTES(documents[1 - state]), &current, &told);
  if (status == SW_FOUND) state = 1 - state;
  pthread_mutex_unlock(&lock);
  return status == SW_FOUND;
}

int main(int count, char **words) {
  if (count != 3) return 2;
  unsigned threads = (unsigned)strtoul(words[1], NULL, 10), seeds[MOST_THREADS];
  pthread_t ids[MOST_THREADS];
  lookups = strtoul(words[2], NULL, 10);
  if (threads > MOST_THREADS) return 2;
  for (unsigned it = 0; it < 2; it++) documents[it] = document_of(it);
  sw_told told;
  if (sw_site_open(BYTES(documents[0]), &current, &told) != SW_FOUND) return 1;

  unsigned long wrong = 0, reloads = 0;
  const struct timespec pause = {.tv_nsec = 1000000};
  running = threads;
  for (unsigned it = 0; it < threads; it++) {
    seeds[it] = it;
    if (pthread_create(&ids[it], NULL, asks, &seeds[it])) return 3;
  }
  while (running) {
    if (!reads_anew()) wrong++;
    reloads++;
    nanosleep(&pause, NULL);
  }
  for (unsigned it = 0; it < threads; it++) {
    void *of_thread;
    pthread_join(ids[it], &of_thread);
    wrong += (unsigned long)of_thread;
  }
  sw_site_free(&current);
  for (unsigned it = 0; it < 2; it++) free(documents[it].bytes);
  printf("threads: %u threads, %lu lookups each, read anew %lu times; %lu wrong\n", threads, lookups, reloads, wrong);
  return wrong != 0;
}
