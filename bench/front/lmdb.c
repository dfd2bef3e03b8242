/* Finds texts in a database of LMDB, in a transaction for each.
 *
 * usage: lmdb each|once|none MESSAGES FILE
 *        lmdb make MESSAGES FILE < PAIRS      makes it of the lines of messages.py */
#include <lmdb.h>

#include "asked.h"

static const size_t ROOM_OF_MAP = (size_t)1 << 34;
static MDB_env *environment;
static MDB_txn *transaction;
static MDB_dbi database;

static void done(int status) {
  if (!status) return;
  fprintf(stderr, "lmdb: %s\n", mdb_strerror(status));
  exit(2);
}

static size_t find(const char *id, size_t len) {
  static char out[1 << 16];
  MDB_val key = {len, (void *)id}, text;
  done(mdb_txn_renew(transaction));
  done(mdb_get(transaction, database, &key, &text));
  memcpy(out, text.mv_data, text.mv_size);
  mdb_txn_reset(transaction);
  return text.mv_size;
}

static void make(void) {
  static char line[1 << 16];
  done(mdb_txn_begin(environment, NULL, 0, &transaction));
  done(mdb_dbi_open(transaction, NULL, 0, &database));
  while (fgets(line, sizeof line, stdin)) {
    char *tab = strchr(line, '\t'), *end = strchr(line, '\n');
    if (!tab || !end) exit(2);
    MDB_val key = {(size_t)(tab - line), line}, text = {(size_t)(end - tab - 1), tab + 1};
    done(mdb_put(transaction, database, &key, &text, MDB_APPEND));
  }
  done(mdb_txn_commit(transaction));
  done(mdb_env_sync(environment, 1));
}

int main(int count, char **words) {
  if (count != 4) return 2;
  int makes = !strcmp(words[1], "make");
  done(mdb_env_create(&environment));
  done(mdb_env_set_mapsize(environment, ROOM_OF_MAP));
  done(mdb_env_open(environment, words[3], MDB_NOSUBDIR | (makes ? MDB_NOSYNC : MDB_RDONLY), 0644));
  if (makes) {
    make();
    return 0;
  }
  done(mdb_txn_begin(environment, NULL, MDB_RDONLY, &transaction));
  done(mdb_dbi_open(transaction, NULL, 0, &database));
  mdb_txn_reset(transaction);
  return asked(words[1], words[2], find);
}
