/* Finds texts in the document of a site that is mapped. usage: mapped each|once|none MESSAGES SITE.json */
#include <fcntl.h>
#include <silkwaram.h>
#include <sys/mman.h>
#include <sys/stat.h>

#include "asked.h"

enum { ROOM = 1 << 16 };

static const uint8_t *document;
static size_t document_len;

static size_t find(const char *id, size_t len) {
  static uint8_t out[ROOM];
  sw_told told;
  if (sw_text_text(document, document_len, NULL, 0, (const uint8_t *)id, len, BYTES("fr-CA, en;q=0.5"), NULL, 0, 0,
                   out, ROOM, &told))
    return 0;
  return told.len;
}

int main(int count, char **words) {
  if (count != 4) return 2;
  struct stat state;
  int from = open(words[3], O_RDONLY);
  if (from < 0 || fstat(from, &state)) return 2;
  document_len = (size_t)state.st_size;
  void *at = mmap(NULL, document_len, PROT_READ, MAP_SHARED, from, 0);
  if (at == MAP_FAILED) return 2;
  document = at;
  return asked(words[1], words[2], find);
}
