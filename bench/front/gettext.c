/* Finds texts in gettext's catalogue `front` below a folder, by glibc, in the locale of the environment.
 *
 * usage: gettext each|once|none MESSAGES FOLDER */
#include <libintl.h>
#include <locale.h>

#include "asked.h"

static size_t find(const char *id, size_t len) {
  const char *text = gettext(id);
  (void)len;
  return text == id ? 0 : strlen(text);
}

int main(int count, char **words) {
  if (count != 4 || !setlocale(LC_ALL, "") || !bindtextdomain("front", words[3]) || !textdomain("front")) return 2;
  return asked(words[1], words[2], find);
}
