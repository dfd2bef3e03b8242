/* The command lexicat: cc -O2 lexicat.c silkwaram_command.c -o lexicat -pthread
 * It reads standard input and writes standard output, as docs/COMMAND.md says. Tried, not
 * proved. */
#include "silkwaram_command.h"

#include <stdio.h>
#include <stdlib.h>
#include <string.h>

#ifdef _WIN32
#include <fcntl.h>
#include <io.h>
#include <windows.h>
#endif

enum { READ_FAULT = 24, WRITE_FAULT = 25, FAILED = 4, NO_MEMORY = 5, FIRST_ROOM = 65536 };
/* A byte more than the command takes. */
#define LIMIT (((size_t)64 << 20) + 1)

typedef struct {
  uint8_t *bytes;
  size_t len;
} text;

static int fault(int number, const char *words, int status) {
  fprintf(stderr, "refused %d: %s\n", number, words);
  return status;
}

static int no_memory(void) { return fault(26, "out of memory", NO_MEMORY); }

/* The words of the command, as UTF-8; the calls of Windows give them in its own form. */
static sw_text *words_of(int count, char **given) {
  sw_text *words = calloc((size_t)count + 1, sizeof *words);
#ifdef _WIN32
  wchar_t **wide = CommandLineToArgvW(GetCommandLineW(), &count);
  if (!wide) return NULL;
#endif
  for (int it = 0; words && it < count; it++) {
#ifdef _WIN32
    int len = WideCharToMultiByte(CP_UTF8, 0, wide[it], -1, NULL, 0, NULL, NULL);
    given[it] = malloc((size_t)len);
    if (!given[it]) return NULL;
    WideCharToMultiByte(CP_UTF8, 0, wide[it], -1, given[it], len, NULL, NULL);
#endif
    words[it] = (sw_text){(const uint8_t *)given[it], strlen(given[it])};
  }
  return words;
}

/* Standard input, as far as the command looks at it. Returns 0, or a status. */
static int read_input(text *input) {
  size_t room = 0;
  for (;;) {
    if (input->len == room) {
      room = room ? room * 2 : FIRST_ROOM;
      uint8_t *more = realloc(input->bytes, room);
      if (!more) return no_memory();
      input->bytes = more;
    }
    input->len += fread(input->bytes + input->len, 1, room - input->len, stdin);
    if (ferror(stdin)) return fault(READ_FAULT, "read fault", FAILED);
    if (feof(stdin) || input->len >= LIMIT) return 0;
  }
}

/* Runs the command over the input, in the room that its answers need. Returns its status, or -1 for
 * lack of memory. */
static int run(const sw_text *words, size_t count, text input, text *out, text *err,
               sw_command_told *told) {
  size_t out_room = input.len + FIRST_ROOM, err_room = FIRST_ROOM;
  for (;;) {
    free(out->bytes);
    free(err->bytes);
    out->bytes = malloc(out_room);
    err->bytes = malloc(err_room);
    if (!out->bytes || !err->bytes) return -1;
    int status = sw_command(words, count, input.bytes, input.len, out->bytes, out_room,
                            err->bytes, err_room, told);
    out->len = told->out_len;
    err->len = told->err_len;
    if (out->len <= out_room && err->len <= err_room) return status;
    if (out->len > out_room) out_room = out->len;
    if (err->len > err_room) err_room = err->len;
  }
}

int main(int count, char **given) {
  text input = {NULL, 0}, out = {NULL, 0}, err = {NULL, 0};
  sw_command_told told;
  sw_text *words = words_of(count, given);
#ifdef _WIN32
  _setmode(_fileno(stdin), _O_BINARY);
  _setmode(_fileno(stdout), _O_BINARY);
  _setmode(_fileno(stderr), _O_BINARY);
#endif
  if (!words) return no_memory();
  size_t after_name = count > 0;
  int status = run(words + after_name, (size_t)count - after_name, input, &out, &err, &told);
  if (status >= 0 && told.input_read) {
    int read = read_input(&input);
    if (read) return read;
    status = run(words + after_name, (size_t)count - after_name, input, &out, &err, &told);
  }
  if (status < 0) return no_memory();
  /* (what is asked before anything is read, as help, ends as if it were read) */
  if (fwrite(out.bytes, 1, out.len, stdout) != out.len || fflush(stdout))
    if (told.input_read || status) return fault(WRITE_FAULT, "write fault", FAILED);
  fwrite(err.bytes, 1, err.len, stderr);
  return status;
}
