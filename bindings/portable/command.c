/* The call of silkwaram_command.h. The structs are those of the module: numbers and addresses of 64
 * bits. */
#define TOLD_SIZE 24u
#define WORD_SIZE 16u

int32_t sw_command(const sw_text *words, size_t count, const uint8_t *input, size_t input_len,
                   uint8_t *out, size_t out_len, uint8_t *err, size_t err_len,
                   sw_command_told *told) {
  static const char line[] = "refused 26: out of memory\n";
  u64 bytes = TAKES(TOLD_SIZE) + TAKES(input_len) + TAKES(out_len) + TAKES(err_len);
  bytes += WORD_SIZE * (u64)count;
  for (size_t it = 0; it < count; it++) bytes += TAKES(words[it].len);
  if (!begin(bytes)) {
    *told = (sw_command_told){0, sizeof line - 1, 0};
    if (told->err_len <= err_len) memcpy(err, line, told->err_len);
    return 5;
  }
  u64 at_told = room(TOLD_SIZE), at_words = next;
  next += WORD_SIZE * (u64)count;
  for (size_t it = 0; it < count; it++) {
    put_number(at_words + WORD_SIZE * it, put_text(words[it].text, words[it].len));
    put_number(at_words + WORD_SIZE * it + 8, words[it].len);
  }
  u64 at_input = put_text(input, input_len), at_out = room(out_len), at_err = room(err_len);
  int32_t status = (int32_t)CALL(Z_sw_command)(&module, at_words, count, at_input, input_len,
                                               at_out, out_len, at_err, err_len, at_told);
  told->out_len = (size_t)get_number(at_told);
  told->err_len = (size_t)get_number(at_told + 8);
  told->input_read = get_half(at_told + 16);
  get_answer(out, out_len, at_out, told->out_len);
  get_answer(err, err_len, at_err, told->err_len);
  end();
  return status;
}
