/* The structs of silkwaram.h, as the module has them: numbers and addresses of 64 bits. */
#define TOLD_SIZE 40u
#define HANDLE_SIZE 8u
#define RULES_SIZE 32u

static int32_t no_memory(sw_told *told) {
  *told = (sw_told){0, 0, 0, 0, OUT_OF_MEMORY, 0};
  return SW_NO_MEMORY;
}

static void get_told(sw_told *told, u64 at) {
  told->len = (size_t)get_number(at);
  told->offset = (size_t)get_number(at + 8);
  told->row = (size_t)get_number(at + 16);
  told->count = (size_t)get_number(at + 24);
  told->number = get_half(at + 32);
  told->given = get_half(at + 36);
}

/* (a handle has the address of a site in the memory of the module) */
static u64 put_handle(const sw_site *site) {
  u64 at = room(HANDLE_SIZE);
  put_number(at, (uintptr_t)site->held);
  return at;
}

static void get_handle(sw_site *site, u64 at) { site->held = (void *)(uintptr_t)get_number(at); }

static u64 put_rules(const sw_rules *rules) {
  u64 offer = put_text(rules->offer, rules->offer_len);
  u64 fallbacks = put_text(rules->fallbacks, rules->fallbacks_len), at = room(RULES_SIZE);
  put_number(at, offer);
  put_number(at + 8, rules->offer_len);
  put_number(at + 16, fallbacks);
  put_number(at + 24, rules->fallbacks_len);
  return at;
}

/* (they borrow the texts of the caller, and not the copies of them) */
static void keep_rules(sw_rules *rules, const uint8_t *offer, size_t offer_len,
                       const uint8_t *fallbacks, size_t fallbacks_len, int32_t status) {
  if (status == SW_FOUND) *rules = (sw_rules){offer, offer_len, fallbacks, fallbacks_len};
}

void sw_rules_free(sw_rules *rules) { *rules = (sw_rules){NULL, 0, NULL, 0}; }
