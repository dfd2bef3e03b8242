#define FFI_SCOPE "silkwaram"
#define FFI_LIB "libsilkwaram.so.0"
/* The calls of the library, for FFI, of include/silkwaram.h by `tools/calls php`. */
typedef struct sw_told { size_t len; size_t offset; size_t row; size_t count; uint32_t number;
    uint32_t given; } sw_told;
typedef struct sw_site { void *held; } sw_site;
typedef struct sw_rules { const char *offer; size_t offer_len; const char *fallbacks;
    size_t fallbacks_len; } sw_rules;
uint32_t sw_version(void);
int32_t sw_rules_new(const char *offer, size_t offer_len, const char *fallbacks,
    size_t fallbacks_len, sw_rules *rules, sw_told *told);
void sw_rules_free(sw_rules *rules);
int32_t sw_pick(uint32_t flags, const sw_rules *rules, const char *field, size_t field_len,
    const char *tags, size_t tags_len, const char *dflt, size_t dflt_len, char *out, size_t out_len,
    sw_told *told);
int32_t sw_site_open(const char *text, size_t text_len, sw_site *site, sw_told *told);
int32_t sw_site_lookup(sw_site *site, const sw_rules *rules, uint32_t flags, const char *id,
    size_t id_len, const char *field, size_t field_len, const char *dflt, size_t dflt_len,
    char *out, size_t out_len, sw_told *told);
int32_t sw_site_text(sw_site *site, const sw_rules *rules, uint32_t flags, const char *id,
    size_t id_len, const char *field, size_t field_len, const char *dflt, size_t dflt_len,
    size_t place, char *out, size_t out_len, sw_told *told);
int32_t sw_site_filter(sw_site *site, const sw_rules *rules, uint32_t flags, const char *id,
    size_t id_len, const char *field, size_t field_len, char *out, size_t out_len, sw_told *told);
int32_t sw_text_lookup(const char *text, size_t text_len, const sw_rules *rules, uint32_t flags,
    const char *id, size_t id_len, const char *field, size_t field_len, const char *dflt,
    size_t dflt_len, char *out, size_t out_len, sw_told *told);
int32_t sw_text_text(const char *text, size_t text_len, const sw_rules *rules, uint32_t flags,
    const char *id, size_t id_len, const char *field, size_t field_len, const char *dflt,
    size_t dflt_len, size_t place, char *out, size_t out_len, sw_told *told);
int32_t sw_text_filter(const char *text, size_t text_len, const sw_rules *rules, uint32_t flags,
    const char *id, size_t id_len, const char *field, size_t field_len, char *out, size_t out_len,
    sw_told *told);
int32_t sw_site_bundle(sw_site *site, const sw_rules *rules, uint32_t flags, const char *field,
    size_t field_len, const char *dflt, size_t dflt_len, char *out, size_t out_len, sw_told *told);
int32_t sw_site_new(const char *name, size_t name_len, sw_site *site, sw_told *told);
int32_t sw_site_put(sw_site *site, uint64_t now, const char *id, size_t id_len, const char *lang,
    size_t lang_len, const char *text, size_t text_len, sw_told *told);
int32_t sw_site_delete(sw_site *site, uint64_t now, const char *id, size_t id_len, const char *lang,
    size_t lang_len, sw_told *told);
int32_t sw_site_merge(sw_site *site, uint32_t flags, sw_site *other, uint64_t not_after,
    sw_told *told);
int32_t sw_site_take(sw_site *site, uint32_t flags, const char *delta, size_t delta_len,
    uint64_t not_after, sw_told *told);
int32_t sw_site_import(sw_site *site, uint64_t now, const char *maps, size_t maps_len,
    sw_told *told);
int32_t sw_site_update(sw_site *site, uint64_t now, const char *old_maps, size_t old_len,
    const char *new_maps, size_t new_len, sw_told *told);
int32_t sw_site_write(sw_site *site, char *out, size_t out_len, sw_told *told);
int32_t sw_site_summary(sw_site *site, uint32_t flags, char *out, size_t out_len, sw_told *told);
int32_t sw_site_status(sw_site *site, char *out, size_t out_len, sw_told *told);
int32_t sw_site_delta(sw_site *site, const char *summary, size_t summary_len, char *out,
    size_t out_len, sw_told *told);
int32_t sw_site_export(sw_site *site, char *out, size_t out_len, sw_told *told);
int32_t sw_site_labels(sw_site *site, char *out, size_t out_len, sw_told *told);
int32_t sw_site_missing(sw_site *site, const char *lang, size_t lang_len, char *out, size_t out_len,
    sw_told *told);
int32_t sw_site_outdated(sw_site *site, const char *lang, size_t lang_len, const char *source,
    size_t source_len, char *out, size_t out_len, sw_told *told);
int32_t sw_site_changes(sw_site *site, sw_site *other, char *out, size_t out_len, sw_told *told);
int32_t sw_filter(uint32_t flags, const sw_rules *rules, const char *field, size_t field_len,
    const char *tags, size_t tags_len, char *out, size_t out_len, sw_told *told);
int32_t sw_refusal(uint32_t number, char *out, size_t out_len, sw_told *told);
int32_t sw_refusal_code(uint32_t number, char *out, size_t out_len, sw_told *told);
int32_t sw_refusal_text(uint32_t number, char *out, size_t out_len, sw_told *told);
int32_t sw_site_share(sw_site *site, sw_site *other);
void sw_site_free(sw_site *site);
