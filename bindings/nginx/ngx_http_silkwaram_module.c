
/*
 * The variable $silkwaram_lang: which of the languages of silkwaram_tags a
 * request gets, by its Accept-Language field and the lookup of RFC 4647; and
 * the variables of silkwaram_label: which text of a message it gets, of the
 * site that silkwaram_labels names.  README.md has the directives.
 */


#include <ngx_config.h>
#include <ngx_core.h>
#include <ngx_http.h>
#include <silkwaram.h>


#define NGX_HTTP_SILKWARAM_TAG_LEN    255

/* the bytes of a text that wants no second call */
#define NGX_HTTP_SILKWARAM_TEXT_LEN   1024

/* the fields whose answers a worker keeps, and the bytes of the longest */
#define NGX_HTTP_SILKWARAM_KEPT       64
#define NGX_HTTP_SILKWARAM_FIELD_LEN  128


typedef struct ngx_http_silkwaram_dflt_s  ngx_http_silkwaram_dflt_t;

struct ngx_http_silkwaram_dflt_s {
    ngx_http_silkwaram_dflt_t      *outer;   /* that of a level above */
    u_char                         *file;
    ngx_uint_t                      line;
    ngx_uint_t                      has_use; /* it is empty, or has tags */
};


typedef struct {
    ngx_str_t                       name;
    ngx_str_t                       text;
} ngx_http_silkwaram_document_t;


typedef struct {
    ngx_str_t                       id;
    ngx_str_t                       dflt;    /* if it has data */
} ngx_http_silkwaram_label_t;


typedef struct {
    ngx_str_t                       tags;    /* each with an LF after it */
    ngx_str_t                       offered; /* those of tags that offer has */
    ngx_str_t                       labels;  /* the text of a document */
    ngx_str_t                       offer;   /* as a field has it */
    ngx_str_t                       fallbacks;
    ngx_str_t                       dflt;
    ngx_http_silkwaram_dflt_t      *dflt_directive;
    ngx_flag_t                      lenient;
    ngx_flag_t                      strict;
    ngx_flag_t                      widen;
    ngx_uint_t                      checked; /* whether dflt is in offered */
} ngx_http_silkwaram_loc_conf_t;


typedef struct {
    ngx_http_silkwaram_loc_conf_t  *conf;    /* by which lang was picked */
    ngx_str_t                       lang;    /* in its offered, or empty */
} ngx_http_silkwaram_ctx_t;


typedef struct {
    ngx_http_silkwaram_ctx_t        answer;  /* without conf if unused */
    size_t                          len;
    u_char                          field[NGX_HTTP_SILKWARAM_FIELD_LEN];
} ngx_http_silkwaram_kept_t;


typedef struct {
    ngx_http_silkwaram_kept_t       kept[NGX_HTTP_SILKWARAM_KEPT];
    ngx_array_t                     dflts;   /* of pointers to directives */
    ngx_array_t                     documents;
    ngx_str_t                       variable; /* of some silkwaram_label */
} ngx_http_silkwaram_main_conf_t;


extern ngx_module_t  ngx_http_silkwaram_module;

static ngx_str_t  ngx_http_silkwaram_lang_name = ngx_string("silkwaram_lang");

static ngx_str_t  ngx_http_silkwaram_header = ngx_string("accept-language");

/* what a request without the header accepts */
static ngx_str_t  ngx_http_silkwaram_any = ngx_string("*");

/* a site without labels, as it is written */
static ngx_str_t  ngx_http_silkwaram_empty_site = ngx_string(
    "{\"cells\":[],\"kind\":\"site\",\"site\":\"a\",\"version\":2}");


/* the next Accept-Language line from the place i of a part on, or NULL */

static ngx_table_elt_t *
ngx_http_silkwaram_next_line(ngx_list_part_t **part, ngx_uint_t *i)
{
    ngx_table_elt_t  *h;

    while (*part != NULL) {

        while (*i < (*part)->nelts) {
            h = (ngx_table_elt_t *) (*part)->elts + (*i)++;

            /* (a module that takes a line away leaves it without a hash) */

            if (h->hash != 0
                && h->key.len == ngx_http_silkwaram_header.len
                && ngx_strncasecmp(h->key.data,
                                   ngx_http_silkwaram_header.data,
                                   ngx_http_silkwaram_header.len)
                   == 0)
            {
                return h;
            }
        }

        *part = (*part)->next;
        *i = 0;
    }

    return NULL;
}


/* the field of a request: its lines, joined with commas */

static ngx_int_t
ngx_http_silkwaram_field(ngx_http_request_t *r, ngx_str_t *field)
{
    u_char           *p;
    size_t            len;
    ngx_uint_t        i, lines;
    ngx_list_part_t  *part;
    ngx_table_elt_t  *line;

    len = 0;
    lines = 0;
    part = &r->headers_in.headers.part;
    i = 0;

    while ((line = ngx_http_silkwaram_next_line(&part, &i)) != NULL) {
        *field = line->value;
        len += line->value.len;
        lines++;
    }

    if (lines == 0) {
        *field = ngx_http_silkwaram_any;
        return NGX_OK;
    }

    if (lines == 1) {
        return NGX_OK;
    }

    len += lines - 1;

    p = ngx_pnalloc(r->pool, len);
    if (p == NULL) {
        return NGX_ERROR;
    }

    field->len = len;
    field->data = p;
    part = &r->headers_in.headers.part;
    i = 0;

    while ((line = ngx_http_silkwaram_next_line(&part, &i)) != NULL) {
        p = ngx_cpymem(p, line->value.data, line->value.len);

        if (--lines != 0) {
            *p++ = ',';
        }
    }

    return NGX_OK;
}


/*
 * The place of a worker's memory for the answer to a field, or NULL for one
 * that is too long.  Of two fields with one place the later one has it.
 */

static ngx_http_silkwaram_kept_t *
ngx_http_silkwaram_place(ngx_http_request_t *r,
    ngx_http_silkwaram_loc_conf_t *conf, ngx_str_t *field)
{
    ngx_uint_t                       n;
    ngx_http_silkwaram_main_conf_t  *smcf;

    if (field->len > NGX_HTTP_SILKWARAM_FIELD_LEN) {
        return NULL;
    }

    smcf = ngx_http_get_module_main_conf(r, ngx_http_silkwaram_module);

    n = ngx_murmur_hash2(field->data, field->len);
    n += (uintptr_t) conf / sizeof(ngx_http_silkwaram_loc_conf_t);

    return &smcf->kept[n % NGX_HTTP_SILKWARAM_KEPT];
}


static uint32_t
ngx_http_silkwaram_flags(ngx_http_silkwaram_loc_conf_t *conf)
{
    return (conf->lenient ? SW_LENIENT : 0) | (conf->widen ? SW_WIDEN : 0);
}


/* (the directives have read both texts) */

static void
ngx_http_silkwaram_rules(ngx_http_silkwaram_loc_conf_t *conf,
    ngx_str_t *offer, sw_rules *rules)
{
    rules->offer = offer->data;
    rules->offer_len = offer->len;
    rules->fallbacks = conf->fallbacks.data;
    rules->fallbacks_len = conf->fallbacks.len;
}


static int32_t
ngx_http_silkwaram_pick(ngx_http_silkwaram_loc_conf_t *conf, ngx_str_t *field,
    u_char *lang, sw_told *told)
{
    sw_rules  rules;

    ngx_http_silkwaram_rules(conf, &ngx_http_silkwaram_any, &rules);

    return sw_pick(ngx_http_silkwaram_flags(conf), &rules,
                   field->data, field->len,
                   conf->offered.data, conf->offered.len,
                   conf->dflt.data, conf->dflt.len,
                   lang, NGX_HTTP_SILKWARAM_TAG_LEN, told);
}


/*
 * Whether to ask again, as if there were no field: a reader who excludes the
 * default may get it all the same, as RFC 9110 section 12.5.4 allows.
 */

static ngx_uint_t
ngx_http_silkwaram_asks_again(ngx_http_silkwaram_loc_conf_t *conf,
    ngx_str_t *dflt, int32_t status)
{
    return status == SW_NOTHING && !conf->strict && dflt->len != 0;
}


static void
ngx_http_silkwaram_take_as_none(ngx_http_request_t *r, sw_told *told)
{
    ngx_log_error(NGX_LOG_INFO, r->connection->log, 0,
                  "client sent an Accept-Language field that is taken "
                  "as none: refused %uD at %uz", told->number, told->offset);
}


/* a tag as it is among the tags, each of which has an LF after it, or NULL */

static u_char *
ngx_http_silkwaram_in_tags(ngx_str_t *tags, u_char *tag, size_t len)
{
    u_char  *end, *last, *p;

    last = tags->data + tags->len;

    for (p = tags->data; p < last; p = end + 1) {
        end = ngx_strlchr(p, last, '\n');

        if ((size_t) (end - p) == len && ngx_memcmp(p, tag, len) == 0) {
            return p;
        }
    }

    return NULL;
}


static ngx_int_t
ngx_http_silkwaram_lang(ngx_http_request_t *r,
    ngx_http_silkwaram_loc_conf_t *conf, ngx_str_t *lang)
{
    u_char                     *p;
    u_char                      tag[NGX_HTTP_SILKWARAM_TAG_LEN];
    int32_t                     status;
    sw_told                     told;
    ngx_str_t                   field;
    ngx_http_silkwaram_kept_t  *kept;

    if (ngx_http_silkwaram_field(r, &field) != NGX_OK) {
        return NGX_ERROR;
    }

    kept = ngx_http_silkwaram_place(r, conf, &field);

    if (kept != NULL
        && kept->answer.conf == conf
        && kept->len == field.len
        && ngx_memcmp(kept->field, field.data, field.len) == 0)
    {
        *lang = kept->answer.lang;
        return NGX_OK;
    }

    status = ngx_http_silkwaram_pick(conf, &field, tag, &told);

    if (status == SW_REFUSED) {
        ngx_http_silkwaram_take_as_none(r, &told);

        /* (it is not kept: each such request has its line in the log) */

        kept = NULL;
        status = ngx_http_silkwaram_pick(conf, &ngx_http_silkwaram_any, tag,
                                         &told);

    } else if (ngx_http_silkwaram_asks_again(conf, &conf->dflt, status)) {
        status = ngx_http_silkwaram_pick(conf, &ngx_http_silkwaram_any, tag,
                                         &told);
    }

    switch (status) {

    case SW_FOUND:
        p = ngx_http_silkwaram_in_tags(&conf->offered, tag, told.len);
        if (p == NULL) {
            ngx_log_error(NGX_LOG_ERR, r->connection->log, 0,
                          "sw_pick() found no tag of \"silkwaram_tags\"");
            return NGX_ERROR;
        }

        lang->len = told.len;
        lang->data = p;
        break;

    case SW_NOTHING:
        ngx_str_null(lang);
        break;

    default:
        ngx_log_error(NGX_LOG_ERR, r->connection->log, 0,
                      "sw_pick() ended with status %D: refused %uD",
                      status, told.number);
        return NGX_ERROR;
    }

    if (kept != NULL) {
        kept->answer.conf = conf;
        kept->answer.lang = *lang;
        kept->len = field.len;
        ngx_memcpy(kept->field, field.data, field.len);
    }

    return NGX_OK;
}


static ngx_int_t
ngx_http_silkwaram_lang_variable(ngx_http_request_t *r,
    ngx_http_variable_value_t *v, uintptr_t data)
{
    ngx_http_silkwaram_ctx_t       *ctx;
    ngx_http_silkwaram_loc_conf_t  *conf;

    conf = ngx_http_get_module_loc_conf(r, ngx_http_silkwaram_module);

    if (conf->offered.len == 0) {
        v->not_found = 1;
        return NGX_OK;
    }

    ctx = ngx_http_get_module_ctx(r, ngx_http_silkwaram_module);

    if (ctx == NULL) {
        ctx = ngx_pcalloc(r->pool, sizeof(ngx_http_silkwaram_ctx_t));
        if (ctx == NULL) {
            return NGX_ERROR;
        }

        ngx_http_set_ctx(r, ctx, ngx_http_silkwaram_module);
    }

    /* a rewrite may have led to a location with other tags */

    if (ctx->conf != conf) {
        if (ngx_http_silkwaram_lang(r, conf, &ctx->lang) != NGX_OK) {
            return NGX_ERROR;
        }

        ctx->conf = conf;
    }

    if (ctx->lang.len == 0) {
        v->not_found = 1;
        return NGX_OK;
    }

    v->valid = 1;
    v->no_cacheable = 0;
    v->not_found = 0;
    v->len = ctx->lang.len;
    v->data = ctx->lang.data;

    return NGX_OK;
}


static ngx_str_t *
ngx_http_silkwaram_label_default(ngx_http_silkwaram_loc_conf_t *conf,
    ngx_http_silkwaram_label_t *label)
{
    return (label->dflt.data != NULL) ? &label->dflt : &conf->dflt;
}


static int32_t
ngx_http_silkwaram_text(ngx_http_silkwaram_loc_conf_t *conf,
    ngx_http_silkwaram_label_t *label, ngx_str_t *field, u_char *out,
    size_t len, sw_told *told)
{
    sw_rules    rules;
    ngx_str_t  *dflt;

    dflt = ngx_http_silkwaram_label_default(conf, label);

    ngx_http_silkwaram_rules(conf, &conf->offer, &rules);

    return sw_text_text(conf->labels.data, conf->labels.len, &rules,
                        ngx_http_silkwaram_flags(conf),
                        label->id.data, label->id.len,
                        field->data, field->len, dflt->data, dflt->len, 0,
                        out, len, told);
}


static ngx_int_t
ngx_http_silkwaram_label_variable(ngx_http_request_t *r,
    ngx_http_variable_value_t *v, uintptr_t data)
{
    ngx_http_silkwaram_label_t *label = (ngx_http_silkwaram_label_t *) data;

    u_char                          text[NGX_HTTP_SILKWARAM_TEXT_LEN];
    int32_t                         status;
    sw_told                         told;
    ngx_str_t                       field, *dflt;
    ngx_http_silkwaram_loc_conf_t  *conf;

    conf = ngx_http_get_module_loc_conf(r, ngx_http_silkwaram_module);

    if (conf->labels.len == 0) {
        v->not_found = 1;
        return NGX_OK;
    }

    if (ngx_http_silkwaram_field(r, &field) != NGX_OK) {
        return NGX_ERROR;
    }

    dflt = ngx_http_silkwaram_label_default(conf, label);

    status = ngx_http_silkwaram_text(conf, label, &field, text, sizeof(text),
                                     &told);

    if (status == SW_REFUSED) {
        ngx_http_silkwaram_take_as_none(r, &told);

        field = ngx_http_silkwaram_any;
        status = ngx_http_silkwaram_text(conf, label, &field, text,
                                         sizeof(text), &told);

    } else if (ngx_http_silkwaram_asks_again(conf, dflt, status)) {
        field = ngx_http_silkwaram_any;
        status = ngx_http_silkwaram_text(conf, label, &field, text,
                                         sizeof(text), &told);
    }

    if (status == SW_NOTHING) {
        v->not_found = 1;
        return NGX_OK;
    }

    v->valid = 1;
    v->no_cacheable = 0;
    v->not_found = 0;
    v->len = told.len;
    v->data = ngx_pnalloc(r->pool, told.len);

    if (v->data == NULL) {
        return NGX_ERROR;
    }

    if (told.len <= sizeof(text)) {
        ngx_memcpy(v->data, text, told.len);

    } else {
        status = ngx_http_silkwaram_text(conf, label, &field, v->data, v->len,
                                         &told);
    }

    if (status != SW_FOUND) {
        ngx_log_error(NGX_LOG_ERR, r->connection->log, 0,
                      "sw_text_text() ended with status %D: refused %uD",
                      status, told.number);
        return NGX_ERROR;
    }

    return NGX_OK;
}


static ngx_int_t
ngx_http_silkwaram_add_variable(ngx_conf_t *cf)
{
    ngx_http_variable_t  *var;

    /* its value depends on the location, which may change within a request */

    var = ngx_http_add_variable(cf, &ngx_http_silkwaram_lang_name,
                                NGX_HTTP_VAR_NOCACHEABLE);
    if (var == NULL) {
        return NGX_ERROR;
    }

    var->get_handler = ngx_http_silkwaram_lang_variable;

    return NGX_OK;
}


static void
ngx_http_silkwaram_use_default(ngx_http_silkwaram_loc_conf_t *conf)
{
    ngx_http_silkwaram_dflt_t  *dflt;

    if (conf->tags.len == 0 && conf->labels.len == 0) {
        return;
    }

    for (dflt = conf->dflt_directive; dflt != NULL; dflt = dflt->outer) {
        dflt->has_use = 1;
    }
}


/* each silkwaram_default has tags or labels, at its level or at one below */

static ngx_int_t
ngx_http_silkwaram_init(ngx_conf_t *cf)
{
    ngx_uint_t                        i;
    ngx_http_silkwaram_dflt_t       **dflts;
    ngx_http_silkwaram_loc_conf_t    *slcf;
    ngx_http_silkwaram_main_conf_t   *smcf;

    /* (that of http itself is merged with nothing above it) */

    slcf = ngx_http_conf_get_module_loc_conf(cf, ngx_http_silkwaram_module);

    ngx_http_silkwaram_use_default(slcf);

    smcf = ngx_http_conf_get_module_main_conf(cf, ngx_http_silkwaram_module);
    dflts = smcf->dflts.elts;

    for (i = 0; i < smcf->dflts.nelts; i++) {
        if (!dflts[i]->has_use) {
            ngx_log_error(NGX_LOG_EMERG, cf->log, 0,
                          "\"silkwaram_default\" has no \"silkwaram_tags\" "
                          "and no \"silkwaram_labels\" in %s:%ui",
                          dflts[i]->file, dflts[i]->line);
            return NGX_ERROR;
        }
    }

    if (smcf->variable.len != 0 && smcf->documents.nelts == 0) {
        ngx_log_error(NGX_LOG_EMERG, cf->log, 0,
                      "\"silkwaram_label\" \"%V\" has no "
                      "\"silkwaram_labels\"", &smcf->variable);
        return NGX_ERROR;
    }

    return NGX_OK;
}


static void *
ngx_http_silkwaram_create_main_conf(ngx_conf_t *cf)
{
    ngx_http_silkwaram_main_conf_t  *smcf;

    smcf = ngx_pcalloc(cf->pool, sizeof(ngx_http_silkwaram_main_conf_t));
    if (smcf == NULL) {
        return NULL;
    }

    if (ngx_array_init(&smcf->dflts, cf->pool, 4,
                       sizeof(ngx_http_silkwaram_dflt_t *))
        != NGX_OK
        || ngx_array_init(&smcf->documents, cf->pool, 4,
                          sizeof(ngx_http_silkwaram_document_t))
           != NGX_OK)
    {
        return NULL;
    }

    return smcf;
}


static void *
ngx_http_silkwaram_create_loc_conf(ngx_conf_t *cf)
{
    ngx_http_silkwaram_loc_conf_t  *conf;

    conf = ngx_pcalloc(cf->pool, sizeof(ngx_http_silkwaram_loc_conf_t));
    if (conf == NULL) {
        return NULL;
    }

    /*
     * set by ngx_pcalloc():
     *
     *     conf->tags = { 0, NULL };
     *     conf->offered = { 0, NULL };
     *     conf->labels = { 0, NULL };
     *     conf->offer = { 0, NULL };
     *     conf->fallbacks = { 0, NULL };
     *     conf->dflt = { 0, NULL };
     *     conf->dflt_directive = NULL;
     *     conf->checked = 0;
     */

    conf->lenient = NGX_CONF_UNSET;
    conf->strict = NGX_CONF_UNSET;
    conf->widen = NGX_CONF_UNSET;

    return conf;
}


/*
 * An empty offer is not passed on: to the library it is all languages but
 * those of private use, and here it is all tags, which the operator lists.
 */

static ngx_int_t
ngx_http_silkwaram_offer_tags(ngx_conf_t *cf,
    ngx_http_silkwaram_loc_conf_t *conf)
{
    u_char    *end, *last, *p, *to;
    sw_told    told;
    sw_rules   rules;

    if (conf->tags.len == 0 || conf->offer.len == 0) {
        conf->offered = conf->tags;
        return NGX_OK;
    }

    to = ngx_pnalloc(cf->pool, conf->tags.len);
    if (to == NULL) {
        return NGX_ERROR;
    }

    ngx_http_silkwaram_rules(conf, &conf->offer, &rules);

    conf->offered.data = to;
    last = conf->tags.data + conf->tags.len;

    /* (one by one, so that they stay in their order) */

    for (p = conf->tags.data; p < last; p = end) {
        end = ngx_strlchr(p, last, '\n') + 1;

        /* (a default is found if it is offered) */

        if (sw_pick(0, &rules, NULL, 0, p, end - p, p, end - p - 1,
                    NULL, 0, &told)
            == SW_FOUND)
        {
            to = ngx_cpymem(to, p, end - p);
        }
    }

    conf->offered.len = to - conf->offered.data;

    if (conf->offered.len == 0) {
        ngx_conf_log_error(NGX_LOG_WARN, cf, 0,
                           "\"silkwaram_offer\" \"%V\" offers none of "
                           "\"silkwaram_tags\"", &conf->offer);
    }

    return NGX_OK;
}


/* an empty field finds the default alone, if that is among the tags */

static void
ngx_http_silkwaram_check_default(ngx_conf_t *cf,
    ngx_http_silkwaram_loc_conf_t *conf)
{
    u_char     tag[NGX_HTTP_SILKWARAM_TAG_LEN];
    sw_told    told;
    ngx_str_t  empty = ngx_null_string;

    if (conf->offered.len == 0 || conf->dflt.len == 0) {
        return;
    }

    if (ngx_http_silkwaram_pick(conf, &empty, tag, &told) == SW_NOTHING) {
        ngx_conf_log_error(NGX_LOG_WARN, cf, 0,
                           "\"silkwaram_default\" \"%V\" is not among %s, "
                           "so it is never chosen", &conf->dflt,
                           conf->offer.len != 0
                           ? "those of \"silkwaram_tags\" that are offered"
                           : "\"silkwaram_tags\"");
    }
}


static char *
ngx_http_silkwaram_merge_loc_conf(ngx_conf_t *cf, void *parent, void *child)
{
    ngx_http_silkwaram_loc_conf_t *prev = parent;
    ngx_http_silkwaram_loc_conf_t *conf = child;

    ngx_uint_t  inherits, inherits_offered;

    inherits_offered = conf->tags.data == NULL && conf->offer.data == NULL;
    inherits = inherits_offered && conf->dflt.data == NULL;

    if (conf->dflt.data == NULL) {
        conf->dflt_directive = prev->dflt_directive;

    } else {
        conf->dflt_directive->outer = prev->dflt_directive;
    }

    ngx_conf_merge_str_value(conf->tags, prev->tags, "");
    ngx_conf_merge_str_value(conf->labels, prev->labels, "");
    ngx_conf_merge_str_value(conf->offer, prev->offer, "");
    ngx_conf_merge_str_value(conf->fallbacks, prev->fallbacks, "");
    ngx_conf_merge_str_value(conf->dflt, prev->dflt, "");
    ngx_conf_merge_value(conf->lenient, prev->lenient, 1);
    ngx_conf_merge_value(conf->strict, prev->strict, 0);
    ngx_conf_merge_value(conf->widen, prev->widen, 1);

    ngx_http_silkwaram_use_default(conf);

    /* once, with its warning, however many inherit the tags and the offer */

    if (inherits_offered && prev->offered.data != NULL) {
        conf->offered = prev->offered;

    } else if (ngx_http_silkwaram_offer_tags(cf, conf) != NGX_OK) {
        return NGX_CONF_ERROR;
    }

    if (inherits_offered) {
        prev->offered = conf->offered;
    }

    /* and so of the default */

    if (!inherits || !prev->checked) {
        ngx_http_silkwaram_check_default(cf, conf);
    }

    conf->checked = 1;

    if (inherits) {
        prev->checked = 1;
    }

    return NGX_CONF_OK;
}


/* what the library says of a refusal, with its place; the buffer has room */

static u_char *
ngx_http_silkwaram_refusal(u_char *to, u_char *last, sw_told *told)
{
    size_t      place;
    u_char      text[255], *word, *end;
    sw_told     said;
    ngx_str_t  *name;

    static ngx_str_t  names[] = {
        ngx_string("OFFSET"), ngx_string("INDEX"), ngx_string("COUNT"),
        ngx_null_string
    };

    if (sw_refusal_text(told->number, text, sizeof(text), &said) != SW_FOUND) {
        return to;
    }

    end = text + said.len;
    word = NULL;

    for (name = names; name->len != 0; name++) {
        word = ngx_strlcasestrn(text, end, name->data, name->len - 1);

        if (word != NULL) {
            break;
        }
    }

    if (word == NULL) {
        to = ngx_slprintf(to, last, "%*s", said.len, text);

    } else {
        place = (told->given & SW_HAS_OFFSET) ? told->offset : told->count;

        to = ngx_slprintf(to, last, "%*s%uz%*s", (size_t) (word - text), text,
                          place, (size_t) (end - word - name->len),
                          word + name->len);
    }

    if (told->given & SW_HAS_ROW) {
        to = ngx_slprintf(to, last, " in row %uz", told->row);
    }

    return to;
}


/* logs a refusal, with what is refused unless that is empty */

static void
ngx_http_silkwaram_log_refusal(ngx_conf_t *cf, ngx_command_t *cmd,
    sw_told *told, ngx_str_t *what)
{
    u_char  text[255 + 2 * sizeof(" in row ") + 2 * NGX_SIZE_T_LEN], *last;

    last = ngx_http_silkwaram_refusal(text, text + sizeof(text), told);

    if (what->len == 0) {
        ngx_conf_log_error(NGX_LOG_EMERG, cf, 0, "\"%V\": refused %uD: %*s",
                           &cmd->name, told->number, (size_t) (last - text),
                           text);

    } else {
        ngx_conf_log_error(NGX_LOG_EMERG, cf, 0,
                           "\"%V\": refused %uD: %*s: \"%V\"",
                           &cmd->name, told->number, (size_t) (last - text),
                           text, what);
    }
}


/* whether the library takes a tag */

static char *
ngx_http_silkwaram_check_tag(ngx_conf_t *cf, ngx_command_t *cmd,
    ngx_str_t *tag)
{
    sw_told  told;
    int32_t  status;

    if (tag->len == 0) {

        /* as a tag, since an empty default is none */

        status = sw_pick(0, NULL, NULL, 0, (u_char *) "\n", 1, NULL, 0,
                         NULL, 0, &told);

    } else {

        /* as a default, since among tags an LF would make two of one */

        status = sw_pick(0, NULL, NULL, 0, NULL, 0, tag->data, tag->len,
                         NULL, 0, &told);
    }

    if (status == SW_NOTHING) {
        return NGX_CONF_OK;
    }

    ngx_http_silkwaram_log_refusal(cf, cmd, &told, tag);

    return NGX_CONF_ERROR;
}


static char *
ngx_http_silkwaram_tags(ngx_conf_t *cf, ngx_command_t *cmd, void *conf)
{
    ngx_http_silkwaram_loc_conf_t *slcf = conf;

    u_char      *p;
    size_t       len;
    ngx_str_t   *value;
    ngx_uint_t   i, k;

    if (slcf->tags.data != NULL) {
        return "is duplicate";
    }

    value = cf->args->elts;
    len = 0;

    for (i = 1; i < cf->args->nelts; i++) {
        if (ngx_http_silkwaram_check_tag(cf, cmd, &value[i]) != NGX_CONF_OK) {
            return NGX_CONF_ERROR;
        }

        for (k = 1; k < i; k++) {
            if (value[k].len == value[i].len
                && ngx_strncasecmp(value[k].data, value[i].data, value[i].len)
                   == 0)
            {
                ngx_conf_log_error(NGX_LOG_EMERG, cf, 0,
                                   "\"%V\" has \"%V\" twice",
                                   &cmd->name, &value[i]);
                return NGX_CONF_ERROR;
            }
        }

        len += value[i].len + 1;
    }

    p = ngx_pnalloc(cf->pool, len);
    if (p == NULL) {
        return NGX_CONF_ERROR;
    }

    slcf->tags.len = len;
    slcf->tags.data = p;

    for (i = 1; i < cf->args->nelts; i++) {
        p = ngx_cpymem(p, value[i].data, value[i].len);
        *p++ = '\n';
    }

    return NGX_CONF_OK;
}


static char *
ngx_http_silkwaram_default(ngx_conf_t *cf, ngx_command_t *cmd, void *conf)
{
    ngx_http_silkwaram_loc_conf_t *slcf = conf;

    ngx_str_t                        *value;
    ngx_http_silkwaram_dflt_t        *dflt, **added;
    ngx_http_silkwaram_main_conf_t   *smcf;

    if (slcf->dflt.data != NULL) {
        return "is duplicate";
    }

    value = cf->args->elts;

    /* an empty one is none, where another would be inherited */

    if (value[1].len != 0
        && ngx_http_silkwaram_check_tag(cf, cmd, &value[1]) != NGX_CONF_OK)
    {
        return NGX_CONF_ERROR;
    }

    dflt = ngx_palloc(cf->pool, sizeof(ngx_http_silkwaram_dflt_t));
    if (dflt == NULL) {
        return NGX_CONF_ERROR;
    }

    dflt->outer = NULL;
    dflt->file = cf->conf_file->file.name.data;
    dflt->line = cf->conf_file->line;
    dflt->has_use = (value[1].len == 0);

    smcf = ngx_http_conf_get_module_main_conf(cf, ngx_http_silkwaram_module);

    added = ngx_array_push(&smcf->dflts);
    if (added == NULL) {
        return NGX_CONF_ERROR;
    }

    *added = dflt;
    slcf->dflt = value[1];
    slcf->dflt_directive = dflt;

    return NGX_CONF_OK;
}


/* the whole of a file, in memory of the configuration */

static ngx_int_t
ngx_http_silkwaram_read_file(ngx_conf_t *cf, ngx_file_t *file, ngx_str_t *text)
{
    off_t    read;
    ssize_t  n;

    if (ngx_fd_info(file->fd, &file->info) == NGX_FILE_ERROR) {
        ngx_conf_log_error(NGX_LOG_EMERG, cf, ngx_errno,
                           ngx_fd_info_n " \"%V\" failed", &file->name);
        return NGX_ERROR;
    }

    if (!ngx_is_file(&file->info)) {
        ngx_conf_log_error(NGX_LOG_EMERG, cf, 0, "\"%V\" is not a file",
                           &file->name);
        return NGX_ERROR;
    }

    text->len = ngx_file_size(&file->info);
    text->data = ngx_pnalloc(cf->pool, text->len);

    if (text->data == NULL) {
        return NGX_ERROR;
    }

    for (read = 0; (size_t) read < text->len; read += n) {
        n = ngx_read_file(file, text->data + read, text->len - read, read);

        if (n == NGX_ERROR) {
            return NGX_ERROR;
        }

        if (n == 0) {
            ngx_conf_log_error(NGX_LOG_EMERG, cf, 0,
                               "\"%V\" was cut while it was read",
                               &file->name);
            return NGX_ERROR;
        }
    }

    return NGX_OK;
}


static ngx_int_t
ngx_http_silkwaram_read(ngx_conf_t *cf, ngx_str_t *name, ngx_str_t *text)
{
    ngx_int_t   rc;
    ngx_file_t  file;

    ngx_memzero(&file, sizeof(ngx_file_t));

    file.name = *name;
    file.log = cf->log;

    /* (a pipe is not waited for) */

    file.fd = ngx_open_file(name->data, NGX_FILE_RDONLY|NGX_FILE_NONBLOCK,
                            NGX_FILE_OPEN, 0);

    if (file.fd == NGX_INVALID_FILE) {
        ngx_conf_log_error(NGX_LOG_EMERG, cf, ngx_errno,
                           ngx_open_file_n " \"%V\" failed", name);
        return NGX_ERROR;
    }

    rc = ngx_http_silkwaram_read_file(cf, &file, text);

    if (ngx_close_file(file.fd) == NGX_FILE_ERROR) {
        ngx_log_error(NGX_LOG_ALERT, cf->log, ngx_errno,
                      ngx_close_file_n " \"%V\" failed", name);
    }

    return rc;
}


/* with its last LF or without */

static ngx_uint_t
ngx_http_silkwaram_is_written(ngx_conf_t *cf, sw_site *site, ngx_str_t *text)
{
    u_char      *written;
    sw_told      told;
    ngx_uint_t   is_written;

    written = ngx_alloc(text->len + 1, cf->log);
    if (written == NULL) {
        return 0;
    }

    is_written = sw_site_write(site, written, text->len + 1, &told) == SW_FOUND
                 && (told.len == text->len || told.len == text->len + 1)
                 && ngx_memcmp(written, text->data, text->len) == 0;

    ngx_free(written);

    return is_written;
}


/* of other bytes than those of a written site the answers are not known */

static char *
ngx_http_silkwaram_check_document(ngx_conf_t *cf, ngx_command_t *cmd,
    ngx_http_silkwaram_document_t *document)
{
    sw_site     site = { NULL };
    sw_told     told;
    ngx_uint_t  is_written;

    if (sw_site_open(document->text.data, document->text.len, &site, &told)
        != SW_FOUND)
    {
        ngx_http_silkwaram_log_refusal(cf, cmd, &told, &document->name);
        return NGX_CONF_ERROR;
    }

    is_written = ngx_http_silkwaram_is_written(cf, &site, &document->text);

    sw_site_free(&site);

#ifdef __GLIBC__

    /* several times the memory of the document, which glibc would keep */

    (void) malloc_trim(0);

#endif

    if (!is_written) {
        ngx_conf_log_error(NGX_LOG_EMERG, cf, 0,
                           "\"%V\": a site, but not as \"lexicat\" writes it: "
                           "\"%V\"", &cmd->name, &document->name);
        return NGX_CONF_ERROR;
    }

    return NGX_CONF_OK;
}


/* each file is read once, however many levels name it */

static char *
ngx_http_silkwaram_labels(ngx_conf_t *cf, ngx_command_t *cmd, void *conf)
{
    ngx_http_silkwaram_loc_conf_t *slcf = conf;

    ngx_str_t                       *value;
    ngx_uint_t                       i;
    ngx_http_silkwaram_document_t   *documents, document, *added;
    ngx_http_silkwaram_main_conf_t  *smcf;

    if (slcf->labels.data != NULL) {
        return "is duplicate";
    }

    value = cf->args->elts;
    document.name = value[1];

    if (ngx_conf_full_name(cf->cycle, &document.name, 1) != NGX_OK) {
        return NGX_CONF_ERROR;
    }

    smcf = ngx_http_conf_get_module_main_conf(cf, ngx_http_silkwaram_module);
    documents = smcf->documents.elts;

    for (i = 0; i < smcf->documents.nelts; i++) {
        if (ngx_strcmp(documents[i].name.data, document.name.data) == 0) {
            slcf->labels = documents[i].text;
            return NGX_CONF_OK;
        }
    }

    if (ngx_http_silkwaram_read(cf, &document.name, &document.text) != NGX_OK
        || ngx_http_silkwaram_check_document(cf, cmd, &document)
           != NGX_CONF_OK)
    {
        return NGX_CONF_ERROR;
    }

    added = ngx_array_push(&smcf->documents);
    if (added == NULL) {
        return NGX_CONF_ERROR;
    }

    *added = document;
    slcf->labels = document.text;

    return NGX_CONF_OK;
}


/* the offer or the fallbacks; an empty one is none, in place of one above */

static char *
ngx_http_silkwaram_rule(ngx_conf_t *cf, ngx_command_t *cmd, void *conf)
{
    ngx_http_silkwaram_loc_conf_t *slcf = conf;

    int32_t     status;
    sw_told     told;
    sw_rules    rules;
    ngx_str_t  *rule, *value;

    rule = (ngx_str_t *) ((u_char *) conf + cmd->offset);

    if (rule->data != NULL) {
        return "is duplicate";
    }

    value = cf->args->elts;

    if (rule == &slcf->offer) {
        status = sw_rules_new(value[1].data, value[1].len, NULL, 0, &rules,
                              &told);

    } else {
        status = sw_rules_new(NULL, 0, value[1].data, value[1].len, &rules,
                              &told);
    }

    if (status != SW_FOUND) {
        ngx_http_silkwaram_log_refusal(cf, cmd, &told, &value[1]);
        return NGX_CONF_ERROR;
    }

    *rule = value[1];

    return NGX_CONF_OK;
}


static char *
ngx_http_silkwaram_label(ngx_conf_t *cf, ngx_command_t *cmd, void *conf)
{
    ngx_http_silkwaram_main_conf_t *smcf = conf;

    sw_told                      told;
    ngx_str_t                   *value, name;
    ngx_http_variable_t         *var;
    ngx_http_silkwaram_label_t  *label;

    value = cf->args->elts;
    name = value[1];

    if (name.len < 2 || name.data[0] != '$') {
        ngx_conf_log_error(NGX_LOG_EMERG, cf, 0,
                           "invalid variable name \"%V\"", &name);
        return NGX_CONF_ERROR;
    }

    name.len--;
    name.data++;

    label = ngx_pcalloc(cf->pool, sizeof(ngx_http_silkwaram_label_t));
    if (label == NULL) {
        return NGX_CONF_ERROR;
    }

    label->id = value[2];

    if (sw_text_text(ngx_http_silkwaram_empty_site.data,
                     ngx_http_silkwaram_empty_site.len, NULL, 0,
                     label->id.data, label->id.len, NULL, 0, NULL, 0, 0,
                     NULL, 0, &told)
        != SW_NOTHING)
    {
        ngx_http_silkwaram_log_refusal(cf, cmd, &told, &label->id);
        return NGX_CONF_ERROR;
    }

    if (cf->args->nelts == 4) {

        if (ngx_strncmp(value[3].data, "default=", 8) != 0) {
            ngx_conf_log_error(NGX_LOG_EMERG, cf, 0,
                               "invalid parameter \"%V\"", &value[3]);
            return NGX_CONF_ERROR;
        }

        /* an empty one is none, in place of silkwaram_default */

        label->dflt.len = value[3].len - 8;
        label->dflt.data = value[3].data + 8;

        if (label->dflt.len != 0
            && ngx_http_silkwaram_check_tag(cf, cmd, &label->dflt)
               != NGX_CONF_OK)
        {
            return NGX_CONF_ERROR;
        }
    }

    /* (as $silkwaram_lang) */

    var = ngx_http_add_variable(cf, &name, NGX_HTTP_VAR_NOCACHEABLE);
    if (var == NULL) {
        return NGX_CONF_ERROR;
    }

    var->get_handler = ngx_http_silkwaram_label_variable;
    var->data = (uintptr_t) label;

    smcf->variable = value[1];

    return NGX_CONF_OK;
}


static ngx_command_t  ngx_http_silkwaram_commands[] = {

    { ngx_string("silkwaram_tags"),
      NGX_HTTP_MAIN_CONF|NGX_HTTP_SRV_CONF|NGX_HTTP_LOC_CONF|NGX_CONF_1MORE,
      ngx_http_silkwaram_tags,
      NGX_HTTP_LOC_CONF_OFFSET,
      0,
      NULL },

    { ngx_string("silkwaram_default"),
      NGX_HTTP_MAIN_CONF|NGX_HTTP_SRV_CONF|NGX_HTTP_LOC_CONF|NGX_CONF_TAKE1,
      ngx_http_silkwaram_default,
      NGX_HTTP_LOC_CONF_OFFSET,
      0,
      NULL },

    { ngx_string("silkwaram_labels"),
      NGX_HTTP_MAIN_CONF|NGX_HTTP_SRV_CONF|NGX_HTTP_LOC_CONF|NGX_CONF_TAKE1,
      ngx_http_silkwaram_labels,
      NGX_HTTP_LOC_CONF_OFFSET,
      0,
      NULL },

    { ngx_string("silkwaram_label"),
      NGX_HTTP_MAIN_CONF|NGX_CONF_TAKE23,
      ngx_http_silkwaram_label,
      NGX_HTTP_MAIN_CONF_OFFSET,
      0,
      NULL },

    { ngx_string("silkwaram_lenient"),
      NGX_HTTP_MAIN_CONF|NGX_HTTP_SRV_CONF|NGX_HTTP_LOC_CONF|NGX_CONF_FLAG,
      ngx_conf_set_flag_slot,
      NGX_HTTP_LOC_CONF_OFFSET,
      offsetof(ngx_http_silkwaram_loc_conf_t, lenient),
      NULL },

    { ngx_string("silkwaram_offer"),
      NGX_HTTP_MAIN_CONF|NGX_HTTP_SRV_CONF|NGX_HTTP_LOC_CONF|NGX_CONF_TAKE1,
      ngx_http_silkwaram_rule,
      NGX_HTTP_LOC_CONF_OFFSET,
      offsetof(ngx_http_silkwaram_loc_conf_t, offer),
      NULL },

    { ngx_string("silkwaram_fallbacks"),
      NGX_HTTP_MAIN_CONF|NGX_HTTP_SRV_CONF|NGX_HTTP_LOC_CONF|NGX_CONF_TAKE1,
      ngx_http_silkwaram_rule,
      NGX_HTTP_LOC_CONF_OFFSET,
      offsetof(ngx_http_silkwaram_loc_conf_t, fallbacks),
      NULL },

    { ngx_string("silkwaram_strict"),
      NGX_HTTP_MAIN_CONF|NGX_HTTP_SRV_CONF|NGX_HTTP_LOC_CONF|NGX_CONF_FLAG,
      ngx_conf_set_flag_slot,
      NGX_HTTP_LOC_CONF_OFFSET,
      offsetof(ngx_http_silkwaram_loc_conf_t, strict),
      NULL },

    { ngx_string("silkwaram_widen"),
      NGX_HTTP_MAIN_CONF|NGX_HTTP_SRV_CONF|NGX_HTTP_LOC_CONF|NGX_CONF_FLAG,
      ngx_conf_set_flag_slot,
      NGX_HTTP_LOC_CONF_OFFSET,
      offsetof(ngx_http_silkwaram_loc_conf_t, widen),
      NULL },

      ngx_null_command
};


static ngx_http_module_t  ngx_http_silkwaram_module_ctx = {
    ngx_http_silkwaram_add_variable,       /* preconfiguration */
    ngx_http_silkwaram_init,               /* postconfiguration */

    ngx_http_silkwaram_create_main_conf,   /* create main configuration */
    NULL,                                  /* init main configuration */

    NULL,                                  /* create server configuration */
    NULL,                                  /* merge server configuration */

    ngx_http_silkwaram_create_loc_conf,    /* create location configuration */
    ngx_http_silkwaram_merge_loc_conf      /* merge location configuration */
};


ngx_module_t  ngx_http_silkwaram_module = {
    NGX_MODULE_V1,
    &ngx_http_silkwaram_module_ctx,        /* module context */
    ngx_http_silkwaram_commands,           /* module directives */
    NGX_HTTP_MODULE,                       /* module type */
    NULL,                                  /* init master */
    NULL,                                  /* init module */
    NULL,                                  /* init process */
    NULL,                                  /* init thread */
    NULL,                                  /* exit thread */
    NULL,                                  /* exit process */
    NULL,                                  /* exit master */
    NGX_MODULE_V1_PADDING
};
