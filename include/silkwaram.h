/* Silkwaram for C and C++: which language, and which label, a reader gets, by RFC 4647 and by what a browser sends as
 * Accept-Language. Link with -lsilkwaram (`pkg-config --cflags --libs silkwaram`). docs/LIBRARY.md leads in,
 * docs/REFUSALS.md has each refusal by its number, docs/FORMATS.md the documents.
 *
 * Texts are bytes with a length and need no zero byte at the end. A text of length 0 may be NULL, and so may `out` if
 * `out_len` is 0, and the rules of a question. No other pointer may be NULL: not `told`, and not the handle of
 * sw_site_free.
 *
 * Every call returns a status, and writes `told` whatever the status is. The answer goes to the front of `out` as it
 * is, without a zero byte after it; the rest of `out` is not touched. If the answer has more than `out_len` bytes, or
 * if there is none, nothing is written to `out`. So `told->len > out_len` means that the answer did not fit, and
 * `told->len` is the size that it needs; the status is the same as with room: call again.
 *
 * After each declaration stands the version that had the call first with these parameters, and what document it reads.
 * A program that was linked with an earlier form of a call is not loaded: compile it anew.
 *
 * No call prints, waits, ends the process, or keeps a pointer that it was passed; but sw_rules_new keeps those of its
 * two texts in the rules. Each call is proved to answer, to write and to leave what is said here. Not proved: time,
 * stack and memory, which are measured; that an edit through the only handle of a site makes no copy; that
 * sw_site_share makes none, and that the last handle of a site frees its memory, which are tried by counting and under
 * valgrind.
 *
 * What the caller owes, which nothing checks:
 *
 * - A text and rules can be read, and `out`, `told` and a handle can be read and written, for their whole length.
 * - What a call writes to (`out`, `told`, a handle that is opened, shared into or freed, rules that are made or freed)
 *   overlaps nothing else that is passed to the call, and no other thread touches it during the call. Of two handles of
 *   one call neither is the other, whatever the call: take a share.
 * - A handle is used by one call at a time, whatever the call; threads that work at once take a handle each, by
 *   sw_site_share. A handle passes from one thread to another by a lock, or by a thread's start or end. It is not
 *   copied: two copies count as one handle, and only one of them may be used from then on.
 * - Of the handles of one site one edits, and the others ask: two that both edit would be two sites of one name.
 * - A handle begins as zeros (`sw_site site = {0};`), and then is changed by these calls alone.
 * - The thread has 128 KiB of stack left for a call; a smaller one may overflow.
 * - No call is made from a signal handler. After a fork the child opens sites of its own.
 * - malloc, realloc and free are those of one allocator, which aligns blocks as the C standard asks. */
#ifndef SILKWARAM_H
#define SILKWARAM_H

#include <stddef.h>
#include <stdint.h>

#ifdef __cplusplus
extern "C" {
#endif

/* The version of this header: 10000 * major + 100 * minor + patch. sw_version has that of the library. */
#define SW_VERSION 400

/* How a field is read: the sum of these. Any other bit is SW_USAGE.
 * Without SW_EXTENDED a field is an Accept-Language field (RFC 9110 section 12.5.4): basic ranges with weights. With it
 * the field is a list of extended ranges between commas (RFC 4647 section 2.2), without weights.
 * With SW_LENIENT malformed elements of a field are skipped (RFC 9110 section 2.4 lets a recipient recover what is
 * usable); without it they are refused (9). */
#define SW_EXTENDED 1u
#define SW_LENIENT 2u
/* With SW_WIDEN, which is of sw_pick, sw_site_lookup, sw_site_text, sw_site_bundle, sw_text_lookup and sw_text_text
 * alone, a range also finds the languages that it matches, as `en` finds en-us, before the next range is tried; the
 * default is not widened. This is the project's own, and no part of RFC 4647. Each language is asked once; with
 * SW_EXTENDED a field costs its ranges times the languages (SECURITY.md, "What bounds a call"). */
#define SW_WIDEN 4u
/* With SW_CHECK_OWN, which is of sw_site_take and sw_site_merge alone, an edit that comes in is refused (30) if this
 * site made it and lacks it. So a site that was put back to an older copy is noticed, or another of the same name. */
#define SW_CHECK_OWN 8u
/* With SW_LABELS, which is of sw_site_summary alone, the summary has a digest of each label. The delta for it also has
 * each cell whose label differs under the same stamp, so that taking it refuses what a merge refuses (13). */
#define SW_LABELS 16u

/* The statuses, which are those of the command `lexicat`. */
#define SW_FOUND 0     /* there is an answer, or it is done */
#define SW_NOTHING 1   /* nothing was found */
#define SW_USAGE 2     /* a flag that is none, or a handle that is not open */
#define SW_REFUSED 3   /* refused, by told->number */
#define SW_NO_MEMORY 5 /* refused by 26: out of memory; the same call may be made again */

/* What a call reports beside its status. What a call does not name below is 0. */
typedef struct sw_told {
  size_t len;      /* bytes of the answer, also where they did not fit */
  size_t offset;   /* if the number is 3, 9, 18 or 31: where the fault is in the text, in bytes from 0 */
  size_t row;      /* of a refusal in a row of a document: the row, from 0 */
  size_t count;    /* as the calls say; if the number is 11 the index of the text in its label, if it is 12 how many
                      texts the label has, if it is 13 the index of the cell in the receiving site (indexes from 0) */
  uint32_t number; /* the number of the refusal (docs/REFUSALS.md), or 0 */
  uint32_t given;  /* what a refusal has: the sum of some of these */
} sw_told;
#define SW_HAS_OFFSET 1u /* told->offset is one */
#define SW_HAS_ROW 2u    /* told->row is one */
#define SW_HAS_COUNT 4u  /* told->count is one */
#define SW_OF_SECOND 8u  /* the refusal is of the second of two documents that the call reads */

/* A site that was read, or none: a handle of zeros is not open. Questions to a handle that is not open are SW_USAGE. */
typedef struct sw_site {
  void *held;
} sw_site;

/* The version of the library, as SW_VERSION. */
uint32_t sw_version(void); /* since 0.2 */

/* ---- The rules of a publisher: what readers are offered, and which language is next to which.
 *
 * A site has more than is published: notes of translators in languages of private use (x-note), a translation that is
 * not done yet. So each question of a reader takes `rules`, which say what is offered. It is answered as that question
 * of the site, or of the tags, without what is not offered; a default is answered only if it is offered too.
 * The rules have an offer. One of length 0 stands for `*, x;q=0`: all languages but those of private use. Any other is
 * a field that is read as an Accept-Language field is, without SW_LENIENT. It offers a language if filtering by it
 * takes the language (RFC 4647 section 3.3.1): `*` all, `en, fr` these and what they begin, `*, ja;q=0` all but
 * Japanese. Labels without a language, `@none`, are always offered.
 * The rules have a table of fallbacks, by which lookups go (docs/COMMAND.md, `--fallbacks`): elements TAG=TAG between
 * commas, as `zh-TW=zh-Hant, no=nb`. Each question reads the table: one of 20 elements takes some microseconds. One of
 * length 0 has no elements, and then a lookup is that of RFC 4647.
 * The rules borrow both texts: they are yours, and stay as they are while the rules are used. Any threads may ask by
 * the same rules at once. Rules of zeros (`sw_rules rules = {0};`) have an offer and a table of length 0. NULL stands
 * for such rules in a question of a site or of its document; in sw_pick and sw_filter, whose tags you list yourself, it
 * stands for the offer `*`. */
typedef struct sw_rules {
  const uint8_t *offer;
  size_t offer_len;
  const uint8_t *fallbacks;
  size_t fallbacks_len;
} sw_rules;

/* Makes the rules of an offer and a table of fallbacks. A question refuses what is wrong in rules that you made without
 * this call.
 *   SW_FOUND       done
 *   SW_REFUSED     first the offer (8, 9), then the table (8, 31, with told->offset); `rules` stay as they are
 *   SW_NO_MEMORY   `rules` stay as they are */
int32_t sw_rules_new(const uint8_t *offer, size_t offer_len, const uint8_t *fallbacks, size_t fallbacks_len,
                     sw_rules *rules, sw_told *told); /* since 0.4 */

/* Leaves rules of zeros, which borrow nothing. */
void sw_rules_free(sw_rules *rules); /* since 0.4 */

/* Which of some languages a reader gets (RFC 4647 section 3.4). `tags` are the languages there are: language tags in
 * any case, or `@none`, one on a line, with or without an LF (a byte 10) after the last; no bytes at all are no tags.
 * `dflt` is the language for readers who get no other, or nothing. The answer is the tag as it is in `tags`, at most
 * 255 bytes; of tags that are equal without case, the first.
 *   SW_FOUND     lookup finds a tag; or it finds none, and the default is among the tags and the field does not
 *                exclude it: then told->count is 1
 *   SW_NOTHING   neither
 *   SW_REFUSED   first the default (1 to 4), then the offer (8, 9), the table (8, 31) and the field (8, 9), then the
 *                tags in their order (1 to 4; a line without bytes is 1); told->offset counts from the first byte of
 *                what is refused, and of the tags from that of the tag
 * If a request has no Accept-Language, pass `*`; an empty field is an empty list. Both find the default alone: so let
 * the default be your first language. A field has at most 65,535 bytes (8). */
int32_t sw_pick(uint32_t flags, const sw_rules *rules, const uint8_t *field, size_t field_len, const uint8_t *tags,
                size_t tags_len, const uint8_t *dflt, size_t dflt_len, uint8_t *out, size_t out_len, sw_told *told);
                /* since 0.4 */

/* Reads a site document into a handle. If the handle is open, its old site is let go once the new one is read, and
 * stays if the document is refused: so a running server takes up a new state. The text is not needed after the call.
 * The document may be of any length (the command reads no more than 64 MiB). Memory: some 250 bytes a cell where a
 * message has ten languages, and 450 where it has one.
 *   SW_FOUND     the site is read
 *   SW_REFUSED   the document (18 to 21, 27, 28), or an id, a language or a label in a row of it (10; 1 to 4; 11, 12).
 *                told->row is that row, if it is of a row, told->offset the place in the document (18) or in the
 *                tag (3) */
int32_t sw_site_open(const uint8_t *text, size_t text_len, sw_site *site, sw_told *told);
                     /* since 0.2, reads a site document */

/* The label of a message that a reader gets (RFC 4647 section 3.4), over the languages that are offered and in which
 * the message has one.
 * `id` is the message, `dflt` as in sw_pick. The answer is the line of the command `lookup`, with its LF: `matched
 * LANGUAGE LABEL`, `default LANGUAGE LABEL` or `nothing`, where LABEL is a JSON array of the label's texts.
 *   SW_FOUND     a label is found
 *   SW_NOTHING   none is; the answer is the line `nothing`
 *   SW_USAGE     also if the handle is not open
 *   SW_REFUSED   first the id (10, also if it is not UTF-8), then the default (1 to 4), then the offer (8, 9), the
 *                table (8, 31) and the field (8, 9)
 * A message that the site does not have is SW_NOTHING. */
int32_t sw_site_lookup(sw_site *site, const sw_rules *rules, uint32_t flags, const uint8_t *id, size_t id_len,
                       const uint8_t *field, size_t field_len, const uint8_t *dflt, size_t dflt_len, uint8_t *out,
                       size_t out_len, sw_told *told); /* since 0.4 */

/* One text of the label that sw_site_lookup finds, as it is: UTF-8, without quotes and without an LF. A label has 1 to
 * 64 texts, each of at most 65,535 bytes, and mostly one: that at `place` 0. told->count is how many the label has.
 *   SW_FOUND     a label is found and has a text at this place
 *   SW_NOTHING   no label is found, or it has no text there (told->count says which); told->len is 0
 *   SW_USAGE, SW_REFUSED   as sw_site_lookup */
int32_t sw_site_text(sw_site *site, const sw_rules *rules, uint32_t flags, const uint8_t *id, size_t id_len,
                     const uint8_t *field, size_t field_len, const uint8_t *dflt, size_t dflt_len, size_t place,
                     uint8_t *out, size_t out_len, sw_told *told); /* since 0.4 */

/* The labels of a message that a reader takes, best first (RFC 4647 section 3.3). The answer has the lines of the
 * command `filter`, with their LFs: `filter N`, then N lines `LANGUAGE WEIGHT LABEL`, the weight in thousandths.
 *   SW_FOUND     there is at least one
 *   SW_NOTHING   there is none; the answer is the line `filter 0`
 *   SW_USAGE, SW_REFUSED   as sw_site_lookup, without the default */
int32_t sw_site_filter(sw_site *site, const sw_rules *rules, uint32_t flags, const uint8_t *id, size_t id_len,
                       const uint8_t *field, size_t field_len, uint8_t *out, size_t out_len, sw_told *told);
                       /* since 0.4 */

/* The same three questions to the document of a site where it lies, which is not opened: `text` is what sw_site_write or
 * `lexicat` writes for the site, with its last LF or without, of any length, for example a mapped file. The rows of the
 * message are found by bisection: of a million messages some thirty places are looked at. Memory: what the field takes,
 * and the rows of the message.
 *   SW_FOUND, SW_NOTHING, SW_USAGE, SW_REFUSED   as sw_site_lookup, sw_site_text and sw_site_filter for the site
 * The answers are the same where another program wrote the document again, with its members and rows in their order and
 * without blanks: the strings of the rows may have any escapes that JSON has, as "\u00df" and "\/". Where many ids have
 * such ones, more rows are read.
 * A question that is refused over a site (its flags, id, default, offer or field) is refused in the same way over any
 * bytes. Use these calls only for such a document: given other bytes they return, but a label may be missing without a
 * refusal. For a document in another form, and for what strangers send, use sw_site_open, which checks it. No call
 * reads outside of `text`, whatever its bytes are.
 * Replace a mapped file by a new one that is renamed to it, as lexicat-file does, and never write into it: if it is cut
 * while it is mapped, the system ends the process (SIGBUS). */
int32_t sw_text_lookup(const uint8_t *text, size_t text_len, const sw_rules *rules, uint32_t flags, const uint8_t *id,
                       size_t id_len, const uint8_t *field, size_t field_len, const uint8_t *dflt, size_t dflt_len,
                       uint8_t *out, size_t out_len, sw_told *told); /* since 0.4, reads a site document */
int32_t sw_text_text(const uint8_t *text, size_t text_len, const sw_rules *rules, uint32_t flags, const uint8_t *id,
                     size_t id_len, const uint8_t *field, size_t field_len, const uint8_t *dflt, size_t dflt_len,
                     size_t place, uint8_t *out, size_t out_len, sw_told *told); /* since 0.4, reads a site document */
int32_t sw_text_filter(const uint8_t *text, size_t text_len, const sw_rules *rules, uint32_t flags, const uint8_t *id,
                       size_t id_len, const uint8_t *field, size_t field_len, uint8_t *out, size_t out_len,
                       sw_told *told); /* since 0.4, reads a site document */

/* All labels of one reader: of each message the label that sw_site_lookup finds, under its language. The answer is the
 * JSON document of the command `bundle` with its LF: language maps, as {"greeting":{"fr":"Bonjour"}}.
 * Time: the ranges of the field times the languages of the site, once, and then messages times languages at most. To
 * keep the answer for other readers, pick a tag first and bundle for that tag.
 *   SW_FOUND     there is at least one label
 *   SW_NOTHING   there is none; the answer is the line `{}`
 *   SW_USAGE, SW_REFUSED   as sw_site_lookup, without the id */
int32_t sw_site_bundle(sw_site *site, const sw_rules *rules, uint32_t flags, const uint8_t *field, size_t field_len,
                       const uint8_t *dflt, size_t dflt_len, uint8_t *out, size_t out_len, sw_told *told);
                       /* since 0.4 */

/* ---- Sites that are made and edited.
 *
 * No edit is seen through another handle: a server publishes a new state by sharing the edited handle anew, and frees
 * the old handles. An edit changes the site in place if its handle is the only one of the site. The first edit of a
 * shared site copies it, in the time and memory of the site. After that the handle keeps two versions and alternates
 * between them, so that an edit costs what was changed since. It copies again if another handle still has the older
 * version, or if more than some thousand labels were changed. An import or an update works in this way whoever has the
 * site, since it makes all its edits or none.
 * `now` is the time of an edit, by custom in milliseconds since 1970. The stamp of an edit is later than all that the
 * site has, so a clock that is set back does no harm; a time far ahead does (docs/RECIPES.md).
 * A refused call leaves the site as it was, but for 26 of sw_site_take and sw_site_merge: after it each label is the one
 * that it was or the one that it was to be, and the same call again makes the rest. */

/* Makes the empty site of a name, of 1 to 16 bytes of a to z, 0 to 9 and "-", in a handle. If the handle is open, its
 * old site is let go once the new one is made.
 *   SW_FOUND     the site is made
 *   SW_REFUSED   the name (27) */
int32_t sw_site_new(const uint8_t *name, size_t name_len, sw_site *site, sw_told *told); /* since 0.3 */

/* Puts a label of one text for the message `id` in the language `lang`, or replaces the one that is there.
 *   SW_FOUND     done
 *   SW_USAGE     the handle is not open
 *   SW_REFUSED   first the id (10, also if it is not UTF-8), then the language (1 to 4), then the text (18 if it is not
 *                UTF-8, by its place in told->offset; 11 if it is over 65,535 bytes), then the edit (14: no stamp is
 *                left) */
int32_t sw_site_put(sw_site *site, uint64_t now, const uint8_t *id, size_t id_len, const uint8_t *lang,
                    size_t lang_len, const uint8_t *text, size_t text_len, sw_told *told); /* since 0.3 */

/* Deletes the label of a message in a language, whether there is one or not: a later edit of another site brings it
 * back, an earlier one does not.
 *   SW_FOUND, SW_USAGE, SW_REFUSED   as sw_site_put, without the text */
int32_t sw_site_delete(sw_site *site, uint64_t now, const uint8_t *id, size_t id_len, const uint8_t *lang,
                       size_t lang_len, sw_told *told); /* since 0.3 */

/* Joins what the site of another handle has: of each label the later edit. The two handles are two, though they may be
 * of one site. If `not_after` is not 0 no time of the other site may be greater: a limit of a day ahead of the clock
 * keeps times far ahead out.
 *   SW_FOUND     done
 *   SW_USAGE     a flag that is none, or one of the handles is not open
 *   SW_REFUSED   first a time of the other site after the limit (29), then an edit of this site that it lacks (30),
 *                each by its row in the other site's document, then two edits of one label with one stamp (13) */
int32_t sw_site_merge(sw_site *site, uint32_t flags, sw_site *other, uint64_t not_after, sw_told *told); /* since 0.4 */

/* Takes the document of a delta for this site, which another site made with sw_site_delta. `flags` and `not_after` are
 * as for sw_site_merge.
 *   SW_FOUND     done
 *   SW_USAGE     a flag that is none, or the handle is not open
 *   SW_REFUSED   first the delta (as sw_site_open reports a document), then a time of it after the limit (29), then a
 *                delta for another site (15), then an edit of this site that it lacks (30), then two edits of one label
 *                with one stamp (13); of 29 and 30 told->row is the row */
int32_t sw_site_take(sw_site *site, uint32_t flags, const uint8_t *delta, size_t delta_len, uint64_t not_after,
                     sw_told *told); /* since 0.4, reads a delta document */

/* Puts the labels of language maps, as {"greeting":{"fr":"Bonjour"}}, all or none: as the command `import`. A label may
 * have several texts, and one that the site has already is put again.
 *   SW_FOUND     done
 *   SW_USAGE     the handle is not open
 *   SW_REFUSED   the maps (18 to 20, 22; 1 to 4, 10 to 12 in a row of them), then a label for which no stamp is left
 *                (14) */
int32_t sw_site_import(sw_site *site, uint64_t now, const uint8_t *maps, size_t maps_len, sw_told *told);
                       /* since 0.3, reads language maps */

/* Makes the changes from old language maps to new ones, all or none: as the command `update`. A label that only
 * the old maps have is deleted. A label that is the same in both is not touched.
 *   SW_FOUND, SW_USAGE, SW_REFUSED   as sw_site_import, the old maps first */
int32_t sw_site_update(sw_site *site, uint64_t now, const uint8_t *old_maps, size_t old_len, const uint8_t *new_maps,
                       size_t new_len, sw_told *told); /* since 0.3, reads language maps */

/* ---- What the commands print of a site: `write` its document, which sw_site_open reads as this site; `summary` and
 * `delta` the documents for an exchange, `status` one line. The answer is made anew by each call, and then copied: for
 * a large site pass a buffer that has room, say an eighth more than the document had before.
 *   SW_FOUND     there is an answer
 *   SW_USAGE     the handle is not open
 *   SW_REFUSED   of sw_site_delta alone: the summary (18 to 21, 27, 28; 10, or 1 to 4, in a row of it), as sw_site_open
 *                reports a document */
int32_t sw_site_write(sw_site *site, uint8_t *out, size_t out_len, sw_told *told); /* since 0.3 */
int32_t sw_site_summary(sw_site *site, uint32_t flags, uint8_t *out, size_t out_len, sw_told *told); /* since 0.4 */
int32_t sw_site_status(sw_site *site, uint8_t *out, size_t out_len, sw_told *told); /* since 0.3 */
int32_t sw_site_delta(sw_site *site, const uint8_t *summary, size_t summary_len, uint8_t *out, size_t out_len,
                      sw_told *told); /* since 0.3, reads a summary document */

/* The language maps of all labels, of the messages that lack a language, and of those whose label in `lang` is older
 * than that in `source`; how many labels each language has, as `labels N` and N lines; and what changed from a site to
 * that of another handle, as `changes N` and N lines. They are what the commands `export`, `missing`, `outdated`,
 * `labels` and `changes` print.
 *   SW_FOUND     there is at least one; of sw_site_export always
 *   SW_NOTHING   there is none; the answer is `{}`, `labels 0` or `changes 0`
 *   SW_USAGE     a handle is not open
 *   SW_REFUSED   `lang`, then `source` (1 to 4) */
int32_t sw_site_export(sw_site *site, uint8_t *out, size_t out_len, sw_told *told); /* since 0.3 */
int32_t sw_site_labels(sw_site *site, uint8_t *out, size_t out_len, sw_told *told); /* since 0.4 */
int32_t sw_site_missing(sw_site *site, const uint8_t *lang, size_t lang_len, uint8_t *out, size_t out_len,
                        sw_told *told); /* since 0.3 */
int32_t sw_site_outdated(sw_site *site, const uint8_t *lang, size_t lang_len, const uint8_t *source, size_t source_len,
                         uint8_t *out, size_t out_len, sw_told *told); /* since 0.3 */
int32_t sw_site_changes(sw_site *site, sw_site *other, uint8_t *out, size_t out_len, sw_told *told); /* since 0.3 */

/* ---- Without a site. */

/* All of some languages that a field takes, best first (RFC 4647 section 3.3). `tags` as in sw_pick. The answer has the
 * line `filter N`, then N lines `TAG WEIGHT`, with their LFs: each tag as it is in `tags`, the weight in thousandths.
 * By weight, then by the place of the item in the field, the tag in lower case and its place; a tag that is there twice
 * is answered twice, and `@none` never.
 *   SW_FOUND     there is at least one
 *   SW_NOTHING   there is none; the answer is the line `filter 0`
 *   SW_REFUSED   first the offer, then the field (each 8, 9), then the tags in their order (1 to 4; a line without
 *                bytes is 1) */
int32_t sw_filter(uint32_t flags, const sw_rules *rules, const uint8_t *field, size_t field_len, const uint8_t *tags,
                  size_t tags_len, uint8_t *out, size_t out_len, sw_told *told); /* since 0.4 */

/* What a refusal means, by its number: a sentence on what was wanted, without an end mark, of at most 255 bytes.
 *   SW_FOUND     there is one
 *   SW_NOTHING   no refusal has this number; told->len is 0 */
int32_t sw_refusal(uint32_t number, uint8_t *out, size_t out_len, sw_told *told); /* since 0.3 */

/* The word of a refusal, as `clock-ahead`, of at most 32 bytes. Statuses as of sw_refusal. */
int32_t sw_refusal_code(uint32_t number, uint8_t *out, size_t out_len, sw_told *told); /* since 0.4 */

/* The text of a refusal, of at most 255 bytes, with OFFSET, INDEX, COUNT and PLACE where told->offset and told->count
 * of the refused call belong: `subtag at OFFSET`. Of 13 it lacks the stamp, and of 15 the name of the site, which no
 * call reports. The command prints it after `refused N: ` (tried, not proved). Statuses as of sw_refusal. */
int32_t sw_refusal_text(uint32_t number, uint8_t *out, size_t out_len, sw_told *told); /* since 0.4 */

/* ---- Handles. */

/* Makes `other` one more handle of an equal site, for another thread. The memory of the site is shared, not copied
 * (measured, not proved). If `other` is open, its old site is let go. Each of the two handles is freed by itself, in
 * any order.
 *   SW_FOUND      done
 *   SW_USAGE      the handle is not open; `other` stays as it is
 *   SW_NO_MEMORY  `other` stays as it is */
int32_t sw_site_share(sw_site *site, sw_site *other); /* since 0.2 */

/* Lets a site go and leaves zeros in the handle. The last handle of a site frees its memory (tried, not proved). A
 * handle of zeros stays as it is. */
void sw_site_free(sw_site *site); /* since 0.2 */

/* ---- NULL in place of rules.
 *
 * The library itself takes none, and these macros pass it what NULL stands for. (So does whoever calls it from another
 * language, or through a pointer.) */
static inline const sw_rules *sw_rules_or_none(const sw_rules *rules) {
  static const sw_rules none = {NULL, 0, NULL, 0};
  return rules ? rules : &none;
}
static inline const sw_rules *sw_rules_or_all(const sw_rules *rules) {
  static const sw_rules all = {(const uint8_t *)"*", 1, NULL, 0};
  return rules ? rules : &all;
}
#define SW_ASK_TAGS(call, flags, rules, ...) call(flags, sw_rules_or_all(rules), __VA_ARGS__)
#define sw_pick(...) SW_ASK_TAGS(sw_pick, __VA_ARGS__)
#define sw_filter(...) SW_ASK_TAGS(sw_filter, __VA_ARGS__)
#define SW_ASK_SITE(call, site, rules, ...) call(site, sw_rules_or_none(rules), __VA_ARGS__)
#define SW_ASK_TEXT(call, text, text_len, rules, ...) call(text, text_len, sw_rules_or_none(rules), __VA_ARGS__)
#define sw_site_lookup(...) SW_ASK_SITE(sw_site_lookup, __VA_ARGS__)
#define sw_site_text(...) SW_ASK_SITE(sw_site_text, __VA_ARGS__)
#define sw_site_filter(...) SW_ASK_SITE(sw_site_filter, __VA_ARGS__)
#define sw_site_bundle(...) SW_ASK_SITE(sw_site_bundle, __VA_ARGS__)
#define sw_text_lookup(...) SW_ASK_TEXT(sw_text_lookup, __VA_ARGS__)
#define sw_text_text(...) SW_ASK_TEXT(sw_text_text, __VA_ARGS__)
#define sw_text_filter(...) SW_ASK_TEXT(sw_text_filter, __VA_ARGS__)

#ifdef __cplusplus
}
#endif

#endif
