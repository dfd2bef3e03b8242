// The labels of a site, by message and language, as a page asks for them. An id is any text, so all
// is kept in maps.

/**
 * Where notes of messages are: `x-note`, and `x-note-fr` for those of the translators into French.
 */
export const NOTES = 'x-note';
/** Where flags of messages are, as `no-c-format`. */
export const FLAGS = 'x-flags';
const BESIDE = /^x-(note|flags)(-|$)/;

/** Whether texts of a language are translated, and are no notes. */
export function isTranslated(language) {
  return !BESIDE.test(language);
}

/** Whether two lists of texts are equal. */
export function isSame(one, other) {
  return one.length === other.length && one.every((text, at) => text === other[at]);
}

export class Labels {
  #messages = new Map();
  #counts = new Map();
  #texts = new Map();
  #ids = null;

  /** Of cells as documents have them. */
  constructor(cells = []) {
    for (const cell of cells) this.set(cell);
  }

  /** Takes a cell in place of the one of its message and language. */
  set([id, language, time, site, count, texts]) {
    let message = this.#messages.get(id);
    if (!message) this.#messages.set(id, (message = { cells: new Map(), labels: 0 }));
    const had = message.cells.get(language)?.texts ? 1 : 0;
    const has = texts ? 1 : 0;
    message.cells.set(language, { time, site, count, texts });
    this.#texts.delete(id);
    if (had === has) return;
    this.#counts.set(language, (this.#counts.get(language) ?? 0) + has - had);
    if (!isTranslated(language)) return;
    message.labels += has - had;
    if (message.labels === 0 || (message.labels === 1 && has === 1)) this.#ids = null;
  }

  /** The cell of a message in a language, with the stamp of its last edit; or null. */
  cellOf(id, language) {
    return this.#messages.get(id)?.cells.get(language) ?? null;
  }

  textsOf(id, language) {
    return this.cellOf(id, language)?.texts ?? [];
  }

  has(id) {
    return (this.#messages.get(id)?.labels ?? 0) > 0;
  }

  /** The messages that have a label, in ascending order. */
  ids() {
    this.#ids ??= [...this.#messages].filter(([, it]) => it.labels > 0).map(([id]) => id).sort();
    return this.#ids;
  }

  /** The languages of the site that are translated, with how many messages have a label of each. */
  languages() {
    return [...this.#counts]
      .filter(([tag, count]) => count > 0 && isTranslated(tag))
      .sort(([a], [b]) => (a < b ? -1 : 1));
  }

  /** The languages that a message has a label of, with those of its notes. */
  languagesOf(id) {
    const cells = this.#messages.get(id)?.cells ?? new Map();
    return [...cells].filter(([, it]) => it.texts).map(([language]) => language);
  }

  countOf(language) {
    return this.#counts.get(language) ?? 0;
  }

  isMissing(id, language) {
    return !this.cellOf(id, language)?.texts;
  }

  /**
   * Whether a translation is older than its source, by their times alone, as the command `outdated`
   * has it: an import gives all of its labels one time.
   */
  isOutdated(id, language, source) {
    const [own, beside] = [this.cellOf(id, language), this.cellOf(id, source)];
    return language !== source && Boolean(own?.texts && beside?.texts) && beside.time > own.time;
  }

  /** The notes of a message for the translators into a language. */
  notesOf(id, language) {
    return [NOTES, `${NOTES}-${language.replace(/^@/, '')}`]
      .flatMap((tag) => this.textsOf(id, tag))
      .filter(Boolean);
  }

  /** The language of a message that is shown where it has none of the source: the first one. */
  firstOf(id) {
    return this.languagesOf(id).filter(isTranslated).sort()[0] ?? null;
  }

  /**
   * How many messages there are, lack a text of a language, and have one that is older than its
   * source.
   */
  progress(language, source) {
    let outdated = 0;
    const ids = this.ids();
    let missing = 0;
    for (const id of ids) {
      if (this.isMissing(id, language)) missing += 1;
      else if (this.isOutdated(id, language, source)) outdated += 1;
    }
    return { all: ids.length, missing, outdated, done: ids.length - missing };
  }

  /** Whether a message has a text in its id or in one of its labels; `wanted` is in lower case. */
  fits(id, wanted) {
    let text = this.#texts.get(id);
    if (text === undefined) {
      const labels = [...this.#messages.get(id).cells.values()].flatMap((it) => it.texts ?? []);
      this.#texts.set(id, (text = [id, ...labels].join('\n').toLowerCase()));
    }
    return text.includes(wanted);
  }
}
