// One site and the work at it: edits, what is being typed, what was undone, what came, and what is
// to be sent. It knows no document, so it is tried without a browser.
import { withoutLate } from './deltas.mjs';
import { Labels, isSame } from './labels.mjs';

const MOST_UNDONE = 100;
const MOST_CAME = 500;

export function keyOf(...parts) {
  return JSON.stringify(parts);
}

/** A text as a text area has it. */
export function asTyped(text) {
  return text.replace(/\r\n?/g, '\n');
}

export class Work {
  /** What is to be sent, by keys. */
  unsent = new Map();
  /** What is being typed: by message and language, then by the place of the text. */
  drafts = new Map();
  /** The edits that can be taken back, the latest last. */
  done = [];
  /**
   * The labels that came from others, the latest first, each with the texts that were there before
   * and who had written these.
   */
  came = [];
  /** What is called after an edit: its cell, as text, by its key. */
  onEdit = () => {};
  /** What is called where a draft changes: its key, and it or null. */
  onDraft = () => {};
  /** What is called after many edits at once, which are sent by a full exchange. */
  onMany = () => {};
  /** What is called where what came changed. */
  onCame = () => {};

  /** What is known of the server that it is exchanged with. */
  way = null;

  constructor(sw, site, clock) {
    this.sw = sw;
    this.site = site;
    this.clock = clock;
    this.name = site.status().site;
    this.reread();
  }

  /** Takes up what the site holds. */
  reread() {
    this.labels = new Labels(JSON.parse(this.site.write()).cells);
  }

  // ---- Edits

  /**
   * Gives a message these texts in a language; none, or empty ones alone, delete the label.
   * Whether it is an edit.
   */
  setTexts(id, language, texts, { isUndone = false } = {}) {
    const before = this.labels.textsOf(id, language);
    const after = texts.every((text) => text === '') ? [] : texts;
    if (isSame(before, after)) return false;
    this.#put(id, language, after);
    if (!isUndone) this.#remember({ id, labels: [{ id, language, before, after }] });
    return true;
  }

  /** Deletes a message: all its labels and notes, which is one edit to take back. */
  removeMessage(id) {
    const labels = this.labels.languagesOf(id)
      .map((language) => ({ id, language, before: this.labels.textsOf(id, language), after: [] }));
    for (const { language } of labels) {
      this.discard(id, language);
      this.#put(id, language, []);
    }
    if (labels.length > 0) this.#remember({ id, labels });
  }

  /** Says that a text is right as it is, so that it is no longer older than its source. */
  confirm(id, language) {
    const texts = this.labels.textsOf(id, language);
    if (texts.length > 0) this.#put(id, language, texts);
    return texts.length > 0;
  }

  #put(id, language, texts) {
    const options = { now: this.clock.now() };
    if (texts.length === 0) this.site.delete(id, language, options);
    else if (texts.length === 1) this.site.put(id, language, texts[0], options);
    else
      this.site.importMaps(
        `{${JSON.stringify(id)}:{${JSON.stringify(language)}:${JSON.stringify(texts)}}}`, options);
    const { time, site, count } = this.site.status().last;
    const label = texts.length === 0 ? null : texts;
    const row = `[${JSON.stringify(id)},${JSON.stringify(language)},${time},${
                  JSON.stringify(site)},${count},` +
      `${JSON.stringify(label)}]`;
    this.labels.set(JSON.parse(row));
    const key = keyOf(id, language);
    this.unsent.set(key, row);
    this.onEdit(key, row);
  }

  /**
   * Takes in a file that came back: makes the edits that lead from the language maps that went out
   * to those that came, both as text. Without those that went out each label that came is put that
   * is another one here. Answers the labels that were changed, each with its texts before and after;
   * all of them are one edit to take back.
   */
  takeIn(maps, sent = null) {
    const changed = this.changesOf(maps, sent);
    if (changed.length === 0) return changed;
    this.#setMany(changed.map(({ id, language, after }) => [id, language, after]));
    this.#remember({ id: null, labels: changed });
    return changed;
  }

  /** What `takeIn` would change. */
  changesOf(maps, sent = null) {
    const trial = this.sw.Site.open(this.site.toBytes());
    try {
      const options = { now: this.clock.now() };
      if (sent === null) trial.importMaps(maps, options);
      else trial.update(sent, maps, options);
      return this.site.changes(trial)
        .map(({ id, language, before, after }) =>
          ({ id, language, before: before?.texts ?? [], after: after?.texts ?? [] }))
        .filter(({ before, after }) => !isSame(before, after));
    } finally {
      trial.close();
    }
  }

  // Gives many labels their texts, each a message, a language and texts; none delete it.
  #setMany(labels) {
    const messages = new Map();
    for (const [id, ...label] of labels) messages.set(id, [...(messages.get(id) ?? []), label]);
    // (as text, as an id may be `__proto__`)
    const mapsOf = (textsOf) => {
      const maps = [...messages].map(([id, them]) => {
        const inside = them.flatMap(([language, texts]) => {
          const it = textsOf(id, language, texts);
          return it.length === 0 ? [] : [`${JSON.stringify(language)}:${JSON.stringify(it)}`];
        });
        return `${JSON.stringify(id)}:{${inside.join(',')}}`;
      });
      return `{${maps.join(',')}}`;
    };
    this.site.update(
      mapsOf((id, language) => this.labels.textsOf(id, language)),
      mapsOf((id, language, texts) => texts), { now: this.clock.now() });
    this.reread();
    this.onMany();
  }

  #remember(edit) {
    this.done.push(edit);
    if (this.done.length > MOST_UNDONE) this.done.shift();
  }

  /**
   * Takes back the last edit, or says that it was not: `null` where there is none, `changed` where
   * a label is another one by now. Of a file that was taken in the labels go back that are still as
   * it made them; `labels` are these.
   */
  undo() {
    const edit = this.done.pop();
    if (!edit) return null;
    const labels = edit.labels.filter(
      ({ id, language, after }) => isSame(this.labels.textsOf(id, language), after));
    const isOther = labels.length < edit.labels.length && (edit.id !== null || labels.length === 0);
    if (isOther) return { ...edit, is: 'changed' };
    if (edit.id === null)
      this.#setMany(labels.map(({ id, language, before }) => [id, language, before]));
    else
      for (const { id, language, before } of labels)
        this.setTexts(id, language, before, { isUndone: true });
    return { ...edit, labels, is: 'undone' };
  }

  // ---- What is being typed

  /** What a field has: a draft, or what the site holds there. */
  shownAt(id, language, place) {
    const draft = this.draftAt(id, language, place);
    return draft ? draft.text : asTyped(this.labels.textsOf(id, language)[place] ?? '');
  }

  draftAt(id, language, place) {
    return this.drafts.get(keyOf(id, language))?.get(place) ?? null;
  }

  /** Takes up what a field has. A text that is what the site holds is no draft. */
  type(id, language, place, text) {
    const key = keyOf(id, language);
    const held = this.labels.textsOf(id, language)[place] ?? '';
    const typed = this.drafts.get(key) ?? new Map();
    const draft = typed.get(place);
    if (text === asTyped(draft ? draft.base : held) && (!draft || draft.base === held)) {
      if (draft) this.discard(id, language, place);
      return;
    }
    const made = { text, base: draft ? draft.base : held, warned: draft ? draft.warned : null };
    this.drafts.set(key, typed.set(place, made));
    this.onDraft(keyOf(id, language, place), made);
  }

  /** Forgets what was typed in a field, or in all of a message in a language. */
  discard(id, language, place = null) {
    const key = keyOf(id, language);
    const typed = this.drafts.get(key);
    if (!typed) return;
    for (const at of place === null ? [...typed.keys()] : [place]) {
      if (typed.delete(at)) this.onDraft(keyOf(id, language, at), null);
    }
    if (typed.size === 0) this.drafts.delete(key);
  }

  /**
   * The text of a field that came from another while something else was typed there, or null where
   * none did.
   */
  otherAt(id, language, place) {
    const draft = this.draftAt(id, language, place);
    const held = this.labels.textsOf(id, language)[place] ?? '';
    return draft && held !== draft.base && asTyped(held) !== draft.text ? held : null;
  }

  /**
   * Makes an edit of what was typed. Fields that nobody typed in stay as the site has them. Where a
   * text changed meanwhile nothing is done, and the answer is `changed`; the same call again
   * decides for what was typed.
   */
  commit(id, language) {
    const typed = this.drafts.get(keyOf(id, language));
    if (!typed) return 'same';
    const held = this.labels.textsOf(id, language);
    let isChanged = false;
    for (const [place, draft] of typed) {
      const other = this.otherAt(id, language, place);
      if (other === null || draft.warned === other) continue;
      draft.warned = other;
      this.onDraft(keyOf(id, language, place), draft);
      isChanged = true;
    }
    if (isChanged) return 'changed';
    const texts = [...held];
    for (const [place, { text }] of typed) {
      while (texts.length <= place) texts.push('');
      // (what a text area makes of the text that is there is that text)
      if (text !== asTyped(texts[place])) texts[place] = text;
    }
    while (texts.length > held.length && texts.at(-1) === '') texts.pop();
    const isEdit = this.setTexts(id, language, texts);
    this.discard(id, language);
    return isEdit ? 'kept' : 'same';
  }

  /** How many texts are being typed. */
  typing() {
    return [...this.drafts.values()].reduce((sum, it) => sum + it.size, 0);
  }

  isTyping(id, language) {
    return this.drafts.has(keyOf(id, language));
  }

  // ---- What comes and goes

  /** How many edits of this site have a time that no other takes yet. */
  late() {
    const limit = this.clock.limit();
    return [...this.unsent.values()].filter((row) => JSON.parse(row)[2] > limit).length;
  }

  /** What is to be sent and may be, with the rows by their keys. */
  sendable() {
    const limit = this.clock.limit();
    return new Map([...this.unsent].filter(([, row]) => JSON.parse(row)[2] <= limit));
  }

  /** Forgets what was sent, unless it was edited anew since. */
  wasSent(rows) {
    const gone = [...rows].filter(([key, row]) => this.unsent.get(key) === row).map(([key]) => key);
    for (const key of gone) this.unsent.delete(key);
    return gone;
  }

  /**
   * Takes a delta for this site but for what is too late. Answers how many labels came, how many of
   * them took the place of one that was written here, and how many were too late.
   */
  take(given) {
    const { delta, cells, late } = withoutLate(given, this.clock.limit());
    if (cells.length === 0) return { received: 0, overridden: 0, late };
    const came = [];
    // (all of it is new in an empty site)
    const isFirst = this.labels.ids().length === 0;
    for (const [id, language, time, site, , texts] of cells) {
      const held = this.labels.cellOf(id, language);
      const before = held?.texts ?? [];
      if (!isFirst && !isSame(before, texts ?? []))
        came.push({ id, language, time, site, before, was: held?.site ?? null, texts: texts ?? [] });
    }
    this.site.take(delta);
    this.reread();
    const keys = new Set(came.map(({ id, language }) => keyOf(id, language)));
    const former = this.came.filter(({ id, language }) => !keys.has(keyOf(id, language)));
    this.came = [...came, ...former].slice(0, MOST_CAME);
    this.onCame();
    const overridden = came.filter(({ was }) => was === this.name).length;
    return { received: cells.length, overridden, late };
  }

  /** What came in place of another text of a message, as long as it is there; or null. */
  cameAt(id, language) {
    const found = this.came.find((it) => it.id === id && it.language === language);
    return found && isSame(this.labels.textsOf(id, language), found.texts) ? found : null;
  }

  /** Puts the texts back that were there before others came. Whether it is an edit. */
  putBack(id, language) {
    const found = this.cameAt(id, language);
    if (!found) return false;
    this.discard(id, language);
    const isEdit = this.setTexts(id, language, found.before);
    this.came = this.came.filter((it) => it !== found);
    this.onCame();
    return isEdit;
  }

  /** Takes what another site has that this one lacks. */
  join(other) {
    return this.take(other.deltaFor(this.site.summary()));
  }

  /**
   * The same labels in a new site of another name. Those with a time that no other takes yet get
   * the time of now, the others stay as they are. What is being typed goes along.
   */
  begunAnew(name) {
    const fresh = this.sw.Site.new(name);
    const limit = this.clock.limit();
    const all = this.site.deltaFor(fresh.summary());
    const { delta } = withoutLate(all, limit);
    fresh.take(delta);
    const work = new Work(this.sw, fresh, this.clock);
    for (const [id, language, time, , , texts] of JSON.parse(all).cells) {
      if (time > limit) work.#put(id, language, texts ?? []);
    }
    for (const [key, row] of this.sendable()) work.unsent.set(key, row);
    work.drafts = this.drafts;
    work.came = this.came;
    return work;
  }
}
