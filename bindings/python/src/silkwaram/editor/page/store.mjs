// What the browser keeps of the site, in IndexedDB: its document, the edits since that was written,
// those that are to be sent, what is being typed, what came from others, the language maps that went
// out, and the state of the page.

const NAME = 'silkwaram-labels';
const LOCK = 'silkwaram-labels';
const STORES = ['kept', 'edits', 'unsent', 'drafts'];
// Edits that are kept one by one before the document is written anew.
const MOST_EDITS = 200;
// Language maps that went out and are kept, to know what of them was edited when they come back.
const MOST_SENT = 12;

function done(request) {
  return new Promise((resolve, reject) => {
    request.onsuccess = () => resolve(request.result);
    request.onerror = () => reject(request.error);
  });
}

/** Opens what is kept. It throws where the browser gives no store. */
export async function openStore() {
  const opening = indexedDB.open(NAME, 2);
  opening.onupgradeneeded = () => {
    const { objectStoreNames } = opening.result;
    for (const it of STORES)
      if (!objectStoreNames.contains(it)) opening.result.createObjectStore(it);
  };
  return new Store(await done(opening));
}

class Store {
  constructor(database) {
    this.database = database;
    database.onversionchange = () => database.close();
  }

  /**
   * All that is kept: the document and the state, or undefined, and the entries of the other
   * stores.
   */
  async read() {
    const reading = this.database.transaction(STORES);
    const entries = async (name) => {
      const store = reading.objectStore(name);
      const [keys, values] = await Promise.all([done(store.getAllKeys()), done(store.getAll())]);
      return new Map(keys.map((key, at) => [key, values[at]]));
    };
    const kept = reading.objectStore('kept');
    const [site, state, came, edits, unsent, drafts] = await Promise.all([
      done(kept.get('site')),
      done(kept.get('state')),
      done(kept.get('came')),
      entries('edits'),
      entries('unsent'),
      entries('drafts'),
    ]);
    return { site, state, came, edits, unsent, drafts };
  }

  /** The language maps that went out, the latest last, each `{ id, text }`. */
  async readSent() {
    return (await done(this.database.transaction(['kept']).objectStore('kept').get('sent'))) ?? [];
  }

  /** Does all of it or nothing, and ends once that is on its way to the disk. */
  write(run) {
    return new Promise((resolve, reject) => {
      const writing = this.database.transaction(STORES, 'readwrite', { durability: 'strict' });
      writing.oncomplete = () => resolve();
      writing.onabort = () => reject(writing.error ?? new Error('the transaction was aborted'));
      run((name) => writing.objectStore(name));
      // (at once, so that a page that is being left has done it)
      writing.commit();
    });
  }
}

/**
 * Keeps the work of a page, and knows whether all is kept. Without a store it keeps nothing, and
 * says so.
 */
export class Keeper {
  /** What is called where that changes. */
  onChange = () => {};
  failure = null;
  /** Whether there are edits that are in no file, where there is no store. */
  isUnsaved = false;
  #running = 0;
  #edits = 0;
  #sent = [];

  constructor(store, snapshot) {
    this.store = store;
    this.snapshot = snapshot;
  }

  get isBusy() {
    return this.#running > 0;
  }

  async #write(run, isWhole = false) {
    if (!this.store) return;
    this.#running += 1;
    if (this.#running === 1) this.onChange();
    try {
      await this.store.write(run);
      if (isWhole) this.failure = null;
    } catch (failure) {
      this.failure = failure;
    }
    this.#running -= 1;
    if (this.#running === 0) this.onChange();
  }

  /** Keeps one edit: its cell, as text, by its key. */
  edit(key, row) {
    this.isUnsaved = true;
    this.#edits += 1;
    // (after a failure the whole is tried anew, as an edit may be missing)
    if (this.failure) return this.all();
    if (this.#edits === MOST_EDITS) (window.requestIdleCallback ?? setTimeout)(() => this.all());
    return this.#write((store) => {
      store('edits').put(row, key);
      store('unsent').put(row, key);
    });
  }

  /** Keeps what is typed in a field, or forgets it. */
  draft(key, draft) {
    return this.#write(
      (store) => (draft ? store('drafts').put({ ...draft }, key) : store('drafts').delete(key)));
  }

  /** Forgets that edits were to be sent. */
  sent(keys) {
    if (keys.length === 0) return undefined;
    return this.#write((store) => keys.forEach((key) => store('unsent').delete(key)));
  }

  state(state) {
    return this.#write((store) => store('kept').put(state, 'state'));
  }

  /** Keeps what came from others. */
  came(came) {
    return this.#write((store) => store('kept').put(came, 'came'));
  }

  /** Keeps language maps that go out, under an id; of the oldest of many nothing is kept. */
  async maps(id, text) {
    const sent = await this.mapsSent();
    sent.push({ id, text });
    this.#sent = sent.slice(-MOST_SENT);
    return this.#write((store) => store('kept').put(this.#sent, 'sent'));
  }

  /** The language maps that went out under an id, or null. */
  async mapsOf(id) {
    return (await this.mapsSent()).find((it) => it.id === id)?.text ?? null;
  }

  async mapsSent() {
    return this.store ? this.store.readSent() : this.#sent;
  }

  /** Keeps all anew. */
  all() {
    if (!this.store) return undefined;
    const { site, state, came, unsent, drafts } = this.snapshot();
    this.#edits = 0;
    return this.#write((store) => {
      for (const it of STORES.slice(1)) store(it).clear();
      store('kept').put(site, 'site');
      store('kept').put(state, 'state');
      store('kept').put(came, 'came');
      for (const [key, row] of unsent) store('unsent').put(row, key);
      for (const [key, draft] of drafts) store('drafts').put({ ...draft }, key);
    }, true);
  }
}

/**
 * Waits until this is the only tab that has the site: two that edit one would make different labels
 * under one stamp. `waiting` is called where another tab has it. Answers false where the browser
 * has no locks.
 */
export async function beOnlyTab(waiting) {
  if (!navigator.locks) return false;
  const held = (options) =>
    new Promise((resolve, reject) => {
      navigator.locks
        .request(LOCK, options, (lock) => {
          resolve(lock !== null);
          return lock && new Promise(() => {});
        })
        .catch(reject);
    });
  if (await held({ ifAvailable: true })) return true;
  waiting();
  return held({});
}
