// Silkwaram for pages and for Node: which language, and which label, a reader gets, and sites that are edited and
// exchanged. calls.d.ts says what each call takes and answers, docs/BROWSER.md leads in.
//
// The calls are those of silkwaram.h, in a module of WebAssembly. Pointers and sizes have 64 bits there, so they are
// BigInts here. A call may let the memory grow, which detaches every view of it: views are made where they are used.

const EXTENDED = 1;
const LENIENT = 2;
const WIDEN = 4;
const CHECK_OWN = 8;
const LABELS = 16;
const SCHEMES = { basic: 0, extended: EXTENDED };
// Without an offer the tags that a caller lists are all offered.
const ALL_TAGS = '*';

const FOUND = 0;
const NOTHING = 1;
const USAGE = 2;
const NO_MEMORY = 5;

const OUT_OF_MEMORY = 26;
const NOT_JSON = 19;
const SHAPE = 20;
const NO_NAME = 'the document itself is wanted, not its name';
// What a refusal has, in the record of the call that was refused.
const HAS_OFFSET = 1;
const HAS_ROW = 2;
const HAS_COUNT = 4;
const OF_SECOND = 8;
// Each call as silkwaram.h declares it, which `tools/calls into` writes here.
const CALLS = JSON.parse(String.raw`@CALLS@`);
// What becomes of a parameter that is no text, by its kind.
const NUMBERS = { uint32_t: Number, uint64_t: BigInt, size_t: BigInt, sw_site: BigInt };

// Bytes of `sw_told`, of `sw_rules` and of a handle, and of the room for the texts and the answer of a call.
const TOLD = 40;
const RULES = 32;
const HANDLE = 8;
const ROOM = 32768;
const LARGEST_MOMENT = 2n ** 64n - 1n;

const NEEDED = 'WebAssembly with SIMD and bulk memory, and BigInt at its border';

/** What is thrown where something is refused. */
export class Refused extends Error {
  constructor(text, wanted, { number, given = 0, offset, row, count }, code) {
    const at = given & HAS_OFFSET ? offset : null;
    const place = given & HAS_COUNT ? count : null;
    const filled = (text ?? 'unknown').replace('OFFSET', at ?? 'OFFSET').replace(/INDEX|COUNT|PLACE/, place ?? '$&');
    const ofRow = given & HAS_ROW ? ` in row ${row}` : '';
    const ofDocument = given & OF_SECOND ? ' of the second document' : '';
    super(`refused ${number}: ${filled}${ofRow}${ofDocument}${wanted ? ` (${wanted})` : ''}`);
    this.name = 'Refused';
    this.number = number;
    this.code = code ?? '';
    this.offset = at;
    this.row = given & HAS_ROW ? row : null;
    this.count = place;
    this.ofSecond = (given & OF_SECOND) !== 0;
    this.wanted = wanted ?? '';
  }
}

// What is wanted if a call refuses the shape of a document.
function documentOf({ name, number }) {
  const reads = number === SHAPE && CALLS[name].reads;
  return reads ? `${reads} ${reads.endsWith('s') ? 'are' : 'is'} wanted` : undefined;
}

/** What is thrown if the module refuses a call of silkwaram.h. */
function refusalOf(calls, report, wanted = documentOf(report)) {
  const { number } = report;
  return new Refused(calls.refusalText(number), wanted ?? calls.meaning(number), report, calls.code(number));
}

function wrongType(name, wanted) {
  return Object.assign(new TypeError(`${name} must be ${wanted}`), { code: 'ERR_INVALID_ARG_TYPE' });
}

function optionsOf(options) {
  if (options === undefined) return {};
  if (options === null || typeof options !== 'object') throw wrongType('options', 'an object');
  return options;
}

function isOn(options, name) {
  const given = options[name];
  if (given !== undefined && typeof given !== 'boolean') throw wrongType(name, 'a boolean');
  return given === true;
}

function flagsOf(options) {
  const { scheme = 'basic' } = options;
  if (!Object.hasOwn(SCHEMES, scheme)) throw wrongType('scheme', '"basic" or "extended"');
  return SCHEMES[scheme] | (isOn(options, 'lenient') ? LENIENT : 0);
}

function lookupFlagsOf(options) {
  return flagsOf(options) | (isOn(options, 'widen') ? WIDEN : 0);
}

// The flags and the limit by which an exchange tests what comes in.
function checksOf(options) {
  const { notAfter = 0 } = options;
  const limit = whole(notAfter, 'notAfter', LARGEST_MOMENT);
  return { flags: isOn(options, 'checkOwn') ? CHECK_OWN : 0, not_after: limit };
}

function isText(given) {
  return typeof given === 'string' || given instanceof Uint8Array;
}

function textOf(given, name) {
  if (isText(given)) return given;
  throw wrongType(name, 'a string or a Uint8Array');
}

// Whether a document may be the name of one.
function mayBeName(text) {
  return typeof text === 'string' && /^[^{]{1,255}$/s.test(text);
}

// A request without the header has `*` as its field.
function fieldOf(given) {
  return given === undefined || given === null ? '*' : textOf(given, 'field');
}

// An option that is a text, or the text that stands for it.
function optionOf(options, name, without = '') {
  const given = options[name];
  return given === undefined || given === null ? without : textOf(given, name);
}

function defaultOf(options) {
  return optionOf(options, 'default');
}

// The texts of the rules of a question, and what is offered without an offer: an empty text is all languages but those
// of private use.
function rulesOf(options, without = '') {
  return [optionOf(options, 'offer', without), optionOf(options, 'fallbacks')];
}

// A line for each tag. An LF in a tag would make two tags of it: it becomes a zero, which no tag has.
function linesOf(tags) {
  if (!Array.isArray(tags)) throw wrongType('tags', 'an array of strings');
  let lines = '';
  // (by its places, since an array may lack some)
  for (let at = 0; at < tags.length; at++) {
    const tag = tags[at];
    if (typeof tag !== 'string') throw wrongType(`tags[${at}]`, 'a string');
    lines += `${tag.includes('\n') ? tag.replaceAll('\n', '\0') : tag}\n`;
  }
  return lines;
}

function whole(given, name, largest) {
  if (typeof given === 'bigint') {
    if (given >= 0n && given <= largest) return given;
  } else if (typeof given !== 'number') {
    throw wrongType(name, 'a number or a bigint');
  } else if (Number.isSafeInteger(given) && given >= 0) {
    return given;
  }
  throw new RangeError(`${name} must be a whole number from 0, and a bigint where it passes 2^53`);
}

function nowOf(options) {
  return whole(options.now ?? Date.now(), 'now', LARGEST_MOMENT);
}

function placeOf({ place = 0 }) {
  return whole(place, 'place', LARGEST_MOMENT);
}

// What JSON has the members of. It has none of a Map, an ArrayBuffer or a Promise: `update` to one would delete all.
const WITH_MEMBERS = /^\[object (?:Object|Array|Module)\]$/;

// Language maps: an object as `export` answers it, or their text.
function mapsOf(given, name) {
  if (isText(given)) return given;
  // (a number is refused: of NaN JSON would make null, which is no label)
  const numbered = (_, it) => (typeof it === 'number' ? 0 : it);
  if (WITH_MEMBERS.test(Object.prototype.toString.call(given))) return JSON.stringify(given, numbered);
  throw wrongType(name, 'an object, a string or a Uint8Array');
}

// A number of JavaScript where it keeps its value, else a BigInt.
function exact(digits) {
  const number = Number(digits);
  return Number.isSafeInteger(number) ? number : BigInt(digits);
}

// Reads JSON whose numbers may pass 2^53. These come as strings, for `exact`.
function parseExact(text) {
  return JSON.parse(text.replace(/"(?:[^"\\]|\\.)*"|\d{16,}/g, (it) => (it[0] === '"' ? it : `"${it}"`)));
}

function stampOf(time, site, count) {
  return { time: exact(time), site, count: exact(count) };
}

function labelOf(line) {
  const [, how, language, texts] = /^(matched|default) (\S+) (.*)\n$/s.exec(line);
  return { language, texts: JSON.parse(texts), isDefault: how === 'default' };
}

function choiceOf(line) {
  const [, language, weight, texts] = /^(\S+) (\d+) (.*)$/s.exec(line);
  return { language, weight: Number(weight), texts: JSON.parse(texts) };
}

function pickedOf(line) {
  const at = line.lastIndexOf(' ');
  return { tag: line.slice(0, at), weight: Number(line.slice(at + 1)) };
}

function cellOf(given) {
  if (given === null) return null;
  const [time, site, count, texts] = given;
  return { ...stampOf(time, site, count), texts };
}

function changeOf(line) {
  const [id, language, before, after] = parseExact(line);
  return { id, language, before: cellOf(before), after: cellOf(after) };
}

function statusOf(line) {
  const [, site, cells, labels, last] = /^site (\S+) cells (\d+) labels (\d+) last (.*)\n$/s.exec(line);
  return {
    site,
    cells: Number(cells),
    labels: Number(labels),
    last: last === 'none' ? null : stampOf(...last.split(' ')),
  };
}

// The counts of lines `LANGUAGE COUNT`.
function countsOf(lines) {
  return Object.fromEntries(lines.map((line) => line.split(' ')).map(([lang, count]) => [lang, Number(count)]));
}

// The lines of an answer without the first, which counts them.
function linesIn(answer) {
  return answer.split('\n').slice(1, -1);
}

const ENCODER = new TextEncoder();
const DECODER = new TextDecoder('utf-8', { ignoreBOM: true });
const LONE_SURROGATE = /\p{Surrogate}/u;

function isWellFormed(text) {
  return text.isWellFormed ? text.isWellFormed() : !LONE_SURROGATE.test(text);
}

// UTF-8, with half of a surrogate pair as if it were a code point: the library refuses these three bytes, where a
// U+FFFD in their place would be another text.
function encodeHalves(text) {
  const bytes = [];
  for (const it of text) {
    const point = it.codePointAt(0);
    if (it.length === 1 && point >= 0xd800 && point < 0xe000) {
      bytes.push(0xe0 | (point >> 12), 0x80 | ((point >> 6) & 0x3f), 0x80 | (point & 0x3f));
    } else {
      bytes.push(...ENCODER.encode(it));
    }
  }
  return Uint8Array.from(bytes);
}

/** A text in UTF-8, as the library takes it. */
export function bytesIn(text) {
  if (typeof text !== 'string') return text;
  return isWellFormed(text) ? ENCODER.encode(text) : encodeHalves(text);
}

// The most bytes that a text takes.
function mostBytes(text) {
  return typeof text === 'string' ? 3 * text.length : text.length;
}

// What a module exports. After a trap, or at the end of the stack, it runs no more: what is in its memory is not known.
class Exports {
  #exports;
  #failure = null;

  constructor({ exports }) {
    this.#exports = exports;
  }

  get hasStopped() {
    return this.#failure !== null;
  }

  run(name, ...words) {
    const call = this.#exports[name];
    if (call === undefined) throw new Error(`this module has no ${name}`);
    if (this.#failure) throw new Error('the module has stopped: load it again', { cause: this.#failure });
    try {
      return call(...words);
    } catch (failure) {
      this.#failure = failure;
      throw failure;
    }
  }

  // Where there is room for so many bytes; 0 where there is none.
  allocate(bytes) {
    return Number(this.run('allocate', BigInt(bytes)));
  }

  release(at) {
    if (!this.#failure) this.run('release', BigInt(at));
  }

  get memory() {
    return this.#exports.memory.buffer;
  }

  bytes(at, count) {
    return new Uint8Array(this.memory, at, count);
  }
}

// A text in the module's memory.
class Kept {
  constructor(at, length) {
    Object.assign(this, { at, length });
  }
}

// The calls of the module, and the room that is kept for them.
class Module {
  #exports;
  #room;

  constructor(exports) {
    this.#exports = exports;
    this.#room = this.#allocated(TOLD + RULES + ROOM);
  }

  #allocated(bytes) {
    const at = this.#exports.allocate(bytes);
    if (at === 0) throw refusalOf(this, { number: OUT_OF_MEMORY });
    return at;
  }

  // Writes a text, and returns how many bytes it has.
  #put(text, at) {
    if (typeof text === 'string') {
      if (isWellFormed(text)) return ENCODER.encodeInto(text, this.#exports.bytes(at, mostBytes(text))).written;
      text = encodeHalves(text);
    }
    // (an array whose memory was taken away is empty, and may not be copied)
    if (text.length > 0) this.#exports.bytes(at, text.length).set(text);
    return text.length;
  }

  // Runs a function with room for so many bytes: that which is kept, where it is enough.
  #within(bytes, used) {
    if (bytes <= ROOM) return used(this.#room + TOLD + RULES, ROOM);
    const at = this.#allocated(bytes);
    try {
      return used(at, bytes);
    } finally {
      this.#exports.release(at);
    }
  }

  // Makes a call, and returns what it reports; what is refused is thrown.
  #call(name, words) {
    const status = this.#exports.run(name, ...words, BigInt(this.#room));
    if (status === USAGE) throw new Error('the site is closed, or the module does not know an option');
    // (sw_site_share reports nothing but its status)
    if (status === NO_MEMORY) throw refusalOf(this, { number: OUT_OF_MEMORY });
    const told = { name, status, ...this.#told() };
    if (status === FOUND || status === NOTHING) return told;
    throw refusalOf(this, told);
  }

  #told() {
    const view = new DataView(this.#exports.memory, this.#room, TOLD);
    const [length, offset, row, count] = [0, 8, 16, 24].map((at) => Number(view.getBigUint64(at, true)));
    return { length, offset, row, count, number: view.getUint32(32, true), given: view.getUint32(36, true) };
  }

  // The words of a call before those of its answer, of which `given` has each by its name in the header, with its texts
  // in the module's memory from `at`; and where these end.
  #placed(name, given, at) {
    const placed = [];
    for (const [kind, it] of CALLS[name].parameters) {
      if (kind === 'room' || kind === 'sw_told') break;
      if (kind === 'sw_rules') {
        // (rules are given by their texts)
        const rules = new DataView(this.#exports.memory, this.#room + TOLD, RULES);
        given[it].forEach((text, place) => {
          const count = this.#put(text, at);
          rules.setBigUint64(16 * place, BigInt(at), true);
          rules.setBigUint64(16 * place + 8, BigInt(count), true);
          at += count;
        });
        placed.push(BigInt(rules.byteOffset));
      } else if (kind !== 'text') {
        placed.push(NUMBERS[kind](given[it]));
      } else if (given[it] instanceof Kept) {
        placed.push(given[it].at, given[it].length);
      } else {
        const count = this.#put(textOf(given[it], it), at);
        placed.push(BigInt(at), BigInt(count));
        at += count;
      }
    }
    return [placed, at];
  }

  #mostOf(given) {
    return Object.values(given).flat().filter(isText).reduce((sum, it) => sum + mostBytes(it), 0);
  }

  // Calls what answers nothing but its status. `given` has what the call takes, by the names of the header.
  done(name, given) {
    this.#within(this.#mostOf(given), (at) => this.#call(name, this.#placed(name, given, at)[0]));
  }

  // Calls what answers a text, in the room that is kept or in as much as the answer needs. Returns what it reports, and
  // what `read` makes of the bytes.
  #asked(name, given, read) {
    return this.#within(this.#mostOf(given) + ROOM / 2, (at, bytes) => {
      const [placed, end] = this.#placed(name, given, at);
      const room = at + bytes - end;
      const told = this.#call(name, [...placed, BigInt(end), BigInt(room)]);
      if (told.length <= room) return [told, read(this.#exports.bytes(end, told.length))];
      return this.#within(told.length, (out, size) => {
        const again = this.#call(name, [...placed, BigInt(out), BigInt(size)]);
        return [again, read(this.#exports.bytes(out, again.length))];
      });
    });
  }

  // The text that a call answers; null where it found nothing.
  text(name, given) {
    const [told, text] = this.#asked(name, given, (bytes) => DECODER.decode(bytes));
    return told.status === NOTHING ? null : text;
  }

  // A copy of the bytes that a call answers.
  bytes(name, given) {
    return this.#asked(name, given, (bytes) => bytes.slice())[1];
  }

  // What a call says of a number of a refusal, or null.
  #said(name, number) {
    if (this.#exports.hasStopped || !this.#room) return null;
    const at = this.#room + TOLD + RULES;
    const status = this.#exports.run(name, number, BigInt(at), BigInt(ROOM), BigInt(this.#room));
    return status === FOUND ? DECODER.decode(this.#exports.bytes(at, this.#told().length)) : null;
  }

  // What is wanted where this number refuses, or null.
  meaning(number) {
    return this.#said('sw_refusal', number);
  }

  // The word of a refusal with this number, or null.
  code(number) {
    return this.#said('sw_refusal_code', number);
  }

  // What the command prints of a refusal with this number, or null.
  refusalText(number) {
    return this.#said('sw_refusal_text', number);
  }

  version() {
    return this.#exports.run('sw_version');
  }

  memory() {
    return { used: Number(this.#exports.run('bytes_in_use')), whole: this.#exports.memory.byteLength };
  }

  // A handle of no site.
  handle() {
    const at = this.#allocated(HANDLE);
    this.#exports.bytes(at, HANDLE).fill(0);
    return BigInt(at);
  }

  // Keeps a copy of a document, which a call takes as it takes a text.
  keep(text) {
    const bytes = bytesIn(text);
    const at = this.#allocated(Math.max(bytes.length, 1));
    return new Kept(BigInt(at), BigInt(this.#put(bytes, at)));
  }

  drop({ at }) {
    this.#exports.release(at);
  }

  letGo(handle) {
    if (!this.#exports.hasStopped) this.#exports.run('sw_site_free', handle);
  }

  forget(handle) {
    this.letGo(handle);
    this.#exports.release(handle);
  }
}

// The refusal of a document, which says so where it may be the name of one.
function refusedAsName(calls, refused, text) {
  return refused.number === NOT_JSON && mayBeName(text) ? refusalOf(calls, refused, NO_NAME) : refused;
}

// What a lookup is asked beside the message or the tags.
function lookupOf(field, options, without) {
  const given = optionsOf(options);
  const rules = rulesOf(given, without);
  return { rules, flags: lookupFlagsOf(given), field: fieldOf(field), dflt: defaultOf(given) };
}

// Makes the call that ends with this name, of a site or of a document, and returns the text that it answers, or null.
const ask = Symbol('ask');

// What a site and a document are asked alike.
class Asked {
  lookup(id, field, options) {
    const line = this[ask]('lookup', { id, ...lookupOf(field, options) });
    return line === null ? null : labelOf(line);
  }

  text(id, field, options) {
    return this[ask]('text', { id, ...lookupOf(field, options), place: placeOf(optionsOf(options)) });
  }

  texts(id, field, options) {
    return this.lookup(id, field, options)?.texts ?? null;
  }

  filter(id, field, options) {
    const given = optionsOf(options);
    const lines = this[ask]('filter', { rules: rulesOf(given), flags: flagsOf(given), id, field: fieldOf(field) });
    return lines === null ? [] : linesIn(lines).map(choiceOf);
  }

  [Symbol.dispose ?? Symbol('dispose')]() {
    this.close();
  }
}

function writtenSiteClass(calls) {
  const forgotten = new FinalizationRegistry((kept) => calls.drop(kept));

  return class WrittenSite extends Asked {
    #kept;

    constructor(document) {
      super();
      const text = textOf(document, 'document');
      this.#kept = calls.keep(text);
      forgotten.register(this, this.#kept, this);
      try {
        // (what is no document is refused by any question)
        this[ask]('filter', { rules: rulesOf({}), flags: 0, id: 'm', field: '*' });
      } catch (refused) {
        this.close();
        throw refusedAsName(calls, refused, text);
      }
    }

    [ask](name, given) {
      if (this.#kept === null) throw new Error('the site is closed');
      return calls.text(`sw_text_${name}`, { text: this.#kept, ...given });
    }

    close() {
      if (this.#kept === null) return;
      forgotten.unregister(this);
      calls.drop(this.#kept);
      this.#kept = null;
    }
  };
}

function siteClass(calls) {
  const forgotten = new FinalizationRegistry((handle) => calls.forget(handle));

  return class Site extends Asked {
    #handle = calls.handle();

    constructor() {
      super();
      forgotten.register(this, this.#handle);
    }

    [ask](name, given) {
      return calls.text(`sw_site_${name}`, { site: this.#handle, ...given });
    }

    #edit(name, given) {
      calls.done(`sw_site_${name}`, { site: this.#handle, ...given });
    }

    #maps(name, given) {
      return JSON.parse(this[ask](name, given) ?? '{}');
    }

    // (a class that extends this one makes its own; by itself, as what `map` is given, `open` makes a Site)
    static open(document) {
      const site = new (this ?? Site)();
      site.reload(document);
      return site;
    }

    static new(name) {
      const site = new (this ?? Site)();
      site.#edit('new', { name });
      return site;
    }

    reload(document) {
      const text = textOf(document, 'document');
      try {
        this.#edit('open', { text });
      } catch (refused) {
        throw refusedAsName(calls, refused, text);
      }
    }

    share() {
      const other = new Site();
      this.#edit('share', { other: other.#handle });
      return other;
    }

    close() {
      calls.letGo(this.#handle);
    }

    bundle(field, options) {
      return this.#maps('bundle', lookupOf(field, options));
    }

    put(id, lang, text, options) {
      this.#edit('put', { now: nowOf(optionsOf(options)), id, lang, text });
    }

    delete(id, lang, options) {
      this.#edit('delete', { now: nowOf(optionsOf(options)), id, lang });
    }

    importMaps(maps, options) {
      this.#edit('import', { now: nowOf(optionsOf(options)), maps: mapsOf(maps, 'maps') });
    }

    update(before, after, options) {
      const maps = { old_maps: mapsOf(before, 'before'), new_maps: mapsOf(after, 'after') };
      this.#edit('update', { now: nowOf(optionsOf(options)), ...maps });
    }

    take(delta, options) {
      this.#edit('take', { delta, ...checksOf(optionsOf(options)) });
    }

    merge(other, options) {
      const given = { other: Site.#handleOf(other), ...checksOf(optionsOf(options)) };
      // (a call may not be given one handle twice, and a site has what it holds)
      if (other === this) this.status();
      else this.#edit('merge', given);
    }

    write() {
      return this[ask]('write');
    }

    toBytes() {
      return calls.bytes('sw_site_write', { site: this.#handle });
    }

    export() {
      return this.#maps('export');
    }

    summary(options) {
      return this[ask]('summary', { flags: isOn(optionsOf(options), 'labels') ? LABELS : 0 });
    }

    deltaFor(summary) {
      return this[ask]('delta', { summary });
    }

    status() {
      return statusOf(this[ask]('status'));
    }

    labels() {
      const lines = this[ask]('labels');
      return lines === null ? {} : countsOf(linesIn(lines));
    }

    missing(lang) {
      return this.#maps('missing', { lang });
    }

    outdated(lang, source) {
      return this.#maps('outdated', { lang, source });
    }

    changes(after) {
      const other = Site.#handleOf(after);
      // (as in `merge`)
      if (after === this) return this.status() && [];
      const lines = this[ask]('changes', { other });
      return lines === null ? [] : linesIn(lines).map(changeOf);
    }

    // (a site of another load has its handle in another memory)
    static #handleOf(given) {
      if (typeof given === 'object' && given !== null && #handle in given) return given.#handle;
      throw wrongType('other', 'a Site of the same load()');
    }
  };
}

// The bytes of a module, from wherever it is.
async function bytesOf(source) {
  if (source instanceof ArrayBuffer || ArrayBuffer.isView(source)) return source;
  const url = new URL(source, globalThis.location?.href ?? import.meta.url);
  if (url.protocol === 'file:') {
    const files = 'node:fs/promises';    // (a name, so that bundlers for pages pass it over)
    const { readFile } = await import(/* webpackIgnore: true */ /* @vite-ignore */ files);
    return readFile(url);
  }
  const response = await fetch(url);
  if (!response.ok) throw new Error(`${url}: ${response.status} ${response.statusText}`);
  return response.arrayBuffer();
}

function seesEngine() {
  if (typeof WebAssembly === 'object' && typeof BigInt === 'function') return;
  throw new Error(`this engine cannot run silkwaram.wasm, which needs ${NEEDED}`);
}

// What an engine throws that cannot run the module says what is needed.
function failureOf(cause) {
  if (!(cause instanceof WebAssembly.CompileError)) return cause;
  return new Error(`this engine cannot run silkwaram.wasm, which needs ${NEEDED}`, { cause });
}

/** What a module exports, from wherever it is. */
export async function exportsOf(source) {
  seesEngine();
  const isCompiled = source instanceof WebAssembly.Module;
  const given = isCompiled ? source : await bytesOf(source);
  try {
    // (never `new WebAssembly.Instance`, which a page may not do with a module of this size)
    const made = await WebAssembly.instantiate(given, {});
    return new Exports(isCompiled ? made : made.instance);
  } catch (cause) {
    throw failureOf(cause);
  }
}

/** What a module exports, at once, from its bytes or a compiled WebAssembly.Module. */
export function exportsOfSync(source) {
  seesEngine();
  try {
    const module = source instanceof WebAssembly.Module ? source : new WebAssembly.Module(source);
    return new Exports(new WebAssembly.Instance(module, {}));
  } catch (cause) {
    throw failureOf(cause);
  }
}

/** The calls of the library, made by a `Module`. */
function over(calls) {
  return {
    version: calls.version(),
    pick(field, tags, options) {
      return calls.text('sw_pick', { ...lookupOf(field, options, ALL_TAGS), tags: linesOf(tags) });
    },
    filter(field, tags, options) {
      const given = optionsOf(options);
      const rules = rulesOf(given, ALL_TAGS);
      const asked = { rules, flags: flagsOf(given), field: fieldOf(field), tags: linesOf(tags) };
      const lines = calls.text('sw_filter', asked);
      return lines === null ? [] : linesIn(lines).map(pickedOf);
    },
    refusal: (number) => (Number.isInteger(number) && number >>> 0 === number ? calls.meaning(number) : null),
    Site: siteClass(calls),
    WrittenSite: writtenSiteClass(calls),
  };
}

function callsOf(exports) {
  const module = new Module(exports);
  return { ...over(module), memory: () => module.memory() };
}

/** Loads the module: from beside this file, or from a URL, its bytes, or a compiled WebAssembly.Module. */
export async function load(source = new URL('./silkwaram.wasm', import.meta.url)) {
  return callsOf(await exportsOf(source));
}

/** Loads the module at once, from its bytes or a compiled WebAssembly.Module. */
export function loadSync(source) {
  return callsOf(exportsOfSync(source));
}
