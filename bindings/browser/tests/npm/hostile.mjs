// Asks a package for Node what hostile.py asked the command, and what no command can be asked: values of JavaScript.
import assert from 'node:assert/strict';
import { answered, canonical } from './answers.mjs';

function wordOf(it) {
  if (it?.bytes !== undefined) return new Uint8Array(Buffer.from(it.bytes, 'base64'));
  return it?.now !== undefined ? { now: BigInt(it.now) } : it;
}

function asked({ pick }, site, call, words) {
  // (the command prints a tag in lower case)
  return call === 'pick' ? pick(...words)?.toLowerCase() : site[call](...words);
}

/** Returns a line about all inputs; an Error lists those that differ. */
export function hostile(calls, steps) {
  const site = calls.Site.new('paris');
  const faults = [];
  let refused = 0;
  for (const { call, words, wanted, document } of steps) {
    const given = words.map(wordOf);
    const got = [answered(() => asked(calls, site, call, given))];
    const wants = [wanted];
    if (call === 'lookup' || call === 'filter') {
      got.push(answered(() => new calls.WrittenSite(site.toBytes())[call](...given)));
      wants.push(wanted);
    }
    // (any bytes are answered or refused as a written site)
    if (call === 'reload') answered(() => new calls.WrittenSite(given[0]).lookup('m', 'en'));
    if (document !== undefined) {
      got.push(site.write());
      wants.push(document);
    }
    if (wanted?.number !== undefined) refused++;
    if (canonical(got) !== canonical(wants)) {
      const lines = [[call, ...words], wants, got].map((it) => canonical(it).slice(0, 300));
      faults.push(lines.join('\n  '));
    }
  }
  if (faults.length > 0) throw new Error(`${faults.length} differ\n${faults.slice(0, 10).join('\n')}`);
  return `${steps.length} inputs, ${refused} refused; 0 differ from the command's`;
}

const HALVES = ['\ud800', '\udfff', '\udc00\ud800', 'a\ud83d'];
const NO_TIMES = [-1, 0.5, NaN, Infinity, 2 ** 53, 1e300, -1n, 2n ** 64n];
const NO_BYTES = [new ArrayBuffer(1), new Uint16Array(1)];
// What JSON has no members of: no maps to import, and for `update` no wish to delete each label.
const NO_OBJECTS = [undefined, null, 7, true, () => ({})];
const NO_MAPS = [...NO_OBJECTS, new Map([['a', {}]]), new Set(), Promise.resolve({}), ...NO_BYTES];
const NO_TEXTS = [undefined, null, 7, 7n, true, Symbol('a'), {}, ['a'], () => 'a', ...NO_BYTES];

/** Returns a line about values that only JavaScript has. What is wanted is in calls.d.ts and docs/REFUSALS.md. */
export function ofJavaScript({ Refused, Site, WrittenSite, filter, pick, refusal }) {
  let count = 0;
  const refuses = (call, number) => {
    count++;
    assert.throws(call, (it) => it instanceof Refused && it instanceof Error && it.number === number);
  };
  const throws = (call, kind) => {
    count++;
    assert.throws(call, kind);
  };
  const site = Site.new('paris');
  site.put('a\ufffd', 'en', 'found', { now: 1 });
  const before = site.write();
  const kept = new WrittenSite(before);
  for (const half of HALVES) {
    refuses(() => pick(half, ['en']), 9);
    refuses(() => pick('en', [half]), 3);
    refuses(() => pick('en', ['en'], { default: half }), 3);
    refuses(() => site.put(half, 'en', 'a'), 10);
    refuses(() => site.put('a', half, 'a'), 3);
    refuses(() => site.put('a', 'en', half), 18);
    refuses(() => site.lookup(half, 'en'), 10);
    refuses(() => kept.lookup(half, 'en'), 10);
    refuses(() => kept.text('a', half), 9);
    refuses(() => new WrittenSite(half), 18);
    refuses(() => site.missing(half), 3);
    refuses(() => Site.open(half), 18);
    refuses(() => site.take(half), 18);
    refuses(() => site.importMaps(half), 18);
    refuses(() => site.importMaps({ a: { en: half } }), 19);
  }
  // (a line feed would make two tags of one)
  for (const tag of ['fr\nen', '\nen', 'en\n', 'en\0']) {
    refuses(() => pick('en', [tag]), 3);
    refuses(() => filter('en', ['fr', tag]), 3);
  }
  throws(() => pick('en', [, 'en']), TypeError);
  for (const now of NO_TIMES) {
    throws(() => site.put('a', 'en', 'a', { now }), RangeError);
    throws(() => site.delete('a', 'en', { now }), RangeError);
    throws(() => site.importMaps({}, { now }), RangeError);
    throws(() => site.take('{}', { notAfter: now }), RangeError);
    throws(() => site.text('a', 'en', { place: now }), RangeError);
    throws(() => kept.text('a', 'en', { place: now }), RangeError);
  }
  for (const it of NO_TEXTS) {
    throws(() => site.put(it, 'en', 'a'), TypeError);
    throws(() => site.put('a', it, 'a'), TypeError);
    throws(() => site.put('a', 'en', it), TypeError);
    throws(() => site.lookup(it, 'en'), TypeError);
    throws(() => site.deltaFor(it), TypeError);
    throws(() => Site.open(it), TypeError);
    throws(() => new WrittenSite(it), TypeError);
    throws(() => kept.filter(it, 'en'), TypeError);
    throws(() => site.merge(it), TypeError);
    throws(() => site.changes(it), TypeError);
    throws(() => pick('en', [it]), TypeError);
    throws(() => filter('en', it), it instanceof Array ? Refused : TypeError);
    if (it !== undefined && it !== null) throws(() => pick(it, ['en']), TypeError);
  }
  refuses(() => site.importMaps({ a: { en: NaN } }), 20);
  for (const it of NO_MAPS) {
    throws(() => site.importMaps(it), TypeError);
    throws(() => site.update(site.export(), it), TypeError);
    throws(() => site.update(it, site.export()), TypeError);
  }
  for (const options of [null, 7, 'en', { scheme: 'toString' }, { lenient: 1 }, { widen: 'yes' }, { default: 7 }]) {
    throws(() => pick('en', ['en'], options), TypeError);
  }
  for (const number of [0, -1, 0.5, 2 ** 32 + 9, 1e300, NaN, '9', 9n, null, {}]) {
    count++;
    assert.equal(refusal(number), null);
  }
  assert.equal(typeof refusal(9), 'string');
  // (nothing of all that changed the site, and U+FFFD is a text like others)
  assert.equal(site.write(), before);
  assert.equal(site.text('a\ufffd', 'en', { place: 0n }), 'found');
  assert.equal(site.text('a\ufffd', 'en', { place: 2n ** 64n - 1n }), null);
  // (names that objects have are names like others, and stay out of their prototypes)
  const named = Site.new('rome');
  named.importMaps(JSON.parse('{"__proto__":{"en":"a"},"constructor":{"en":["b","c"]}}'));
  for (const maps of [named.export(), named.bundle('en'), named.missing('fr')]) {
    assert.deepEqual(Object.entries(maps), [['__proto__', { en: 'a' }], ['constructor', { en: ['b', 'c'] }]]);
  }
  assert.equal({}.en, undefined);
  class Own extends Site {}
  assert.ok(Own.open(before) instanceof Own && Own.new('rome') instanceof Own);
  assert.ok([before].map(Site.open)[0] instanceof Site);
  // (a view is what it shows, and what is changed later was copied)
  const bytes = new TextEncoder().encode('xxfrxx');
  assert.equal(pick(bytes.subarray(2, 4), ['fr']), 'fr');
  const written = site.toBytes();
  written.fill(0);
  assert.equal(site.write(), before);
  // (bytes that are taken away are no document; those that other threads can change were copied)
  const away = site.toBytes();
  const shared = new Uint8Array(new SharedArrayBuffer(away.length));
  shared.set(away);
  const ofShared = new WrittenSite(shared);
  shared.fill(0);
  structuredClone(away, { transfer: [away.buffer] });
  refuses(() => new WrittenSite(away), 19);
  for (const it of [site, kept, ofShared]) {
    assert.equal(it.text('a\ufffd', 'en'), 'found');
    it.close();
    throws(() => it.text('a\ufffd', 'en'), /closed/);
  }
  return `${count} values`;
}
