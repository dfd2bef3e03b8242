import assert from 'node:assert/strict';
import test from 'node:test';
import { Refused, Site, WrittenSite } from 'silkwaram';
import { GREETINGS, siteDocument, throwEach } from './documents.js';

const BYTES = new TextEncoder().encode(GREETINGS);
const NO_SITE = { name: 'Refused', message: /^refused (18|19|20): / };

// The bytes in memory of their own, which a test may take away.
function copied() {
  return Uint8Array.from(BYTES);
}

function shared() {
  const bytes = new Uint8Array(new SharedArrayBuffer(BYTES.length));
  bytes.set(BYTES);
  return bytes;
}

test('a document is a string or bytes, wherever they are, with its last line feed or without', () => {
  const middle = Buffer.from(`xx${GREETINGS}yy`).subarray(2, -2);
  const ofBytes = [BYTES, BYTES.subarray(0, -1), Buffer.from(BYTES), middle, shared()];
  for (const document of [GREETINGS, GREETINGS.trimEnd(), ...ofBytes]) {
    assert.equal(new WrittenSite(document).text('greeting', 'fr'), 'Bonjour');
  }
});

test('what is no document is refused at once', () => {
  const other = Site.open(GREETINGS);
  const others = ['{}', '[{}]', '{"greeting":{"en":"Hello"}}', other.summary(), other.deltaFor(other.summary())];
  const cut = [BYTES.subarray(1), BYTES.subarray(0, -2), BYTES.subarray(0, 10)];
  for (const document of ['', new Uint8Array(), new Uint8Array(1000), Uint8Array.of(255), ...others, ...cut]) {
    assert.throws(() => new WrittenSite(document), NO_SITE);
  }
  assert.throws(() => new WrittenSite('{}'), { number: 20, wanted: 'a site document is wanted' });
  const bytes = copied();
  structuredClone(bytes, { transfer: [bytes.buffer] });
  assert.throws(() => new WrittenSite(bytes), NO_SITE);
});

test('values of other types are TypeErrors that name the argument', () => {
  const wrong = { name: 'TypeError', message: 'document must be a string or a Uint8Array' };
  const values = [undefined, null, 7, 7n, {}, [], () => GREETINGS, Symbol('site')];
  const objects = [new Map(), Promise.resolve(BYTES), new WrittenSite(BYTES)];
  const buffers = [BYTES.buffer, new SharedArrayBuffer(8), new Uint16Array(8), new DataView(new ArrayBuffer(8))];
  for (const document of [...values, ...objects, ...buffers]) assert.throws(() => new WrittenSite(document), wrong);
  assert.throws(() => WrittenSite(BYTES), TypeError);
});

test('what is done with the bytes later changes nothing', () => {
  const [taken, changed, ofOthers] = [copied(), copied(), shared()];
  const sites = [taken, changed, ofOthers].map((it) => new WrittenSite(it));
  structuredClone(taken, { transfer: [taken.buffer] });
  for (const it of [changed, ofOthers]) it.fill(0);
  for (const it of sites) assert.equal(it.text('greeting', 'fr'), 'Bonjour');
});

// How long it takes to do this a hundred times, in milliseconds: the shortest of some times, as a machine
// that does other things meanwhile takes longer.
function timeOf(work) {
  const times = Array.from({ length: 7 }, () => {
    const before = performance.now();
    for (let at = 0; at < 100; at++) work(at);
    return performance.now() - before;
  });
  return Math.min(...times);
}

test('a large document is not copied by a question', () => {
  const rows = Array.from({ length: 200_000 }, (_, at) => `["m.${at + 100_000}","en",1,"paris",${at},["${at}"]]`);
  const bytes = Buffer.from(`{"cells":[${rows.join()}],"kind":"site","site":"paris","version":2}`);
  const site = new WrittenSite(bytes);
  const ofQuestions = timeOf((at) => assert.equal(site.text(`m.${at + 200_000}`, 'en'), `${at + 100_000}`));
  const ofCopies = timeOf(() => new Uint8Array(bytes));
  assert.ok(10 * ofQuestions < ofCopies, `${ofQuestions} ms, and copies ${ofCopies}`);
});

// (what is answered is not said, but no call reads elsewhere, or ends the process)
test('other bytes between the ends are answered or refused', () => {
  const mistaken = [];
  for (let at = 0; at < BYTES.length; at++) {
    for (const byte of [0, 0x22, 0x2c, 0x5b, 0x5c, 0x5d, 0xff]) {
      const bytes = copied();
      bytes[at] = byte;
      try {
        const site = new WrittenSite(bytes);
        for (const id of ['farewell', 'greeting', 'm']) site.texts(id, 'en');
      } catch (error) {
        if (!(error instanceof Refused)) mistaken.push(error);
      }
    }
  }
  assert.deepEqual(mistaken, []);
});

test('texts come as they are', () => {
  const texts = ['"],["', '"],["m","en",1,"paris",0,["', '\\', '"', '\n', '\r\n', '\0', '\u2028', '😀', ''];
  for (const text of texts) {
    const site = new WrittenSite(Site.open(siteDocument({ a: { en: [text] }, m: { en: ['x', text] } })).toBytes());
    assert.equal(site.text('a', 'en'), text);
    assert.deepEqual(site.texts('m', 'en'), ['x', text]);
    assert.equal(site.text('m', 'en', { place: 1 }), text);
  }
});

test('another object is no written site, in the package and in its compiled part', () => {
  const site = new WrittenSite(BYTES);
  for (const other of [{}, Object.create(site), new Proxy(site, {}), undefined, 7, [], () => {}, BYTES]) {
    assert.throws(() => WrittenSite.prototype.text.call(other, 'greeting', 'en'), TypeError);
    assert.throws(() => WrittenSite.prototype.close.call(other), TypeError);
  }
  throwEach(TypeError, [
    () => Site.open(GREETINGS).merge(site),
  ]);
});
