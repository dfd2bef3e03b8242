import assert from 'node:assert/strict';
import test from 'node:test';
import { Site, WrittenSite } from 'silkwaram';
import { CLOSED, GREETINGS, siteDocument, throwEach, wrongType } from './documents.js';

function opened(labels) {
  return Site.open(siteDocument(labels));
}

test('bundle', () => {
  const site = Site.open(GREETINGS);
  assert.deepEqual(site.bundle('fr', { default: 'en' }), {
    greeting: { fr: ['Bonjour', 'Salut'] },
    farewell: { en: 'Bye' },
  });
  assert.deepEqual(site.bundle('ja'), {});
});

test('what readers are offered', () => {
  const site = opened({ m: { 'x-note': ['ask Anna'] } });
  const asked = ['*', 'en', '*', ''].map((offer) => site.text('m', 'x-note', { offer }));
  assert.deepEqual(asked, ['ask Anna', null, 'ask Anna', null]);
});

test('a table of fallbacks', () => {
  const site = Site.open(GREETINGS);
  for (const asked of [site, new WrittenSite(GREETINGS)]) {
    assert.equal(asked.text('greeting', 'gsw-CH', { fallbacks: 'gsw=fr' }), 'Bonjour');
    assert.throws(() => asked.lookup('greeting', 'e n', { fallbacks: 'gsw' }), { number: 31, offset: 0 });
  }
  const french = { greeting: { fr: ['Bonjour', 'Salut'] }, farewell: { en: 'Bye' } };
  assert.deepEqual(site.bundle('gsw', { fallbacks: 'gsw=fr, fr=en', offer: 'fr, en' }), french);
  // (more than the room that is kept for a call)
  const long = `${' '.repeat(40_000)}, gsw=fr`;
  assert.equal(site.text('greeting', 'gsw', { fallbacks: long, offer: `${' '.repeat(40_000)}fr` }), 'Bonjour');
});

test('texts around the size of the first room for them', () => {
  const site = Site.new('paris');
  for (let size = 252; size < 260; size++) {
    const text = 'é'.repeat(size - 2) + '😀';
    site.put('m', 'en', text);
    assert.equal(site.text('m', 'en'), text);
    assert.throws(() => site.put('m', 'en', text.slice(0, -1)), { number: 18, offset: 2 * (size - 2) });
  }
});

test('a document is a string or bytes', () => {
  for (const document of [GREETINGS, Buffer.from(GREETINGS), new TextEncoder().encode(GREETINGS)]) {
    assert.equal(Site.open(document).text('greeting', 'fr'), 'Bonjour');
  }
});

test('a refusal says what is wanted, and of which document', () => {
  const site = Site.open(GREETINGS);
  const wrong = { a: { en: 'x' }, m: { en: Array(65).fill('x') } };
  const refused = { number: 12, offset: null, row: 1, count: 65, wanted: 'a label has 1 to 64 texts' };
  assert.throws(() => site.update(wrong, {}), {
    ...refused,
    ofSecond: false,
    message: 'refused 12: label has 65 texts in row 1 (a label has 1 to 64 texts)',
  });
  assert.throws(() => site.update({}, wrong), {
    ...refused,
    ofSecond: true,
    message: 'refused 12: label has 65 texts in row 1 of the second document (a label has 1 to 64 texts)',
  });
  const other = Site.new('oslo');
  assert.throws(() => other.take(site.deltaFor(site.summary())), {
    number: 15,
    message: 'refused 15: delta is for another site (a delta is applied to the site that it was made for)',
  });
  assert.throws(() => opened({ m: { en: ['x'] } }).merge(opened({ m: { en: ['y'] } })), {
    number: 13,
    message:
      'refused 13: one stamp is used for two different edits, cell 0' +
      ' (two different edits of a message in a language have two timestamps)',
  });
  assert.throws(() => site.take(GREETINGS), {
    number: 20,
    row: null,
    message: 'refused 20: shape (a delta document is wanted)',
    wanted: 'a delta document is wanted',
  });
});

test('reload changes the state, or leaves it', () => {
  const site = opened({ m: { en: ['old'] } });
  const share = site.share();
  assert.throws(() => site.reload('{}'), { number: 20 });
  assert.equal(site.text('m', 'en'), 'old');
  site.reload(siteDocument({ m: { en: ['new'] } }));
  assert.equal(site.text('m', 'en'), 'new');
  assert.equal(share.text('m', 'en'), 'old');
});

test('a closed site can be opened again', () => {
  const site = Site.open(GREETINGS);
  const share = site.share();
  site.close();
  throwEach(CLOSED, [() => site.bundle('en'), () => site.share(), () => new Site().text('greeting', 'en')]);
  assert.equal(share.text('greeting', 'en'), 'Hello');
  site.reload(GREETINGS);
  assert.equal(site.text('greeting', 'en'), 'Hello');
});

test('wrong types are TypeErrors that name the argument', () => {
  const site = Site.open(GREETINGS);
  throwEach(wrongType('document'), [() => Site.open(), () => Site.open({}), () => site.reload(7)]);
  throwEach(wrongType('field'), [() => site.bundle(() => 'en')]);
  throwEach(wrongType('text'), [() => site.put('m', 'en', 7)]);
  throwEach(wrongType('now'), [() => site.put('m', 'en', 'a', { now: '7' })]);
  throwEach(wrongType('delta'), [() => site.take({})]);
  throwEach(wrongType('other'), [() => site.merge({})]);
});

test('another object is no site, in the package and in its compiled part', () => {
  const site = Site.open(GREETINGS);
  for (const other of [{}, Object.create(site), new Proxy(site, {}), undefined, 7, [], () => {}]) {
    throwEach(TypeError, [
      () => Site.prototype.text.call(other, 'greeting', 'en'),
      () => Site.prototype.close.call(other),
    ]);
  }
});

test('a site is made, edited and exchanged', () => {
  const [paris, tokyo] = [Site.new('paris'), Site.new('tokyo')];
  assert.throws(() => Site.new('Paris'), { number: 27, code: 'site-name-invalid' });
  paris.put('greeting', 'fr', 'Bonjour', { now: 5 });
  tokyo.importMaps({ greeting: { ja: ['こんにちは', 'やあ'] } }, { now: 2n ** 60n });
  paris.take(tokyo.deltaFor(paris.summary()));
  tokyo.merge(paris);
  assert.deepEqual(paris.export(), tokyo.export());
  assert.deepEqual(paris.changes(tokyo), []);
  assert.deepEqual([paris.labels(), Site.new('lima').labels()], [{ fr: 1, ja: 1 }, {}]);
  assert.deepEqual(paris.status(), {
    site: 'paris',
    cells: 2,
    labels: 2,
    last: { time: 2n ** 60n, site: 'tokyo', count: 0 },
  });
  const share = paris.share();
  paris.update({ greeting: { ja: ['こんにちは', 'やあ'] } }, {}, { now: 2n ** 60n });
  paris.delete('greeting', 'fr', { now: 6 });
  assert.equal(share.text('greeting', 'fr'), 'Bonjour');
  assert.deepEqual(paris.export(), {});
  assert.deepEqual(share.missing('en'), share.export());
  assert.deepEqual(share.outdated('fr', 'ja'), share.export());
  assert.deepEqual(Site.open(share.toBytes()).write(), share.write());
});
