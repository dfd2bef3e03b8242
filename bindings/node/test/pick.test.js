import assert from 'node:assert/strict';
import test from 'node:test';
import { filter, pick } from 'silkwaram';
import { wrongType } from './documents.js';

test('the tag comes back as it was given', () => {
  assert.equal(pick('FR-ca', ['en', 'Fr-CA']), 'Fr-CA');
});

test('the default is answered where nothing else is, and not where it is refused', () => {
  assert.equal(pick('ja', ['en', 'fr'], { default: 'en' }), 'en');
  assert.equal(pick('ja', ['en', 'fr'], { default: null }), null);
  assert.equal(pick('ja', ['en', 'fr'], { default: 'de' }), null);
  assert.equal(pick('ja, en;q=0', ['en', 'fr'], { default: 'en' }), null);
  assert.equal(pick('ja, *;q=0', ['en', 'fr'], { default: 'en' }), null);
});

test('no header finds the default, as * and an empty header do', () => {
  for (const field of [undefined, null, '*', '']) {
    assert.equal(pick(field, ['en', 'fr']), null);
    assert.equal(pick(field, ['en', 'fr'], { default: 'fr' }), 'fr');
  }
});

test('extended ranges', () => {
  const extended = { scheme: 'extended' };
  assert.equal(pick('de-*-DE', ['de', 'de-DE'], extended), 'de-DE');
  assert.throws(() => pick('de-*-DE', ['de']), { number: 9, offset: 0, row: null });
  assert.equal(pick('de', ['de'], { scheme: 'basic' }), 'de');
});

test('malformed elements are refused, or skipped', () => {
  assert.throws(() => pick('fr;q=0.4,en;q=1.001', ['en']), {
    name: 'Refused',
    message:
      'refused 9: field element at 9 (each element of a field is a range, with or without a weight' +
      ' (RFC 9110 sections 12.4.2 and 12.5.4))',
    number: 9,
    offset: 9,
    row: null,
    count: null,
  });
  assert.equal(pick('en_US, fr;q=0.5', ['en', 'fr'], { lenient: true }), 'fr');
});

test('a field has at most 65,535 bytes', () => {
  assert.equal(pick('en' + ' '.repeat(65_533), ['en']), 'en');
  const message = 'refused 8: field is over 65535 bytes (a field has at most 65535 bytes)';
  const refused = { message, number: 8, offset: null };
  assert.throws(() => pick('en' + ' '.repeat(65_534), ['en']), refused);
  assert.throws(() => pick('en' + ' '.repeat(65_534), ['en'], { lenient: true }), refused);
});

test('tags are refused by their number', () => {
  assert.throws(() => pick('en', ['']), { message: 'refused 1: tag is empty (a tag has at least one byte)' });
  assert.throws(() => pick('e_', ['e_'], { default: 'en-' }), { number: 3, offset: 3 });
});

test('no tags are none, and @none is one', () => {
  assert.equal(pick('en', []), null);
  assert.equal(pick('en', ['@none'], { default: '@none' }), '@none');
});

test('a text is UTF-8 bytes too', () => {
  assert.equal(pick(Buffer.from('fr'), ['fr']), 'fr');
  assert.equal(pick(new Uint8Array([0x66, 0x72]), ['fr']), 'fr');
  assert.equal(pick(Buffer.from('xxfrxx').subarray(2, 4), ['fr']), 'fr');
  assert.equal(pick('ja', ['fr'], { default: Buffer.from('fr') }), 'fr');
  assert.equal(pick(new Uint8Array(new SharedArrayBuffer(0)), ['fr'], { default: 'fr' }), 'fr');
});

test('wrong types are TypeErrors that name the argument', () => {
  const fields = [7, ['en'], new Uint16Array(1), new ArrayBuffer(1), Symbol('en')];
  for (const [name, asked] of [
    ...fields.map((field) => ['field', [field, ['en']]]),
    ['tags', ['en', 'en']],
    ['tags', ['en']],
    ['tags', ['en', new Set(['en'])]],
    ['tags\\[1\\]', ['en', ['en', undefined]]],
    ['tags\\[0\\]', ['en', [, 'en']]],
    ['default', ['en', ['en'], { default: 7 }]],
    ['offer', ['en', ['en'], { offer: ['en'] }]],
    ['fallbacks', ['en', ['en'], { fallbacks: { no: 'nb' } }]],
    ['lenient', ['en', ['en'], { lenient: 1 }]],
    ['scheme', ['en', ['en'], { scheme: 'toString' }]],
    ['scheme', ['en', ['en'], { scheme: null }]],
    ['options', ['en', ['en'], null]],
    ['options', ['en', ['en'], 'en']],
  ]) {
    assert.throws(() => pick(...asked), { ...wrongType(name), code: 'ERR_INVALID_ARG_TYPE' });
  }
});

test('an error of a getter among the tags is passed on', () => {
  const tags = ['en'];
  Object.defineProperty(tags, 1, {
    get() {
      throw new RangeError('of the getter');
    },
  });
  assert.throws(() => pick('en', tags), { name: 'RangeError', message: 'of the getter' });
});

test('the package has the names of its types', async () => {
  const names = Object.keys(await import('silkwaram')).sort();
  const calls = ['filter', 'load', 'loadSync', 'pick', 'refusal', 'version'];
  assert.deepEqual(names, ['Refused', 'Site', 'WrittenSite', ...calls]);
});

test('a language finds its regions where that is asked for', () => {
  const widen = { widen: true };
  assert.equal(pick('en', ['en-US', 'fr']), null);
  assert.equal(pick('en', ['en-US', 'fr'], widen), 'en-US');
  assert.equal(pick('de, en;q=0.5', ['en-US', 'de-CH', 'de-AT'], widen), 'de-AT');
  assert.equal(pick('en, en-US;q=0', ['en-US', 'en-GB'], widen), 'en-GB');
  assert.equal(pick('*', ['de'], widen), null);
  assert.throws(() => pick('en', ['en'], { widen: 1 }), { message: 'widen must be a boolean' });
});

test('a language finds the next one by a table, before its regions', () => {
  const fallbacks = 'zh-TW=zh-Hant, no=nb, en=en-US';
  assert.equal(pick('no, da', ['da', 'NB'], { fallbacks }), 'NB');
  assert.equal(pick('en', ['en-AU', 'en-US'], { fallbacks: Buffer.from(fallbacks), widen: true }), 'en-US');
  assert.equal(pick('ja', ['nb'], { fallbacks, default: 'no' }), null);
  const refused = { number: 31, code: 'fallback-malformed', offset: 7 };
  assert.throws(() => pick('e n', ['en'], { fallbacks: 'en=fr, EN=de' }), refused);
  assert.throws(() => pick('e n', ['en'], { fallbacks: ','.repeat(65_536) }), { number: 8, offset: null });
});

test('only tags that are offered are picked or filtered', () => {
  const tags = ['en', 'fr', 'x-a'];
  assert.equal(pick('fr, en', tags, { offer: '*, fr;q=0' }), 'en');
  assert.equal(pick('ja', tags, { offer: 'fr', default: 'en' }), null);
  assert.equal(pick('x-a', tags, { offer: null }), 'x-a');
  assert.equal(pick('x-a', tags, { offer: '' }), null);
  assert.deepEqual(filter('*', tags, { offer: 'x, fr' }).map((it) => it.tag), ['fr', 'x-a']);
  for (const ask of [pick, filter]) {
    assert.throws(() => ask('en', ['e_n'], { offer: 'fr, e n' }), { number: 9, offset: 4 });
  }
});

test('all tags that fit, best first', () => {
  const tags = ['en', 'da-DK', 'en-GB-oed', '@none', 'EN'];
  assert.deepEqual(filter('da, en-gb;q=0.8, en;q=0.7', tags), [
    { tag: 'da-DK', weight: 1000 },
    { tag: 'en-GB-oed', weight: 800 },
    { tag: 'en', weight: 700 },
    { tag: 'EN', weight: 700 },
  ]);
  assert.deepEqual(filter('ja', ['en']), []);
  assert.deepEqual(filter('de-*-DE', ['de-Latn-DE', 'de'], { scheme: 'extended' }), [
    { tag: 'de-Latn-DE', weight: 1000 },
  ]);
  assert.throws(() => filter('e n', ['e_n']), { number: 9, offset: 0 });
  assert.throws(() => filter('en', ['en', 'e_n']), { number: 3, offset: 0 });
});
