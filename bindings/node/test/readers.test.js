// What readers ask: of a site that is open, and of its document where it lies.

import assert from 'node:assert/strict';
import test from 'node:test';
import { Site, WrittenSite } from 'silkwaram';
import { CLOSED, GREETINGS, siteDocument, throwEach, wrongType } from './documents.js';

const WAYS = { 'an open site': (it) => Site.open(it), 'a written site': (it) => new WrittenSite(it) };

// Each case is the arguments of a question, and what it answers.
const LABELS = [
  [['greeting', 'de-CH-1996'], { language: 'de-ch', texts: ['Grüezi'], isDefault: false }],
  [['farewell', 'fr', { default: 'en' }], { language: 'en', texts: ['Bye'], isDefault: true }],
  [['farewell', 'fr'], null],
  [['nowhere', 'fr'], null],
  [['greeting', undefined], null],
  [['greeting', undefined, { default: 'en' }], { language: 'en', texts: ['Hello'], isDefault: true }],
];
const TEXTS = [
  [['greeting', 'fr-CA, en;q=0.5'], 'Bonjour'],
  [['greeting', 'fr', { place: 1 }], 'Salut'],
  [['greeting', 'fr', { place: 2 }], null],
  [['greeting', 'fr', { place: Number.MAX_SAFE_INTEGER }], null],
  [['greeting', null, { default: 'en' }], 'Hello'],
  [['greeting', 'en_US, fr', { lenient: true }], 'Bonjour'],
  [['farewell', 'fr'], null],
];
const FILTERED = [
  [
    ['greeting', 'fr;q=0.5, en'],
    [
      { language: 'en', weight: 1000, texts: ['Hello'] },
      { language: 'fr', weight: 500, texts: ['Bonjour', 'Salut'] },
    ],
  ],
  [['greeting', 'ja'], []],
  [['greeting', '*-CH', { scheme: 'extended' }], [{ language: 'de-ch', weight: 1000, texts: ['Grüezi'] }]],
];

for (const [name, of] of Object.entries(WAYS)) {
  test(`${name} answers`, () => {
    const site = of(GREETINGS);
    for (const [asked, wanted] of LABELS) assert.deepEqual(site.lookup(...asked), wanted);
    for (const [asked, wanted] of TEXTS) assert.equal(site.text(...asked), wanted);
    for (const [asked, wanted] of FILTERED) assert.deepEqual(site.filter(...asked), wanted);
    assert.deepEqual(site.texts('greeting', 'fr-CA, en;q=0.5'), ['Bonjour', 'Salut']);
    assert.equal(site.texts('farewell', 'fr'), null);
    const regions = of(siteDocument({ greeting: { 'de-ch': ['Grüezi'] } }));
    assert.equal(regions.text('greeting', 'de', { widen: true }), 'Grüezi');
    assert.equal(regions.text('greeting', 'de'), null);
  });

  test(`${name} refuses`, () => {
    const site = of(GREETINGS);
    assert.throws(() => site.lookup('@', 'en_US', { default: 'e_n' }), { name: 'Refused', number: 10 });
    assert.throws(() => site.text('greeting', 'en_US', { default: 'e_n' }), { number: 3, offset: 0 });
    assert.throws(() => site.filter('greeting', 'fr, en_US'), { number: 9, offset: 4 });
    assert.throws(() => site.text('greeting', 'en' + ' '.repeat(65_534)), { number: 8 });
    throwEach(wrongType('id'), [undefined, 7, null].map((id) => () => site.lookup(id, 'en')));
    throwEach(wrongType('id'), [() => site.text(null, 'en')]);
    throwEach(wrongType('field'), [() => site.filter('m', 1n), () => site.filter('m', 7n)]);
    throwEach(wrongType('default'), [() => site.text('m', 'en', { default: 7 })]);
    throwEach(wrongType('place'), [() => site.text('m', 'en', { place: '1' })]);
    assert.throws(() => site.text('m', 'en', { place: -1 }), RangeError);
  });

  test(`answers of ${name} around the size of the first room`, () => {
    for (const size of [1023, 1024, 1025, 65_535]) {
      const site = of(siteDocument({ m: { en: ['é' + 'x'.repeat(size - 2)] } }));
      assert.equal(Buffer.byteLength(site.text('m', 'en')), size);
      assert.equal(site.lookup('m', 'en').texts[0].length, size - 1);
    }
  });

  test(`the document of ${name} is wanted, not its name`, () => {
    assert.throws(() => of('site.json'), {
      message: 'refused 19: not JSON (the document itself is wanted, not its name)',
    });
  });

  test(`the end of a using block closes ${name}`, { skip: !Symbol.dispose && 'no Symbol.dispose' }, () => {
    const site = of(GREETINGS);
    site[Symbol.dispose]();
    assert.throws(() => site.text('greeting', 'en'), CLOSED);
  });

  test(`${name} that is closed answers nothing`, () => {
    const site = of(GREETINGS);
    site.close();
    site.close();
    throwEach(CLOSED, ['lookup', 'text', 'texts', 'filter'].map((call) => () => site[call]('greeting', 'en')));
  });
}
