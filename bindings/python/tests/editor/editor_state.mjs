// Tries the modules of the editor that know no document, under Node: labels, work, clock,
// placeholders, languages, words, and what an exchange makes of answers.
//
// usage: node editor_state.mjs PAGE MODULE SEED     the folders of the page and of silkwaram.mjs
//
// Prints a line of JSON for each test: its name, its fault or null, and what it says.
import assert from 'node:assert/strict';
import { readFileSync } from 'node:fs';
import { pathToFileURL } from 'node:url';

const [page, module] = process.argv.slice(2, 4).map((it) => `${pathToFileURL(it).href}/`);
const { load } = await import(`${module}silkwaram.mjs`);
const { Labels } = await import(`${page}labels.mjs`);
const { deltaOf } = await import(`${page}deltas.mjs`);
const { Work, keyOf } = await import(`${page}work.mjs`);
const { Clock } = await import(`${page}clock.mjs`);
const { differencesAt, isCompared } = await import(`${page}placeholders.mjs`);
const { directionOf, tagMeant, withoutRegion } = await import(`${page}languages.mjs`);
const { exchange } = await import(`${page}exchange.mjs`);
const { WORDS } = await import(`${page}words.mjs`);
const sw = await load();

const MINUTE = 60000;
const DAY = 1440 * MINUTE;
const IDS = ['__proto__', 'constructor', 'a', 'b', 'é', '\u{1f600}', '\uffff', 'menu.open'];
const TAGS = ['en', 'en-gb', 'fr', 'ar', 'x-note'];
const TEXTS = ['', 'x', 'y\r\nz', '"', '\\', '\u2028', 'long '.repeat(50)];

let state = Number(process.argv[4]) >>> 0;
const below = (count) => {
  state = (Math.imul(state, 1103515245) + 12345) >>> 0;
  return Math.floor((state / 2 ** 32) * count);
};
const oneOf = (list) => list[below(list.length)];

const all = (labels) => IDS.flatMap((id) => TAGS.map((tag) => [id, tag, labels.cellOf(id, tag)]));

function workOf(name, clock = new Clock()) {
  return new Work(sw, sw.Site.new(name), clock);
}

const tests = {
  'the labels are those of the document, and the edits those that a delta has'() {
    let steps = 0;
    for (let turn = 0; turn < 40; turn += 1) {
      const [anna, ben] = ['anna', 'ben'].map((name) => workOf(name));
      for (let step = 0; step < 25; step += 1) {
        const work = oneOf([anna, ben]);
        const other = work === anna ? ben : anna;
        const what = below(5);
        if (what === 0) {
          work.take(other.site.deltaFor(work.site.summary()));
        } else if (what === 1) {
          work.undo();
        } else if (what === 2) {
          work.confirm(oneOf(IDS), oneOf(TAGS));
        } else {
          work.setTexts(
            oneOf(IDS), oneOf(TAGS), [oneOf(TEXTS), oneOf(TEXTS)].slice(0, 1 + below(2)));
        }
        const held = new Labels(JSON.parse(work.site.write()).cells);
        assert.deepEqual(all(work.labels), all(held));
        assert.deepEqual(work.labels.ids(), held.ids());
        assert.deepEqual(work.labels.languages(), held.languages());
        steps += 1;
      }
      const empty = sw.Site.new('server');
      const alone = workOf('carl');
      for (let step = 0; step < 12; step += 1)
        alone.setTexts(oneOf(IDS), oneOf(TAGS), [oneOf(TEXTS)]);
      assert.equal(
        deltaOf([...alone.unsent.values()], 'server'), alone.site.deltaFor(empty.summary()));
    }
    return `${steps} steps`;
  },

  'what was typed, and what changed meanwhile'() {
    const work = workOf('anna');
    work.setTexts('m', 'fr', ['un', 'deux']);
    work.type('m', 'fr', 0, 'UN');
    work.setTexts('m', 'fr', ['un', 'DEUX']);    // (as what came)
    assert.equal(work.commit('m', 'fr'), 'kept');
    assert.deepEqual(work.labels.textsOf('m', 'fr'), ['UN', 'DEUX']);
    work.type('m', 'fr', 0, 'mine');
    work.setTexts('m', 'fr', ['theirs', 'DEUX']);
    assert.equal(work.otherAt('m', 'fr', 0), 'theirs');
    assert.equal(work.commit('m', 'fr'), 'changed');
    work.setTexts('m', 'fr', ['theirs again', 'DEUX']);
    assert.equal(work.commit('m', 'fr'), 'changed');
    assert.equal(work.commit('m', 'fr'), 'kept');
    assert.deepEqual(work.labels.textsOf('m', 'fr'), ['mine', 'DEUX']);
    work.setTexts('cr', 'fr', ['a\r\nb\rc']);
    work.type('cr', 'fr', 0, 'a\nb\nc');
    assert.equal(work.typing(), 0);
    work.type('cr', 'fr', 0, 'a\nb\ncd');
    work.type('cr', 'fr', 0, 'a\nb\nc');
    assert.equal(work.typing(), 0);
    work.type('n', 'fr', 1, 'second alone');
    assert.equal(work.commit('n', 'fr'), 'kept');
    assert.deepEqual(work.labels.textsOf('n', 'fr'), ['', 'second alone']);
    work.type('n', 'fr', 1, '');
    work.commit('n', 'fr');
    assert.deepEqual(work.labels.textsOf('n', 'fr'), []);
    work.type('x', 'fr', 0, 'x'.repeat(70000));
    assert.throws(() => work.commit('x', 'fr'), { number: 11 });
    assert.equal(work.shownAt('x', 'fr', 0).length, 70000);
  },

  'edits are taken back, unless another followed'() {
    const work = workOf('anna');
    for (const text of ['1', '2', '3']) work.setTexts('m', 'fr', [text]);
    assert.equal(work.undo().is, 'undone');
    assert.deepEqual(work.labels.textsOf('m', 'fr'), ['2']);
    const ben = workOf('ben');
    ben.join(work.site);
    ben.setTexts('m', 'fr', ['ben']);
    work.join(ben.site);
    assert.equal(work.undo().is, 'changed');
    assert.deepEqual(work.labels.textsOf('m', 'fr'), ['ben']);
    assert.equal(work.came[0].site, 'ben');
  },

  'what is overridden is known, and can be put back'() {
    const [anna, ben] = ['anna', 'ben'].map((name) => workOf(name));
    anna.setTexts('m', 'fr', ['first']);
    ben.join(anna.site);
    anna.setTexts('m', 'fr', ['anna']);
    anna.setTexts('n', 'fr', ['kept']);
    ben.join(anna.site);
    ben.setTexts('m', 'fr', ['ben']);
    ben.setTexts('o', 'fr', ['new']);
    assert.deepEqual(anna.join(ben.site), { received: 2, overridden: 1, late: 0 });
    const { before, was, site, texts } = anna.cameAt('m', 'fr');
    assert.deepEqual([before, was, site, texts], [['anna'], 'anna', 'ben', ['ben']]);
    assert.equal(anna.cameAt('n', 'fr'), null);
    assert.ok(anna.putBack('m', 'fr'));
    assert.deepEqual(anna.labels.textsOf('m', 'fr'), ['anna']);
    assert.equal(anna.cameAt('m', 'fr'), null);
    assert.equal(anna.undo().is, 'undone');
    assert.deepEqual(anna.labels.textsOf('m', 'fr'), ['ben']);
  },

  'a file that comes back changes what was edited in it'() {
    const work = workOf('anna');
    for (const id of ['__proto__', 'a', 'b']) work.setTexts(id, 'fr', [`${id} 1`]);
    const sent = JSON.stringify(work.site.export());
    work.setTexts('a', 'fr', ['a corrected']);
    const back = '{"__proto__":{"fr":"edited"},"a":{"fr":"a 1"},"c":{"fr":["x","y"]}}';
    const taken = work.takeIn(back, sent).map(({ id }) => id);
    assert.deepEqual(taken.sort(), ['__proto__', 'b', 'c']);
    const held = () => ['__proto__', 'a', 'b', 'c'].map((id) => work.labels.textsOf(id, 'fr'));
    assert.deepEqual(held(), [['edited'], ['a corrected'], [], ['x', 'y']]);
    const { is, labels } = work.undo();
    assert.deepEqual([is, labels.length], ['undone', 3]);
    assert.deepEqual(held(), [['__proto__ 1'], ['a corrected'], ['b 1'], []]);
    // without what went out each label that is another one is put
    assert.deepEqual(work.changesOf(back).map(({ id }) => id).sort(), ['__proto__', 'a', 'c']);
    assert.throws(() => work.takeIn('{"a":'), { number: 19 });
    // what others changed since is not taken back
    work.takeIn('{"a":{"fr":"taken"},"b":{"fr":"taken"}}');
    work.setTexts('a', 'fr', ['later'], { isUndone: true });
    assert.equal(work.undo().labels.length, 1);
    assert.deepEqual([work.labels.textsOf('a', 'fr'), work.labels.textsOf('b', 'fr')], [['later'], ['b 1']]);
  },

  'what is older than its source is so by its time'() {
    const labels = new Labels([
      ['m', 'de', 5, 'x', 0, ['d']], ['m', 'en', 5, 'x', 1, ['e']], ['n', 'de', 5, 'x', 2, ['d']],
      ['n', 'en', 6, 'a', 0, ['e']],
    ]);
    assert.ok(!labels.isOutdated('m', 'de', 'en') && labels.isOutdated('n', 'de', 'en'));
  },

  'clocks'() {
    let device = 10 * DAY + 1e12;
    const clock = new Clock(null, () => device);
    assert.equal(clock.now(), device);
    clock.hear(1e12);
    assert.equal(clock.difference(), 10 * DAY);
    device += 5 * MINUTE;
    assert.equal(clock.now(), 1e12 + 5 * MINUTE);
    clock.hear(device - MINUTE);
    assert.equal(clock.difference(), 0);
    // after a reload: ahead and put right, behind and put right, and still wrong
    const later = (ahead, passed) =>
      new Clock({ server: 1e12, device: 1e12 + ahead }, () => 1e12 + ahead + passed).difference();
    assert.equal(later(10 * DAY, -10 * DAY + MINUTE), 0);
    assert.equal(later(-30 * DAY, 30 * DAY + MINUTE), 0);
    assert.equal(later(10 * DAY, MINUTE), 10 * DAY);
    assert.equal(later(-30 * DAY, MINUTE), -30 * DAY);
  },

  'late edits stay behind, and go along under another name'() {
    let device = Date.now() + 10 * DAY;
    const work = workOf('anna', new Clock(null, () => device));
    work.setTexts('__proto__', 'fr', ['late']);
    device -= 10 * DAY;
    work.setTexts('b', 'fr', ['late too, as stamps ascend']);
    assert.equal(work.late(), 2);
    assert.equal(work.sendable().size, 0);
    const ben = workOf('ben');
    assert.deepEqual(ben.join(work.site), { received: 0, overridden: 0, late: 2 });
    const fresh = work.begunAnew('anna-2');
    assert.equal(fresh.late(), 0);
    assert.deepEqual(ben.join(fresh.site), { received: 2, overridden: 0, late: 0 });
    assert.deepEqual(ben.labels.textsOf('__proto__', 'fr'), ['late']);
    assert.deepEqual([...fresh.unsent.keys()].sort(), [keyOf('__proto__', 'fr'), keyOf('b', 'fr')]);
  },

  'placeholders'() {
    // (the rows that ../tools/check/placeholders.t has for lexicat-check too)
    const rows = JSON.parse(readFileSync(new URL('../tools/check/rows.json', import.meta.url)));
    const labels = [
      ...rows.texts.map(([source, text, ...wanted]) => ['xx', [source], [text], [wanted]]),
      ...rows.labels,
    ];
    for (const [language, sources, texts, wanted] of labels) {
      const found = texts.map((_, place) => differencesAt(sources, texts, place, language));
      assert.deepEqual(found.map((it) => [it.lacks, it.hasBeside]), wanted, `${sources} ${texts}`);
    }
    assert.ok(isCompared([]) && isCompared(['c-format']) && !isCompared(['x', 'no-c-format']));
    const before = process.cpuUsage();
    differencesAt(['%'.repeat(65535)], ['{'.repeat(65535)], 0, 'fr');
    differencesAt(['<a '.repeat(20000)], ['{a,'.repeat(20000)], 0, 'fr');
    const { user, system } = process.cpuUsage(before);
    assert.ok(user + system < 2e6, 'a long text takes long');
    return `${labels.length} labels`;
  },

  'languages'() {
    const rows = [
      ['German', 'de'], ['deutsch', 'de'], ['Français', 'fr'], ['pt-BR', 'pt-br'], ['日本語', 'ja'],
      ['العربية', 'ar'], ['klingon', 'klingon'], ['no such!', null], ['', null]
    ];
    for (const [typed, tag] of rows) assert.equal(tagMeant(typed, 'en'), tag, typed);
    assert.equal(tagMeant('allemand', 'fr'), 'de');
    const shorter =
      [['en-US', 'en'], ['zh-Hant-TW', 'zh-hant'], ['de', 'de'], ['sr-Latn', 'sr-latn']];
    for (const [tag, without] of shorter) assert.equal(withoutRegion(tag), without);
    const directions =
      [['ar', 'rtl'], ['az-Arab', 'rtl'], ['ar-Latn', 'ltr'], ['en', 'ltr'], ['@none', 'auto']];
    for (const [tag, direction] of directions) assert.equal(directionOf(tag), direction);
  },

  'words'() {
    const places = (text) => [...text.matchAll(/\{\w+\}/g)].map(([it]) => it).sort();
    for (const [tag, words] of Object.entries(WORDS)) {
      assert.deepEqual(Object.keys(words), Object.keys(WORDS.en), tag);
      for (const [name, text] of Object.entries(words)) {
        assert.deepEqual(places(text), places(WORDS.en[name]), `${tag} ${name}`);
        assert.ok(text.trim() !== '', `${tag} ${name}`);
      }
    }
    return `${Object.keys(WORDS.en).length} words in ${Object.keys(WORDS).length} languages`;
  },

  async 'what answers are'() {
    const ours = { 'Silkwaram-Exchange': '1', 'Content-Type': 'application/json' };
    const html = { 'Content-Type': 'text/html' };
    const rows = [
      ['key', 401, ours, '{}'],
      ['key', 407, html, ''],
      ['none', 404, html, 'no'],
      ['large', 413, html, ''],
      ['broken', 500, html, ''],
      ['broken', 503, ours, '{}'],
      ['portal', 200, html, '<form>'],
      ['portal', 200, {'Content-Type': 'application/json'}, '{}'],
      ['portal', 302, html, ''],
      ['refused', 422, ours, '{"number":13,"words":"x"}'],
      ['portal', 422, ours, '<'],
    ];
    const { fetch } = globalThis;
    const tried = async (answer) => {
      globalThis.fetch = async () => answer();
      const why =
        await exchange({ key: '', tag: null, owner: null, clock: new Clock() }, workOf('anna'))
          .catch((it) => it);
      globalThis.fetch = fetch;
      return why.kind;
    };
    for (const [kind, status, headers, body] of rows) {
      assert.equal(await tried(() => new Response(body, { status, headers })), kind, `${status}`);
    }
    assert.equal(await tried(() => Promise.reject(new TypeError('fetch failed'))), 'away');
    assert.equal(await tried(() => Promise.reject(new DOMException('', 'TimeoutError'))), 'slow');
    return `${rows.length + 2} answers`;
  },
};

for (const [name, run] of Object.entries(tests)) {
  let fault = null;
  const said = await Promise.resolve().then(run).catch((error) => {
    fault = error.stack;
  });
  console.log(JSON.stringify({ name, fault, said: said ?? '' }));
}
