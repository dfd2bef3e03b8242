import assert from 'node:assert/strict';
import test from 'node:test';
import { Site, WrittenSite, pick } from 'silkwaram';
import { GREETINGS } from './documents.js';

const MEBIBYTE = 2 ** 20;
const TAGS = Array.from({ length: 1000 }, (_, at) => `en-x-${at}`);
const LONG_ID = 'x'.repeat(10_000);
const LONG_FIELD = `en${' '.repeat(15_000)}`;

// Questions of each kind: answers, refusals, and wrong types after arguments that were right.
function ask(site) {
  pick(LONG_FIELD, TAGS, { default: 'fr' });
  assert.throws(() => pick(LONG_FIELD, [...TAGS, 7]), TypeError);
  assert.throws(() => pick(`_${LONG_FIELD}`, TAGS), { number: 9 });
  assert.throws(() => site.lookup(LONG_ID, LONG_FIELD, { default: 7 }), TypeError);
  assert.throws(() => site.text(LONG_ID, LONG_FIELD), { number: 10 });
  assert.throws(() => site.reload(LONG_FIELD), { number: 19 });
  site.filter('greeting', LONG_FIELD);
  site.bundle(LONG_FIELD);
  const written = new WrittenSite(GREETINGS);
  assert.throws(() => written.text(LONG_ID, LONG_FIELD), { number: 10 });
  assert.throws(() => written.lookup('greeting', `_${LONG_FIELD}`), { number: 9 });
  written.filter('greeting', LONG_FIELD);
}

// (in a file of its own, so that the memory of other tests is not used again here)
test('questions leave nothing in memory', () => {
  const site = Site.open(GREETINGS);
  const askMany = (count) => Array.from({ length: count }, () => ask(site)).length;
  askMany(200);
  const before = process.memoryUsage.rss();
  askMany(2000);
  const grown = (process.memoryUsage.rss() - before) / MEBIBYTE;
  assert.ok(grown < 30, `${grown} MiB`);
});
