// What is of JavaScript in the call of the command: words and inputs as strings and bytes, wrong types, an answer that is
// longer than its input, and an input for which there is no memory. Its last line counts.
import assert from 'node:assert/strict';
import { renameSync } from 'node:fs';
import { command, load } from 'silkwaram/command';

// (a load that fails is made again by the next call)
const [module, away] = ['lexicat.wasm', 'away'].map((it) => new URL(`node_modules/silkwaram/${it}`, import.meta.url));
renameSync(module, away);
await assert.rejects(command(['pick', 'en', 'en']), { code: 'ENOENT' });
renameSync(away, module);
const lexicat = await load();
const matched = { status: 0, output: 'matched en\n', errors: '' };
const wrong = { name: 'TypeError', code: 'ERR_INVALID_ARG_TYPE' };
let values = 0;

async function answers(words, input, wanted) {
  values++;
  assert.deepEqual(await command(words, input), wanted);
  assert.deepEqual(lexicat.command(words, input), wanted);
}

async function refuses(words, input) {
  values++;
  await assert.rejects(command(words, input), wrong);
  assert.throws(() => lexicat.bytes(words, input), wrong);
}

const notText = { status: 2, output: '', errors: 'error: a word is not UTF-8\n' };
await answers(['pick', 'da, en', 'en', 'fr'], undefined, matched);
await answers(['pick', 'da, en', 'en', 'fr'], 'not read', matched);
await answers([Buffer.from('pick'), 'en', 'en'], undefined, matched);
await answers(['pick', 'en', '\ud800'], undefined, notText);
await answers(['pick', 'en', Uint8Array.of(255)], undefined, notText);
await answers(['status'], undefined, { status: 3, output: '', errors: 'refused 19: not JSON of document 1\n' });
await answers(['status'], '"\ud800"', { status: 3, output: '', errors: 'refused 18: not UTF-8 at 1 of document 1\n' });
for (const words of [undefined, null, 'pick', { length: 1 }, [7], [undefined], [, 'pick'], [['pick']]]) await refuses(words);
for (const input of [null, 7, ['a'], new ArrayBuffer(1), {}]) await refuses(['status'], input);

// (two sites that each get what the other has: twice the bytes of the input)
const site = (name, id) => {
  const rows = Array.from({ length: 5000 }, (_, at) => [`${id}${String(at).padStart(5, '0')}`, 'en', 5, name, at, ['x'.repeat(20)]]);
  return `${JSON.stringify({ cells: rows, kind: 'site', site: name, version: 2 })}\n`;
};
const both = site('paris', 'm') + site('tokyo', 'n');
const synced = lexicat.command(['sync'], both);
assert.equal(synced.output.length, 2 * both.length - 2 * '{"cells":[],"kind":"site","site":"paris","version":2}\n'.length + 2);
assert.deepEqual([synced.status, synced.errors, lexicat.bytes(['sync'], both).isRead], [0, '', true]);
values++;

const huge = new Uint8Array(2.2e9);
await answers(['status'], huge, { status: 5, output: '', errors: 'refused 26: out of memory\n' });
await answers(['pick', 'en', 'en'], '', matched);
console.log(`${values} values`);
