import assert from 'node:assert/strict';
import { once } from 'node:events';
import { createRequire } from 'node:module';
import test from 'node:test';
import { pathToFileURL } from 'node:url';
import { Worker } from 'node:worker_threads';
import { pick } from 'silkwaram';
import { GREETINGS } from './documents.js';

const THREADS = 8;
const ROUNDS = 2000;

// Asks in a thread of its own: each round opens, shares, asks and closes or forgets. It tells how many rounds were
// right, and then ends, or works on for ever.
async function work({ document, rounds, isEndless, path }) {
  const { parentPort } = require('node:worker_threads');
  const { Site, pick } = await import(path);
  const site = Site.open(document);
  let right = 0;
  for (let round = 0; isEndless || round < rounds; round++) {
    if (round === rounds) parentPort.postMessage(right);
    const share = site.share();
    if (round % 100 === 0) site.reload(document);
    if (pick('fr-CA', ['en', 'fr']) === 'fr' && share.text('greeting', 'fr-CA') === 'Bonjour') right++;
    // (what is forgotten is freed in a later turn of the event loop, which does not come)
    if (isEndless || round % 2 === 0) share.close();
  }
  parentPort.postMessage(right);
}

// Recurses until the stack ends, and asks at each depth.
async function descend({ document, path }) {
  const { parentPort } = require('node:worker_threads');
  const { Site, pick } = await import(path);
  function below(depth) {
    pick('fr-CA, en;q=0.5', ['en', 'fr']);
    Site.open(document).close();
    try {
      return below(depth + 1);
    } catch (error) {
      if (!(error instanceof RangeError)) throw error;
      return depth;
    }
  }
  parentPort.postMessage(below(0));
}

function start(task, given, options) {
  const data = { ...given, path: pathToFileURL(createRequire(import.meta.url).resolve('silkwaram')).href };
  const code = `(${task})(require('node:worker_threads').workerData)`;
  return new Worker(code, { eval: true, workerData: data, ...options });
}

function run(task, given, options) {
  return new Promise((resolve, reject) => {
    const worker = start(task, given, options);
    let told;
    worker.on('message', (message) => (told = message));
    worker.on('error', reject);
    worker.on('exit', () => resolve(told));
  });
}

test('threads ask at once, each a site of its own', async () => {
  const given = { document: GREETINGS, rounds: ROUNDS };
  const all = await Promise.all(Array.from({ length: THREADS }, () => run(work, given)));
  assert.deepEqual(all, Array(THREADS).fill(ROUNDS));
});

test('a thread that is ended in the middle takes nothing else with it', async () => {
  const worker = start(work, { document: GREETINGS, rounds: ROUNDS, isEndless: true });
  // (it goes on, and is ended in the middle of some later round)
  assert.deepEqual(await once(worker, 'message'), [ROUNDS]);
  assert.equal(await worker.terminate(), 1);
  assert.equal(pick('fr', ['fr']), 'fr');
});

test('a call has stack enough where the stack of JavaScript ends', async () => {
  const given = { document: GREETINGS };
  assert.ok((await run(descend, given)) > 100);
  assert.ok((await run(descend, given, { resourceLimits: { stackSizeMb: 1 } })) > 100);
});
