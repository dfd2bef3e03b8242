#!/usr/bin/env node
// Asks a library the vectors, and prints of each file how many answers agree, how many differ, and
// how many vectors it has no call for; then each answer that differs.
//
// usage: run.mjs [ADAPTER.mjs [FOLDER]]    by default plain.mjs, which shows what an adapter
//                                          exports (any of its functions), and the vectors' folder
import {readdirSync, readFileSync} from 'node:fs';
import {dirname, resolve} from 'node:path';
import {fileURLToPath, pathToFileURL} from 'node:url';

const here = dirname(fileURLToPath(import.meta.url));
const folder = resolve(process.argv[3] ?? `${here}/../vectors`);
const adapter = await import(pathToFileURL(resolve(process.argv[2] ?? `${here}/plain.mjs`)));

// The list of a vector as a field: a list of ranges is one of falling weights.
const fieldOf = ({field, ranges}) =>
  field ?? ranges.map((it, at) => (at ? `${it};q=${(1000 - at) / 1000}` : it)).join(', ');

const calls = {
  'tags': (it) => ['tag', it.tag],
  'basic-ranges': (it) => ['basicRange', it.range],
  'extended-ranges': (it) => ['extendedRange', it.range],
  'fields': (it) => ['field', it.field],
  'basic-filtering': (it) => ['basicFiltering', fieldOf(it), it.tags],
  'extended-filtering': (it) => ['extendedFiltering', it.ranges, it.tags],
  'lookup': (it) => ['lookup', fieldOf(it), it.tags, it.default ?? null],
  'extended-lookup': (it) => ['extendedLookup', it.ranges, it.tags, it.default ?? null],
};

const isText = (it) => typeof it === 'string';

// An answer as a text, without case and without the order of members; a set of tags has no order.
const lowered = (it) => {
  if (isText(it)) return JSON.stringify(it.toLowerCase());
  if (Array.isArray(it)) {
    const items = it.map(lowered);
    return `[${it.every(isText) ? [...new Set(items)].sort() : items}]`;
  }
  if (it === null || typeof it !== 'object') return JSON.stringify(it ?? null);
  return JSON.stringify(Object.keys(it).sort().map((key) => [key, lowered(it[key])]));
};

// Whether what a library gave is an answer of a vector. A field that is malformed, without a place,
// is {malformed: null}; true is for parts and items that the library does not tell.
const agrees = (given, answer) => {
  const isThing = answer !== null && typeof answer === 'object';
  const isFault = isThing && ('malformed' in answer || 'refused' in answer);
  if (given?.malformed !== undefined) {
    const [one, other] = [given.malformed ?? undefined, answer?.malformed];
    return isFault && (one ?? other) === (other ?? one);
  }
  if (given === true && isThing) return !isFault;
  return lowered(given) === lowered(answer);
};

const differing = [];
for (const name of readdirSync(folder).filter((it) => it.endsWith('.json')).sort()) {
  const {subject, vectors} = JSON.parse(readFileSync(`${folder}/${name}`, 'utf8'));
  let agreed = 0, differed = 0, left = 0;
  for (const vector of vectors) {
    const [call, ...words] = calls[subject](vector);
    if (!adapter[call]) {
      left += 1;
      continue;
    }
    const given = adapter[call](...words), wanted = vector.admits ?? [vector.answer];
    if (wanted.some((it) => agrees(given, it))) agreed += 1;
    else {
      differed += 1;
      const {id, answer, admits, choices, section, ...question} = vector;
      differing.push(`${id} ${JSON.stringify(question)}: ${JSON.stringify(given)}, and not`
        + ` ${JSON.stringify(wanted)} (${section})`);
    }
  }
  console.log([name.slice(0, -5), agreed, differed, left].join('\t'));
}
differing.forEach((it) => console.log(it));
process.exitCode = differing.length ? 1 : 0;
