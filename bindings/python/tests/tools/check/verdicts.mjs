// Prints what the placeholders of labels differ in, by the editor: of each line
// [language, sources, texts] of standard input a line, as verdicts.py does by lexicat-check's
// rules.
//
// usage: node verdicts.mjs PLACEHOLDERS.mjs
import { createInterface } from 'node:readline';
import { pathToFileURL } from 'node:url';

const { differencesAt } = await import(pathToFileURL(process.argv[2]));
for await (const line of createInterface({ input: process.stdin, crlfDelay: Infinity })) {
  const [language, sources, texts] = JSON.parse(line);
  const verdicts = texts.map((_, place) => differencesAt(sources, texts, place, language));
  process.stdout.write(`${JSON.stringify(verdicts.map((it) => [it.lacks, it.hasBeside]))}\n`);
}
