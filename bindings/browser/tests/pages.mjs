// Does in Node what pages.py does in a page, with the same words.
import { readFile } from 'node:fs/promises';
import { resolve } from 'node:path';
import { pathToFileURL } from 'node:url';

const [folder, script, name, ...files] = process.argv.slice(2);
const at = (file) => pathToFileURL(resolve(folder, file));
const { load } = await import(at('silkwaram.mjs'));
const asked = await import(at(script));
const given = await Promise.all(
  files.map(async (file) => {
    const bytes = await readFile(at(file));
    return file.endsWith('.json') ? JSON.parse(bytes) : bytes;
  }),
);
console.log(await asked[name](files[0].endsWith('.json') ? await load() : load, ...given));
