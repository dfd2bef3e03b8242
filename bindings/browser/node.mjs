// The package for Node: the calls of one module, which is loaded with the package, beside what loads others.
import { readFileSync } from 'node:fs';
import { pathToFileURL } from 'node:url';
import { loadSync } from './silkwaram.mjs';

// (a bundle in the form of CommonJS has no address here, and its own name; in `node -e` and a REPL that
// name is a text)
const here = import.meta.url ?? pathToFileURL(__filename);

export { Refused, load, loadSync } from './silkwaram.mjs';
export const { Site, WrittenSite, filter, pick, refusal, version } = loadSync(
  readFileSync(new URL('./silkwaram.wasm', here)),
);
