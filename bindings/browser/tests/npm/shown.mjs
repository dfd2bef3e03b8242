// Runs the programs that the page of the package shows, in the folder that has the package, and compares what they say
// that they answer. A program that wants what is not there, as express, is left out.
import { readFileSync, writeFileSync } from 'node:fs';

const page = readFileSync('node_modules/silkwaram/README.md', 'utf8');
const programs = [...page.matchAll(/^```js\n(.*?)^```$/gms)].map((it) => it[1]).filter((it) => !/'express'/.test(it));
Object.defineProperty(globalThis, 'navigator', { value: { languages: ['fr-CA', 'en'] } });
globalThis.document = { documentElement: {} };

let count = 0;
for (const [at, program] of programs.entries()) {
  const compared = program.replace(/^(.*);\s*\/\/ ('[^']*')$/gm, (_, asked, answer) => {
    count++;
    return `equal(${asked}, ${answer});`;
  });
  writeFileSync(`shown${at}.mjs`, `import { equal } from 'node:assert/strict';\n${compared}`);
  await import(`${process.cwd()}/shown${at}.mjs`);
}
if (count < 3) throw new Error(`${count} answers are shown`);
console.log(`${programs.length} programs, ${count} answers`);
