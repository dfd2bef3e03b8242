// Has a function of a script ask a package for Node, as a program beside it takes it. Its last line counts.
//
// usage: node ask.mjs PACKAGE SCRIPT FUNCTION FILE..    (FILE: JSON, which the function is given after the calls)
import { readFileSync } from 'node:fs';
import { resolve } from 'node:path';
import { pathToFileURL } from 'node:url';

const [name, script, called, ...files] = process.argv.slice(2);
const calls = await import(name);
const functions = await import(pathToFileURL(resolve(script)));
console.log(await functions[called](calls, ...files.map((it) => JSON.parse(readFileSync(it, 'utf8')))));
