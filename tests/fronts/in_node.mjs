// Asks the middleware for Node what asked.py has in a folder, over an open site and a written one.
//
// usage: node in_node.mjs FOLDER
//
// The answers go to standard output, as asked.py compares them.
import { readFileSync } from 'node:fs';
import assert from 'node:assert/strict';
import { Site, WrittenSite } from 'silkwaram';
import { languages } from 'silkwaram/express';

const folder = process.argv[2];
const document = readFileSync(`${folder}/site.json`);
const asked = JSON.parse(readFileSync(`${folder}/asked.json`, 'utf8'));
const response = { getHeader: () => undefined, setHeader: () => {} };

function answerOf(middleware, header) {
  const request = { headers: header === null ? {} : { 'accept-language': header } };
  middleware(request, response, () => {});
  return {
    language: request.language.toLowerCase(),
    label: request.label('all').texts[0],
    few_in: request.label('some').texts[0],
  };
}

function answersOver(site) {
  const { tags, fallbacks } = asked;
  const middleware = languages({ site, tags, default: asked.default, fallbacks });
  return asked.headers.map((it) => answerOf(middleware, it));
}

const answers = answersOver(Site.open(document));
assert.deepEqual(answersOver(new WrittenSite(document)), answers);
console.log(JSON.stringify({ answers }));
