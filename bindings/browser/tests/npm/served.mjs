// Runs the server that the page of the package shows, over express, and asks it as readers do. Express
// is in the folder of this program's modules.
import assert from 'node:assert/strict';
import { once } from 'node:events';
import { readFileSync, writeFileSync } from 'node:fs';
import http from 'node:http';

const page = readFileSync('node_modules/silkwaram/README.md', 'utf8');
const programs = [...page.matchAll(/^```js\n(.*?)^```$/gms)].map((it) => it[1]);
const shown = programs.filter((it) => /'express'/.test(it));
assert.equal(shown.length, 1);
writeFileSync('server.mjs', `import { Site } from 'silkwaram';
const site = Site.new('paris');
site.put('greeting', 'fr', 'Bonjour & bienvenue', { now: 1 });
site.put('greeting', 'en', 'Hello', { now: 1 });
const escapeHtml = (it) => it.replaceAll('&', '&amp;');
${shown[0]}
export { app };
`);
const { app } = await import(`${process.cwd()}/server.mjs`);
const server = app.listen(0, '127.0.0.1');
await once(server, 'listening');

async function get(field) {
  const headers = { 'Accept-Language': field };
  const [response] = await once(http.get({ port: server.address().port, headers, agent: false }), 'response');
  const body = Buffer.concat(await response.toArray()).toString();
  return [response.statusCode, body, response.headers['content-language']];
}

// (RFC 4647 section 3.4, RFC 9110 section 8.5)
assert.deepEqual(await get('fr-CA'), [200, '<p lang="fr">Bonjour &amp; bienvenue</p>', 'fr']);
assert.deepEqual(await get('ja, en;q=0.5'), [200, '<p lang="en">Hello</p>', 'en']);
server.close();
console.log('2 answers');
