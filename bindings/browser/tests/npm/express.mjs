// The middleware of the package, with a server of node:http.
import assert from 'node:assert/strict';
import { once } from 'node:events';
import http from 'node:http';
import { Site } from 'silkwaram';
import { languages } from 'silkwaram/express';

const site = Site.new('paris');
site.put('greeting', 'en', 'Hello', { now: 1 });
site.put('greeting', 'fr', 'Bonjour', { now: 1 });
site.put('greeting', 'x-note', 'ask Anna', { now: 1 });
const tags = ['en', 'fr', 'x-note'];
// (each path has an offer of its own)
const uses = { '/': languages({ site, tags }), '/all': languages({ site, tags, offer: '*' }) };
const server = http.createServer((req, res) => uses[req.url](req, res, () => res.end(req.label('greeting').texts[0])));
await once(server.listen(0, '127.0.0.1'), 'listening');

async function get(field, path = '/') {
  const headers = { 'Accept-Language': field };
  const [response] = await once(http.get({ port: server.address().port, path, headers, agent: false }), 'response');
  const body = Buffer.concat(await response.toArray()).toString();
  return [body, response.headers['content-language'], response.headers.vary];
}

// (RFC 4647 section 3.4, RFC 9110 sections 8.5 and 12.5.5)
assert.deepEqual(await get('fr-CA, en;q=0.5'), ['Bonjour', 'fr', 'Accept-Language']);
assert.deepEqual(await get('ja'), ['Hello', 'en', 'Accept-Language']);
assert.deepEqual(await get('*;q=0'), ['Hello', 'en', 'Accept-Language']);
assert.deepEqual(await get('x-note, fr;q=0.5'), ['Hello', 'x-note', 'Accept-Language']);
assert.deepEqual(await get('x-note', '/all'), ['ask Anna', 'x-note', 'Accept-Language']);
assert.throws(() => languages({ site, tags, offer: 'e n' }), { name: 'Refused', number: 9 });
server.close();
console.log('6 answers');
