import assert from 'node:assert/strict';
import http from 'node:http';
import { createRequire } from 'node:module';
import { once } from 'node:events';
import test from 'node:test';
import { Site, WrittenSite } from 'silkwaram';
import { languages } from 'silkwaram/express';
import { GREETINGS, siteDocument } from './documents.js';

const TAGS = ['en', 'fr', 'de-CH'];

function greet(req, res) {
  const label = req.label('greeting');
  res.setHeader('Content-Type', 'text/plain; charset=utf-8');
  res.end(label === null ? 'none' : `${label.language} ${label.texts[0]}`);
}

function respond(middleware, earlier) {
  return (req, res) => {
    if (earlier !== undefined) res.setHeader('Vary', earlier);
    middleware(req, res, () => greet(req, res));
  };
}

function expressOrNull() {
  try {
    return createRequire(import.meta.url)('express');
  } catch {
    return null;
  }
}

async function serve(t, handler) {
  const server = http.createServer(handler).listen(0, '127.0.0.1');
  await once(server, 'listening');
  t.after(() => server.close());
  return server.address().port;
}

// (http.request, since fetch sends an Accept-Language of its own)
async function get(port, header) {
  const headers = header === undefined ? {} : { 'Accept-Language': header };
  const signal = AbortSignal.timeout(300_000);
  const request = http.get({ host: '127.0.0.1', port, headers, agent: false, signal });
  const [response] = await once(request, 'response');
  const parts = await response.toArray();
  const { 'content-language': language, vary } = response.headers;
  return { body: Buffer.concat(parts).toString(), language, vary };
}

function answer(body, language, vary = 'Accept-Language') {
  return { body, language, vary };
}

async function asksAll(port) {
  assert.deepEqual(await get(port, 'fr-CA, en;q=0.5'), answer('fr Bonjour', 'fr'));
  assert.deepEqual(await get(port, 'DE-ch-1996'), answer('de-ch Grüezi', 'de-CH'));
  assert.deepEqual(await get(port, 'ja'), answer('en Hello', 'en'));
  assert.deepEqual(await get(port), answer('en Hello', 'en'));
  assert.deepEqual(await get(port, ''), answer('en Hello', 'en'));
  assert.deepEqual(await get(port, 'en_US, fr'), answer('fr Bonjour', 'fr'));
  assert.deepEqual(await get(port, ['ja', 'fr']), answer('fr Bonjour', 'fr'));
  assert.deepEqual(await get(port, '*;q=0'), answer('en Hello', 'en'));
  assert.deepEqual(await get(port, 'fr;q=0, *;q=0'), answer('en Hello', 'en'));
}

test('a server of node:http answers in the language of each reader', async (t) => {
  for (const site of [Site.open(GREETINGS), new WrittenSite(GREETINGS)]) {
    await asksAll(await serve(t, respond(languages({ site, tags: TAGS }))));
  }
});

const express = expressOrNull();
test('a server of express does', { skip: express === null && 'express is not installed' }, async (t) => {
  const app = express();
  app.use(languages({ site: Site.open(GREETINGS), tags: TAGS, default: 'en' }));
  app.get('/', greet);
  await asksAll(await serve(t, app));
});

test('a field that is refused counts as none', async (t) => {
  const site = Site.open(GREETINGS);
  const middleware = languages({ site, tags: TAGS, default: 'fr', lenient: false });
  const port = await serve(t, respond(middleware));
  assert.deepEqual(await get(port, 'en_US, en'), answer('fr Bonjour', 'fr'));
  // (longer than the header that node:http lets through)
  const req = { headers: { 'accept-language': 'en' + ' '.repeat(70_000) } };
  middleware(req, new http.ServerResponse(req), () => {});
  assert.equal(req.language, 'fr');
});

test('a reader who refuses the default too gets null where that is asked for', async (t) => {
  const site = Site.open(GREETINGS);
  const port = await serve(t, respond(languages({ site, tags: TAGS, strict: true })));
  assert.deepEqual(await get(port, '*;q=0'), answer('none', undefined));
  assert.deepEqual(await get(port, 'ja, en;q=0'), answer('none', undefined));
  assert.deepEqual(await get(port, 'fr, *;q=0'), answer('fr Bonjour', 'fr'));
  assert.deepEqual(await get(port), answer('en Hello', 'en'));
});

test('a language finds its regions, unless widen is false', async (t) => {
  const site = Site.open(GREETINGS);
  const port = await serve(t, respond(languages({ site, tags: TAGS })));
  assert.deepEqual(await get(port, 'de, fr;q=0.5'), answer('de-ch Grüezi', 'de-CH'));
  const narrow = await serve(t, respond(languages({ site, tags: TAGS, widen: false })));
  assert.deepEqual(await get(narrow, 'de, fr;q=0.5'), answer('fr Bonjour', 'fr'));
});

test('a label of a region is found for its language, unless widen is false', () => {
  const site = Site.open(siteDocument({ greeting: { 'de-ch': ['Grüezi'] } }));
  const label = (options) => {
    const req = { headers: { 'accept-language': 'de' } };
    languages({ site, tags: ['de'], ...options })(req, new http.ServerResponse(req), () => {});
    return req.label('greeting');
  };
  assert.equal(label({}).language, 'de-ch');
  assert.equal(label({ widen: false }), null);
});

test('Vary keeps what it has', async (t) => {
  const middleware = languages({ site: Site.open(GREETINGS), tags: TAGS });
  const vary = async (earlier) => (await get(await serve(t, respond(middleware, earlier)), 'fr')).vary;
  assert.equal(await vary('Accept-Encoding'), 'Accept-Encoding, Accept-Language');
  assert.equal(await vary(['Accept-Encoding', 'Cookie']), 'Accept-Encoding, Cookie, Accept-Language');
  assert.equal(await vary('Cookie, accept-language'), 'Cookie, accept-language');
  assert.equal(await vary('*'), '*');
});

test('a label that a language lacks is that of the default', () => {
  const req = { headers: { 'accept-language': 'fr' } };
  const site = Site.open(GREETINGS);
  languages({ site, tags: TAGS })(req, new http.ServerResponse(req), () => {});
  assert.deepEqual(req.label('farewell'), { language: 'en', texts: ['Bye'], isDefault: true });
  assert.equal(req.label('nowhere'), null);
  assert.throws(() => req.label('@'), { number: 10 });
});

test('a function is asked for the site of each request', () => {
  let site = new WrittenSite(GREETINGS);
  const middleware = languages({ site: () => site, tags: TAGS });
  const greeting = (req) => {
    middleware(req, new http.ServerResponse(req), () => {});
    return () => req.label('greeting')?.texts[0];
  };
  const earlier = greeting({ headers: { 'accept-language': 'fr' } });
  site = Site.new('later');
  site.put('greeting', 'fr', 'Salut');
  assert.equal(greeting({ headers: { 'accept-language': 'fr' } })(), 'Salut');
  // (a request goes on with the site that it began with)
  assert.equal(earlier(), 'Bonjour');
  site = null;
  assert.throws(() => greeting({ headers: {} }), TypeError);
});

test('a tag that is not offered is given to no reader', async (t) => {
  const site = Site.open(GREETINGS);
  const port = async (offer, tags = TAGS) =>
    serve(t, respond(languages({ site, tags, default: 'en', offer })));
  const few = await port('en, de');
  assert.deepEqual(await get(few, 'fr, de;q=0.5'), answer('de-ch Grüezi', 'de-CH'));
  assert.deepEqual(await get(few, 'fr'), answer('en Hello', 'en'));
  // (without an offer the tags are all offered, also one of private use, but no label of one)
  const noted = [...TAGS, 'x-note'];
  assert.deepEqual(await get(await port(undefined, noted), 'x-note'), answer('en Hello', 'x-note'));
  assert.deepEqual(await get(await port('', noted), 'x-note'), answer('en Hello', 'x-note'));
  assert.deepEqual(await get(await port('*, x;q=0', noted), 'x-note'), answer('en Hello', 'en'));
});

test('a table of fallbacks is that of tags and labels', async (t) => {
  const site = Site.open(GREETINGS);
  const port = await serve(t, respond(languages({ site, tags: TAGS, fallbacks: 'gsw=fr, de=fr' })));
  assert.deepEqual(await get(port, 'gsw-CH'), answer('fr Bonjour', 'fr'));
  assert.deepEqual(await get(port, 'de'), answer('fr Bonjour', 'fr'));
  assert.deepEqual(await get(port, 'de-CH'), answer('de-ch Grüezi', 'de-CH'));
});

test('arguments that can serve no reader are refused at once', () => {
  const site = Site.open(GREETINGS);
  assert.throws(() => languages({ site, tags: ['en_US'] }), { number: 3 });
  assert.throws(() => languages({ site, tags: ['en'], default: 'fr' }), RangeError);
  assert.throws(() => languages({ site, tags: TAGS, default: 'en', offer: 'fr' }), RangeError);
  assert.throws(() => languages({ site, tags: TAGS, offer: 'en_US' }), { number: 9 });
  assert.throws(() => languages({ site, tags: TAGS, fallbacks: 'en' }), { number: 31 });
  assert.throws(() => languages({ site, tags: [] }), RangeError);
  assert.throws(() => languages({ site, tags: ['en', '@none'] }), RangeError);
  assert.throws(() => languages({ site, tags: 'en' }), TypeError);
  assert.throws(() => languages({ site }), TypeError);
  assert.throws(() => languages({ tags: ['en'] }), TypeError);
  assert.throws(() => languages({ site: () => null, tags: ['en'] }), TypeError);
  assert.throws(() => languages({ site, tags: ['en'], widen: 'yes' }), TypeError);
  assert.throws(() => languages({ site, tags: ['en'], strict: 1 }), TypeError);
});
