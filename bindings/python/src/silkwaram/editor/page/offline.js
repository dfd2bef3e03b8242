// The service worker: it keeps the files of the page under one version, so that it opens without a
// network, and at once with one that is half there. The server writes the version and the names.
// Exchanges pass by it.
const VERSION = '@VERSION@';
const FILES = '@FILES@'.split(' ');
const CACHE = `silkwaram-editor-${VERSION}`;
const KEPT = new Set(FILES.map((file) => new URL(file, self.location).href));
const TYPES = {
  '': 'text/html',
  css: 'text/css',
  mjs: 'text/javascript',
  svg: 'image/svg+xml',
  wasm: 'application/wasm'
};

function typeOf(url) {
  const name = new URL(url).pathname.split('/').at(-1);
  return TYPES[name.split('.')[1] ?? ''];
}

// A file as the server has it, and no page of a network that asks for a login.
async function fetched(url) {
  const answer =
    await fetch(url, { cache: 'no-cache', redirect: 'error', credentials: 'same-origin' });
  const kind = answer.headers.get('Content-Type') ?? '';
  if (!answer.ok || answer.type !== 'basic' || !kind.startsWith(typeOf(url)))
    throw new Error(`not a file of the page: ${url}`);
  return answer;
}

// (all files are there, or this version is not installed, and the former one stays)
self.addEventListener('install', (event) => {
  const all = async () => {
    const files = await Promise.all([...KEPT].map(async (url) => [url, await fetched(url)]));
    const cache = await caches.open(CACHE);
    await Promise.all(files.map(([url, answer]) => cache.put(url, answer)));
    await self.skipWaiting();
  };
  event.waitUntil(all());
});

self.addEventListener('activate', (event) => {
  const all = async () => {
    const names = await caches.keys();
    const old = names.filter((name) => name !== CACHE && /^silkwaram-(editor-|labels$)/.test(name));
    await Promise.all(old.map((name) => caches.delete(name)));
    await self.clients.claim();
  };
  event.waitUntil(all());
});

async function kept(request) {
  const found = await (await caches.open(CACHE)).match(request, { ignoreSearch: true });
  return found ?? fetch(request);
}

self.addEventListener('fetch', (event) => {
  const url = event.request.url.split(/[?#]/)[0];
  if (event.request.method === 'GET' && KEPT.has(url)) event.respondWith(kept(event.request));
});
