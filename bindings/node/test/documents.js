import assert from 'node:assert/strict';

const CLOSED = { name: 'Error', message: /^the site is closed/ };

function wrongType(name) {
  return { name: 'TypeError', message: new RegExp(`^${name} must be `) };
}

function throwEach(wanted, calls) {
  for (const call of calls) assert.throws(call, wanted);
}

// Returns the document of a site that has these labels (docs/FORMATS.md): { id: { tag: texts } }.
function siteDocument(labels) {
  const keys = Object.entries(labels).flatMap(([id, byTag]) =>
    Object.keys(byTag).map((tag) => [id, tag]),
  );
  keys.sort(compareByBytes);
  const cells = keys.map(([id, tag], count) => [id, tag, 1, 'paris', count, labels[id][tag]]);
  return JSON.stringify({ cells, kind: 'site', site: 'paris', version: 2 }) + '\n';
}

function compareByBytes([id, tag], [otherId, otherTag]) {
  return (
    Buffer.compare(Buffer.from(id), Buffer.from(otherId)) ||
    Buffer.compare(Buffer.from(tag), Buffer.from(otherTag))
  );
}

const GREETINGS = siteDocument({
  greeting: { de: ['Guten Tag'], 'de-ch': ['Grüezi'], en: ['Hello'], fr: ['Bonjour', 'Salut'] },
  farewell: { en: ['Bye'] },
});

export { CLOSED, GREETINGS, siteDocument, throwEach, wrongType };
