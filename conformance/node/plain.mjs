// The rules of the RFCs in plain JavaScript, as an adapter for run.mjs.
const IRREGULAR = new Set(('en-gb-oed i-ami i-bnn i-default i-enochian i-hak i-klingon i-lux'
  + ' i-mingo i-navajo i-pwn i-tao i-tay i-tsu sgn-be-fr sgn-be-nl sgn-ch-de').split(' '));
const BASIC = /^(?:[A-Za-z]{1,8}(?:-[A-Za-z0-9]{1,8})*|\*)$/;
const EXTENDED = /^(?:[A-Za-z]{1,8}|\*)(?:-(?:[A-Za-z0-9]{1,8}|\*))*$/;
const WEIGHT = /^[qQ]=(0(?:\.[0-9]{0,3})?|1(?:\.0{0,3})?)$/;

// Letters of ASCII in lower case: toLowerCase turns others into them.
const lower = (text) => text.replace(/[A-Z]/g, (it) => it.toLowerCase());
const blankless = (text) => text.replace(/^[ \t]+|[ \t]+$/g, '');

// The parts of a tag, or null: one pass over its subtags.
export function tag(text) {
  const name = lower(text), subtags = name.split('-');
  if (IRREGULAR.has(name)) return {grandfathered: name};
  let at = 0;
  const next = (pattern) => (pattern.test(subtags[at] ?? '') ? subtags[at++] : undefined);
  const all = (pattern, most = Infinity) => {
    const found = [];
    while (found.length < most && pattern.test(subtags[at] ?? '')) found.push(subtags[at++]);
    return found;
  };
  const parts = {};
  if (subtags[0] !== 'x') {
    parts.language = next(/^[a-z]{2,8}$/);
    if (!parts.language) return null;
    if (parts.language.length < 4) parts.extlangs = all(/^[a-z]{3}$/, 3);
    parts.script = next(/^[a-z]{4}$/);
    parts.region = next(/^(?:[a-z]{2}|[0-9]{3})$/);
    parts.variants = all(/^(?:[a-z0-9]{5,8}|[0-9][a-z0-9]{3})$/);
    parts.extensions = [];
    for (let one; (one = next(/^[0-9a-wyz]$/));) {
      const more = all(/^[a-z0-9]{2,8}$/);
      if (!more.length) return null;
      parts.extensions.push([one, ...more]);
    }
  }
  if (next(/^x$/)) {
    parts.private = all(/^[a-z0-9]{1,8}$/);
    if (!parts.private.length) return null;
  }
  if (at < subtags.length) return null;
  return Object.fromEntries(Object.entries(parts).filter(([, it]) => it && it.length));
}

export const basicRange = (text) => BASIC.test(text);
export const extendedRange = (text) => EXTENDED.test(text);

// The items of a field, or the place where it is malformed, in bytes.
export function field(text) {
  const items = [];
  let place = 0;
  for (const piece of text.split(',')) {
    const element = blankless(piece);
    const [range, weight, ...more] = element.split(';').map(blankless);
    const found = weight === undefined ? ['', '1'] : WEIGHT.exec(weight);
    if (element && (!BASIC.test(range) || !found || more.length)) {
      return {malformed: place + piece.indexOf(element[0])};
    }
    if (element) items.push([lower(range), Math.round(Number(found[1]) * 1000)]);
    place += Buffer.byteLength(piece) + 1;
  }
  return items;
}

const basicMatch = (range, name) => range === '*' || name === range || name.startsWith(`${range}-`);

// RFC 4647 section 3.3.2, by its steps.
function extendedMatch(range, name) {
  const [first, ...wanted] = lower(range).split('-'), given = lower(name).split('-');
  if (first !== '*' && first !== given[0]) return false;
  let to = 1;
  for (const one of wanted.filter((it) => it !== '*')) {
    while (to < given.length && given[to] !== one && given[to].length > 1) to += 1;
    if (given[to] !== one) return false;
    to += 1;
  }
  return true;
}

// Whether the longest of the ranges that match has a weight of 0, or none matches.
function decides(items, name) {
  const length = ([range]) => (range === '*' ? 0 : range.split('-').length);
  const matching = items.filter(([range]) => basicMatch(range, name));
  return matching.reduce((best, it) => (!best || length(it) > length(best) ? it : best), undefined);
}

export const basicFiltering = (text, tags) => {
  const items = field(text);
  return tags.filter((it) => decides(items, lower(it))?.[1] > 0);
};
export const extendedFiltering = (ranges, tags) =>
  tags.filter((it) => ranges.some((one) => extendedMatch(one, it)));

function* truncations(range) {
  for (const subtags = range.split('-'); subtags.length;) {
    yield subtags.join('-');
    do subtags.pop(); while (subtags.length && subtags.at(-1).length === 1);
  }
}

function lookedUp(items, tags, fallback) {
  const named = items.filter(([range]) => range !== '*');
  for (const [range, weight] of [...named].sort((one, other) => other[1] - one[1])) {
    for (const it of weight ? truncations(range) : []) {
      const found = tags.find((one) => lower(one) === it);
      if (found && decides(named, it)?.[1] !== 0) return found;
    }
  }
  const isThere = fallback !== null && tags.some((one) => lower(one) === lower(fallback));
  return isThere && decides(items, lower(fallback))?.[1] !== 0 ? fallback : null;
}

export const lookup = (text, tags, fallback) => lookedUp(field(text), tags, fallback);
export const extendedLookup = (ranges, tags, fallback) => lookedUp(ranges.map((it) => [
  it[0] === '*' ? '*' : lower(it).split('-').filter((one) => one !== '*').join('-'), 1000,
]), tags, fallback);
