// Middleware of express's form.
import { Site, WrittenSite, pick } from './node.mjs';

// A refusal of the field: it is too long, or has a malformed element and `lenient` is false.
const OF_FIELD = [8, 9];

function isOfField(error) {
  return OF_FIELD.includes(error.number);
}

// The tag of a reader. A field that is refused counts as none, as RFC 9110 section 12.4.1 lets a
// server do.
function pickFor(field, tags, options) {
  try {
    return pick(field, tags, options);
  } catch (error) {
    if (!isOfField(error)) throw error;
    return pick(undefined, tags, options);
  }
}

// Says to caches that the answer depends on the reader's header.
function vary(res) {
  const had = [res.getHeader('Vary') ?? []].flat().join(', ');
  const names = had.split(',').map((name) => name.trim().toLowerCase());
  if (names.includes('*') || names.includes('accept-language')) return;
  res.setHeader('Vary', had ? `${had}, Accept-Language` : 'Accept-Language');
}

// The label of a message in the language that the reader got, or else in the default.
function labelIn(site, id, language, options) {
  return language === null ? null : site.lookup(id, language, options);
}

// The site that is asked now.
function siteOf(given) {
  const site = typeof given === 'function' ? given() : given;
  const isSite = site instanceof Site || site instanceof WrittenSite;
  if (!isSite) throw new TypeError('site must be a Site or a WrittenSite, or return one');
  return site;
}

// Throws if the arguments cannot serve any reader.
function check(site, tags, strict) {
  siteOf(site);
  if (typeof strict !== 'boolean') throw new TypeError('strict must be a boolean');
  if (!Array.isArray(tags)) throw new TypeError('tags must be an array of strings');
  if (tags.includes('@none')) throw new RangeError('@none is no language that a page can be in');
}

/** Returns the middleware (express.d.ts). */
export function languages({
  site,
  tags,
  default: fallback = tags?.[0],
  offer,
  fallbacks,
  lenient = true,
  widen = true,
  strict = false,
}) {
  // (an empty offer is none, as in all middleware)
  const rules = { default: fallback, widen, offer: offer || undefined, fallbacks };
  const options = { ...rules, lenient };
  check(site, tags, strict);
  const pages = [...tags];
  const first = pick(undefined, pages, options);
  if (first === null) throw new RangeError('default must be one of the tags that are offered');
  return function readerLanguage(req, res, next) {
    const found = pickFor(req.headers['accept-language'], pages, options);
    // (a reader who excludes the default too still gets it, as RFC 9110 section 12.5.4 allows)
    const language = found ?? (strict ? null : first);
    req.language = language;
    const asked = siteOf(site);
    req.label = (id) => labelIn(asked, id, language, rules);
    if (language !== null) res.setHeader('Content-Language', language);
    vary(res);
    next();
  };
}
