// An exchange with the server, by the protocol that README.md states. Each step may be lost, or
// done twice.
import { deltaOf, withoutLate } from './deltas.mjs';

const MOST_WAIT = 30000;
const OTHER_SITE = 15;
const HEADER = 'Silkwaram-Exchange';

/**
 * Why there was no exchange. `kind`: `away`, no answer; `slow`, none in time; `key`, it asks for a
 * key; `none`, nobody exchanges at this address; `portal`, something else answered; `large`;
 * `broken`, the server has a fault; `refused`.
 */
export class Problem extends Error {
  constructor(kind, detail = '', cause = undefined) {
    super(`${kind} ${detail}`.trim(), { cause });
    this.kind = kind;
    this.detail = String(detail);
  }
}

function problemOf(answer, text) {
  const isOurs = answer.headers.get(HEADER) !== null;
  const { status } = answer;
  if (answer.type === 'opaqueredirect' || answer.redirected) return new Problem('portal');
  if (status === 401 || status === 407 || (status === 403 && !isOurs)) return new Problem('key');
  if (status === 413) return new Problem('large');
  if (status >= 500 || status === 429) return new Problem('broken', status);
  if (!isOurs) return new Problem(status === 404 || status === 405 ? 'none' : 'portal', status);
  // (403: a language of the delta is not that of who has the key)
  if (status !== 422 && status !== 403) return new Problem(status === 404 ? 'none' : 'broken', status);
  try {
    const { number, words } = JSON.parse(text);
    return Object.assign(new Problem('refused', words), { number });
  } catch {
    return new Problem('portal', status);
  }
}

/**
 * Asks the server. `key` is what it asks for of its users, or empty. Hears what time it is there.
 */
async function ask(way, path, { method = 'GET', body, tag } = {}) {
  const headers = {};
  if (way.key) headers.Authorization = `Bearer ${way.key}`;
  if (body !== undefined) headers['Content-Type'] = 'application/json';
  if (tag) headers['If-None-Match'] = tag;
  let answer, text;
  try {
    answer = await fetch(path, {
      method, headers, body, cache: 'no-store', redirect: 'manual', credentials: 'same-origin',
      signal: AbortSignal.timeout(way.mostWait ?? MOST_WAIT),
    });
    text = await answer.text();
  } catch (cause) {
    throw new Problem(cause.name === 'TimeoutError' ? 'slow' : 'away', '', cause);
  }
  if (answer.headers.get(HEADER) !== null) way.clock.hear(Date.parse(answer.headers.get('Date')));
  if (answer.status !== 304 && !answer.ok) throw problemOf(answer, text);
  const isJson = (answer.headers.get('Content-Type') ?? '').startsWith('application/json');
  if (answer.headers.get(HEADER) === null || (answer.status !== 304 && !isJson))
    throw new Problem('portal');
  return { status: answer.status, text, tag: answer.headers.get('ETag') };
}

// Sends what the server lacks, and what of it is too late stays.
async function sendAll(way, work) {
  const { text } = await ask(way, 'summary');
  way.owner = JSON.parse(text).owner;
  const rows = new Map(work.unsent);
  const { delta, cells, late } = withoutLate(work.site.deltaFor(text), work.clock.limit());
  if (cells.length > 0) await ask(way, 'delta', { method: 'POST', body: delta });
  const gone = late === 0 ? work.wasSent(rows) :
                            work.wasSent([...rows].filter(([key]) => work.sendable().has(key)));
  return { sent: cells.length, gone, late };
}

// Sends the edits since the last exchange alone. Whether the server had nothing else since then.
async function sendEdits(way, work) {
  const rows = work.sendable();
  if (rows.size === 0) {
    const { status } = await ask(way, 'summary', { method: 'HEAD', tag: way.tag });
    return { sent: 0, gone: [], late: work.unsent.size, isAll: status === 304 };
  }
  const { text } =
    await ask(way, 'delta', { method: 'POST', body: deltaOf([...rows.values()], way.owner) });
  const { before, after } = JSON.parse(text);
  const isAll = before === way.tag;
  if (isAll) way.tag = after;
  const gone = work.wasSent(rows);
  return { sent: rows.size, gone, late: work.unsent.size, isAll };
}

/**
 * Exchanges a site with the server. `way` has its key, what it was known to have (`tag`, `owner`),
 * and the clock. Answers how many cells were sent and received, how many of these took the place of
 * one that was written here, which edits are sent, and how many were left out as too late.
 */
export async function exchange(way, work) {
  let made;
  try {
    made = way.tag ? await sendEdits(way, work) : await sendAll(way, work);
  } catch (problem) {
    // (another site is at this address by now)
    if (!way.tag || problem.number !== OTHER_SITE) throw problem;
    way.tag = null;
    made = await sendAll(way, work);
  }
  if (made.isAll) return { ...made, received: 0, overridden: 0, lateOfOthers: 0 };
  const { text, tag } = await ask(way, 'summary', { method: 'POST', body: work.site.summary() });
  const { received, overridden, late } = work.take(text);
  way.tag = tag;
  return { ...made, received, overridden, lateOfOthers: late };
}
