// When the page exchanges, and what it says of that.
import { $, app, hideProblem, notice, say, showProblem } from './app.mjs';
import { exchange } from './exchange.mjs';
import { openFiles, saveSite } from './files.mjs';
import { askKey } from './view_dialogs.mjs';
import { clockWords, exchanged, showState } from './view_tools.mjs';

const EACH = 60000;
const AFTER_EDIT = 1500;
const AGAIN = 15000;

let page;
let timer = 0;
let isWanted = false;

// Says that the clock is wrong, before an edit is made; and takes that away where it is right
// again.
function sayClock() {
  const words = clockWords();
  if (words === null) hideProblem('clock');
  else if (exchanged.clockSaid !== words) showProblem(words, [], 'clock');
  exchanged.clockSaid = words;
}

// Says that edits are too late to be sent, and offers the way on.
function sayLate({ late, lateOfOthers }) {
  exchanged.late = late;
  exchanged.lateOfOthers = lateOfOthers;
  if (late > 0) {
    showProblem(say('late', { count: late }), [['beginAnew', () => openFiles()]], 'late');
  } else {
    hideProblem('late');
  }
}

function sayProblem(problem, isAsked) {
  const kind = problem.kind ?? 'failed';
  const isNew = exchanged.problem !== kind;
  exchanged.problem = kind;
  if (!isAsked && !isNew) return;
  if (kind === 'key') {
    showProblem(say('needsKey'), [['enterKey', enterKey]], 'exchange');
  } else if (kind === 'refused') {
    const word = `refused${problem.number}`;
    const why = app.say.has(word) ? say(word) : problem.detail;
    showProblem(say('serverRefused', { why }), [['saveSite', saveSite]], 'exchange');
  } else if (kind === 'failed') {
    showProblem(say('failed', { why: problem.message }), [['saveSite', saveSite]], 'exchange');
  } else if (kind === 'large') {
    showProblem(say('is_large'), [['saveSite', saveSite]], 'exchange');
  } else if (isAsked) {
    showProblem(say(`is_${kind}`), [], 'exchange');
  } else {
    notice(say(`is_${kind}`));
  }
}

async function enterKey() {
  const key = await askKey();
  if (key === null) return;
  app.state = { ...app.state, key };
  app.keeper.state(app.state);
  exchangeNow(true);
}

// How long it is until the next exchange.
function waitAfter(work) {
  if (exchanged.problem !== null) return AGAIN;
  return work.sendable().size > 0 ? AFTER_EDIT : EACH;
}

/** Exchanges now. `isAsked` where a person asked for it, who is told what came of it. */
export async function exchangeNow(isAsked) {
  const { work } = app;
  if (!work) return;
  if (exchanged.isRunning) {
    isWanted = true;
    return;
  }
  clearTimeout(timer);
  exchanged.isRunning = true;
  showState();
  // (what is known of the server belongs to this work, whatever is opened meanwhile)
  const way = (work.way ??= { tag: null, owner: null });
  Object.assign(way, { key: app.state.key, clock: app.clock });
  try {
    const made = await exchange(way, work);
    // (the site may have begun anew meanwhile)
    if (app.work !== work) return;
    app.keeper.sent(made.gone);
    app.keeper.isUnsaved = work.unsent.size > 0;
    const isBack = exchanged.problem !== null;
    exchanged.problem = null;
    app.state = { ...app.state, last: Date.now(), heard: app.clock.heard };
    const { sent, received, overridden, lateOfOthers } = made;
    if (overridden > 0) notice(say('overridden', { count: overridden }));
    else if (isAsked || isBack || received > 0) notice(say('exchangedNow', { sent, received }));
    if (received > 0) page.came();
    else app.keeper.state(app.state);
    hideProblem('exchange');
    if (lateOfOthers > 0) notice(say('lateOfOthers', { count: lateOfOthers }));
    sayClock();
    sayLate(made);
  } catch (problem) {
    if (app.work !== work) return;
    sayClock();
    sayProblem(problem, isAsked);
  } finally {
    exchanged.isRunning = false;
    showState();
    const isAgain = isWanted;
    isWanted = false;
    exchangeSoon(isAgain ? 0 : waitAfter(app.work));
  }
}

/** Exchanges in a while: after an edit once no other followed. */
export function exchangeSoon(wait = AFTER_EDIT) {
  clearTimeout(timer);
  timer = setTimeout(() => {
    if (document.hidden) return;
    exchangeNow(false);
  }, wait);
}

/**
 * Has the page exchange by itself: at a return, where a network is back, and once a minute while
 * it is seen.
 */
export function beginExchanges(actions) {
  page = actions;
  $('exchange').onclick = () => exchangeNow(true);
  addEventListener('online', () => exchangeNow(false));
  document.addEventListener('visibilitychange', () => document.hidden || exchangeNow(false));
}
