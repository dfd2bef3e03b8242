// The lines above the list: what is kept and exchanged, the languages, and what is shown.
import { $, app, languageName, made, say, setAsWide, setText } from './app.mjs';
import { MOST_DIFFERENCE } from './clock.mjs';

const ANOTHER = '..';
const KINDS = ['all', 'missing', 'outdated', 'came', 'typed'];

/**
 * What the last exchange came to: `isRunning`, the kind of its problem or null, and what was late.
 */
export const exchanged = { isRunning: false, problem: null, late: 0, lateOfOthers: 0 };

function keptLine() {
  const { keeper } = app;
  if (!keeper.store) return say(keeper.isUnsaved ? 'notInStore' : 'noStore');
  if (keeper.failure) return say('notKeptHere');
  return say(keeper.isBusy ? 'keeping' : 'kept');
}

function exchangedLine() {
  const { last } = app.state;
  const { isRunning, problem } = exchanged;
  if (isRunning) return say('exchanging');
  const count = app.work.unsent.size;
  const unsent = count > 0 ? say('unsent', { count }) : '';
  // (few words, as the page would move for a second line: what to do is said at its foot)
  if (problem) return `${say(`short_${problem}`)} ${unsent}`.trim();
  if (unsent) return unsent;
  if (last === null) return say('never');
  const how = { dateStyle: 'medium', timeStyle: 'short' };
  return say('last', { when: new Intl.DateTimeFormat(app.state.page, how).format(last) });
}

export function showState() {
  if (!app.work) return;
  const { keeper } = app;
  setText($('kept'), keptLine());
  $('kept').classList.toggle('bad', !keeper.store || keeper.failure !== null);
  const line = exchangedLine();
  setText($('exchanged'), line);
  $('exchanged').title = exchanged.problem ? say(`is_${exchanged.problem}`) : line;
  $('exchanged').classList.toggle('due', exchanged.problem !== null);
  $('exchange').disabled = exchanged.isRunning;
  $('undo').disabled = app.work.done.length === 0;
}

/** How far a clock is off, in words; or null where it is right. */
export function clockWords() {
  const ahead = app.clock.difference();
  if (Math.abs(ahead) <= MOST_DIFFERENCE) return null;
  const minutes = Math.round(Math.abs(ahead) / 60000);
  const [count, unit] = minutes < 120 ? [minutes, 'minute'] : minutes < 2880 ?
    [Math.round(minutes / 60), 'hour'] : [Math.round(minutes / 1440), 'day'];
  const how = { style: 'unit', unit, unitDisplay: 'long' };
  const format = new Intl.NumberFormat(app.state.page, how);
  return say(ahead > 0 ? 'clockAhead' : 'clockBehind', { much: format.format(count) });
}

export function idsOf(kind) {
  const { work, state } = app;
  const { labels } = work;
  const ids = labels.ids();
  if (kind === 'missing') return ids.filter((id) => labels.isMissing(id, state.language));
  if (kind === 'outdated')
    return ids.filter((id) => labels.isOutdated(id, state.language, state.source));
  if (kind === 'came')
    return [...new Set(work.came.map(({ id }) => id))].filter((id) => labels.has(id));
  if (kind === 'typed') return ids.filter((id) => work.isTyping(id, state.language));
  return ids;
}

export function shownKind() {
  return document.querySelector('#shown input:checked').value;
}

export function chooseKind(kind) {
  document.querySelector(`#shown input[value=${kind}]`).checked = true;
}

/** Shows how many messages there are of each kind, and how far the language is. */
export function showCounts() {
  const { work, state } = app;
  const format = new Intl.NumberFormat(state.page);
  const { all, missing, outdated, done } = work.labels.progress(state.language, state.source);
  const typed =
    [...work.drafts.keys()].filter((key) => JSON.parse(key)[1] === state.language).length;
  // (two digits at least, so that the tenth message moves nothing)
  const most = format.format(Math.max(all, 10));
  const counts = { all, missing, outdated, came: idsOf('came').length, typed };
  for (const kind of KINDS) {
    const input = document.querySelector(`#shown input[value=${kind}]`);
    const number = input.parentElement.querySelector('b');
    setAsWide(number, format.format(counts[kind]), most);
    input.parentElement.classList.toggle('empty', counts[kind] === 0);
  }
  const bar = $('progress').querySelector('progress');
  bar.max = Math.max(1, all);
  bar.value = done;
  const [some, whole] = [done, all].map((count) => format.format(count));
  const longest = say('progress', { done: most, all: most });
  setAsWide($('progress-text'), say('progress', { done: some, all: whole }), longest);
  showDone();
}

// ---- Languages

function optionsOf(chosen, isWithCounts) {
  const { labels } = app.work;
  const tags = labels.languages().map(([tag]) => tag);
  if (chosen && !tags.includes(chosen)) tags.push(chosen);
  const named = tags.map((tag) => [tag, languageName(tag)]);
  named.sort(([, one], [, other]) => one.localeCompare(other, app.state.page));
  const all = labels.ids().length;
  const format = new Intl.NumberFormat(app.state.page);
  return named.map(([value, name]) => {
    const done = format.format(labels.countOf(value));
    const textContent =
      isWithCounts ? say('languageOf', { name, done, all: format.format(all) }) : name;
    return made('option', { value, textContent });
  });
}

let languagesShown = '';

/** Shows the languages of the site, to choose from. */
export function showLanguages() {
  for (const name of ['language', 'source']) {
    const another = made('option', { value: ANOTHER, textContent: say('another') });
    $(name).replaceChildren(...optionsOf(app.state[name], name === 'language'), another);
    $(name).value = app.state[name];
  }
  languagesShown = app.work.labels.languages().map(([tag]) => tag).join(' ');
}

// Has the counts in the select of the language follow, and new languages come.
function showDone() {
  const { labels } = app.work;
  if (languagesShown !== labels.languages().map(([tag]) => tag).join(' ')) showLanguages();
  const format = new Intl.NumberFormat(app.state.page);
  const all = format.format(labels.ids().length);
  for (const option of $('language').options) {
    if (option.value === ANOTHER) continue;
    const name = languageName(option.value);
    setText(
      option, say('languageOf', { name, done: format.format(labels.countOf(option.value)), all }));
  }
}

/** Has a select answer a language, or ask for another one. */
export function onLanguage(name, choose, askAnother) {
  $(name).onchange = async () => {
    const tag = $(name).value === ANOTHER ? await askAnother() : $(name).value;
    if (tag === null) $(name).value = app.state[name];
    else choose(name, tag);
  };
}
