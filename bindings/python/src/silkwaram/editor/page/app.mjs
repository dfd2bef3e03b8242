// What the parts of the page share: the site and the work at it, the words, and what is said at the
// foot of the page.
import { NOTES } from './labels.mjs';
import { nameOf } from './languages.mjs';
import { wordsOf } from './words.mjs';

export const $ = (id) => document.getElementById(id);

export const app = {
  sw: null,
  /** The work at the site, or null at the start. */
  work: null,
  keeper: null,
  clock: null,
  /** What the page shows, which is kept: its language, those of the work, and the last exchange. */
  state: {
    page: null,
    language: null,
    source: null,
    isGuess: false,
    field: null,
    otherwise: null,
    widen: false,
    last: null,
    heard: null,
    key: '',
  },
  say: wordsOf('en'),
};

export function say(name, known) {
  return app.say(name, known);
}

/** What a language is called on this page. */
export function languageName(tag) {
  if (tag === '@none') return say('noLanguage');
  if (tag === NOTES) return say('note');
  const name = nameOf(tag, app.state.page);
  return name === tag ? say('lang', { language: tag }) : name;
}

/** Sets a text where it says something else: a line that is read aloud changes only then. */
export function setText(element, text) {
  if (element.textContent !== text) element.textContent = text;
}

/** Sets a text with room for the longest that will be there, so that what is beside it stays. */
export function setAsWide(element, text, longest) {
  setText(element, text);
  setText(element.nextElementSibling, longest);
}

/** An element with its properties, and what is in it. */
export function made(name, properties = {}, ...inside) {
  const element = Object.assign(document.createElement(name), properties);
  element.append(...inside);
  return element;
}

// ---- The foot of the page

export function notice(text) {
  setText($('notice'), text);
}

let shown = '';

/**
 * Puts what is wrong at the foot of the page or, where that would cover the field that is typed in,
 * at its head: the page below it never moves.
 */
export function placeProblem() {
  const box = $('problem');
  const field = document.activeElement;
  if (box.hidden || !field.matches('input, textarea, select')) return;
  const { top, bottom } = field.getBoundingClientRect();
  const covers = (isAbove) => {
    box.classList.toggle('above', isAbove);
    const own = box.getBoundingClientRect();
    return own.top < bottom && top < own.bottom;
  };
  if (covers(false) && covers(true)) box.classList.remove('above');
}

/** Says what is wrong and what to do, with buttons for that: each a word and what it does. */
export function showProblem(text, actions = [], kind = '') {
  shown = kind;
  setText($('problem').firstElementChild, text);
  const buttons = actions.map(
    ([word, onclick]) => made('button', { type: 'button', onclick, textContent: say(word) }));
  $('problem').children[1].replaceChildren(...buttons);
  $('problem').hidden = false;
  placeProblem();
}

/** Takes away what was said, or that of one kind. */
export function hideProblem(kind = null) {
  if (kind !== null && kind !== shown) return;
  $('problem').hidden = true;
}

/** What a refusal says to a person. */
export function whyOf(error) {
  if (error.name !== 'Refused') return say('failed', { why: error.message });
  const { number } = error;
  return app.say.has(`refused${number}`) ? say(`refused${number}`) :
                                           say('refused', { why: error.message });
}

/** Runs what may be refused, and says so. Returns whether it was done. */
export function tried(run) {
  try {
    run();
    hideProblem('');
    return true;
  } catch (error) {
    showProblem(whyOf(error));
    return false;
  }
}

/**
 * Asks what to do, with a list of what it is about. Answers the word that was chosen, or null.
 */
export function ask(text, words, listed = []) {
  const dialog = $('ask-dialog');
  $('ask-text').textContent = text;
  $('ask-list').replaceChildren(...listed);
  dialog.returnValue = '';
  const buttons = words.map((word, at) =>
    made('button', { value: word, textContent: say(word), className: at === 0 ? 'main' : '' }));
  dialog.querySelector('.actions').replaceChildren(...buttons);
  dialog.showModal();
  return new Promise((resolve) => {
    dialog.onclose = () => resolve(dialog.returnValue || null);
  });
}
