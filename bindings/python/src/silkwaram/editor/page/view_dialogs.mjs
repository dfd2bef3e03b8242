// The dialogs: a new message, its note, another language, what a reader gets, the keys, and the key
// of the server.
import { $, app, languageName, made, say, setText, whyOf } from './app.mjs';
import { NOTES } from './labels.mjs';
import { attributeOf, directionOf, knownName, tagMeant } from './languages.mjs';
import { list } from './view_list.mjs';
import { asTyped } from './work.mjs';

/**
 * Has a form's dialog do something before it closes; what it answers keeps it open, and is shown.
 */
function onDialog(dialog, run) {
  const form = dialog.querySelector('form');
  form.onsubmit = (event) => {
    event.preventDefault();
    const why = run(form);
    if (why) setText(form.querySelector('.bad'), why);
    else dialog.close('done');
  };
}

function open(dialog) {
  const said = dialog.querySelector('.bad');
  if (said) said.textContent = '';
  dialog.showModal();
}

/** Has buttons that leave a dialog do so. */
export function beginDialogs() {
  for (const button of document.querySelectorAll('dialog .leave')) {
    button.onclick = () => button.closest('dialog').close();
  }
}

// ---- A new message

/** Asks for a new message; `add` makes it, and answers whether it could. */
export function askNewMessage(add) {
  const dialog = $('new-dialog');
  const form = dialog.querySelector('form');
  const { language, source } = app.state;
  const into = source || language;
  const { id, text } = form.elements;
  $('new-text-label').textContent = say('textIn', { language: languageName(into) });
  text.lang = attributeOf(into);
  text.dir = directionOf(into);
  text.onkeydown = (event) => {
    if (event.key !== 'Enter' || event.shiftKey || event.isComposing) return;
    event.preventDefault();
    form.requestSubmit();
  };
  onDialog(dialog, () => {
    if (app.work.labels.has(id.value)) return say('isThere', { id: id.value });
    try {
      add(id.value, into, text.value);
    } catch (error) {
      return whyOf(error);
    }
    form.reset();
    return null;
  });
  open(dialog);
  id.focus();
}

// ---- A message

/**
 * Shows the note of a message. `does` keeps it or removes the message; where another changed that
 * meanwhile, this is said, and the same button once more decides. `then` comes after it.
 */
export function askMessage(id, does, then) {
  const dialog = $('message-dialog');
  const { note } = dialog.querySelector('form').elements;
  const noteNow = () => app.work.labels.textsOf(id, NOTES)[0] ?? '';
  const allNow = () => JSON.stringify(
    app.work.labels.languagesOf(id).map((it) => [it, app.work.labels.textsOf(id, it)]));
  let [before, all] = [noteNow(), allNow()];
  $('message-title').textContent = id;
  note.value = before;
  const keep = () => {
    if (note.value === asTyped(before)) return null;
    if (noteNow() !== before) {
      before = noteNow();
      const who = app.work.labels.cellOf(id, NOTES).site;
      return `${say('otherText', { who })} ${before || say('nothing')}`;
    }
    does.keepNote(note.value);
    return null;
  };
  const remove = () => {
    if (allNow() !== all) {
      all = allNow();
      return say('messageChanged', { id });
    }
    does.remove();
    return null;
  };
  const orWhy = (run) => () => {
    try {
      return run();
    } catch (error) {
      return whyOf(error);
    }
  };
  onDialog(dialog, orWhy(keep));
  $('remove-message').onclick = () => {
    const why = orWhy(remove)();
    if (why) setText(dialog.querySelector('.bad'), why);
    else dialog.close();
  };
  note.onkeydown = (event) => {
    if (event.key !== 'Enter' || !(event.ctrlKey || event.metaKey)) return;
    event.preventDefault();
    note.form.requestSubmit();
  };
  open(dialog);
  dialog.onclose = then;
}

// ---- Another language

/** Asks for a language by its name or tag. Answers its tag, or null. */
export function askLanguage() {
  const dialog = $('language-dialog');
  const { name } = dialog.querySelector('form').elements;
  let warned = null;
  let chosen = null;
  name.value = '';
  onDialog(dialog, () => {
    const tag = tagMeant(name.value, app.state.page);
    if (tag === null) return say('noSuchLanguage', { name: name.value });
    try {
      app.sw.pick('*', [tag]);
    } catch {
      return say('noSuchLanguage', { name: name.value });
    }
    if (knownName(tag, 'en') === null && warned !== tag) {
      warned = tag;
      return say('unknownLanguage', { tag });
    }
    chosen = tag;
    return null;
  });
  open(dialog);
  return new Promise((resolve) => {
    dialog.onclose = () => resolve(chosen);
  });
}

// ---- What a reader gets

function readerRow(id, label) {
  const name = made('dt', { textContent: id, dir: 'auto' });
  if (label === null)
    return [name, made('dd', { textContent: say('getsNothing'), className: 'hint' })];
  const { language, texts } = label;
  const shown = made(
    'span',
    { lang: attributeOf(language), dir: directionOf(language), textContent: texts.join('\n') });
  return [name, made('dd', {}, shown, made('small', { textContent: languageName(language) }))];
}

function showReader() {
  const { work, state } = app;
  const { field, otherwise, widen } = state;
  const options = { default: otherwise, lenient: true, widen };
  const input = $('reader-field');
  input.setCustomValidity('');
  let bundle = null;
  try {
    // (of its own text, as an id may be `__proto__`)
    bundle = work.site.bundle(field, options);
  } catch (error) {
    input.setCustomValidity(whyOf(error));
    input.reportValidity();
    return;
  }
  const counts = new Map();
  for (const [, label] of Object.entries(bundle)) {
    const [tag] = Object.keys(label);
    counts.set(tag, (counts.get(tag) ?? 0) + 1);
  }
  const found = [...counts].sort(([, one], [, other]) => other - one)
    .map(([tag, count]) => say('nameAndCount', { name: languageName(tag), count }));
  const all = work.labels.ids().length;
  const without = all - [...counts.values()].reduce((sum, it) => sum + it, 0);
  if (without > 0) found.push(say('nameAndCount', { name: say('getsNothing'), count: without }));
  setText($('reader-counts'), found.join(', '));
  const ids = list.last && work.labels.has(list.last) ? [list.last] : list.ids.slice(0, 5);
  $('reader').replaceChildren(
    ...ids.flatMap((id) => readerRow(id, work.site.lookup(id, field, options))));
}

/** Shows what a reader gets: how many messages in which language, and that which was worked at. */
export function openReader(onChange) {
  const { state, work } = app;
  const tags = work.labels.languages().map(([tag]) => tag);
  $('reader-otherwise')
    .replaceChildren(
      ...tags.map((value) => made('option', { value, textContent: languageName(value) })));
  $('reader-field').value = state.field;
  $('reader-otherwise').value = state.otherwise;
  $('reader-widen').checked = state.widen;
  const changed = () => {
    const [field, otherwise] = [$('reader-field').value, $('reader-otherwise').value];
    app.state = { ...state, field, otherwise, widen: $('reader-widen').checked };
    showReader();
    onChange();
  };
  $('reader-field').oninput = changed;
  $('reader-otherwise').onchange = changed;
  $('reader-widen').onchange = changed;
  $('reader-dialog').showModal();
  showReader();
}

// ---- Keys

const KEYS = [
  'Enter', 'Shift+Enter', 'Escape', 'Ctrl+Enter', 'Alt+C', 'Alt+Delete', 'Alt+N', 'Ctrl+Z', '/',
  '?', 'Alt+M',
];

export function openKeys() {
  const rows = KEYS.flatMap(
    (key, at) =>
      [made('dt', {}, made('kbd', { textContent: key, dir: 'ltr' })),
       made('dd', {textContent: say(`key${at}`)}),
  ]);
  $('keys').replaceChildren(...rows);
  $('keys-dialog').showModal();
}

/** Asks for the key of the server. Answers it, or null. */
export function askKey() {
  const dialog = $('key-dialog');
  const { key } = dialog.querySelector('form').elements;
  let given = null;
  onDialog(dialog, () => {
    given = key.value.trim();
    return null;
  });
  open(dialog);
  return new Promise((resolve) => {
    dialog.onclose = () => resolve(given);
  });
}
