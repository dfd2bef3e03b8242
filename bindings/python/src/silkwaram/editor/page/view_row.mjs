// One message in the list: its name, its source and notes, and the fields of its translation.
import { app, languageName, made, say, setText } from './app.mjs';
import { FLAGS } from './labels.mjs';
import { attributeOf, directionOf } from './languages.mjs';
import { differencesAt, isCompared } from './placeholders.mjs';
import { shownKind } from './view_tools.mjs';

const hasSizing = CSS.supports('field-sizing', 'content');
let numbers = 0;

/**
 * Has fields as high as their texts. All are measured at once, as each height lays out the page
 * anew.
 */
export function fitHeights(texts) {
  if (hasSizing) return;
  const all = [...texts];
  for (const text of all) text.style.height = 'auto';
  const heights = all.map((text) => text.scrollHeight);
  all.forEach((text, at) => {
    text.style.height = `${heights[at] + 2}px`;
  });
}

/** The languages of what is shown beside a message. */
function sourceOf(id) {
  const { labels } = app.work;
  const { language, source } = app.state;
  if (labels.textsOf(id, source).length > 0) return source;
  if (source === language) return source;
  return labels.firstOf(id) ?? source;
}

function actionOf(word, run, keys) {
  const button = made(
    'button',
    { type: 'button', textContent: say(word), tabIndex: -1, onclick: run, className: word });
  button.setAttribute('aria-keyshortcuts', keys);
  return button;
}

/**
 * A row for a message. `does` is what a row is for: type, leave, key, confirm, copy, remove, more,
 * putBack.
 */
export function makeRow(id, does) {
  const number = (numbers += 1);
  const row = made('li', { className: 'row' });
  row.label = id;
  const line = (className) => made('p', { className, id: `${className}-${number}` });
  const others = made('div', { className: 'others', id: `others-${number}` });
  others.setAttribute('role', 'status');
  row.append(
    made(
      'div', { className: 'about' },
      made(
        'div', { className: 'name' }, made('h3', {}, made('bdi', { textContent: id })),
        actionOf('more', () => does.more(row), 'Alt+M')),
      line('source'), line('note')),
    made(
      'div', { className: 'translation' },
      made('div', { className: 'writing' }, made('div', { className: 'texts' }), others),
      made('div', { className: 'former', hidden: true }),
      made(
        'div', { className: 'row-actions' },
        made('div', { className: 'said' }, line('warning'), line('mark'), line('who')),
        actionOf('stillRight', () => does.confirm(row), 'Control+Enter'),
        actionOf('copySource', () => does.copy(row), 'Alt+C'),
        actionOf('remove', () => does.remove(row), 'Alt+Delete'))),
  );
  row.number = number;
  row.does = does;
  updateRow(row);
  return row;
}

function makeText(row, place) {
  const { does, number } = row;
  const text = made('textarea', { rows: 1, spellcheck: true });
  text.place = place;
  text.setAttribute(
    'aria-describedby',
    ['source', 'mark', 'note', 'warning', 'others'].map((it) => `${it}-${number}`).join(' '));
  text.oninput = () => does.type(row, text);
  text.onchange = () => does.leave(row);
  text.onkeydown = (event) => does.key(event, row, text);
  return text;
}

/** The name of one of several texts: that of a plural form, or its place. */
function nameOfText(id, count, place) {
  const known = { id, language: languageName(app.state.language), place: place + 1, count };
  return say(count > 1 ? 'textAt' : 'textOf', known);
}

// Shows what another wrote while something else was typed. It lies over what is below the fields of
// the row that one is at, and has room of its own in the others (working.mjs).
function showOthers(row, count) {
  const { language } = app.state;
  const box = row.querySelector('.others');
  const who = app.work.labels.cellOf(row.label, language)?.site ?? '';
  const others = [...Array(count).keys()]
    .map((place) => [place, app.work.otherAt(row.label, language, place)])
    .filter(([, other]) => other !== null);
  const shown = JSON.stringify([app.state.page, who, others]);
  if (box.shown === shown) return;
  box.shown = shown;
  box.replaceChildren(...others.map(([place, other]) => {
    const number = count > 1 ? `${place + 1}. ` : '';
    return made(
      'p', { className: 'other' }, made('b', { textContent: number + say('otherText', { who }) }),
      made('bdi', { textContent: other || say('nothing'), lang: attributeOf(language) }),
      made('small', { textContent: say('otherHint') }));
  }));
  // (below the fields that one is at it could be under the foot of the page)
  if (others.length > 0 && row.contains(document.activeElement))
    box.scrollIntoView({ block: 'nearest' });
}

// Shows, where what came from others is listed, the text in whose place it came.
function showFormer(row) {
  const { language } = app.state;
  const box = row.querySelector('.former');
  const came = shownKind() === 'came' ? app.work.cameAt(row.label, language) : null;
  const isThere = came !== null && came.before.length > 0;
  const shown = isThere ? JSON.stringify([app.state.page, came]) : '';
  box.hidden = !isThere;
  if (box.shown === shown) return;
  box.shown = shown;
  if (!isThere) return;
  const isMine = came.was === app.work.name;
  const button = actionOf(isMine ? 'takeMine' : 'putBack', () => row.does.putBack(row), '');
  button.removeAttribute('aria-keyshortcuts');
  box.replaceChildren(
    made('b', { textContent: say(isMine ? 'mineWas' : 'theirsWas', { who: came.was }) }),
    made('bdi', { textContent: came.before.join('\n'), lang: attributeOf(language) }), button);
}

/** What is wrong with the placeholders of the fields of a message, in words. */
function placeholderWarning(id, fields) {
  const { labels } = app.work;
  const { language } = app.state;
  const source = sourceOf(id);
  const beside = labels.textsOf(id, source);
  if (source === language || beside.length === 0) return '';
  if (!isCompared(labels.textsOf(id, FLAGS))) return '';
  const texts = fields.map(({ place }) => app.work.shownAt(id, language, place));
  while (texts.at(-1) === '') texts.pop();
  return texts.flatMap((text, place) => {
    if (text === '') return [];
    const { lacks, hasBeside } = differencesAt(beside, texts, place, language);
    return [
      lacks.length > 0 ? say('lacks', { what: lacks.join(' ') }) : '',
      hasBeside.length > 0 ? say('hasBeside', { what: hasBeside.join(' ') }) : '',
    ];
  }).filter(Boolean).join(' ');
}

function whenOf(time) {
  const format = new Intl.DateTimeFormat(app.state.page, { dateStyle: 'medium' });
  return time < 8.64e15 ? format.format(time) : '';
}

/** Shows the words beside the fields, which change while something is typed. */
export function updateMarks(row) {
  const { labels } = app.work;
  const { language, source } = app.state;
  const id = row.label;
  const isTyped = app.work.isTyping(id, language);
  const kind = isTyped ? 'isTyped' : labels.isMissing(id, language) ? 'isMissing' :
    labels.isOutdated(id, language, source) ? 'isOutdated' : null;
  setText(row.querySelector('.mark'), kind ? say(kind) : '');
  row.dataset.mark = kind ?? '';
  const texts = row.querySelectorAll('textarea');
  const warning = placeholderWarning(id, [...texts]);
  setText(row.querySelector('.warning'), warning);
  showOthers(row, texts.length);
  const cell = labels.cellOf(id, language);
  const who =
    cell ? say(cell.texts ? 'by' : 'removedBy', { who: cell.site, when: whenOf(cell.time) }) : '';
  setText(row.querySelector('.who'), who);
  // (one of them, in the room that is kept for it: the fields stay where they are)
  const isGone = kind === 'isMissing' && who !== '';
  const said = warning ? 'warning' : kind && !isGone ? 'mark' : 'who';
  for (const it of row.querySelector('.said').children) it.hidden = it.className !== said;
  const beside = labels.textsOf(id, sourceOf(id));
  row.querySelector('.stillRight').hidden = kind !== 'isOutdated';
  row.querySelector('.copySource').hidden =
    !labels.isMissing(id, language) || isTyped || beside.length === 0;
  row.querySelector('.remove').hidden = !cell?.texts;
}

/** Shows in a row what the site has; what is being typed stays. */
export function updateRow(row) {
  const { labels } = app.work;
  const { language } = app.state;
  const id = row.label;
  const shown = sourceOf(id);
  const beside = labels.textsOf(id, shown);
  const held = labels.textsOf(id, language);
  const typed = app.work.drafts.get(JSON.stringify([id, language]));
  const most = typed ? Math.max(...typed.keys()) + 1 : 0;
  const box = row.querySelector('.texts');
  const texts = [...box.querySelectorAll('textarea')];
  // (a field that one is at stays)
  const at = texts.indexOf(document.activeElement) + 1;
  const count = Math.max(1, held.length, most, at, shown === language ? 0 : beside.length);
  while (texts.length > count) texts.pop().remove();
  while (texts.length < count) {
    texts.push(makeText(row, texts.length));
    box.append(texts.at(-1));
  }
  const changed = [];
  for (const text of texts) {
    text.lang = attributeOf(language);
    text.dir = directionOf(language);
    text.setAttribute('aria-label', nameOfText(id, count, text.place));
    const wanted = app.work.shownAt(id, language, text.place);
    if (text.value !== wanted) {
      text.value = wanted;
      changed.push(text);
    }
  }
  if (row.isConnected) fitHeights(changed);
  showSource(row, shown, beside);
  const note = labels.notesOf(id, language).join('\n');
  setText(row.querySelector('.note'), note);
  showFormer(row);
  updateMarks(row);
  for (const it of row.querySelectorAll('button')) {
    const known = { id, language: languageName(language) };
    it.setAttribute('aria-label', say(`${it.className}Of`, known));
  }
}

function showSource(row, language, beside) {
  const source = row.querySelector('.source');
  const isOwn = language === app.state.language;
  source.hidden = isOwn;
  const has = beside.length > 0;
  source.lang = has ? attributeOf(language) : app.state.page;
  source.dir = directionOf(has ? language : app.state.page);
  source.classList.toggle('hint', !has);
  const isOther = has && language !== app.state.source;
  const text =
    has ? beside.join('\n') : say('noSource', { language: languageName(app.state.source) });
  setText(source, isOther ? `${text} (${languageName(language)})` : text);
}

