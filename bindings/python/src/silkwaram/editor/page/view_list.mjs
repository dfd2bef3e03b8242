// The list of messages. Only the rows near the window are in the page, between two spaces that are
// as high as the rows before and after them.
import { $, app, say, setText } from './app.mjs';
import { fitHeights, makeRow, updateRow } from './view_row.mjs';

// Rows beside the window that are made too, and what a row is taken to be high before it was seen.
const BESIDE = 8;
const FIRST_HEIGHT = 96;

const doesAnchor = CSS.supports('overflow-anchor', 'auto');

export const list = {
  /** The messages that are listed, in their order. */
  ids: [],
  /** The message whose field had the focus last. */
  last: null,
};

let does = {};
const rows = new Map();
const heights = new Map();
let places = new Map();
let before, after;
// What a row is taken to be high that was not seen, once there are some: another height each time
// would move what is shown.
let usual = null;
// Room above the first row, where rows got lower above what has to stay and nothing is to scroll.
let lead = 0;

const sizes = new ResizeObserver((entries) => {
  for (const { target } of entries) heights.set(target.label, target.offsetHeight);
});

function spacer() {
  const element = document.createElement('li');
  element.className = 'space';
  element.setAttribute('role', 'presentation');
  element.setAttribute('aria-hidden', 'true');
  return element;
}

/** What a row does, and that rows come and go as the window is moved. */
export function beginList(actions) {
  does = actions;
  before = spacer();
  after = spacer();
  $('list').replaceChildren(before, after);
  let isDue = false;
  const onMove = () => {
    if (isDue) return;
    isDue = true;
    requestAnimationFrame(() => {
      isDue = false;
      if (app.work) renderRows();
    });
  };
  addEventListener('scroll', onMove, { passive: true });
  addEventListener('resize', () => {
    // (the heights of rows that are not there stay as good a guess as any)
    fitHeights($('list').querySelectorAll('textarea'));
    onMove();
  });
  $('list').addEventListener('focusin', ({ target }) => beAt(target.closest('.row')));
  $('list').addEventListener('focusout', ({ relatedTarget }) => {
    if (document.hasFocus() && !relatedTarget?.closest('.row')) beAt(null);
  });
}

// The row that one is at, where what another wrote lies over what is below the fields.
function beAt(row) {
  const former = $('list').querySelector('.row.here');
  if (row) list.last = row.label;
  if (row === former) return;
  holding(() => {
    former?.classList.remove('here');
    row?.classList.add('here');
  });
}

function usualHeight() {
  if (usual === null && heights.size > 0) {
    usual = 0;
    for (const it of heights.values()) usual += it / heights.size;
  }
  return usual ?? FIRST_HEIGHT;
}

function heightBefore(at) {
  const known = usualHeight();
  let height = lead;
  for (let it = 0; it < at; it += 1) height += heights.get(list.ids[it]) ?? known;
  return height;
}

// ---- What is seen stays where it is

const topOf = (element) => element.getBoundingClientRect().top;

// The rows that are seen, each with how far down it is.
function seenRows() {
  const head = $('tools').getBoundingClientRect().bottom;
  return [...rows]
    .filter(([, row]) => !row.classList.contains('aside'))
    .map(([id, row]) => [id, topOf(row)])
    .filter(([, top]) => top >= head && top < innerHeight)
    .sort(([, one], [, other]) => one - other);
}

// Has what has moved on the screen be where it was.
function stay(moved) {
  if (Math.abs(moved) < 1) return;
  const wanted = scrollY + moved;
  if (wanted >= 0) {
    // (a page that was no higher than the window has nothing to scroll)
    const height = wanted + innerHeight;
    const { body, documentElement } = document;
    if (documentElement.scrollHeight < height) body.style.minHeight = `${height}px`;
    scrollTo({ top: wanted });
  } else {
    lead -= wanted;
    before.style.height = `${parseFloat(before.style.height) - wanted}px`;
  }
}

/**
 * Changes rows, and has the field that one is at stay where it is on the screen, or else the first
 * row that is seen. What grew above it is scrolled away.
 */
export function holding(run) {
  const { activeElement } = document;
  const field = activeElement.closest('.row:not(.aside)') ? activeElement : null;
  const [[id, seen] = []] = field ? [] : seenRows();
  const held = field ?? rows.get(id);
  const top = field ? topOf(field) : seen;
  run();
  if (held?.isConnected) stay(topOf(held) - top);
}

// The places of the first row and after the last that are to be there, and how high all before and
// after them are.
function wantedRows(known) {
  const top = -topOf($('list')) - lead;
  const heightAt = (at) => heights.get(list.ids[at]) ?? known;
  let first = 0;
  let above = 0;
  while (first < list.ids.length && above + heightAt(first) < top) above += heightAt(first++);
  let end = first;
  for (let height = above; end < list.ids.length && height < top + innerHeight; end += 1) {
    height += heightAt(end);
  }
  for (let at = 0; at < BESIDE && first > 0; at += 1) above -= heightAt(--first);
  end = Math.min(list.ids.length, end + BESIDE);
  let below = 0;
  for (let at = end; at < list.ids.length; at += 1) below += heightAt(at);
  return { first, end, above, below };
}

/** Makes the rows that are near the window, and takes others away. */
export function renderRows() {
  // (rows above that were never seen are not as high as was thought, which most browsers mind)
  if (doesAnchor) renderWanted();
  else holding(renderWanted);
}

function renderWanted() {
  const { first, end, above, below } = wantedRows(usualHeight());
  const wanted = new Set(list.ids.slice(first, end));
  const focused = document.activeElement?.closest('.row') ?? null;
  for (const [id, row] of rows) {
    // (the one that is typed in stays, out of sight)
    const isKept = row === focused && !wanted.has(id);
    row.classList.toggle('aside', isKept);
    if (wanted.has(id) || isKept) continue;
    sizes.unobserve(row);
    row.remove();
    rows.delete(id);
  }
  before.style.height = `${lead + above}px`;
  after.style.height = `${below}px`;
  const fresh = [];
  let next = before;
  for (let at = first; at < end; at += 1) {
    const id = list.ids[at];
    let row = rows.get(id);
    if (!row) {
      rows.set(id, (row = makeRow(id, does)));
      row.setAttribute('aria-setsize', list.ids.length);
      row.setAttribute('aria-posinset', at + 1);
      fresh.push(row);
    }
    if (next.nextElementSibling !== row) next.after(row);
    next = row;
  }
  fitHeights(fresh.flatMap((row) => [...row.querySelectorAll('textarea')]));
  for (const row of fresh) {
    // (known at once, as the next rows that are wanted go by it)
    heights.set(row.label, row.offsetHeight);
    sizes.observe(row);
  }
}

/** Lists messages anew, from the top or so that the first one that is seen stays. */
export function showList(ids, isFromTop) {
  const { activeElement } = document;
  const seen = isFromTop ? [] : seenRows();
  list.ids = ids;
  places = new Map(ids.map((id, at) => [id, at]));
  for (const row of rows.values()) {
    sizes.unobserve(row);
    row.remove();
  }
  rows.clear();
  if (isFromTop) {
    lead = 0;
    usual = null;
    document.body.style.minHeight = '';
    scrollTo({ top: 0 });
  }
  const [id, top] = seen.find(([it]) => places.has(it)) ?? [];
  if (id !== undefined) {
    after.style.height = `${heightBefore(ids.length) + innerHeight}px`;
    scrollTo({ top: scrollY + topOf($('list')) + heightBefore(places.get(id)) - top });
  }
  renderRows();
  if (id !== undefined) stay(topOf(rows.get(id)) - top);
  if (activeElement && !activeElement.isConnected) $('list').focus({ preventScroll: true });
}

/** Shows what the site has by now, in the rows that are there. */
export function updateRows(id = null) {
  if (id !== null) {
    if (rows.has(id)) updateRow(rows.get(id));
    return;
  }
  for (const row of rows.values()) updateRow(row);
}

export function rowOf(id) {
  return rows.get(id) ?? null;
}

/** Goes to a field of a message that is listed. */
export function goTo(id, place = 0) {
  const at = places.get(id);
  if (at === undefined) return false;
  if (!rows.has(id)) {
    scrollTo({ top: scrollY + topOf($('list')) + heightBefore(at) - innerHeight / 2 });
    renderRows();
  }
  const texts = rows.get(id).querySelectorAll('textarea');
  (texts[place] ?? texts[0]).focus();
  return true;
}

/** Goes from a field to the next one, or the one before. Whether there is one. */
export function goFrom(row, text, step) {
  const texts = [...row.querySelectorAll('textarea')];
  const beside = texts[texts.indexOf(text) + step];
  if (beside) {
    beside.focus();
    return true;
  }
  const id = list.ids[places.get(row.label) + step];
  if (id === undefined) return false;
  return goTo(
    id, step > 0 ? 0 : Math.max(0, (rowOf(id)?.querySelectorAll('textarea').length ?? 1) - 1));
}

/** What is said where no message is listed. */
export function showNone(word) {
  $('none').hidden = list.ids.length > 0;
  setText($('none').firstElementChild, word ? say(word) : '');
  $('none').lastElementChild.hidden = word !== 'none';
}
