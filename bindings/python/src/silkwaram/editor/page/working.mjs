// The work in the list: what is listed, and what keys and buttons of a row do.
import { $, app, languageName, notice, say, tried } from './app.mjs';
import { exchangeSoon } from './exchanging.mjs';
import { NOTES } from './labels.mjs';
import { askMessage } from './view_dialogs.mjs';
import { goFrom, goTo, holding, list, showList, showNone, updateRows } from './view_list.mjs';
import { fitHeights, updateMarks } from './view_row.mjs';
import { idsOf, showCounts, showState, shownKind } from './view_tools.mjs';

/** Lists what is shown and looked for. */
export function relist(isFromTop = true) {
  const wanted = $('find').value.trim().toLowerCase();
  const kind = shownKind();
  const ids = idsOf(kind).filter((id) => wanted === '' || app.work.labels.fits(id, wanted));
  showList(ids, isFromTop);
  const isEmpty = app.work.labels.ids().length === 0;
  showNone(isEmpty ? 'none' : wanted ? 'noneFound' : `none_${kind}`);
}

/** Shows what came: the list is listed anew only where nobody is at work in it. */
export function showAnew() {
  showCounts();
  if ($('list').contains(document.activeElement)) holding(() => updateRows());
  else relist(false);
}

export function afterEdit(id) {
  updateRows(id);
  showCounts();
  showState();
  exchangeSoon();
}

// What a row does.
export const rowActions = {
  type(row, text) {
    const before = app.work.typing();
    app.work.type(row.label, app.state.language, text.place, text.value);
    fitHeights([text]);
    updateMarks(row);
    if (app.work.typing() !== before) showCounts();
  },
  leave(row) {
    // (what another wrote meanwhile is decided on by Enter alone)
    const texts = [...row.querySelectorAll('textarea')];
    const isDecided = texts.every(({ place }) =>
      app.work.otherAt(row.label, app.state.language, place) === null);
    if (isDecided) commit(row);
  },
  confirm(row) {
    const id = row.label;
    if (app.work.isTyping(id, app.state.language) && commit(row) === 'changed') return;
    if (!tried(() => app.work.confirm(id, app.state.language))) return;
    notice(say('confirmed', { id, language: languageName(app.state.language) }));
    afterEdit(id);
  },
  copy(row) {
    const { labels } = app.work;
    const source = labels.textsOf(row.label, app.state.source).length > 0 ?
      app.state.source :
      labels.firstOf(row.label);
    labels.textsOf(row.label, source)
      .forEach((text, place) => app.work.type(row.label, app.state.language, place, text));
    updateRows(row.label);
    showCounts();
    row.querySelector('textarea').focus();
  },
  remove(row) {
    const id = row.label;
    app.work.discard(id, app.state.language);
    if (!tried(() => app.work.setTexts(id, app.state.language, []))) return;
    notice(say('removed', { id, language: languageName(app.state.language) }));
    afterEdit(id);
    row.querySelector('textarea').focus();
  },
  putBack(row) {
    const id = row.label;
    if (!tried(() => app.work.putBack(id, app.state.language))) return;
    notice(say('saved', { id, language: languageName(app.state.language) }));
    afterEdit(id);
    row.querySelector('textarea').focus();
  },
  more(row) {
    const id = row.label;
    const at = list.ids.indexOf(id);
    const beside = list.ids[at + 1] ?? list.ids[at - 1];
    const { work } = app;
    const does = {
      keepNote(text) {
        const others = work.labels.textsOf(id, NOTES).slice(1);
        if (!work.setTexts(id, NOTES, [text, ...others])) return;
        notice(say(text ? 'saved' : 'removed', { id, language: say('note') }));
        afterEdit(id);
      },
      remove() {
        work.removeMessage(id);
        notice(say('removed', { id, language: say('allLanguages') }));
        relist(false);
        afterEdit(id);
      },
    };
    askMessage(id, does, () => goTo(id) || goTo(beside));
  },
  key(event, row, text) {
    if (event.isComposing) return;
    const step = { ArrowDown: 1, ArrowUp: -1 }[event.key];
    if (event.key === 'Enter' && (event.ctrlKey || event.metaKey)) {
      event.preventDefault();
      rowActions.confirm(row);
      goFrom(row, text, 1);
    } else if (event.key === 'Enter' && !event.shiftKey) {
      event.preventDefault();
      if (commit(row) !== 'changed' && $('problem').dataset.refused !== row.label)
        goFrom(row, text, 1);
    } else if (event.key === 'Escape') {
      app.work.discard(row.label, app.state.language, text.place);
      updateRows(row.label);
      showCounts();
    } else if (step && event.altKey) {
      event.preventDefault();
      goFrom(row, text, step);
    } else if (event.altKey && event.code === 'KeyC') {
      event.preventDefault();
      rowActions.copy(row);
    } else if (event.altKey && event.code === 'KeyM') {
      event.preventDefault();
      rowActions.more(row);
    } else if (event.altKey && event.key === 'Delete') {
      event.preventDefault();
      rowActions.remove(row);
    } else {
      return;
    }
    event.stopPropagation();
  },
};

// Makes an edit of what was typed in a row. Answers what came of it, or `refused`.
function commit(row) {
  const id = row.label;
  const { language } = app.state;
  let is = 'refused';
  $('problem').dataset.refused = '';
  const before = app.work.labels.textsOf(id, language);
  const isDone = tried(() => {
    is = app.work.commit(id, language);
  });
  if (!isDone) $('problem').dataset.refused = id;
  if (is === 'changed') {
    notice(say('changedMeanwhile', { id }));
    row.querySelector('.others').scrollIntoView({ block: 'nearest' });
  }
  if (is === 'kept') {
    const after = app.work.labels.textsOf(id, language);
    notice(say(after.length === 0 ? 'removed' : 'saved', { id, language: languageName(language) }));
    if (before.length === 0 || after.length === 0) list.last = id;
    afterEdit(id);
  } else if (is !== 'refused') {
    updateRows(id);
    showCounts();
  }
  return is;
}

export function undo() {
  let undone = null;
  if (!tried(() => (undone = app.work.undo()))) return;
  if (undone === null) return;
  const { id, labels, is } = undone;
  if (id === null) {
    notice(say(is === 'undone' ? 'takenBack' : 'notTakenBack', { count: labels.length }));
    relist(false);
    showState();
    return;
  }
  const isOne = labels.length === 1;
  const language = isOne ? languageName(labels[0].language) : say('allLanguages');
  notice(say(is, { id, language }));
  if (!list.ids.includes(id)) relist(false);
  afterEdit(id);
}
