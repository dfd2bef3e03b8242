// The page: one site, which is kept in this browser after each edit, and exchanged when there is a
// network.
import { load } from './silkwaram.mjs';
import {
  $, app, hideProblem, languageName, made, notice, placeProblem, say, setText, showProblem, tried,
  whyOf,
} from './app.mjs';
import { Clock } from './clock.mjs';
import { beginExchanges, exchangeNow } from './exchanging.mjs';
import { beginFiles, saveSite } from './files.mjs';
import { directionOf, withoutRegion } from './languages.mjs';
import { Keeper, beOnlyTab, openStore } from './store.mjs';
import { askLanguage, askNewMessage, beginDialogs, openKeys, openReader } from './view_dialogs.mjs';
import { beginList, goTo } from './view_list.mjs';
import { chooseKind, onLanguage, showCounts, showLanguages, showState } from './view_tools.mjs';
import { afterEdit, relist, rowActions, showAnew, undo } from './working.mjs';
import { Work, keyOf } from './work.mjs';
import { WORDS, wordsOf } from './words.mjs';

// How long a pause in typing is, after which a draft is kept.
const PAUSE = 100;

function fillWords() {
  app.say = wordsOf(app.state.page);
  document.documentElement.lang = app.state.page;
  document.documentElement.dir = directionOf(app.state.page);
  for (const it of document.querySelectorAll('[data-word]')) it.textContent = say(it.dataset.word);
  $('find').placeholder = say('find');
  $('open-keys').title = say('keys');
  document.title = app.work ? `${app.work.name} - ${say('labels')}` : say('labels');
  $('page-language').value = app.state.page;
}

// ---- A site

/** Goes on with a work: shows it, keeps it and exchanges. */
function useWork(work, isKept = false) {
  app.work = work;
  work.onEdit = (key, row) => {
    // (who edits is at home in the languages that are shown)
    app.state.isGuess = false;
    app.keeper.edit(key, row);
  };
  work.onMany = () => page.joined();
  work.onCame = () => app.keeper.came(work.came);
  const waits = new Map();
  work.onDraft = (key, draft) => {
    clearTimeout(waits.get(key));
    const keep = () => app.keeper.draft(key, work.draftAt(...JSON.parse(key)));
    if (draft) waits.set(key, setTimeout(keep, PAUSE));
    else keep();
  };
  showWork();
  if (!isKept) app.keeper.all();
  exchangeNow(false);
}

function useSite(site) {
  app.work?.site.close();
  app.state = { ...app.state, last: null, language: null, source: null, otherwise: null };
  $('files-dialog').close();
  useWork(new Work(app.sw, site, app.clock));
}

// The language to edit, and that beside it, where none was chosen. A site without labels says
// nothing of that, so they are chosen once more when labels come.
function chooseLanguages() {
  const tags = app.work.labels.languages().map(([tag]) => tag);
  const reader = navigator.languages.join(', ');
  const own = withoutRegion(navigator.language);
  const first = tags[0] ?? own;
  const { state } = app;
  if (state.isGuess && tags.length > 0) Object.assign(state, { source: null, language: null });
  state.isGuess = tags.length === 0;
  state.source ??= app.sw.pick(reader, tags, { default: first, lenient: true }) ?? first;
  state.language ??= [...tags, own].find((it) => it !== state.source) ?? state.source;
  state.field ??= reader;
  state.otherwise ??= state.source;
}

function showWork() {
  chooseLanguages();
  $('start').hidden = true;
  for (const id of ['work', 'state', 'work-actions', 'menu']) $(id).hidden = false;
  delete $('site-name').dataset.word;
  $('site-name').textContent = app.work.name;
  fillWords();
  showLanguages();
  showCounts();
  relist();
  showState();
  requestAnimationFrame(() => performance.mark('shown'));
}

/** What other parts of the page have it do. */
const page = {
  exchangeNow,
  useSite,
  useWork(work) {
    app.state = { ...app.state, last: null };
    useWork(work);
  },
  /** Labels came by an exchange. */
  came() {
    app.keeper.all();
    if (app.state.isGuess) showWork();
    else showAnew();
  },
  /** Labels came by a file: what is to be sent is not known one by one. */
  joined() {
    app.work.way = null;
    app.keeper.isUnsaved = true;
    page.came();
    relist(false);
    exchangeNow(false);
  },
};

function addMessage(id, language, text) {
  app.work.setTexts(id, language, [text]);
  chooseKind('all');
  $('find').value = '';
  relist(false);
  afterEdit(id);
  notice(say('saved', { id, language: languageName(language) }));
  $('new-dialog').onclose = () => goTo(id);
}

// ---- The page

function listen() {
  $('close-problem').onclick = () => hideProblem();
  $('menu').onclick = () => {
    const isOpen = $('actions').classList.toggle('open');
    $('menu').setAttribute('aria-expanded', String(isOpen));
  };
  $('page-language').onchange = (event) => {
    app.state = { ...app.state, page: event.target.value };
    fillWords();
    if (!app.work) return;
    notice('');
    showWork();
    app.keeper.state(app.state);
  };
  $('new-site').onsubmit = (event) => {
    event.preventDefault();
    tried(() => useSite(app.sw.Site.new(event.target.elements.name.value)));
  };
  for (const button of [$('open-new'), $('none').lastElementChild])
    button.onclick = () => askNewMessage(addMessage);
  $('open-reader').onclick = () => openReader(() => app.keeper.state(app.state));
  $('open-keys').onclick = openKeys;
  $('undo').onclick = undo;
  const choose = (name, tag) => {
    app.state = { ...app.state, [name]: tag, isGuess: false };
    showLanguages();
    showCounts();
    relist();
    app.keeper.state(app.state);
  };
  for (const name of ['language', 'source']) onLanguage(name, choose, askLanguage);
  $('find').oninput = () => relist();
  $('shown').onchange = () => relist();
  for (const name of ['focusin', 'input']) document.addEventListener(name, placeProblem);
  document.onkeydown = onKey;
  addEventListener('beforeunload', (event) => {
    const { keeper, work } = app;
    // (a write that has begun is done without the page)
    const isLost = keeper.store ? keeper.failure : keeper.isUnsaved || (work?.typing() ?? 0) > 0;
    if (work && isLost) event.preventDefault();
  });
  addEventListener('pagehide', keepDrafts);
  document.addEventListener('visibilitychange', () => document.hidden && keepDrafts());
}

function keepDrafts() {
  for (const [key, typed] of app.work?.drafts ?? []) {
    for (const [place, draft] of typed) app.keeper.draft(keyOf(...JSON.parse(key), place), draft);
  }
}

function onKey(event) {
  if (!app.work || document.querySelector('dialog[open]')) return;
  const isInField = event.target.closest('input, textarea, select');
  const run = event.altKey && event.code === 'KeyN' ? () => askNewMessage(addMessage) :
    (event.ctrlKey || event.metaKey) && !event.shiftKey && event.code === 'KeyZ' && !isTypedIn(event.target) ? undo :
      isInField ? null : { '/': () => $('find').focus(), '?': openKeys }[event.key];
  if (!run) return;
  event.preventDefault();
  run();
}

// Whether a field has text of its own to take back.
function isTypedIn(field) {
  const row = field.closest('.row');
  if (row) return app.work.isTyping(row.label, app.state.language);
  return field.matches('input, textarea') && field.value !== '';
}

function draftsOf(kept) {
  const drafts = new Map();
  for (const [key, draft] of kept) {
    const [id, language, place] = JSON.parse(key);
    const of = keyOf(id, language);
    drafts.set(of, (drafts.get(of) ?? new Map()).set(place, draft));
  }
  return drafts;
}

// The work as it was kept: the document, and the edits since it was written.
function workOf({ site: document, came, edits, unsent, drafts }) {
  const site = app.sw.Site.open(document);
  const { site: name } = site.status();
  for (const row of edits.values()) {
    site.take(`{"cells":[${row}],"kind":"delta","to":${JSON.stringify(name)},"version":2}`);
  }
  const work = new Work(app.sw, site, app.clock);
  work.unsent = unsent;
  work.drafts = draftsOf(drafts);
  work.came = came ?? [];
  return work;
}

async function openKeeper() {
  let store = null;
  try {
    const waiting = () => {
      setText($('site-name'), say('otherTab'));
      $('bar').hidden = false;
    };
    if (await beOnlyTab(waiting)) store = await openStore();
  } catch (error) {
    console.warn(error);
  }
  const drafts = () => [...app.work.drafts].flatMap(([key, typed]) =>
    [...typed].map(([place, draft]) => [keyOf(...JSON.parse(key), place), draft]));
  app.keeper = new Keeper(store, () => ({
    site: app.work.site.toBytes(), state: app.state, came: app.work.came,
    unsent: app.work.unsent, drafts: drafts(),
  }));
  app.keeper.onChange = () => {
    showState();
    if (app.keeper.failure) showProblem(say('notKept'), [['saveSite', saveSite]], 'keeping');
    else hideProblem('keeping');
  };
  return store ? store.read() : {};
}

async function begin() {
  const pages = Object.keys(WORDS);
  for (const value of pages) {
    const option = made('option', { value, lang: value, textContent: WORDS[value].own });
    $('page-language').append(option);
  }
  app.sw = await load();
  const reader =
    app.sw.pick(navigator.languages.join(', '), pages, { default: pages[0], lenient: true });
  app.state.page = reader ?? pages[0];
  fillWords();
  const kept = await openKeeper();
  app.state = { ...app.state, ...kept.state };
  if (!pages.includes(app.state.page)) app.state.page = pages[0];
  app.clock = new Clock(app.state.heard);
  const given = /^#key=([A-Za-z0-9]{1,255})$/.exec(location.hash);
  if (given) {
    app.state.key = given[1];
    history.replaceState(null, '', location.pathname);
  }
  setText($('site-name'), say('labels'));
  fillWords();
  listen();
  beginDialogs();
  beginFiles(page);
  beginList(rowActions);
  beginExchanges(page);
  if (kept.site) {
    const work = workOf(kept);
    useWork(work, kept.edits.size === 0);
  } else {
    $('start').hidden = false;
    document.querySelector('#new-site input').focus();
  }
  // (once all of it is there)
  $('bar').hidden = false;
  if (!app.keeper.store) showProblem(say('noStoreHere'), [], 'store');
  else if ((await navigator.storage?.persist?.()) === false) notice(say('mayGo'));
  if (!app.keeper.store) document.querySelector('#problem').dataset.kind = 'store';
}

if ('serviceWorker' in navigator) navigator.serviceWorker.register('offline.js').catch(() => {});
begin().catch((error) => showProblem(whyOf(error), app.work ? [['saveSite', saveSite]] : []));
