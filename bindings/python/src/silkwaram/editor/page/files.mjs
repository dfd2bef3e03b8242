// Files that are saved and taken: sites, language maps, PO files; and a site that begins anew.
import {
  $, app, ask, hideProblem, languageName, made, notice, say, setText, showProblem, whyOf,
} from './app.mjs';

const PO = 'text/x-gettext-translation';
const LARGEST = 64 * 1024 * 1024;
// The member of language maps that says which of those that went out they are. (A reader of
// language maps passes over a name that begins with "@".)
const SENT = '@sent';
const MOST_LISTED = 200;

export function save(name, content, type = 'application/json') {
  const link = document.createElement('a');
  link.href = URL.createObjectURL(new Blob([content], { type }));
  link.download = name;
  link.click();
  setTimeout(() => URL.revokeObjectURL(link.href), 60000);
}

export function saveSite() {
  save(`${app.work.name}.json`, app.work.site.toBytes());
  app.keeper.isUnsaved = false;
}

async function fileOf(input) {
  const [file] = input.files;
  if (file && file.size > LARGEST) throw new Error(say('fileTooLarge'));
  const bytes = file && new Uint8Array(await file.arrayBuffer());
  input.value = '';
  return bytes;
}

function onFile(input, run) {
  input.onchange = async () => {
    try {
      const bytes = await fileOf(input);
      if (bytes) await run(bytes);
    } catch (error) {
      const isForm = error.name === 'Refused' && [18, 19, 20, 28].includes(error.number);
      showProblem(isForm ? say('noSiteFile') : whyOf(error));
    }
  };
}

// A file of a colleague is taken in under one's own name, so that no two edit under one.
async function openSite(bytes, page) {
  const opened = app.sw.Site.open(bytes);
  const { site: name, labels } = opened.status();
  if (!app.work) return page.useSite(opened);
  let choice = 'takeIn';
  if (name !== app.work.name) {
    choice = await ask(
      say('whatWithFile', { name, labels, own: app.work.name }), ['takeIn', 'goOnAs', 'close']);
  }
  if (choice === 'goOnAs') {
    const count = app.work.unsent.size;
    const question = say('replace', { site: app.work.name, count });
    if (count === 0 || (await ask(question, ['close', 'goOnAs'])) === 'goOnAs') {
      return page.useSite(opened);
    }
  }
  if (choice === 'takeIn') {
    const { received, overridden, late } = app.work.join(opened);
    page.joined();
    $('files-dialog').close();
    notice([
      say('taken', { received }),
      overridden > 0 ? say('overridden', { count: overridden }) : '',
      late > 0 ? say('lateOfOthers', { count: late }) : '',
    ].filter(Boolean).join(' '));
  }
  opened.close();
  return undefined;
}

async function saveMaps() {
  const text = JSON.stringify(app.work.site.export(), null, 1);
  const id = `${app.work.name}-${Date.now()}`;
  await app.keeper.maps(id, text);
  save(`${app.work.name}-labels.json`, `{ ${JSON.stringify(SENT)}: ${JSON.stringify(id)}${
    text === '{}' ? '' : ','}${text.slice(1)}`);
}

// The language maps as they went out which come back by now, or null where they are not known.
function mapsAsSent(text) {
  let id = null;
  try {
    id = JSON.parse(text)[SENT];
  } catch {
    // (what is no JSON is refused where it is taken)
  }
  return typeof id === 'string' ? app.keeper.mapsOf(id) : null;
}

function changeLine({ id, language, before, after }) {
  const textOf = (texts) => made('bdi', { textContent: texts.join('\n') || say('nothing') });
  const name = made('b', {}, made('bdi', { textContent: id }), `, ${languageName(language)}`);
  return made('li', {}, name, made('del', {}, textOf(before)), made('ins', {}, textOf(after)));
}

// Takes language maps: what was edited in them since they went out. Where that is not known it is
// shown what would change, and asked.
async function takeMaps(bytes, page) {
  const text = new TextDecoder('utf-8', { fatal: true }).decode(bytes);
  const { work } = app;
  const sent = await mapsAsSent(text);
  const changes = work.changesOf(text, sent);
  $('files-dialog').close();
  if (changes.length === 0) return notice(say('nothingNew'));
  if (sent === null) {
    const listed = changes.slice(0, MOST_LISTED).map(changeLine);
    const question = say('wouldChange', { count: changes.length });
    if ((await ask(question, ['close', 'takeIn'], listed)) !== 'takeIn') return undefined;
  }
  const taken = work.takeIn(text, sent);
  return notice(say('taken', { received: taken.length }));
}

function poAddress() {
  const { language, source } = app.state;
  return `po?${new URLSearchParams({ lang: language, source })}`;
}

async function askPo(how) {
  const headers = app.state.key ? { Authorization: `Bearer ${app.state.key}` } : {};
  let answer;
  try {
    Object.assign(headers, how.headers);
    answer = await fetch(poAddress(), { cache: 'no-store', ...how, headers });
  } catch {
    throw new Error(say('is_away'));
  }
  const text = await answer.text();
  if (answer.headers.get('Silkwaram-Exchange') === null) throw new Error(say('is_none'));
  if (answer.ok) return text;
  throw new Error(JSON.parse(text).words);
}

async function savePo(page) {
  await page.exchangeNow(false);
  save(`${app.state.language}.po`, await askPo({}), PO);
}

async function takePo(bytes, page) {
  const headers = { 'Content-Type': PO };
  const { misfits } = JSON.parse(await askPo({ method: 'POST', headers, body: bytes }));
  await page.exchangeNow(false);
  $('files-dialog').close();
  notice([say('poTaken'), ...misfits].join(' '));
}

/** A name for a site that begins anew: anna-2 of anna, anna-3 of that. */
export function nextName(name) {
  const [, stem, number] = /^(.*?)(?:-(\d{1,3}))?$/.exec(name);
  const ending = `-${Number(number ?? 1) + 1}`;
  return stem.slice(0, 16 - ending.length) + ending;
}

export function openFiles() {
  $('anew-name').value = nextName(app.work.name);
  setText($('files-dialog').querySelector('.bad'), '');
  $('files-dialog').showModal();
}

function beginAnew(page) {
  const name = $('anew-name').value;
  try {
    if (name === app.work.name) throw new Error(say('sameName'));
    const work = app.work.begunAnew(name);
    app.work.site.close();
    hideProblem();
    page.useWork(work);
    $('files-dialog').close();
  } catch (error) {
    setText($('files-dialog').querySelector('.bad'), whyOf(error));
  }
}

/**
 * Has the buttons and fields of files do what they say. `page` is what the page does with a site.
 */
export function beginFiles(page) {
  $('open-files').onclick = openFiles;
  $('save-site').onclick = saveSite;
  $('save-maps').onclick = () => saveMaps().catch((error) => showProblem(whyOf(error)));
  $('begin-anew').onclick = () => beginAnew(page);
  for (const input of document.querySelectorAll('.open-site'))
    onFile(input, (bytes) => openSite(bytes, page));
  onFile($('take-maps'), (bytes) => takeMaps(bytes, page));
  onFile($('take-po'), (bytes) => takePo(bytes, page));
  $('save-po').onclick = () => savePo(page).catch((error) => showProblem(whyOf(error)));
}
