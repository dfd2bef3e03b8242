// Tries the module's memory: the heap by itself, refused growth, and what a long run leaves. Runs in a page and in Node.

function assert(is, what) {
  if (!is) throw new Error(what);
}

// Whole numbers from 0 to below `limit`, by a linear congruential generator.
function numbers(state) {
  return (limit) => {
    state = (Math.imul(state, 1103515245) + 12345) >>> 0;
    return Math.floor((state / 2 ** 32) * limit);
  };
}

// Takes and gives back blocks at random; each is filled, and has to have its bytes when it is given back.
function tryHeap(exports, rounds, seed) {
  const below = numbers(seed);
  const held = [];
  const before = exports.bytes_in_use();
  let refused = 0;
  for (let round = 0; round < rounds; round++) {
    if (held.length > 0 && below(100) < (held.length > 400 ? 60 : 45)) {
      const [{ at, size, mark }] = held.splice(below(held.length), 1);
      const bytes = new Uint8Array(exports.memory.buffer, Number(at), size);
      assert(bytes.every((it) => it === mark), `block ${at} of ${size} bytes was written over`);
      exports.release(at);
      continue;
    }
    const size = below(30) === 0 ? below(900000) : below(300);
    const at = exports.allocate(BigInt(size));
    if (at === 0n) {
      refused++;
      continue;
    }
    assert(at % 16n === 0n, `block ${at} is not aligned`);
    const mark = below(256);
    new Uint8Array(exports.memory.buffer, Number(at), size).fill(mark);
    held.push({ at, size, mark });
  }
  for (const { at } of held) exports.release(at);
  assert(exports.bytes_in_use() === before, 'bytes were lost');
  assert(exports.allocate(2n ** 62n) === 0n, 'more than all memory was given');
  return refused;
}

// What a call throws.
function thrown(call) {
  try {
    call();
  } catch (error) {
    return error;
  }
  return {};
}

function largeDocument(rows) {
  const cells = Array.from({ length: rows }, (_, at) => [`m.${String(at).padStart(6, '0')}`, 'en', 1, 'paris', at, ['x'.repeat(40)]]);
  return JSON.stringify({ cells, kind: 'site', site: 'paris', version: 2 });
}

const SMALL = '{"cells":[["greeting","en",5,"paris",0,["Hello"]]],"kind":"site","site":"paris","version":2}';

// A module whose memory may not grow past some megabytes: refused by 26, and it goes on.
async function tryLimit(load, bytes) {
  const sw = await load(bytes);
  const site = sw.Site.open(SMALL);
  // (of these the first has no room as a text, and the second none as a site)
  const large = [largeDocument(40000), largeDocument(9000)];
  const middle = largeDocument(400);
  for (const it of large) assert(thrown(() => site.reload(it)).number === 26, 'a large document is not refused by 26');
  const { used, whole } = sw.memory();
  for (let round = 0; round < 20; round++) {
    for (const it of large) assert(thrown(() => site.reload(it)).number === 26, 'it is not refused again');
    assert(thrown(() => sw.pick('en', [`en-${'x'.repeat(20e6)}`])).number === 26, 'a large text is not refused by 26');
    assert(site.text('greeting', 'en') === 'Hello', 'the site is not as it was');
    assert(sw.pick('fr, en;q=0.5', ['en']) === 'en', 'no other question is answered');
    const other = sw.Site.open(middle);
    assert(other.text('m.000399', 'en') !== null, 'no other site can be opened');
    other.close();
    assert(thrown(() => new sw.WrittenSite(large[0])).number === 26, 'a large document is not refused by 26');
    const written = new sw.WrittenSite(large[1]);
    assert(written.text('m.008999', 'en') !== null, 'a document that no site can be opened of is not asked');
    written.close();
  }
  assert(sw.memory().used <= used + 64 * 24, `memory is lost: ${used} and then ${sw.memory().used} bytes`);
  return whole;
}

// What a page does all day leaves no more memory in use than it began with.
async function tryLongRun(load, bytes, rounds) {
  const sw = await load(bytes);
  const document = largeDocument(50);
  const run = () => {
    const site = sw.Site.open(document);
    const other = site.share();
    const written = new sw.WrittenSite(document);
    assert(written.text('m.000049', 'en') === other.text('m.000049', 'en'), 'a document answers otherwise');
    assert(thrown(() => new sw.WrittenSite(document.slice(0, -2))).number === 19, 'a cut document is not refused');
    site.bundle('en');
    edit(sw, site);
    thrown(() => site.text('@', 'en'));
    for (const it of [site, other, written]) it.close();
  };
  run();
  const { whole } = sw.memory();
  for (let round = 0; round < rounds; round++) run();
  return [whole, sw.memory().whole];
}

function edit(sw, site) {
  for (let at = 0; at < 20; at++) site.put(`n.${at}`, 'fr', `${at}`);
  const other = sw.Site.new('tokyo');
  site.delete('n.3', 'fr');
  other.take(site.deltaFor(other.summary()));
  site.merge(other);
  site.update({ m: { en: 'x' } }, {});
  other.close();
}

// A module of which every export traps from some time on: after the first trap none is called again.
async function tryTrap(load, bytes) {
  const { instantiate } = WebAssembly;
  let [isOver, trapped] = [false, 0];
  WebAssembly.instantiate = async (...given) => {
    const { instance } = await instantiate.apply(WebAssembly, given);
    const run = (it) => (...words) => {
      if (!isOver) return it(...words);
      trapped++;
      throw new WebAssembly.RuntimeError('a trap');
    };
    const exports = Object.entries(instance.exports).map(([name, it]) => [name, it instanceof Function ? run(it) : it]);
    return { instance: { exports: Object.fromEntries(exports) } };
  };
  const sw = await load(bytes);
  WebAssembly.instantiate = instantiate;
  const site = sw.Site.open(SMALL);
  const written = new sw.WrittenSite(SMALL);
  const large = largeDocument(9000);
  isOver = true;
  assert(thrown(() => site.reload(large)).message === 'a trap', 'a trap is not passed on');
  const calls = [() => site.text('greeting', 'en'), () => sw.Site.open(large), () => sw.pick('en', ['en']), sw.memory,
    () => written.text('greeting', 'en'), () => new sw.WrittenSite(SMALL)];
  for (const call of calls) {
    assert(/has stopped/.test(thrown(call).message), `after a trap: ${thrown(call).message}`);
  }
  site.close();
  written.close();
  assert(trapped === 1, `${trapped} calls were made after a trap`);
}

/**
 * Returns a line about what was tried; an Error says what went wrong. `bytes` are the module, and
 * `limited` too; of `seed` is made what is tried at random.
 */
export async function tryMemory(load, bytes, limited, seed) {
  const { exports } = new WebAssembly.Instance(await WebAssembly.compile(bytes), {});
  tryHeap(exports, 12000, seed);
  const small = new WebAssembly.Instance(await WebAssembly.compile(limited), {}).exports;
  const refused = tryHeap(small, 12000, seed + 1);
  assert(refused > 0, 'no growth was refused');
  await tryTrap(load, bytes);
  const whole = await tryLimit(load, limited);
  const [first, last] = await tryLongRun(load, bytes, 400);
  assert(last <= first, `memory grew from ${first} to ${last} bytes`);
  return `${refused} blocks refused, 26 at ${whole} bytes, and ${last} bytes after 400 rounds as after one`;
}
