// Asks the module what questions.py asked the command, and compares. Runs in a page and in Node.

function bytesOf(base64) {
  return Uint8Array.from(atob(base64), (it) => it.charCodeAt(0));
}

/** One text for equal values, whatever the order of their members. */
export function canonical(value) {
  return JSON.stringify(value, (_, it) =>
    it && typeof it === 'object' && !Array.isArray(it)
      ? Object.fromEntries(Object.entries(it).sort(([a], [b]) => (a < b ? -1 : 1)))
      : typeof it === 'bigint' ? `${it}n` : it,
  );
}

/** What a call answers, or by what it is refused. */
export function answered(call) {
  try {
    return call() ?? null;
  } catch (error) {
    if (error.name !== 'Refused') throw error;
    const { number, offset, row, count, ofSecond } = error;
    return { number, offset, row, count, ofSecond };
  }
}

function asked(sw, site, [call, ...words]) {
  if (call === 'open') return site.reload(bytesOf(words[0])) ?? null;
  const options = words.at(-1);
  if (options.place !== undefined) options.place = BigInt(options.place);
  if (call === 'pick') return sw.pick(...words);
  return call === 'filterTags' ? sw.filter(...words) : site[call](...words);
}

// What is asked about one message, of a site and of the document that is written of it.
const OF_MESSAGES = ['lookup', 'text', 'filter'];

/** Returns a line about all questions; an Error lists those that differ. */
export function compare(sw, questions) {
  const site = new sw.Site();
  const calls = {};
  const faults = [];
  const see = (call, question, got, wanted) => {
    calls[call] = (calls[call] ?? 0) + 1;
    if (canonical(got) === canonical(wanted)) return;
    faults.push(`${call} ${JSON.stringify(question).slice(0, 300)}\n  ${canonical(wanted)}\n  ${canonical(got)}`);
  };
  for (const [question, wanted] of questions) {
    const [call] = question;
    see(call, question, answered(() => asked(sw, site, question)), wanted);
    if (!OF_MESSAGES.includes(call)) continue;
    const written = new sw.WrittenSite(site.toBytes());
    see(`written ${call}`, question, answered(() => asked(sw, written, question)), wanted);
    written.close();
  }
  site.close();
  if (faults.length > 0) throw new Error(`${faults.length} differ\n${faults.slice(0, 10).join('\n')}`);
  const each = Object.entries(calls).map(([call, count]) => `${count} ${call}`);
  return `${questions.length} questions (${each.join(', ')}); 0 differ from the command's`;
}

// Options with their numbers, which are texts, as BigInts.
function withNumbers(words) {
  return words.map((it) =>
    it && typeof it === 'object'
      ? Object.fromEntries(Object.entries(it).map(([name, to]) => [name, typeof to === 'string' ? BigInt(to) : to]))
      : it,
  );
}

// What a step makes, and what it has to make.
function made(sites, { site, call, words, refused, document, wanted }) {
  const own = sites[site];
  const other = sites[1 - site];
  const given = [...(call === 'merge' || call === 'changes' ? [other] : []), ...withNumbers(words)];
  const answer = answered(() => own[call](...given));
  if (document === undefined) return [answer, wanted];
  return [[answer ?? null, own.write()], [refused, document]];
}

/** Edits and exchanges sites as edits.py had the command do it. Returns a line; an Error lists what differs. */
export function edit(sw, sequences) {
  const calls = {};
  const faults = [];
  let refusals = 0;
  for (const [number, steps] of sequences.entries()) {
    const sites = [sw.Site.new('paris'), sw.Site.new('tokyo')];
    for (const step of steps) {
      const [got, wanted] = made(sites, step).map(canonical);
      calls[step.call] = (calls[step.call] ?? 0) + 1;
      if (step.refused) refusals++;
      if (got !== wanted) {
        faults.push(`sequence ${number}: ${JSON.stringify(step).slice(0, 300)}\n  ${wanted.slice(0, 300)}\n  ${got.slice(0, 300)}`);
        break;
      }
    }
    for (const site of sites) site.close();
  }
  if (faults.length > 0) throw new Error(`${faults.length} differ\n${faults.slice(0, 10).join('\n')}`);
  const each = Object.entries(calls).map(([call, count]) => `${count} ${call}`);
  return `${sequences.length} pairs of sites (${each.join(', ')}), ${refusals} edits refused; 0 differ from the command's`;
}
