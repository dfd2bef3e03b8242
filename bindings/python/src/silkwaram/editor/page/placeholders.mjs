// Placeholders of programs in texts, and how those of a translation differ from its source's. The
// program lexicat-check has the same rules, and tests/tools/check/placeholders.t of the package compares
// the two: whoever changes one changes the other. (What repeats is bounded, so that no text takes
// long.)

// %d, %-5.1f, %1$s, %*d, %(name)s, %<name>s, %<PRIu64>, %{name}
const NUMBER = '(?:\\d{1,3}|\\*(?:\\d{1,2}\\$)?)?';
const printf = (flag) => new RegExp(
  '%(?:(\\{[\\w.]{1,60}\\})|(?:(\\([\\w.]{1,60}\\)|<[a-z_]\\w{0,59}>)|(\\d{1,2})\\$)?' +
    `(?:${flag}){0,5}(${NUMBER}(?:\\.${NUMBER})?)` +
    '(?:((?:hh?|ll?|[Lqjz]|t(?=[a-z]\\b))?)([diouxXeEfFgGcrspm@])|' +
    '<PRI([diouxX])(\\w{1,10})>))', 'g');
const PRINTF = printf("[+#0']|I(?!\\d)|-(?=[-+#0'\\d*])");
// (and % d or %-e, which in a text of another kind is a percentage and a word)
const STRICT_PRINTF = printf("[-+#0' ]|I(?!\\d)");
// (as msgfmt has them: an argument of %i may be written by %d)
const KINDS = {
  i: 'd', o: 'u', x: 'u', X: 'u', E: 'e', f: 'e', F: 'e', g: 'e', G: 'e', r: 's',
};

// {{name}}; {count, plural, ..}; {when, date, short}; {name}, {0}, {name:>5}, {}
const BRACE = /[{}]/g;
const BLANKS = '[ \\t\\r\\n]{0,9}';
const NAME = '[\\w$][\\w.$]{0,59}';
const OTHERS = 'number|date|time|ordinal|spellout|duration|list';
const DOUBLE = new RegExp(
  `\\{\\{${BLANKS}(?:- ?)?([\\w$][\\w.$-]{0,59})${BLANKS}(?:,[^{}]{0,200})?\\}\\}`, 'y');
const CHOICE = new RegExp(
  `\\{${BLANKS}(${NAME})${BLANKS},${BLANKS}(plural|selectordinal|select)${BLANKS},`, 'y');
const TYPED = new RegExp(
  `\\{${BLANKS}(${NAME})${BLANKS},${BLANKS}(${OTHERS})${BLANKS}(?:,[^{}]{0,200})?\\}`, 'y');
const SIMPLE = new RegExp(
  `\\{${BLANKS}((?:${NAME}(?:\\[\\w{1,60}\\])?)?)${BLANKS}(?:![rsa])?(?::[^{}]{0,60})?\\}`, 'y');

// <b>, </b>, <a href="..">, <0>, <br/>
const TAG = /<(\/?)([A-Za-z][\w:-]{0,40}|\d{1,2})((?:[ \t\r\n][^<>]{0,300}|\/)?)>/g;
const VOID = new Set(['br', 'hr', 'img', 'wbr']);

// Each plural form of these languages is for many numbers, but a fourth one, which is for 1. In
// others all but the last may be for one number, and leave it out ("one file"); in Latvian the third,
// which is for 0.
const OF_MANY = new Set(['be', 'bs', 'hr', 'is', 'lt', 'mk', 'ru', 'sh', 'sr', 'uk']);
const OF_FOUR = new Set(['dsb', 'hsb', 'sl']);
const TAKEN = '\0';
const ESCAPED = /\\[A-Za-z]?$/;

// By keys, as they are written, what is found as [key, as it is written, and as it is numbered where
// it has neither number nor name]. Of several such ones each is shown with its number.
function shownBy(found) {
  const isLone = found.filter(([, , numbered]) => numbered).length === 1;
  return new Map(
    found.map(([key, written, numbered]) => [key, numbered && !isLone ? numbered : written]));
}

function printsIn(text, isStrict) {
  const found = [];
  let next = 1;
  const isDoubled = text.includes('%%');
  const doubled = isStrict ? /%[-+#0' ]{0,5}%/g : /%%/g;
  const single = text.replace(doubled, (all) => ' '.repeat(all.length));
  const rest = single.replace(isStrict ? STRICT_PRINTF : PRINTF, (all, ...groups) => {
    const [whole, name, place, width, length, conversion, macro, type, at] = groups;
    // (a number, and the letters of a word: 100%ige)
    const [before, after] = [single[at - 1] ?? '', single[at + all.length] ?? ''];
    if (!isStrict && /\d/.test(before) && /[A-Za-z]/.test(after)) return all;
    const letter = KINDS[conversion ?? macro] ?? conversion ?? macro;
    const size = letter === 'e' && length === 'l' ? '' : length;
    const kind = macro ? `<PRI${letter}${type}>` : size + letter;
    if (whole || conversion === 'm') {
      found.push([whole ? all : '%m', all, null]);
    } else if (name) {
      found.push([`%${name}${kind}`, all, null]);
    } else {
      // (the number that a star takes is of %d)
      for (const [, other] of width.matchAll(/\*(?:(\d+)\$)?/g)) {
        const key = `%${Number(other ?? next++)}$d`;
        found.push([key, key, other ? null : key]);
      }
      const number = Number(place ?? next++);
      const own = macro ? `<PRI${macro}${type}>` : length + conversion;
      found.push([`%${number}$${kind}`, all, place ? null : `%${number}$${own}`]);
    }
    return TAKEN.repeat(all.length);
  });
  const left = [...rest.matchAll(/%/g)];
  const isOther = left.some(
    ({ index }) => !/\d/.test(rest[index - 1] ?? '') && /[A-Za-z\d]/.test(rest[index + 1] ?? ''));
  return { prints: shownBy(found), left: left.length, isOther, isDoubled, rest };
}

function bracesIn(text) {
  const found = [];
  const open = [];
  const parts = [];
  let [at, next] = [0, 0];
  let [hasChoice, hasOther, isSurplus] = [false, false, false];
  const matched = (kind) => {
    kind.lastIndex = at;
    return kind.exec(text);
  };
  for (;;) {
    BRACE.lastIndex = at;
    const brace = BRACE.exec(text);
    if (!brace) break;
    parts.push(text.slice(at, brace.index));
    at = brace.index;
    let it = matched(CHOICE);
    if (it) {
      found.push([`{${it[1]}, ${it[2]}}`, `{${it[1]}, ${it[2]}}`, null]);
      hasChoice = true;
      open.push('choice');
    } else if (text[at] === '}') {
      if (open.pop() === undefined) isSurplus = true;
    } else if (open.at(-1) === 'choice') {
      open.push('branch');
    } else if ((it = matched(DOUBLE))) {
      found.push([`{{${it[1]}}}`, `{{${it[1]}}}`, null]);
    } else if ((it = matched(TYPED))) {
      found.push([`{${it[1]}, ${it[2]}}`, `{${it[1]}, ${it[2]}}`, null]);
    } else if (!ESCAPED.test(text.slice(Math.max(0, at - 2), at)) && (it = matched(SIMPLE))) {
      const key = `{${it[1] || next++}}`;
      found.push([key, it[1] ? key : '{}', it[1] ? null : key]);
    } else {
      open.push('other');
      hasOther = true;
    }
    const { length } = it?.[0] ?? '{';
    parts.push(TAKEN.repeat(length));
    at += length;
  }
  parts.push(text.slice(at));
  const unpaired = open.length > 0 ? '{' : isSurplus ? '}' : '';
  return { braces: shownBy(found), hasChoice, hasOther, unpaired, rest: parts.join('') };
}

function partsOf(text, isStrict = false) {
  const { rest: unprinted, ...prints } = printsIn(text, isStrict);
  const { rest, ...braces } = bracesIn(unprinted);
  return { ...prints, ...braces, tags: [...rest.matchAll(TAG)] };
}

// The tags of a text, each with how often it is there. What is never closed is none, as <file>.
function countedTags(tags, closed, isOnce) {
  const counts = new Map();
  for (const [, slash, name, more] of tags) {
    const isSelf = more.endsWith('/');
    if (!VOID.has(name) && !isSelf && !closed.has(name)) continue;
    const tag = slash ? `</${name}>` : isSelf && !VOID.has(name) ? `<${name}/>` : `<${name}>`;
    counts.set(tag, isOnce ? 1 : (counts.get(tag) ?? 0) + 1);
  }
  return counts;
}

function beyond(one, other) {
  return [...one].filter(([key]) => !other.has(key)).map(([, shown]) => shown);
}

function oftener(one, other) {
  return [...one].filter(([tag, count]) => count > (other.get(tag) ?? 0)).map(([tag]) => tag);
}

/** The placeholders that a translation lacks, and those that it has beyond its source. */
export function differences(source, translation) {
  const wanted = partsOf(source);
  const found = partsOf(translation, wanted.prints.size > 0 && wanted.left === 0);
  const [lacks, hasBeside] = [[], []];
  // (a source with percent signs of other kinds is no format of printf)
  const isFormat = !wanted.isOther && (wanted.prints.size > 0 || wanted.left === 0);
  if (isFormat) {
    lacks.push(...beyond(wanted.prints, found.prints));
    hasBeside.push(...beyond(found.prints, wanted.prints));
    const isOfPrintf = wanted.prints.size > 0 || wanted.isDoubled;
    if (isOfPrintf && wanted.left === 0 && found.left > 0) hasBeside.push('%');
  }
  // (and one of printf, or with other braces too, has single braces for other things)
  const isOfNames = wanted.hasChoice || (wanted.prints.size === 0 && !wanted.hasOther);
  const [names, others] = [wanted, found].map(
    ({ braces }) => [...braces].filter(([key]) => isOfNames || key.startsWith('{{')));
  lacks.push(...beyond(names, found.braces));
  hasBeside.push(...beyond(others, wanted.braces));
  if (wanted.hasChoice && !wanted.unpaired && found.unpaired) hasBeside.push(found.unpaired);
  const closed = new Set(
    [...wanted.tags, ...found.tags].filter(([, slash]) => slash).map(([, , name]) => name));
  const [tags, otherTags] = [wanted, found].map(
    (it) => countedTags(it.tags, closed, wanted.hasChoice || found.hasChoice));
  lacks.push(...oftener(tags, otherTags));
  hasBeside.push(...oftener(otherTags, tags));
  return { lacks, hasBeside };
}

function mayLack(language, place, count) {
  const [name] = language.split('-');
  if (name === 'lv') return place === 2;
  if (OF_MANY.has(name)) return place === 3;
  return place < count - 1 && !OF_FOUR.has(name);
}

/** The source text that one of several texts is compared with: the last one with the last. */
export function sourceFor(sources, texts, place) {
  return place === texts.length - 1 ? sources.at(-1) : sources[place] ?? sources.at(-1);
}

/**
 * The same of one of the texts of a label, whose source may have plural forms: each may have what
 * the last of these has.
 */
export function differencesAt(sources, texts, place, language) {
  const own = differences(sourceFor(sources, texts, place), texts[place]);
  if (sources.length === 1 || own.lacks.length + own.hasBeside.length === 0) return own;
  const { lacks, hasBeside } = differences(sources.at(-1), texts[place]);
  const isShort = texts.length > 1 && mayLack(language, place, texts.length);
  return { lacks: isShort ? [] : lacks, hasBeside };
}

/** Whether the flags of a message (x-flags) leave its placeholders to be compared. */
export function isCompared(flags) {
  return !flags.some((flag) => /^no-[a-z-]+-format$/.test(flag));
}
