// How languages are called and written, and which one a name or a tag means.

// Languages that are written from right to left, where nothing of a tag says otherwise, and such
// scripts.
const FROM_RIGHT =
  new Set('ar arc ckb dv fa ha-arab he ks ku-arab nqo ps sd syr ug ur uz-arab yi'.split(' '));
const SCRIPTS_FROM_RIGHT = new Set('adlm arab hebr nkoo rohg syrc thaa'.split(' '));
// Languages with three letters, and with regions and scripts, which names are looked for among.
const MORE =
  'ckb fil gsw haw hsb dsb kab nds sco nqo ceb en-gb en-us es-419 es-mx fr-ca pt-br pt-pt ' +
  'zh-hans zh-hant de-at de-ch sr-latn sr-cyrl uz-latn az-latn';
const LETTERS = [...'abcdefghijklmnopqrstuvwxyz'];

/** `ltr` or `rtl`, or `auto` for text in no language. */
export function directionOf(tag) {
  const [language, ...rest] = tag.toLowerCase().split('-');
  if (language.startsWith('@')) return 'auto';
  const script = rest.find((it) => /^[a-z]{4}$/.test(it));
  if (script) return SCRIPTS_FROM_RIGHT.has(script) ? 'rtl' : 'ltr';
  return FROM_RIGHT.has(language) ? 'rtl' : 'ltr';
}

function namer(within) {
  return new Intl.DisplayNames([within], { type: 'language', fallback: 'none' });
}

const namers = new Map();

/** What a language is called in another one, or null where the platform knows no name. */
export function knownName(tag, within) {
  if (!namers.has(within)) namers.set(within, namer(within));
  try {
    const name = namers.get(within).of(tag);
    return name === undefined || name.toLowerCase() === tag.toLowerCase() ? null : name;
  } catch {
    return null;
  }
}

/** What a language is called in another one: its tag, where there is no name for it. */
export function nameOf(tag, within) {
  return knownName(tag, within) ?? tag;
}

/** A tag for the attribute `lang`: text in no language has the empty one. */
export function attributeOf(tag) {
  return tag.startsWith('@') ? '' : tag;
}

/** A language without its region, which most readers of it ask for: `en` of `en-US`. */
export function withoutRegion(tag) {
  return tag.toLowerCase()
    .split('-')
    .filter((it, at) => at === 0 || /^[a-z]{4}$/.test(it))
    .join('-');
}

let tagsByName;

function plain(name) {
  return name.trim().toLocaleLowerCase().normalize('NFC');
}

/**
 * The tag that somebody means who typed a name, in their language, in English or in its own, or a
 * tag; or null.
 */
export function tagMeant(typed, within) {
  const wanted = plain(typed);
  tagsByName ??= new Map();
  if (!tagsByName.has(within)) {
    const names = new Map();
    const tags =
      [...LETTERS.flatMap((one) => LETTERS.map((other) => one + other)), ...MORE.split(' ')];
    for (const tag of tags) {
      for (const language of [tag, 'en', within]) {
        let name = null;
        try {
          name = Intl.DisplayNames.supportedLocalesOf([language]).length > 0 ?
            knownName(tag, language) :
            null;
        } catch {
          // (no such language)
        }
        if (name !== null) names.set(plain(name), tag);
      }
    }
    tagsByName.set(within, names);
  }
  const named = tagsByName.get(within).get(wanted);
  if (named) return named;
  return /^[a-z0-9]{1,8}(-[a-z0-9]{1,8})*$/.test(wanted) ? wanted : null;
}
