// What the page says, in its languages. {NAME} is replaced with what is known when it is said.
import { directionOf } from './languages.mjs';
import ar from './words_ar.mjs';
import en from './words_en.mjs';
import fr from './words_fr.mjs';
import ja from './words_ja.mjs';

/** The words by the languages of the page. `own` is what a language is called in itself. */
export const WORDS = { en, ar, fr, ja };

/** The words of a language, with what is known in their places. */
export function wordsOf(language) {
  const words = WORDS[language];
  // (a name or a number of another direction leaves the rest of the sentence as it is)
  const [before, after] = directionOf(language) === 'rtl' ? ['\u2068', '\u2069'] : ['', ''];
  const say = (name, known = {}) => {
    const text = words[name] ?? en[name] ?? name;
    return text.replace(
      /\{(\w+)\}/g, (all, it) => (Object.hasOwn(known, it) ? before + known[it] + after : all));
  };
  return Object.assign(say, { has: (name) => Object.hasOwn(words, name) });
}
