import type { Asked, Label } from './node.js';

export interface LanguagesOptions {
  /**
   * The site whose labels `req.label` gives, open or written; or a function that returns it, which
   * is called for each request.
   */
  site: Asked | (() => Asked);
  /** The languages that pages are in. */
  tags: readonly string[];
  /**
   * The language for readers who get no other. It is one of the tags that are offered.
   *
   * @default the first of the tags
   */
  default?: string;
  /**
   * What readers are offered, written as an Accept-Language header: those of the tags that
   * `req.language` may be, and the languages in which `req.label` may give a label.
   *
   * @default all tags, and the labels of all languages but those of private use, as `x-note`
   */
  offer?: string;
  /**
   * Which language is next to which, as `zh-TW=zh-Hant, no=nb`, among the tags and the labels.
   *
   * @default no table
   */
  fallbacks?: string;
  /**
   * Skips malformed elements of a reader's field. Without it such a field counts as none.
   *
   * @default true
   */
  lenient?: boolean;
  /**
   * Lets a language find its regions, as `en` finds `en-US`, among the tags and the labels.
   *
   * @default true
   */
  widen?: boolean;
  /**
   * Gives null to readers who refuse the default too, in place of the default.
   *
   * @default false
   */
  strict?: boolean;
}

/** What the middleware adds to a request, and so to that of express. */
export interface ReaderLanguage {
  /** The tag that the reader gets; with `strict` null where they refuse all of them. */
  language: string | null;
  /** Returns the label of a message in that language, or else in the default, or null. */
  label(id: string): Label | null;
}

/** What the middleware needs of a request and of a response: those of node:http have it. */
export interface RequestWithHeaders {
  headers: { 'accept-language'?: string };
}
export interface ResponseWithHeaders {
  getHeader(name: string): number | string | string[] | undefined;
  setHeader(name: string, value: string): unknown;
}

/**
 * Returns middleware of express's form. Refused: the default (1 to 4), the offer (8, 9), the
 * fallbacks (8, 31), the tags (1 to 4).
 */
export function languages(
  options: LanguagesOptions,
): (
  req: RequestWithHeaders & Partial<ReaderLanguage>,
  res: ResponseWithHeaders,
  next: () => void,
) => void;

declare global {
  namespace Express {
    interface Request extends ReaderLanguage {}
  }
}
