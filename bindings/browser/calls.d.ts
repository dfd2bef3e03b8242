/**
 * Which language, and which label, a reader gets (RFC 4647 and Accept-Language), and sites that are edited offline and
 * exchanged: what the package has in pages and in Node alike.
 */

/** A text, or its bytes in UTF-8. */
export type Text = string | Uint8Array;

/**
 * What a reader's Accept-Language header holds, several of them joined with commas. Null and undefined, for a request
 * without the header, count as `*`.
 */
export type Field = Text | null | undefined;

/** A whole number from 0: a bigint where it passes 2^53. */
export type Whole = number | bigint;

/** Labels by message and language, as `export` answers them: a text, or a list where a label has several. */
export type LanguageMaps = Record<string, Record<string, string | string[]>>;

export interface FieldOptions {
  /**
   * `basic`: the field is an Accept-Language field, basic ranges with weights. `extended`: it is a list of extended
   * ranges without weights.
   *
   * @default "basic"
   */
  scheme?: 'basic' | 'extended';
  /**
   * Skips malformed elements of the field, which are refused (9) otherwise.
   *
   * @default false
   */
  lenient?: boolean;
  /**
   * What readers are offered, written as an Accept-Language header: the languages that filtering by it takes (RFC 4647
   * section 3.3.1), and `@none`. `en, fr` offers these and what they begin, `*` all.
   *
   * @default of a site all languages but those of private use, as `x-note`, which an empty text stands for too; of tags
   * all
   */
  offer?: Text | null;
}

export interface LookupOptions extends FieldOptions {
  /** The language for readers who get no other, where there is a label in it. */
  default?: Text | null;
  /**
   * Lets a language find its regions: `en` finds `en-us` where there is no `en`. This is no rule of RFC 4647, and an
   * Error where the module does not know it.
   *
   * @default false
   */
  widen?: boolean;
  /**
   * Which language is next to which, before its regions: a table as `zh-TW=zh-Hant, no=nb`. The default is not mapped.
   *
   * @default no table: lookup is that of RFC 4647
   */
  fallbacks?: Text | null;
}

export interface TextOptions extends LookupOptions {
  /**
   * Which text of the label, from 0.
   *
   * @default 0
   */
  place?: Whole;
}

export interface EditOptions {
  /**
   * The time of the edit, in milliseconds since 1970 by custom.
   *
   * @default Date.now()
   */
  now?: Whole;
}

export interface TakeOptions {
  /**
   * Refuses a later time among what comes in (29): what a clock far ahead made. 0 is no limit.
   *
   * @default 0
   */
  notAfter?: Whole;
  /**
   * Refuses an edit that this site made and lacks (30): the site was put back to an older copy.
   *
   * @default false
   */
  checkOwn?: boolean;
}

export interface SummaryOptions {
  /**
   * Gives a digest of each label too. The delta for such a summary also has each cell whose label differs under the
   * same stamp, so that taking it refuses what a merge refuses (13).
   *
   * @default false
   */
  labels?: boolean;
}

/** The label of a message: its language, its texts, and whether it is that of the default. */
export interface Label {
  language: string;
  texts: string[];
  isDefault: boolean;
}

/** A label that a reader takes, with its weight in thousandths. */
export interface Choice {
  language: string;
  weight: number;
  texts: string[];
}

/** A tag that a reader takes, as it was given, with its weight in thousandths. */
export interface Picked {
  tag: string;
  weight: number;
}

/** When a cell was written: its time, the site that wrote it, and its place among those of this time and site. */
export interface Stamp {
  time: Whole;
  site: string;
  count: Whole;
}

/** A cell of a site: its stamp, and its texts, or null where the label is deleted. */
export interface Cell extends Stamp {
  texts: string[] | null;
}

/** A key whose cells are not equal in two sites; null where one of them has no cell of it. */
export interface Change {
  id: string;
  language: string;
  before: Cell | null;
  after: Cell | null;
}

export interface Status {
  site: string;
  cells: number;
  labels: number;
  /** The latest stamp, or null in an empty site. */
  last: Stamp | null;
}

/** What is thrown where something is refused. */
export class Refused extends Error {
  /** The number of the refusal (docs/REFUSALS.md of the sources). 26 is out of memory: the call may be repeated. */
  readonly number: number;
  /** The word of that number, such as `clock-ahead`. */
  readonly code: string;
  /** The place in the refused text, in bytes of UTF-8 from 0, where the refusal has one. */
  readonly offset: number | null;
  /** The row of the document, from 0, where a document is refused for one of its rows. */
  readonly row: number | null;
  /**
   * If the number is 11, the index of the text in its label; if it is 12, how many texts the label has; if it is 13, the
   * index of the cell in the receiving site (indexes from 0).
   */
  readonly count: number | null;
  /** Whether the refusal is of the second of two documents, as the maps `after` of `update`. */
  readonly ofSecond: boolean;
  /** What was wanted. */
  readonly wanted: string;
}

/**
 * What a site is asked about one message, open or written. It is closed by `close`, by the end of a `using`
 * declaration's block, or some time after nothing refers to it any more. Calls to a closed site throw an Error.
 */
export interface Asked {
  /**
   * The label of a message that a reader gets, or null. Refused: the id (10), the default (1 to 4), the offer (8, 9),
   * the fallbacks (8, 31), the field (8, 9).
   */
  lookup(id: Text, field: Field, options?: LookupOptions): Label | null;
  /** The text at a place of the label that `lookup` finds, or null. */
  text(id: Text, field: Field, options?: TextOptions): string | null;
  /** The texts of the label that `lookup` finds, or null. */
  texts(id: Text, field: Field, options?: LookupOptions): string[] | null;
  /** The labels of a message that a reader takes, best first. Refused: the id (10), the offer and the field (8, 9). */
  filter(id: Text, field: Field, options?: FieldOptions): Choice[];
  /** Lets the site go. Closing it again does nothing. */
  close(): void;
  /** Calls `close`. */
  [Symbol.dispose](): void;
}

/**
 * The document of a site, which is asked as it lies there and never opened. It answers as a `Site` of the document
 * does.
 *
 * It copies the bytes, and keeps the copy until `close`.
 */
export interface WrittenSite extends Asked {}

export interface WrittenSiteClass {
  /**
   * A document as `write`, `toBytes` or `lexicat` wrote it, or as another program wrote it again: with its members and
   * rows in their order, without blanks, and with any escapes in the strings of its rows. Most of it is not looked at.
   * Given other bytes the calls return, but a label may be missing without a refusal. Refused, here or by a question:
   * what does not read as a document (18 to 20).
   */
  new (document: Text): WrittenSite;
}

/**
 * A site that is open. Sites of one `load` know each other, and no others.
 *
 * A refused call leaves the site as it was, but for 26 of `take` and `merge`: these leave each label as it was or as
 * it was to be, and the same call again makes the rest. Each call may be refused by 26.
 */
export interface Site extends Asked {
  /** Reads a document in place of the site, which stays where the document is refused. Refused: as by `open`. */
  reload(document: Text): void;
  /** One more `Site` of the same state, which keeps this state when the first one is edited. Memory is shared. */
  share(): Site;

  /**
   * All labels of one reader: of each message the one that `lookup` finds. Refused: the default (1 to 4), the offer
   * (8, 9), the fallbacks (8, 31), the field (8, 9).
   */
  bundle(field: Field, options?: LookupOptions): LanguageMaps;

  /**
   * Puts a label of one text. Refused: the id (10), the language (1 to 4), the text (11, or 18 where it is not UTF-8);
   * 14 where no later stamp can be made.
   */
  put(id: Text, lang: Text, text: Text, options?: EditOptions): void;
  /** Deletes a label. Refused: the id (10), the language (1 to 4); 14 where no later stamp can be made. */
  delete(id: Text, lang: Text, options?: EditOptions): void;
  /** Puts all labels of language maps, or none where it is refused: what is refused in them, then 14. */
  importMaps(maps: LanguageMaps | Text, options?: EditOptions): void;
  /**
   * Makes the edits that lead from some language maps to others, and no others: all, or none where it is refused. A
   * label that only `before` has is deleted.
   */
  update(before: LanguageMaps | Text, after: LanguageMaps | Text, options?: EditOptions): void;
  /**
   * Joins a delta for this site. Refused: what is no delta; a time after `notAfter` (29); a delta for another site
   * (15); with `checkOwn` an edit that this site made and lacks (30); one stamp with two labels (13).
   */
  take(delta: Text, options?: TakeOptions): void;
  /**
   * Joins all that another site holds. Refused: a time after `notAfter` (29); with `checkOwn` an edit that this site
   * made and lacks (30); one stamp with two labels (13).
   */
  merge(other: Site, options?: TakeOptions): void;

  /** The site as a document, as the command `lexicat` reads and writes it. */
  write(): string;
  /** The same in bytes, as a file has them. */
  toBytes(): Uint8Array;
  /** The labels of the site. */
  export(): LanguageMaps;
  /** The keys and stamps of the site's cells, as a document: what another site asks a delta by. */
  summary(options?: SummaryOptions): string;
  /** The delta for the owner of a summary: what they lack, as a document. Refused: the summary. */
  deltaFor(summary: Text): string;
  status(): Status;
  /** How many labels each language has. */
  labels(): Record<string, number>;
  /** The messages that have a label but none of just this language, with all their labels. Refused: 1 to 4. */
  missing(lang: Text): LanguageMaps;
  /** The messages whose label in the source is later than that in this language. Refused: `lang`, `source` (1 to 4). */
  outdated(lang: Text, source: Text): LanguageMaps;
  /** What is not equal in another site, `after`, in ascending order of ids and languages. */
  changes(after: Site): Change[];
}

export interface SiteClass {
  /** A site that is closed until `reload`. Mostly `Site.open` is what is wanted. */
  new (): Site;
  /**
   * The site of a document. Refused: 18 to 21, 27 and 28 for the document, 1 to 4 and 10 to 12 for a field of a row.
   */
  open(document: Text): Site;
  /** The empty site of a name: 1 to 16 of a to z, 0 to 9 and "-" (27). Each editor needs a name of its own. */
  'new'(name: Text): Site;
}

/** The calls of the library. */
export interface Calls {
  /** 10000 * major + 100 * minor + patch. */
  version: number;
  /**
   * The tag that a reader gets, as it is in `tags`, or null (RFC 4647 section 3.4). The default is answered if
   * nothing else is, it is among the tags and the field does not exclude it. Refused: the default (1 to 4), the offer
   * (8, 9), the fallbacks (8, 31), the field (8, 9), the tags in their order (1 to 4).
   */
  pick(field: Field, tags: readonly string[], options?: LookupOptions): string | null;
  /**
   * All tags that a reader takes, best first (RFC 4647 section 3.3). Refused: the offer and the field (8, 9), the tags
   * (1 to 4).
   */
  filter(field: Field, tags: readonly string[], options?: FieldOptions): Picked[];
  /** What the number of a refusal means, or null. */
  refusal(number: number): string | null;
  Site: SiteClass;
  WrittenSite: WrittenSiteClass;
}

declare global {
  interface SymbolConstructor {
    /** (TypeScript before 5.2 does not declare it) */
    readonly dispose: unique symbol;
  }
}
