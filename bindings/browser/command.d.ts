/** The command `lexicat` as a call, over texts in memory: for pages and for Node. */
import { Text } from './calls.js';
import { Source } from './silkwaram.js';

/** 0 answered, 1 nothing found, 2 usage, 3 refused, 5 out of memory. */
export type Status = 0 | 1 | 2 | 3 | 5;

/** What the command writes to its output, what it reports, and its status. */
export interface Answer {
  status: Status;
  output: string;
  errors: string;
}

/** The same in bytes, with whether the command read its input: if not, the answer is the same for any input. */
export interface AnswerInBytes {
  status: Status;
  output: Uint8Array;
  errors: Uint8Array;
  isRead: boolean;
}

/** A module that was loaded. */
export interface Lexicat {
  /** What the command answers to the words after its name over an input, which is empty where none is given. */
  command(words: readonly Text[], input?: Text): Answer;
  /** The same in bytes. */
  bytes(words: readonly Text[], input?: Text): AnswerInBytes;
}

/**
 * What the command answers to the words after its name over an input, which is empty where none is given. The module,
 * which is beside this file, is loaded with the first call.
 */
export function command(words: readonly Text[], input?: Text): Promise<Answer>;

/** Loads the module: from beside this file, or from a URL, its bytes, or a compiled WebAssembly.Module. */
export function load(source?: string | Source): Promise<Lexicat>;

/** The same at once, of its bytes or a compiled WebAssembly.Module: in Node and in workers. A page may refuse it. */
export function loadSync(source: Source): Lexicat;
