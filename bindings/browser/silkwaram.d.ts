/** The module for pages and for Node: what loads it, and what it has besides the calls. */
import { Calls } from './calls.js';

export * from './calls.js';

/**
 * A module: its bytes, in an ArrayBuffer or a view of one, or a compiled WebAssembly.Module. (These types are of pages,
 * and programs for Node may be without them.)
 */
export type Source = object;

/** The calls of a module that was loaded. */
export interface Silkwaram extends Calls {
  /** Bytes of the module's memory: those in use, and all that it has taken of the engine, which it keeps. */
  memory(): { used: number; whole: number };
}

/**
 * Loads the module: from beside this file, or from a URL, its bytes, or a compiled WebAssembly.Module. It throws an
 * Error that says what is needed where the engine cannot run it.
 */
export function load(source?: string | Source): Promise<Silkwaram>;

/** The same at once, of its bytes or a compiled WebAssembly.Module: in Node and in workers. A page may refuse it. */
export function loadSync(source: Source): Silkwaram;
