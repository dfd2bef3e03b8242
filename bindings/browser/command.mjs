// The command `lexicat` as a call, for pages and for Node: the module lexicat.wasm, over texts in memory. command.d.ts
// says what it takes and answers.
//
// The call is that of silkwaram_command.h. As in silkwaram.mjs, pointers and sizes are BigInts, and views of the memory
// are made where they are used.
import { bytesIn, exportsOf, exportsOfSync } from './silkwaram.mjs';

// Bytes of `sw_command_told` and of `sw_text`; and how much longer than the input an output may be before the command
// is asked once more.
const TOLD = 24;
const WORD = 16;
const ROOM = 65536;

const OUT_OF_MEMORY = 'refused 26: out of memory\n';
const DECODER = new TextDecoder('utf-8', { ignoreBOM: true });

function wrongType(name, wanted) {
  return Object.assign(new TypeError(`${name} must be ${wanted}`), { code: 'ERR_INVALID_ARG_TYPE' });
}

function textIn(given, name) {
  if (typeof given === 'string' || given instanceof Uint8Array) return bytesIn(given);
  throw wrongType(name, 'a string or a Uint8Array');
}

function textsIn(words) {
  if (!Array.isArray(words)) throw wrongType('words', 'an array');
  // (by its places, since an array may lack some)
  return Array.from(words, (it, at) => textIn(it, `words[${at}]`));
}

function sizeOf(texts) {
  return texts.reduce((sum, it) => sum + it.length, 0);
}

/** The module that has the command. */
class Lexicat {
  #exports;

  constructor(exports) {
    this.#exports = exports;
  }

  bytes(words, input = '') {
    const texts = textsIn(words);
    const given = textIn(input, 'input');
    const answer = this.#within(texts, given, given.length + ROOM, ROOM);
    if (answer.output && answer.errors) return answer;
    return this.#within(texts, given, answer.outputLength, answer.errorsLength);
  }

  command(words, input) {
    const { status, output, errors } = this.bytes(words, input);
    return { status, output: DECODER.decode(output), errors: DECODER.decode(errors) };
  }

  // What the command answers with so much room for its outputs; an output that has too little is left out.
  #within(texts, input, outputRoom, errorsRoom) {
    const most = TOLD + WORD * texts.length + sizeOf(texts) + input.length + outputRoom + errorsRoom;
    const block = this.#exports.allocate(most);
    if (block === 0) return { status: 5, output: bytesIn(''), errors: bytesIn(OUT_OF_MEMORY), isRead: false };
    try {
      return this.#asked(block, texts, input, outputRoom, errorsRoom);
    } finally {
      this.#exports.release(block);
    }
  }

  #asked(told, texts, input, outputRoom, errorsRoom) {
    const words = told + TOLD;
    const at = this.#put(texts, words, words + WORD * texts.length);
    this.#exports.bytes(at, input.length).set(input);
    const output = at + input.length;
    const errors = output + outputRoom;
    const sized = [[words, texts.length], [at, input.length], [output, outputRoom], [errors, errorsRoom]];
    const status = this.#exports.run('sw_command', ...[...sized.flat(), told].map(BigInt));
    const report = new DataView(this.#exports.memory, told, TOLD);
    const [outputLength, errorsLength] = [0, 8].map((it) => Number(report.getBigUint64(it, true)));
    return {
      status,
      output: outputLength <= outputRoom ? this.#exports.bytes(output, outputLength).slice() : null,
      errors: errorsLength <= errorsRoom ? this.#exports.bytes(errors, errorsLength).slice() : null,
      outputLength,
      errorsLength,
      isRead: report.getUint32(16, true) === 1,
    };
  }

  // Writes texts, and where each of them is; returns where they end.
  #put(texts, words, at) {
    const places = new DataView(this.#exports.memory, words, WORD * texts.length);
    texts.forEach((text, count) => {
      places.setBigUint64(WORD * count, BigInt(at), true);
      places.setBigUint64(WORD * count + 8, BigInt(text.length), true);
      this.#exports.bytes(at, text.length).set(text);
      at += text.length;
    });
    return at;
  }
}

/** Loads the module: from beside this file, or from a URL, its bytes, or a compiled WebAssembly.Module. */
export async function load(source = new URL('./lexicat.wasm', import.meta.url)) {
  return new Lexicat(await exportsOf(source));
}

/** Loads the module at once, from its bytes or a compiled WebAssembly.Module. */
export function loadSync(source) {
  return new Lexicat(exportsOfSync(source));
}

let loaded = null;

/** What the command answers, by a module that is loaded with the first call, and anew where it failed. */
export async function command(words, input) {
  loaded ??= load();
  try {
    return (await loaded).command(words, input);
  } catch (failure) {
    if (failure.code !== 'ERR_INVALID_ARG_TYPE') loaded = null;
    throw failure;
  }
}
