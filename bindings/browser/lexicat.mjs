#!/usr/bin/env node
// The command `lexicat` by Node: arguments, standard input, both outputs and the status are those of the native command.
// The input is read where the command reads it.
import { readFileSync, readSync, writeSync } from 'node:fs';
import { setTimeout } from 'node:timers/promises';
import { isatty } from 'node:tty';
import { loadSync } from './command.mjs';

// The most bytes of an input that the command takes; of one more it is told that it is too large.
const MOST_BYTES = 67108864;
const FAILED_READ = { status: 4, output: Buffer.alloc(0), errors: Buffer.from('refused 24: read fault\n') };
const FAILED_WRITE = { status: 4, output: Buffer.alloc(0), errors: Buffer.from('refused 25: write fault\n') };
// The descriptors of standard input, standard output and standard error.
const INPUT = 0;
const OUTPUT = 1;
const ERRORS = 2;
// The arguments that ask for help and for the version.
const SHOWN = ['--help', '-h', '--version', '-V'];

// (Node would end with 1, which says that nothing was found)
process.on('uncaughtException', (failure) => {
  console.error(failure);
  process.exitCode = 70;
});

const lexicat = loadSync(readFileSync(new URL('./lexicat.wasm', import.meta.url)));

// What a file or a pipe holds, piece by piece. (Node's own stream of standard input takes a folder for an empty file.)
async function* piecesOf(descriptor) {
  for (;;) {
    const piece = Buffer.allocUnsafe(65536);
    try {
      const count = readSync(descriptor, piece);
      if (count === 0) return;
      yield piece.subarray(0, count);
    } catch (failure) {
      // (so ends a pipe on one system)
      if (failure.code === 'EOF') return;
      if (failure.code !== 'EAGAIN') throw failure;
      // (a pipe that is empty, and does not let its readers wait)
      await setTimeout(1);
    }
  }
}

// All of standard input, as far as the command would read it; null where a read fails.
async function inputOf() {
  const pieces = [];
  let count = 0;
  try {
    for await (const piece of isatty(INPUT) ? process.stdin : piecesOf(INPUT)) {
      pieces.push(piece);
      count += piece.length;
      if (count > MOST_BYTES) break;
    }
  } catch {
    return null;
  }
  return Buffer.concat(pieces).subarray(0, MOST_BYTES + 1);
}

// Writes to a terminal, and says whether all was written.
function writtenToTerminal(stream, bytes) {
  return new Promise((resolve) => {
    stream.on('error', () => resolve(false));
    stream.write(bytes, (failure) => resolve(!failure));
  });
}

// Writes to a file or a pipe, and says whether all was written.
async function writtenTo(descriptor, bytes) {
  for (let at = 0; at < bytes.length; ) {
    try {
      at += writeSync(descriptor, bytes, at);
    } catch (failure) {
      if (failure.code !== 'EAGAIN') return false;
      // (a pipe that is full, and does not let its writers wait)
      await setTimeout(1);
    }
  }
  return true;
}

// (the stream is made for a terminal alone: that of a pipe would not let its writers wait)
function written(descriptor, bytes) {
  if (!isatty(descriptor)) return writtenTo(descriptor, bytes);
  return writtenToTerminal(descriptor === OUTPUT ? process.stdout : process.stderr, bytes);
}

async function answerTo(words) {
  const answer = lexicat.bytes(words);
  if (!answer.isRead) return answer;
  const input = await inputOf();
  return input === null ? FAILED_READ : lexicat.bytes(words, input);
}

// Whether this is help or the version, of which the command does not say that it could not be written.
function isShown(words, output) {
  const commands = [[], ...words.slice(0, 2).map((it) => [it])];
  return commands.some((command) =>
    SHOWN.some((it) => Buffer.compare(output, lexicat.bytes([...command, it]).output) === 0),
  );
}

const words = process.argv.slice(2);
let answer = await answerTo(words);
if (!(await written(OUTPUT, answer.output)) && !isShown(words, answer.output)) answer = FAILED_WRITE;
await written(ERRORS, answer.errors);
process.exitCode = answer.status;
