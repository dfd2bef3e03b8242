// Asks the command's module each question that it reads, and writes its answers: tests/library/commands.py has
// the form of both.
//
// usage: node commands.mjs < QUESTIONS
import { readSync, writeSync } from 'node:fs';
import { load } from 'silkwaram/command';

const lexicat = await load();

// So many bytes of standard input, or fewer at its end.
function read(count) {
  const bytes = Buffer.alloc(count);
  let at = 0;
  while (at < count) {
    const given = readSync(0, bytes, at, count - at);
    if (given === 0) break;
    at += given;
  }
  return bytes.subarray(0, at);
}

function number() {
  return read(4).readUInt32LE();
}

function write(bytes) {
  for (let at = 0; at < bytes.length; ) at += writeSync(1, bytes, at);
}

function sized(bytes) {
  const length = Buffer.alloc(8);
  length.writeBigUInt64LE(BigInt(bytes.length));
  return Buffer.concat([length, bytes]);
}

for (;;) {
  const head = read(4);
  if (head.length === 0) break;
  const words = Array.from({ length: head.readUInt32LE() }, () => read(number()));
  const input = read(Number(read(8).readBigUInt64LE()));
  const asked = lexicat.bytes(words);
  const answer = lexicat.bytes(words, input);
  if (asked.isRead !== answer.isRead) throw new Error(`${words}: read, or not`);
  const begin = Buffer.alloc(8);
  begin.writeInt32LE(answer.status);
  begin.writeUInt32LE(Number(answer.isRead), 4);
  write(Buffer.concat([begin, sized(answer.output), sized(answer.errors)]));
}
