// What Node holds for each cell of a map of yjs: prints bytes of its heap, after a collection.
//
// usage: node yjs.cjs make SITE.json UPDATE
//        node --expose-gc yjs.cjs hold SITE.json UPDATE
//
// The keys are an id and a language, the values labels. yjs keeps a time of its own for each edit,
// a client and a clock, so those of the site are left out. The first call makes the map and writes
// its update; the second opens that, and looks each label up.
"use strict";
const { readFileSync, writeFileSync } = require("fs");
const { Doc, applyUpdate, encodeStateAsUpdate } = require("yjs");

const [how, site, path] = process.argv.slice(2);

function* cells() {
  for (const [id, lang, , , , [label]] of JSON.parse(readFileSync(site, "utf8")).cells) {
    yield [`${id}|${lang}`, label];
  }
}

function make() {
  const doc = new Doc();
  doc.transact(() => {
    for (const [key, label] of cells()) doc.getMap("cells").set(key, label);
  });
  writeFileSync(path, encodeStateAsUpdate(doc));
}

function held() {
  for (let turn = 0; turn < 3; turn++) global.gc();
  const { heapUsed, external } = process.memoryUsage();
  return heapUsed + external;
}

function hold() {
  const before = held();
  const doc = new Doc();
  applyUpdate(doc, readFileSync(path));
  let count = 0;
  for (const [key, label] of cells()) {
    if (doc.getMap("cells").get(key) !== label) throw new Error(`${key} is lacking`);
    count++;
  }
  console.log((held() - before) / count, 0);
  if (doc.getMap("cells").size !== count) throw new Error("there are cells too many");
}

(how === "make" ? make : hold)();
