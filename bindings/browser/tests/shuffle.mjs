// Compares a module's `shuffle` with what PSHUFB does: each index at each place, beside others at random.

/** Returns a line; an Error names the first difference. `bytes` are the module. */
export async function tryShuffle(_, bytes, seed) {
  const { shuffle, memory } = new WebAssembly.Instance(await WebAssembly.compile(bytes), {}).exports;
  const [given, indices, out] = [0, 16, 32].map((at) => new Uint8Array(memory.buffer, 65536 + at, 16));
  given.forEach((_, at) => (given[at] = 100 + at));
  let state = seed >>> 0;
  for (let index = 0; index < 256; index++) {
    for (let place = 0; place < 16; place++) {
      indices.forEach((_, at) => (indices[at] = (state = (Math.imul(state, 1103515245) + 12345) >>> 0) >>> 24));
      indices[place] = index;
      shuffle(65536n, 65552n, 65568n);
      indices.forEach((it, at) => {
        const wanted = it & 0x80 ? 0 : given[it & 0x0f];
        if (out[at] !== wanted) throw new Error(`index ${it} at ${at} gives ${out[at]}, and not ${wanted}`);
      });
    }
  }
  return '4096 shuffles of 16 bytes';
}
