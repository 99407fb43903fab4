// Usage: `node page/tests/memory.js`. Allocates blocks on the WebAssembly module's heap (wasm/heap.c) until an allocation fails. The blocks must not overlap
// and must be inside the memory, whose size is at most 4 GiB minus 16 MiB (see page/build). A failed allocation must leave the heap unchanged.
"use strict";

const fs = require("fs");
const path = require("path");

const LAST = 2 ** 32 - 2 ** 24;
const HEAD = 16; // the bytes of a block of 2^k bytes that precede the allocation
const MANY = 5000; // more blocks than fit in the memory

const built = new WebAssembly.Module(fs.readFileSync(process.argv[2] ?? path.join(__dirname, "..", "listset.wasm")));
const failed = [];
let passed = 0;

function check(what, is) {
  if (is) passed++;
  else failed.push(what);
}

// Fills the memory with blocks of one size. Checks the addresses of the blocks, that a small block still fits, and that a freed block can be allocated again.
function fill(size) {
  const { memory, page_alloc: alloc, page_free: free } = new WebAssembly.Instance(built, { env: { read: () => -1n } }).exports;
  const blocks = [];
  for (let block = alloc(BigInt(size)); block !== 0n && blocks.length < MANY; block = alloc(BigInt(size))) {
    blocks.push(Number(block));
  }
  const { byteLength } = memory.buffer;
  check(`${size}: nearly all of the memory`, (blocks.length + 3) * (size + HEAD) > LAST && blocks.length < MANY);
  check(`${size}: apart`, blocks.every((it, at) => at === 0 || it >= blocks[at - 1] + size + HEAD));
  check(`${size}: within ${byteLength}`, blocks.at(-1) + size <= byteLength && byteLength <= LAST);
  check(`${size}: a small one still`, alloc(100n) !== 0n);
  free(BigInt(blocks[0]));
  check(`${size}: a freed one again`, Number(alloc(BigInt(size))) === blocks[0]);
  check(`${size}: too large`, [2n ** 31n + 1n, 2n ** 32n, 2n ** 63n].every((it) => alloc(it) === 0n));
}

for (const power of [20, 26, 30, 31]) fill(2 ** power - HEAD);
console.log(JSON.stringify({ passed, failed }));
