// Runs the page's modules and its engine in node, for tools and for tests without a browser.
"use strict";

const fs = require("fs");
const path = require("path");
const { Duplex } = require("stream");
const vm = require("vm");
const zlib = require("zlib");

const NO_ENGINE = 70; // the exit status of a tool without an engine
const NOT_RUN = "this node does not run the WebAssembly module; version 18 does";

const bundle = { names: null };

// Node 18 has no global `crypto`, and its CompressionStream does not support "deflate-raw", the format of a course in a link. The streams of zlib support this
// format.
globalThis.crypto ??= require("crypto").webcrypto;
try {
  new CompressionStream("deflate-raw");
} catch {
  globalThis.CompressionStream = function () {
    return Duplex.toWeb(zlib.createDeflateRaw());
  };
  globalThis.DecompressionStream = function (format) {
    return Duplex.toWeb(format === "gzip" ? zlib.createGunzip() : zlib.createInflateRaw());
  };
}

// Evaluates the expression `words`, often a single name. The expression can use all names that the page's modules export.
function inPage(words) {
  const textOf = (name) => fs.readFileSync(path.join(__dirname, name), "utf8");
  bundle.names ??= vm.runInThisContext(`${textOf("page.js")}\n${textOf("more.js")}\nObject.assign(listsets.more, MORE), listsets`, { filename: "page.js" });
  const { names } = bundle;
  if (Object.hasOwn(names, words)) return names[words];
  return new Function(...Object.keys(names), `return (${words});`)(...Object.values(names));
}

// Starts the engine. The engine calls `read` to read its inputs. Returns null if node cannot run the engine.
async function startedEngine(read) {
  const bytes = fs.readFileSync(path.join(__dirname, "listset.wasm"));
  if (!WebAssembly.validate(bytes)) return null;
  return new (inPage("Engine"))(await WebAssembly.compile(bytes), read);
}

module.exports = { NO_ENGINE, NOT_RUN, inPage, startedEngine };
