// Usage: `node tests/compare.js CASES`. Compares the answers of the WebAssembly module with those of the program, and the size of each file of the page with
// its limit.
"use strict";

const fs = require("fs");
const path = require("path");
const vm = require("vm");
const zlib = require("zlib");
const { inPage, startedEngine } = require("../in_node.js");

const folder = path.dirname(__dirname);
const run = (file) => vm.runInThisContext(fs.readFileSync(path.join(folder, file), "utf8"), { filename: file });
run("engine.js");
run("tests/cases.js");

function check(result, name, isGood) {
  if (isGood) result.passed++;
  else result.failed.push(name);
}

// Checks that the page can read each trace, and step to its end and back. The trace must contain the given schedule. Some trace must contain a `ceiling` that
// returns a key, and some trace a `ceiling` that returns nothing.
function checkTraces(result, engine, cases) {
  const replies = new Set();
  for (const { texts } of cases.filter((wanted) => wanted.function === "listset_trace")) {
    const schedule = Buffer.from(texts[0], "base64").toString();
    const answer = engine.ask("listset_trace", schedule);
    if (!answer.text.startsWith("listset-trace")) continue;
    const trace = new (inPage("Trace"))(answer.text, inPage("versionOf")(schedule));
    check(result, `the grammar of the trace of ${schedule}`, inPage("traceIn")(answer.text) !== null);
    trace.calls.forEach((call) => replies.add(call.reply));
    const lines = inPage("scheduleOfTrace")(trace);
    if (trace.refused === null) check(result, `the schedule of the trace of ${schedule}`, lines === schedule);
    const state = new (inPage("State"))(trace);
    const atFirst = JSON.stringify(state.threads);
    state.moveTo(trace.total);
    check(result, `the keys in the chain of ${schedule}`, inPage("keysInChain")(state).join() === inPage("promisedKeys")(trace).join());
    state.moveTo(0);
    check(result, `back to the start of ${schedule}`, JSON.stringify(state.threads) === atFirst);
  }
  check(result, "a ceiling answers a key", [...replies].some((reply) => /^at-\d+$/.test(reply)));
  check(result, "and one that there is none", replies.has("nothing"));
}

async function main() {
  const cases = JSON.parse(fs.readFileSync(process.argv[2], "utf8"));
  const engine = await startedEngine();
  const result = await vm.runInThisContext("compared")(engine, cases);
  const module = fs.readFileSync(path.join(folder, "listset.wasm"));
  check(result, "engine.js has the bytes of listset.wasm", module.equals(zlib.gunzipSync(Buffer.from(vm.runInThisContext("ENGINE"), "base64"))));
  checkTraces(result, engine, cases);
  process.stdout.write(JSON.stringify(result));
}

main();
