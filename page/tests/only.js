// Checks `judge --only KEY` on random recordings. If some order explains the calls on the key, the command must print the recording of this key. Otherwise the
// command must print some of these calls, and the judge's refusal of them must have the same two lines. In the printed recording, the key must start in the
// only state that the earlier calls can leave.
"use strict";

const { startedEngine } = require("../in_node.js");
const { onlyKey } = require("../only.js");

const RECORDINGS = 150;
const KEYS = [0, 1, 2];

let seed = 12345;
function below(count) {
  seed = (seed * 1103515245 + 12345) % 2 ** 31;
  return Math.floor(seed / 65536) % count;
}

// Returns the reply of a sequential set with these keys to a call.
function replyOf(keys, { word, key }) {
  const is = keys.has(key);
  if (word === "add") keys.add(key);
  if (word === "remove") keys.delete(key);
  return word === "add" ? !is : is;
}

// Returns a random recording of overlapping calls. Some replies are wrong, and some calls are pending at the end.
function drawn(count) {
  const opening = KEYS.filter(() => below(2) === 0);
  const [keys, pending, calls, wrong] = [new Set(opening), [], [], below(3) > 0 ? 3 : 0];
  for (let moment = 1; calls.length < count || (pending.length > 0 && below(5) > 0); moment++) {
    const idle = [0, 1, 2, 3].filter((thread) => !pending.some((call) => call.thread === thread));
    if (calls.length < count && idle.length > 0 && (pending.length === 0 || below(2) === 0)) {
      const call = { thread: idle[below(idle.length)], word: ["add", "remove", "contains"][below(3)], key: below(KEYS.length), begin: moment };
      calls.push(call);
      pending.push(call);
    } else {
      const [call] = pending.splice(below(pending.length), 1);
      Object.assign(call, { end: moment, reply: replyOf(keys, call) !== below(100) < wrong });
    }
  }
  return { calls, opening, keys: KEYS.filter((key) => keys.has(key)), isCut: below(3) === 0 };
}

function textOf({ calls, opening, keys, isCut }) {
  const lines = calls.map(({ thread, word, key, begin, end, reply }) => `call ${thread} ${word} ${key} ${begin} ${end ? `${end} ${reply}` : "- -"}`);
  const ends = isCut ? ["cut"] : [...keys.map((key) => `key ${key}`), "end"];
  return ["listset-calls 1", ...opening.map((key) => `opening ${key}`), ...lines, ...ends, ""].join("\n");
}

const callsIn = (text) => text.split("\n").filter((line) => line.startsWith("call "));
const head = (text) => text.split("\n").slice(0, 2).join("\n");

// Returns what is wrong with the recording of `key` alone that `onlyKey` makes from the recording `made`, or "" if nothing is wrong.
function faultOf(made, key, judge) {
  const of = (list) => list.filter((it) => it === key);
  const own = { ...made, calls: made.calls.filter((call) => call.key === key), opening: of(made.opening), keys: of(made.keys) };
  const [whole, found] = [textOf(own), onlyKey(textOf(made), String(key), judge)];
  if (own.calls.length === 0) return found === null ? "" : "a key without calls";
  if (judge(whole).startsWith("ok ")) return found === whole ? "" : "not the whole recording";
  const first = callsIn(whole).indexOf(callsIn(found)[0]);
  if (callsIn(whole).slice(first).join("\n").indexOf(callsIn(found).join("\n")) !== 0) return "no part of it";
  if (head(judge(found)) !== head(judge(whole))) return "another verdict";
  const state = found.includes(`\nopening ${key}\n`);
  const leaves = (isThere) => judge(textOf({ ...own, calls: own.calls.slice(0, first), keys: isThere ? [key] : [], isCut: false })).startsWith("ok ");
  return leaves(state) && !leaves(!state) ? "" : "another state at its start";
}

async function main() {
  const engine = await startedEngine(() => -1);
  const judge = (text) => engine.ask("listset_judge", text).text;
  const failed = [];
  for (let number = 0; number < RECORDINGS; number++) {
    const made = drawn([6, 30, 120][below(3)]);
    const faults = KEYS.map((key) => faultOf(made, key, judge)).filter((fault) => fault !== "");
    if (faults.length > 0) failed.push(`recording ${number}: ${faults.join("; ")}`);
  }
  process.stdout.write(JSON.stringify({ passed: RECORDINGS - failed.length, failed }));
}

main();
