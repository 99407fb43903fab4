// Usage: `node tests/verdicts.js [CASES [SEED]]`. Checks that the page's sentences about random recordings, about runs of broken lists and about a reader's
// order of calls are true. Decides each sentence by a search through all orders. Also checks the sentences in diagnoses. Prints as JSON how many checks passed,
// which checks failed, and how many diagnoses were checked.
"use strict";

const fs = require("fs");
const path = require("path");
const { inPage, startedEngine } = require("../in_node.js");
const kindsOf = require("./kinds.js");

const CASES = Number(process.argv[2] ?? 150); // for each kind
let seed = Number(process.argv[3] ?? 1);
const result = { passed: 0, failed: [], diagnoses: 0 };
const met = new Set(); // the patterns that some sentence has matched
const [verdictOnCalls, verdictOnLacking, verdictOn] = ["verdictOnCalls", "verdictOnLacking", "verdictOn"].map(inPage);
const [OwnAnswer, exerciseOf, readReport, LACKING] = ["OwnAnswer", "exerciseOf", "readReport", "LACKING"].map(inPage);
const LAST = Infinity;
const LONG = ["inside", "growing", "unlinked", "outlasted", "ownCopies", "broken", "borrowed", "manyFirsts"]; // kinds with long recordings
const MOST_LONG = 60; // the maximum number of cases for a kind with long recordings: a case takes up to a second, so 4,000 of each kind would take hours
const OF_FACTS = ["inside", "unlinked", "outlasted", "ownCopies", "broken", "borrowed", "manyFirsts"]; // for these kinds, only the facts in a diagnosis are checked

// ---- Random numbers that depend only on the seed.

function draw(most) {
  seed = (seed + 0x6d2b79f5) | 0;
  let it = Math.imul(seed ^ (seed >>> 15), seed | 1);
  it ^= it + Math.imul(it ^ (it >>> 7), it | 61);
  return ((it ^ (it >>> 14)) >>> 0) % most;
}
const pick = (some) => some[draw(some.length)];

// ---- A search through all orders. A call has a thread, an operation, a key, the moments `begun` and `ended`, and a reply. A pending call has no end and no
// reply (null).

function replyOf({ operation, key }, keys, hasRoom) {
  if (operation === "ceiling") {
    const above = keys.filter((one) => one >= key);
    return above.length > 0 ? `at-${Math.min(...above)}` : "nothing";
  }
  if (operation === "add" && !keys.includes(key) && !hasRoom) return "full";
  return String(keys.includes(key) !== (operation === "add"));
}

const mayChange = ({ operation, reply }) => ["add", "remove"].includes(operation) && [null, "true"].includes(reply);

function keysAfter({ operation, key }, keys) {
  if (operation === "remove") return keys.filter((one) => one !== key);
  return operation === "add" && !keys.includes(key) ? [...keys, key].sort((one, other) => one - other) : keys;
}

// Finds all orders that explain the calls, and returns the final sets in these orders as texts.
function leftByOrders(all, opening, quota = Infinity) {
  const calls = all.filter((call) => call.ended !== null || mayChange(call));
  const isBefore = (one, other) => one.ended !== null && one.ended < other.begun;
  const left = new Set();
  const seen = new Set();
  const goOn = (placed, keys) => {
    const name = `${placed} ${keys}`;
    if (seen.has(name)) return;
    seen.add(name);
    const isPlaced = (at) => (placed & (1 << at)) !== 0;
    if (calls.every((call, at) => call.ended === null || isPlaced(at))) left.add(keys.join());
    calls.forEach((call, at) => {
      if (isPlaced(at) || calls.some((other, number) => isBefore(other, call) && !isPlaced(number))) return;
      const used = calls.filter((one, number) => isPlaced(number) && one.thread === call.thread && one.operation === "add" && mayChange(one));
      if (replyOf(call, keys, used.length < quota) === (call.reply ?? "true")) goOn(placed | (1 << at), mayChange(call) ? keysAfter(call, keys) : keys);
    });
  };
  goOn(0, opening);
  return left;
}

// Converts a completed `ceiling`, or an `add` that returned `full`, to a `contains`, as the judge does. Returns any other call unchanged.
function asLook(call) {
  if (call.reply === "full") return { ...call, operation: "contains", reply: "false" };
  if (call.operation !== "ceiling" || call.reply === null) return call;
  const [, found] = /^at-(\d+)$/.exec(call.reply) ?? [];
  return { ...call, operation: "contains", key: Number(found ?? call.key), reply: String(found !== undefined) };
}

// Returns the states (present or absent) that the calls on a key can leave if the key starts in a given state. The search keeps a set of nodes. A node is a
// number: the lowest bit is the state of the key, and each pending call has a bit that is set if the call has taken effect. A call that changes nothing takes
// effect as soon as it can.
function waysLeft(calls, key, isThere) {
  const ofKey = calls.map(asLook).filter((call) => call.key === key && (call.ended !== null || mayChange(call)));
  const events = ofKey.flatMap((call) => [[call.begun, call], ...(call.ended === null ? [] : [[call.ended, call]])]).sort(([one], [other]) => one - other);
  const [pending, bitOf] = [[], new Map()];
  let nodes = new Set([Number(isThere)]);
  for (const [, call] of events) {
    const bit = bitOf.get(call);
    if (bit === undefined) {
      let free = 2;
      while (pending.some((one) => one.bit === free)) free *= 2;
      if (free >= 2 ** 31) throw new Error("more than 30 calls are pending");
      bitOf.set(call, free);
      pending.push({ bit: free, isChange: mayChange(call), needed: Number(mayChange(call) ? call.operation !== "add" : needs(call)) });
      nodes = settled(nodes, pending);
    } else {
      pending.splice(pending.findIndex((one) => one.bit === bit), 1);
      nodes = new Set([...nodes].filter((node) => node & bit).map((node) => node ^ bit));
    }
  }
  return [...new Set([...nodes].map((node) => (node & 1) === 1))];
}

// Returns the nodes of the search that can be reached from `nodes` when some pending calls take effect.
function settled(nodes, pending) {
  const [todo, found] = [[...nodes], new Set()];
  while (todo.length > 0) {
    let node = todo.pop();
    const state = node & 1;
    for (const { bit, isChange, needed } of pending) if (!isChange && needed === state) node |= bit;
    if (found.has(node)) continue;
    found.add(node);
    for (const { bit, isChange, needed } of pending) if (isChange && (node & bit) === 0 && needed === state) todo.push((node | bit) ^ 1);
  }
  return found;
}

const quotaIn = (report) => Number(/^quota (\d+)$/m.exec(report)[1]);

// ---- The judged cases, and the tests of the sentences.

// Returns whether some order explains a case. A case consists of the calls, the opening keys, the final keys (null if unknown), and the quota (the number of
// adds that each thread may make).
const isExplained = ({ calls, opening, keys, quota }) => {
  const left = leftByOrders(calls, opening, quota);
  return keys === null ? left.size > 0 : left.has(keys.join());
};

function overlapped({ calls }) {
  const meets = (one, other) => one !== other && one.key === other.key && one.begun < (other.ended ?? LAST) && other.begun < (one.ended ?? LAST);
  const changes = calls.filter((call) => call.ended !== null && mayChange(call));
  return calls.filter((call) => changes.some((other) => meets(call, other))).length;
}

const callNamed = (calls, name, reply) =>
  calls.filter((call) => `${call.operation}(${call.key}) of ${"ABCD"[call.thread]}` === name && (reply === null || call.reply === reply));

// Returns the call that a text such as `add(5) of A returns true, from 1 to 4` describes.
function callIn(calls, text) {
  const [, name, reply, begun] = /^(.*) returns (\S+), from (\d+) to \d+$/.exec(text) ?? [];
  return callNamed(calls, name, reply ?? null).find((call) => call.begun === Number(begun));
}

// The patterns of the sentences about a recording, each with a test that returns whether the sentence is true. `said` contains facts from earlier sentences.
const OF_RECORDING = [
  [/^Linearizable: an order explains (?:this one call|these (\d+) calls)(, whatever keys it leaves| and leaves the keys)\. This verdict is about this recording only\.$/,
    (it, [count, keys]) => isExplained(it) && Number(count ?? 1) === it.calls.length + it.padding.length && keys.startsWith(",") === (it.keys === null)],
  [/^(\d+) of them overlap a change of their key\.$/, (it, [count]) => Number(count) === overlapped(it)],
  [/^That is few, and a race shows only if calls meet: take fewer keys, more threads, or pauses in the set\.$/, (it) => 20 * overlapped(it) < it.calls.length + it.padding.length],
  [/^The recording was cut off: some final keys fit; the real ones are not known\.$/, (it) => it.keys === null && isExplained(it)],
  [/^The first 40 calls are drawn\.$/, (it) => it.calls.length + it.padding.length > 40],
  [/^Not linearizable: no order at all explains these calls( and leaves the keys)?\.$/, (it, [keys]) => !isExplained(it) && (keys === undefined) === (leftByOrders(it.calls, it.opening).size === 0 || it.keys === null)],
  [/^No order explains the calls of key (\d+) up to moment (\d+)\.$/, (it, [key, moment], said) => {
    Object.assign(said, { key: Number(key), moment: Number(moment) });
    return waysLeft(it.calls.filter((call) => call.begun <= said.moment), said.key, it.opening.includes(said.key)).length === 0;
  }],
  [/^No order explains the calls of key (\d+) and leaves it as it was left\.$/, (it, [key], said) => {
    Object.assign(said, { key: Number(key), moment: LAST });
    const ways = waysLeft(it.calls, said.key, it.opening.includes(said.key));
    return !ways.includes(it.keys.includes(said.key));
  }],
  [/^Key (\d+) is (present|absent) at first; (.*)\.$/, (it, [key, state, second], said) => {
    Object.assign(said, { isPresent: state === "present", first: null });
    return said.key === Number(key) && it.opening.includes(said.key) === said.isPresent && isSecond(it, said, second);
  }],
  [/^(.*), and leaves key (\d+) (present|absent); (.*)\.$/, (it, [first, key, state, second], said) => {
    Object.assign(said, { isPresent: state === "present", first: callIn(it.calls, first) });
    return said.key === Number(key) && said.first !== undefined && leaves(said.first) === said.isPresent && isSecond(it, said, second);
  }],
  [/^No (add|remove)\((\d+)\) that answered true or is pending overlaps the time of both(\. They contradict each other in the other order too)?\.$/,
    (it, [operation, key, isBoth], said) => {
      const { first, second, isPresent } = said;
      const isThis = said.key === Number(key) && (operation === "remove") === isPresent && isNoneBetween(it, said.key, operation, first?.begun ?? 0, second?.ended ?? LAST);
      if (first === null || second === null || second.begun > first.ended) return isThis && isBoth === undefined;
      const other = leaves(second) ? "remove" : "add";
      return isThis && isBoth !== undefined && needs(first) !== leaves(second) && isNoneBetween(it, said.key, other, second.begun, first.ended);
    }],
  [/^At the end the set (has it|does not have it)\.$/, (it, [words], said) => it.keys.includes(said.key) === (words === "has it")],
];

const leaves = ({ operation, reply }) => operation === "add" || (operation === "contains" && reply === "true");
const needs = (call) => leaves(call) !== (call.operation !== "contains" && call.reply === "true");

// Returns whether `text` is true as the second part of a contradiction. The text names a later call, or the final state of the key, that contradicts the first
// call.
function isSecond(it, said, text) {
  const [, end] = /^it is (present|absent) at the end$/.exec(text) ?? [];
  const [, call, need] = /^(.*), and needs it (present|absent)$/.exec(text) ?? [];
  said.second = end === undefined ? callIn(it.calls, call) : null;
  if (said.second === null) return it.keys.includes(said.key) === (end === "present") && said.isPresent !== (end === "present");
  return said.second !== undefined && needs(said.second) === (need === "present") && said.isPresent !== (need === "present");
}

// Returns true if no call of `operation` could have changed the key between the moments `since` and `until`. (Only a call that returned true or is pending
// could have changed the key.)
function isNoneBetween(it, key, operation, since, until) {
  return !it.calls.some((call) => call.key === key && call.operation === operation && mayChange(call) && call.begun < until && since < (call.ended ?? LAST));
}

function checkSentences(properties, it, sentences) {
  const said = {};
  for (const sentence of sentences) checkSentence(properties, it, sentence, said);
}

// Checks a sentence with the test of the first pattern that the sentence matches. `said` contains facts from earlier sentences, and `line` contains the other
// parts of the line with the sentence.
function checkSentence(properties, it, sentence, said, line) {
  const [pattern, holds] = properties.find(([one]) => one.test(sentence)) ?? [null, () => false];
  met.add(pattern);
  const isTrue = holds(it, pattern?.exec(sentence).slice(1) ?? [], said, line);
  if (isTrue) result.passed++;
  else if (result.failed.length < 20) result.failed.push(`${pattern === null ? "no property is of" : "false:"} ${JSON.stringify(sentence)} on\n${it.text}`);
}

// ---- Recordings.

function drawnRecording() {
  const opening = [5, 7].filter(() => draw(3) === 0);
  const calls = [];
  const pending = new Map();
  let [keys, moment] = [opening, 0];
  const count = 3 + draw(6);
  while (calls.length < count || pending.size > 0) {
    moment++;
    const idle = [0, 1, 2].filter((thread) => !pending.has(thread));
    if (calls.length < count && idle.length > 0 && (pending.size === 0 || draw(2) === 0)) {
      const call = { thread: pick(idle), operation: pick(["add", "remove", "contains"]), key: pick([5, 5, 7]), begun: moment, ended: null, reply: null };
      calls.push(call);
      pending.set(call.thread, call);
    } else if (calls.length === count && draw(5) === 0) {
      break;
    } else {
      const call = pick([...pending.values()]);
      pending.delete(call.thread);
      call.reply = replyOf(call, keys, true);
      keys = call.reply === "true" ? keysAfter(call, keys) : keys;
      if (draw(8) === 0) call.reply = call.reply === "true" ? "false" : "true";
      call.ended = moment;
    }
  }
  if (draw(8) === 0) keys = keys.includes(5) ? keys.filter((key) => key !== 5) : [5, ...keys];
  const left = draw(5) === 0 ? null : keys;
  const padding = draw(3) > 0 ? paddingAfter(moment) : [];
  return { calls, padding, opening, keys: left, quota: Infinity, text: textOf([...calls, ...padding], opening, left) };
}

function textOf(calls, opening, left) {
  const lines = calls.map(({ thread, operation, key, begun, ended, reply }) => `call ${thread} ${operation} ${key} ${begun} ${ended ?? "-"} ${reply ?? "-"}`);
  const ends = left === null ? ["cut"] : [...left.map((key) => `key ${key}`), "end"];
  return ["listset-calls 1", ...opening.map((key) => `opening ${key}`), ...lines, ...ends, ""].join("\n");
}

// Returns correct calls on other keys, one after another. (A recording without such calls would be too short for its diagnosis to name a likely cause.)
function paddingAfter(last) {
  const made = [["contains", "false"], ["add", "true"], ["add", "false"], ["contains", "true"], ["remove", "true"], ["remove", "false"]];
  const ofKeys = [11, 13, 15].flatMap((key) => [...made, ...made, ...made, ...made].map(([operation, reply]) => ({ thread: 3, operation, key, reply })));
  return ofKeys.map((call, at) => ({ ...call, begun: last + 1 + 2 * at, ended: last + 2 + 2 * at }));
}

function checkRecording(ask) {
  const it = drawnRecording();
  const { kind, says, reasons } = verdictOnCalls(ask, ask("listset_judge_record", it.text), it.text);
  checkSentences(OF_RECORDING, it, [says, ...reasons]);
  if ((kind === "ok") !== isExplained(it)) result.failed.push(`${kind}: ${it.text}`);
  if (kind === "none") checkWhy(ask, it);
}

// Checks the verdict on a recording that `drawn` generates. If the recording is not linearizable, also checks the diagnosis.
function checkKind(ask, drawn) {
  const it = drawn();
  const isOk = keysOf(it).every((key) => hasOrderOf(it, key));
  if (/^verdict ok/m.test(ask("listset_judge_record", it.text).text) !== isOk) result.failed.push(`the verdict is wrong on\n${it.text}`);
  else if (!isOk) (OF_FACTS.includes(drawn.name) ? checkFacts : checkWhy)(ask, it);
}

// Checks only the facts in a diagnosis. (The recording is too long for a check of the headline and the picture.)
function checkFacts(ask, it) {
  result.diagnoses++;
  const told = ask("listset_why_record", it.text).text.split("\n").filter((line) => /^(fact|because) /.test(line));
  const why = { because: told.filter((line) => line.startsWith("because ")), shown: [], also: [], guilty: [] };
  for (const line of told.filter((one) => !one.startsWith("fact ("))) checkSentence(OF_WHY, it, line.replace(/; suspected: .*$/, ""), why, {});
}

// Returns the call that a line of a diagnosis describes.
function callOfLine(it, words) {
  const [thread, operation, key, begun] = words;
  return it.calls.find((call) => call.thread === Number(thread) && call.operation === operation && call.key === Number(key) && call.begun === Number(begun)
    && String(call.ended ?? "-") === words[4] && (call.reply ?? "-") === words[5]);
}

function checkWhy(ask, it) {
  result.diagnoses++;
  const lines = ask("listset_why_record", it.text).text.split("\n").filter((line) => line !== "").map((line) => line.split(" "));
  const told = lines.map((words) => (["call", "also"].includes(words[0]) ? { call: callOfLine(it, words.slice(1)), says: [words[0], ...words.slice(7)].join(" "), mark: words.slice(7).join(" ") } : { says: words.join(" ") }));
  const why = { shown: told.filter(({ says }) => says.startsWith("call ")), also: told.filter(({ says }) => says.startsWith("also")).map(({ call }) => call), because: told.filter(({ says }) => says.startsWith("because ")), told: null,
    isOfEnd: told.some(({ says }) => / at the end$/.test(says) && says.startsWith("headline ")), isOfOdd: told.some(({ says }) => says.startsWith("fact only ")) };
  for (const { call } of told.filter(({ says }) => /^(call|also)/.test(says))) if (call === undefined) return result.failed.push(`no such call on\n${it.text}`);
  why.guilty = told.filter(({ says }) => / suspected$/.test(says)).map(({ call }) => call);
  for (const line of told) checkSentence(OF_WHY, it, guiltyIn(why, line.says), why, line);
  return checkText(ask, it, told);
}

// Returns the sentence `says` without the suspected call that it names. If the picture marks a different call as suspected, or if the named call overlaps no
// other call in the picture, returns a sentence that no pattern matches.
function guiltyIn(why, says) {
  const [, sentence, operation, key, thread, begun, ended] = /^(because .*); suspected: (\w+) (\d+) of thread (\d+), (\d+) to (\d+|\.\.)$/.exec(says) ?? [];
  if (sentence === undefined) return says;
  const isNamed = (call) => `${[call.operation, call.key, call.thread, call.begun, call.ended ?? ".."]}` === `${[operation, key, thread, begun, ended]}`;
  const isMet = (call) => why.shown.some(({ call: one }) => one !== call && inTime(one, call.begun, call.ended ?? LAST));
  const known = [...why.shown.map(({ call }) => call), ...why.also].filter(isNamed);
  return known.length === 1 && isMet(known[0]) && why.guilty.every((call) => call === known[0]) ? sentence : `${says} (not in the picture)`;
}

// Decides whether the suspected change `guilty` has no rival. A rival is a change of another key by the same operation. A rival overlaps the first of the two
// contradicting calls, and ends after the first call but not after the second. (The diagnosis suspects no change if several changes fit equally well.)
function isOnlySuspect(it, why, guilty) {
  const first = why.shown.find(({ mark }) => mark.startsWith("leaves "))?.call;
  const second = why.shown.find(({ call, mark }) => first !== undefined && call.begun > first.ended && needsKey(call) !== leaves(first) && mark !== "-")?.call;
  if (second === undefined || why.isOfOdd) return true;
  const isSmaller = (key) => key < first.key || !why.because.some(({ says }) => says.includes("a smaller key was removed"));
  const isRival = (call) => call.key !== first.key && call.operation === guilty.operation && call.reply === "true" && isChange(call) && isSmaller(call.key)
    && inTime(call, first.begun, first.ended) && call.ended > first.ended && call.ended <= second.ended;
  return it.calls.every((call) => call === guilty || !isRival(call));
}

// Decides whether, for every two bars of a picture, the bars share a column exactly when the two calls overlap in time.
function doBarsMeet(lines) {
  const bars = lines.flatMap((line) => {
    const [, before, bar, begun, ended] = /^(thread \d+ +)(\[\w+ \d+-*(?:\w+\]|\.\.)) +(\d+) to (\d+|\.\.)/.exec(line) ?? [];
    return bar === undefined ? [] : [{ from: before.length, to: before.length + bar.length - 1, begun: Number(begun), ended: ended === ".." ? LAST : Number(ended) }];
  });
  return bars.every((one) => bars.every((other) => (one.from <= other.to && other.from <= one.to) === (one.begun <= other.ended && other.begun <= one.ended)));
}

// Checks that the text of a diagnosis contains the statements in the engine's record of the diagnosis, and a bar for each call. (A long text leaves out some
// facts.)
function checkText(ask, it, told) {
  const isOfCount = (line) => /^(contradiction: | {2}(need key|and (no|only)) )/.test(line);
  const lines = ask("listset_why", it.text).text.split("\n").filter((line) => line !== "" && !isOfCount(line));
  const NOTES = [[/^ +<-- expected (\w+)$/, "call expected $1"], [/^ +key \d+ is (\w+)$/, "call leaves $1"], [/^ +<-- one of two$/, "call either"], [/^ +finds key \d+ (\w+)$/, "call finds $1"], [/^ +<-- (suspected)$/, "$1"]];
  const [isOfPicture, BAR] = [/^thread |^ +\.\.\.$|^-+ also running(?:: \d+ of (?:\d+|many) changes of other keys)?$/, /^thread (\d+) +\[(\w+) (\d+)-*(?:(\w+)\]|\.\.) +(\d+) to (\d+|\.\.)(.*)$/];
  const bars = lines.filter((line) => line.startsWith("thread ")).map((line) => {
    const [, thread, operation, key, reply, begun, ended, note] = BAR.exec(line) ?? [];
    const mark = NOTES.find(([pattern]) => pattern.test(note));
    return { call: `${thread} ${operation} ${key} ${begun} ${ended} ${reply ?? ".."}`, says: mark === undefined ? note : note.replace(...mark) };
  });
  const toldOf = ({ call, says }) => ({ call: `${call.thread} ${call.operation} ${call.key} ${call.begun} ${call.ended ?? ".."} ${call.reply ?? ".."}`, says: /^(call -|also)$/.test(says) ? "" : says.replace(/^(call|also) suspected$/, "suspected") });
  const due = told.filter(({ call }) => call !== undefined);
  const hasBar = (one) => bars.some(({ call, says }) => call === toldOf(one).call && says === toldOf(one).says);
  const isDrawn = bars.every((bar) => due.some((one) => toldOf(one).call === bar.call && toldOf(one).says === bar.says)) && due.filter(({ says }) => !says.startsWith("also")).every(hasBar);
  const prefixes = { headline: "", fact: "", likely: "likely: ", because: "  because " };
  const statements = told.filter(({ call }) => call === undefined).map(({ says }) => says.replace(/^(\w+) /, (_, word) => prefixes[word]));
  const printed = lines.filter((line) => !isOfPicture.test(line));
  const isFact = (statement) => told.some(({ says }) => says === `fact ${statement}`);
  const leftOut = statements.filter((statement) => !printed.includes(statement));
  const isSame = printed.join("\n") === statements.filter((statement) => printed.includes(statement)).join("\n") && leftOut.every(isFact) && (leftOut.length === 0 || lines.length >= 9);
  if (isDrawn && isSame && doBarsMeet(lines)) return result.passed++;
  return result.failed.push(`the text and the record differ:\n${lines.join("\n")}\n${JSON.stringify(told)} on\n${it.text}`);
}

// ---- The diagnosis of a recording: a headline, calls and facts.

const holdsReply = (call) => call.ended !== null;
const turned = (call) => ({ ...call, reply: call.reply === "true" ? "false" : "true" });
const isChange = (call) => call.operation !== "contains" && call.reply !== "false";
const needsKey = (call) => (call.reply === "true") === (call.operation !== "add");
const ofKey = (it, key) => it.calls.filter((call) => call.key === key);
const opens = (it, key) => it.opening.includes(key);

// Decides whether some order explains the calls on a key if the key starts in a given state and, if `left` is given, ends in the state `left`.
function hasOrder(calls, key, isThere, left = null) {
  const ways = waysLeft(calls, key, isThere);
  return left === null ? ways.length > 0 : ways.includes(left);
}
const leftOf = (it, key) => (it.keys === null ? null : it.keys.includes(key));
const hasOrderOf = (it, key) => hasOrder(ofKey(it, key), key, opens(it, key), leftOf(it, key));

// Returns the calls as far as they are known at a moment. A change that ends after the moment becomes a pending call, since it could have taken effect. Any
// other call that ends after the moment is left out.
const knownBy = (calls, moment) => calls.flatMap((call) => {
  if (call.begun > moment) return [];
  if (call.ended !== null && call.ended <= moment) return [call];
  return isChange(call) ? [{ ...call, ended: null, reply: null }] : [];
});

// Returns the moments after which the calls on a key can be judged without the earlier calls, each with the state of the key. Such a moment is 0, or a moment
// when no change is pending and the earlier calls (or the earlier changes alone) can leave the key in only one state.
function startsOf(calls, key, isThere) {
  const changes = calls.filter(isChange);
  const found = [[0, isThere]];
  for (const { ended: moment } of calls.filter(holdsReply)) {
    if (changes.some((call) => call.begun <= moment && moment < (call.ended ?? LAST))) continue;
    const earlier = calls.filter((call) => call.ended !== null && call.ended <= moment);
    for (const first of [0, ...earlier.map((call) => call.begun)]) {
      if (changes.some((call) => call.begun < first && first < (call.ended ?? LAST))) continue;
      const part = earlier.filter((call) => call.begun >= first);
      for (const its of [part, part.filter(isChange)]) {
        const ways = (first === 0 ? [isThere] : [true, false]).map((state) => waysLeft(its, key, state)).flat();
        if (new Set(ways).size === 1) found.push([moment, ways[0]]);
      }
    }
  }
  return found;
}

// Yields the parts of the recording of a key that contain `call`. A part has the key's state at its start, its calls and, if it reaches the end of the
// recording, the key's final state.
function* around(it, key, call) {
  const calls = ofKey(it, key);
  it.starts ??= new Map();
  if (!it.starts.has(key)) it.starts.set(key, startsOf(calls, key, opens(it, key)));
  for (const [start, isThere] of it.starts.get(key).filter(([moment]) => moment < call.begun)) {
    const part = calls.filter(({ begun }) => begun > start);
    for (const until of [...part.map(({ begun }) => begun).filter((begun) => begun > call.begun), (call.ended ?? 0) + 0.5]) {
      yield { isThere, calls: knownBy(part.filter(({ begun }) => begun < until), until), left: null, since: start, until };
    }
    yield { isThere, calls: part, left: leftOf(it, key), since: start, until: LAST };
  }
}

// Returns whether an earlier change contradicts `call`: the change leaves the opposite of the state that `call` finds. No change back could have taken effect
// between the start of the earlier change and the end of `call`.
function isKnownOtherwise(it, call) {
  const wanted = needs(call) ? "add" : "remove";
  const isLast = (one) => one.ended !== null && one.ended < call.begun && leaves(one) !== needs(call) && isNoneBetween(it, call.key, wanted, one.begun, call.ended);
  return !isChange(call) && ofKey(it, call.key).filter(isChange).some(isLast);
}

// Returns whether the opposite reply of `call` was expected: the changes of the key, or the calls on the key around `call`, are linearizable only with the
// opposite reply. Also returns true if an earlier change contradicts `call`.
function isExpected(it, call) {
  const changes = knownBy(ofKey(it, call.key).filter((one) => isChange(one) && one !== call), call.ended);
  const fits = (one, others, isThere, left) => hasOrder([...others, one], call.key, isThere, left);
  const isOnlyTurned = (others, isThere, left) => !fits(call, others, isThere, left) && fits(turned(call), others, isThere, left);
  if (isOnlyTurned(changes, opens(it, call.key), null) || isKnownOtherwise(it, call)) return true;
  return [...around(it, call.key, call)].some(({ calls, isThere, left }) => calls.includes(call) && isOnlyTurned(calls.filter((one) => one !== call), isThere, left));
}

// Returns whether some calls on the key around `call` (by default, around the last call) become linearizable if one change of the key is added at some moment.
function isGone(it, key, wasThere, call) {
  const calls = ofKey(it, key);
  const near = call ?? [...calls].sort((one, other) => other.begun - one.begun)[0];
  if (near === undefined) return opens(it, key) === wasThere && leftOf(it, key) === !wasThere;
  const change = (begun) => ({ thread: 99, operation: wasThere ? "remove" : "add", key, begun: begun + 0.25, ended: null, reply: null });
  return [...around(it, key, near)].some(({ calls: part, isThere, left }) =>
    [0, ...part.flatMap(({ begun, ended }) => [begun, ended ?? begun])].some((moment) => hasOrder([...part, change(moment)], key, isThere, left)));
}

// Returns the wrong answers of an operation. An answer is a call of the operation that changed nothing. It is wrong if no order explains it together with the
// calls on its key that are not answers. Returns null if the calls that are not answers are not linearizable by themselves.
function wrongAnswers(it, operation, isAside) {
  const wrong = [];
  let count = 0;
  for (const key of keysOf(it)) {
    const left = isAside ? null : leftOf(it, key);
    const answers = ofKey(it, key).filter((call) => call.operation === operation && holdsReply(call) && !isChange(call));
    const others = ofKey(it, key).filter((call) => !answers.includes(call));
    if (!hasOrder(others, key, opens(it, key), left)) return null;
    count += answers.length;
    wrong.push(...answers.filter((call) => !hasOrder([...others, call], key, opens(it, key), left)));
  }
  // True if some order explains the calls without the wrong answers.
  const isAll = keysOf(it).every((key) => hasOrder(ofKey(it, key).filter((call) => !wrong.includes(call)), key, opens(it, key), isAside ? null : leftOf(it, key)));
  return { wrong, count, isAll };
}
const keysOf = (it) => [...new Set([...it.calls.map(({ key }) => key), ...it.opening, ...(it.keys ?? [])])];

const inTime = (call, since, until) => call.begun <= until && since <= (call.ended ?? LAST);
const runsBeside = (it, call, operation) => it.calls.some((one) => one !== call && one.key === call.key && one.operation === operation && isChange(one) && inTime(one, call.begun, call.ended));

// Returns whether another add or remove that satisfies `holds` overlaps `call`.
const runsDuring = (it, call, holds) => it.calls.some((one) => one !== call && one.operation !== "contains" && holds(one) && inTime(one, call.begun, call.ended));

const isSame = (it, call) => runsDuring(it, call, (one) => one.key === call.key);
const isBeside = (it, call) => runsDuring(it, call, (one) => one.key !== call.key && one.reply === "true");

// Returns whether the text `rate` in a sentence compares the share of `count` in `all` correctly with the share for other answers. The text is empty if there
// are no other answers.
function isRate(rate, count, all) {
  const [, near, , usual] = /^(?:(, about as often as during (?:sampled )?other answers) \((\d+)%\)| \(during (?:sampled )?other answers: (\d+)%\))$/.exec(rate) ?? [];
  const [, other] = /(\d+)%/.exec(rate) ?? [];
  const isNear = Math.abs(Math.floor((Number(count) * 100) / Number(all)) - Number(other)) <= 10;
  return rate === "" || (Number(other) <= 100 && isNear === (near !== undefined) && (near !== undefined || usual !== undefined));
}

function isHeadline(it, why, [key, gone, operation, ofCall, reply, expected]) {
  // if no reply was expected, the call need not be drawn
  const told = expected === undefined ? it.calls.map((call) => ({ call, mark: "-" })) : why.shown;
  const named = told.filter(({ call }) => call.operation === operation && call.key === Number(ofCall) && call.reply === reply);
  const isMarked = ({ call, mark }) => mark === `expected ${turned(call).reply}` && expected === turned(call).reply;
  if (expected !== undefined && !named.some(isMarked)) return false;
  return named.length > 0 && (gone === undefined || (key === ofCall && named.some(({ call }) => isGone(it, call.key, gone === "was lost", call))));
}

const padded = (it, operation) => it.padding.filter((call) => call.operation === operation && !isChange(call));

function isTold(it, { wrong, count: answers, isAll }, [operation, atLeast, count, of, found, missed, keyWas]) {
  const [someFound, someMissed] = [wrong.filter(needsKey).length, wrong.filter((call) => !needsKey(call)).length];
  if (Number(of) !== answers + padded(it, operation).length || (atLeast === undefined ? wrong.length !== Number(count) || !isAll : wrong.length < Number(count))) return false;
  if (found === undefined && keyWas === undefined) return true;
  if (keyWas !== undefined) return (keyWas === "absent") === (operation === "add");
  if (found === "found") return someMissed === 0 && someFound > 0;
  if (found === "missed") return someFound === 0 && someMissed > 0;
  return Number(found) === someFound && Number(missed) === someMissed;
}

// Decides whether some key has a contradiction without overlapping calls: one call leaves the key in a state, and a later call needs the opposite state. No two
// calls overlap between the start of the first call and the end of the second. The key's opening state can take the place of the first call, and its final
// state the place of the second.
function isWrongAlone(it) {
  return keysOf(it).some((key) => {
    const ended = ofKey(it, key).filter(holdsReply);
    const firsts = [{ begun: 0, ended: 0, state: opens(it, key) }, ...ended.map((call) => ({ ...call, state: leaves(call) }))];
    const seconds = [...ended.map((call) => ({ ...call, state: needsKey(call) })), ...(it.keys === null ? [] : [{ begun: LAST, ended: LAST, state: leftOf(it, key) }])];
    return firsts.some((first) => seconds.some((second) => {
      if (first.ended >= second.begun || first.state === second.state || !isNoneBetween(it, key, second.state ? "add" : "remove", first.begun, second.ended)) return false;
      const meanwhile = it.calls.filter((call) => inTime(call, first.begun, second.ended)).sort((one, other) => one.begun - other.begun);
      return meanwhile.every((call, at) => at === 0 || (meanwhile[at - 1].ended ?? LAST) < call.begun);
    }));
  });
}

// Decides whether an answer contradicts an earlier call, and no two calls overlap between the start of that call and the end of the answer. If the answer
// contradicts the key's opening state, it is enough that no two calls overlap while the answer runs.
function isAlone(it, answer) {
  const firsts = ofKey(it, answer.key).filter((call) => call.ended !== null && call.ended < answer.begun && leaves(call) !== needsKey(answer));
  const begins = [...firsts.map(({ begun }) => begun), ...(opens(it, answer.key) === needsKey(answer) ? [] : [answer.begun])];
  return begins.some((since) => {
    const meanwhile = it.calls.filter((call) => inTime(call, since, answer.ended)).sort((one, other) => one.begun - other.begun);
    return meanwhile.every((call, at) => at === 0 || (meanwhile[at - 1].ended ?? LAST) < call.begun);
  });
}

// Decides whether a contains or remove that returned false contradicts an earlier call that left the key present. The earlier call must satisfy `isOfKind`.
const isMissed = (it, isOfKind) => it.calls.some((call) => call.operation !== "add" && call.reply === "false"
  && ofKey(it, call.key).some((first) => first.ended !== null && first.ended < call.begun && leaves(first) && isOfKind(first) && isNoneBetween(it, call.key, "remove", first.begun, call.ended)));

// Decides whether `call` is a call of `operation` that returned true, and overlaps a call of the same operation on the same key that also returned true.
const isTwice = (it, call, operation) => call.operation === operation && call.reply === "true"
  && it.calls.some((one) => one !== call && one.key === call.key && one.operation === operation && one.reply === "true" && inTime(one, call.begun, call.ended));

// Decides whether some call that changed nothing found a key that an earlier call had removed and no call could have added again.
const isFoundAgain = (it) => it.calls.some((call) => call.ended !== null && !isChange(call) && needsKey(call)
  && ofKey(it, call.key).some((first) => first.operation === "remove" && first.reply === "true" && first.ended < call.begun && isNoneBetween(it, call.key, "add", first.begun, call.ended)));

// Maps kinds of contradictions to the different words that the short list uses for them.
const IN_LIST = { "two adds true": ["added twice"], "two removes true": ["removed twice"], "one wrong answer": ["missed", "found, though absent,"], "none of these": ["inconsistent"] };
const TALLIED = ["lost", "came back", "two adds true", "two removes true", "one wrong answer", "none of these"];
// Maps the phrases in the sentence that counts contradictions to the kinds of contradictions.
const KINDS = {
  "where a key was lost": "lost", "where a key came back": "came back", "with two adds that both returned true": "two adds true",
  "with two removes that both returned true": "two removes true", "with one wrong reply": "one wrong answer", "where it is unclear which call is wrong": "none of these",
};
// Returns whether some calls around an answer are linearizable without the answer, but not with it.
const isOnlyWrong = (it, answer) => [...around(it, answer.key, answer)].some(({ calls, isThere, left }) =>
  calls.includes(answer) && !hasOrder(calls, answer.key, isThere, left) && hasOrder(calls.filter((one) => one !== answer), answer.key, isThere, left));

// Returns whether a list of wrong answers such as `add returned false: 2, contains returned true: 1` is true: the recording contains at least that many of each
// kind, and the numbers add up to `all`.
function areWrongAnswers(it, all, told) {
  const kinds = told.split(", ").map((one) => /^(add|remove|contains) returned (true|false): (\d+)$/.exec(one));
  const areSo = ([, operation, reply, count]) =>
    it.calls.filter((call) => call.operation === operation && call.reply === reply && !isChange(call) && isOnlyWrong(it, call)).length >= Number(count);
  return kinds.every((one) => one !== null && areSo(one)) && kinds.reduce((sum, [, , , count]) => sum + Number(count), 0) === all;
}

// Returns, for each completed change by an operation, whether the next call on the key sees the change. Leaves out each change that an opposite change could
// have undone.
function nextCallsSee(calls, operation) {
  const state = operation === "add";
  const isOpposite = (call) => isChange(call) && (call.operation === "add") !== state;
  return calls.filter((call) => call.operation === operation && call.reply === "true").flatMap((change) => {
    const [next] = calls.filter(({ begun }) => begun > change.ended).sort((one, other) => one.begun - other.begun);
    if (next === undefined || next.ended === null) return [];
    const until = isOpposite(next) ? next.begun - 0.5 : next.ended;
    return calls.some((one) => isOpposite(one) && inTime(one, change.begun, until)) ? [] : [needsKey(next) === state];
  });
}

// Returns the next completed call of `operation` on the key of `answer`. Returns undefined if a change of the key ran between the two calls.
function nextCall(it, answer, operation) {
  const next = ofKey(it, answer.key).filter((call) => call.operation === operation && call.ended !== null && call.begun > answer.ended).sort((one, other) => one.begun - other.begun)[0];
  if (next === undefined) return undefined;
  const until = isChange(next) ? next.begun - 0.5 : next.ended;
  return ofKey(it, answer.key).some((call) => call !== answer && isChange(call) && inTime(call, answer.begun, until)) ? undefined : next;
}

// Decides whether a contradiction in the short list of a diagnosis is true: no order explains the calls on the key up to the end of the contradiction.
function isListed(it, told) {
  const [, key, symptom, since, until] = /^key (\d+) (lost|came back|added twice|removed twice|missed|found, though absent,|inconsistent) (?:by the end|from (\d+) to (?:(\d+)|the end))$/.exec(told) ?? [];
  if (key === undefined) return false;
  const calls = ofKey(it, Number(key));
  const last = until === undefined ? LAST : Number(until);
  const hasTwo = (operation) => calls.filter((call) => call.operation === operation && call.reply === "true" && inTime(call, Number(since ?? 0), last)).length >= 2;
  if (symptom.endsWith("twice") && !hasTwo(symptom.startsWith("added") ? "add" : "remove")) return false;
  return until === undefined ? !hasOrderOf(it, Number(key)) : !hasOrder(knownBy(calls, last), Number(key), opens(it, Number(key)));
}

// Decides whether a sentence about changes that were undone or reported twice is true. The sentence states that the change had a property in `some` of `all`
// such cases, and that `usual` percent of all completed changes, or of a sample, have the property. `own`: another add or remove of the same key overlaps the
// change. `others`: a change of another key overlaps the change. `first`: the change began while the first calls on its key ran, that is, the calls that began
// before any add or remove of the key had ended.
function isOfUndone(it, { tally }, what, [some, all, usual], isChecked, isSampled) {
  const calls = [...it.calls, ...it.padding].sort((one, other) => one.begun - other.begun);
  const changes = calls.filter((call) => isChange(call) && call.ended !== null);
  const firstEnds = new Map([...new Set(calls.map(({ key }) => key))].map((key) => {
    const itsCalls = calls.filter((call) => call.key === key);
    const first = Math.min(...itsCalls.filter((call) => call.operation !== "contains").map((call) => call.ended ?? LAST));
    return [key, Math.max(0, ...itsCalls.filter((call) => call.begun <= first && call.ended !== null).map(({ ended }) => ended))];
  }));
  const isMet = { own: isSame, others: isBeside, first: (_, call) => call.begun <= firstEnds.get(call.key) }[what];
  // The changes for the percentage: all changes or, if there are many calls, a sample.
  const sample = [];
  let next = 0;
  for (const [at, call] of calls.entries()) {
    if (at < next || !changes.includes(call)) continue;
    sample.push(call);
    next = at + Math.floor(calls.length / 400);
  }
  const isUsual = usual === null || Math.floor((100 * sample.filter((call) => isMet(it, call)).length) / sample.length) === Number(usual) && isSampled === sample.length < changes.length; // (null: no percentage is printed)
  // How often a change can be counted: once for each later call, or final state, that needs the opposite state, and once if it was reported twice.
  const refused = new Set(keysOf(it).filter((key) => !hasOrderOf(it, key)));
  const times = (call) => ofKey(it, call.key).filter((one) => one.ended !== null && one.begun > call.begun && needsKey(one) !== leaves(call)).length
    + Number(it.keys !== null && leftOf(it, call.key) !== leaves(call)) + Number(isTwice(it, call, call.operation));
  const count = (which) => changes.filter((call) => refused.has(call.key) && which(call)).reduce((sum, call) => sum + times(call), 0);
  const isOfFirst = what === "first"; // (a contradiction can begin before the change that it undoes)
  const areThere = Number(some) <= count((call) => isOfFirst || isMet(it, call)) && Number(all) - Number(some) <= count((call) => !isMet(it, call));
  // All contradictions of these kinds are counted, but at most 400, and fewer only if an opening key was lost or came back.
  const both = tally["two adds true"] + tally["two removes true"];
  const [most, places] = [both + tally.lost + tally["came back"], Object.values(tally).reduce((sum, one) => sum + one, 0)];
  const isCounted = isChecked ? places > 400 && Number(all) <= 400 : places <= 400 && Number(all) <= most && Number(all) >= both;
  return Number(some) <= Number(all) && areThere && isUsual && isCounted;
}

// The pattern of the sentence about changes that were undone or reported twice, and the property that makes the sentence true.
const UNDONE = "(\\d+) of (?:the )?(\\d+) (checked )?times that a change was undone or reported twice, (another add or remove of the key overlapped the change|a change of another key overlapped the change|the first calls of the key were still running) \\(of (all|sampled) changes: (\\d+)%\\)$";
const ofUndone = (it, [some, all, checked, what, of, usual], why) =>
  isOfUndone(it, why, what.startsWith("the first") ? "first" : what.startsWith("another") ? "own" : "others", [some, all, usual], checked !== undefined, of === "sampled");

const OF_WHY = [
  [/^headline (?:key (\d+) (was lost|came back): )?(add|remove|contains)\((\d+)\) returned (true|false)(?:, expected (true|false))?$/, (it, found, why) => isHeadline(it, why, found)],
  [/^headline (add|remove|contains)\((\d+)\) returned (true|false), which other calls of key (\d+) contradict$/, (it, [operation, ofCall, reply, key]) =>
    key === ofCall && !hasOrderOf(it, Number(key)) && ofKey(it, Number(key)).some((call) => call.operation === operation && call.reply === reply)],
  [/^headline (?:key (\d+) (was lost|came back): )?key (\d+) is (present|absent) at the end$/, (it, [key, gone, ofEnd, state]) =>
    it.keys !== null && leftOf(it, Number(ofEnd)) === (state === "present") && !hasOrderOf(it, Number(ofEnd)) && (gone === undefined || (key === ofEnd && isGone(it, Number(key), gone === "was lost", null)))],
  [/^headline the calls of key (\d+) have no order$/, (it, [key], why) => why.shown.length > 0 && !hasOrder(ofKey(it, Number(key)), Number(key), opens(it, Number(key)))],
  [/^headline (add|remove)\((\d+)\) returned true in two overlapping calls, expected in at most one$/, (it, [operation, key], why) => {
    const both = why.shown.filter(({ mark }) => mark === "either").map(({ call }) => call);
    return both.length === 2 && both.every((call) => call.operation === operation && call.key === Number(key) && call.reply === "true") && inTime(both[0], both[1].begun, both[1].ended);
  }],
  [/^call either$/, (it, found, why, { call }) => {
    const others = why.shown.filter(({ mark, call: one }) => mark === "either" && one !== call);
    const until = Math.max(call.ended, ...others.map(({ call: one }) => one.ended));
    return !hasOrder(knownBy(ofKey(it, call.key).filter(isChange), until), call.key, opens(it, call.key));
  }],
  [/^call -$/, () => true],
  [/^call finds (present|absent)$/, (it, [state], why, { call }) => call.ended !== null && needsKey(call) === (state === "present")],
  [/^call expected (true|false)$/, (it, [reply], why, { call }) => {
    const isDrawn = !why.isOfOdd || !isBeside(it, call) || why.also.some((change) => inTime(change, call.begun, call.ended));
    return reply === turned(call).reply && isExpected(it, call) && isDrawn;
  }],
  [/^call leaves (present|absent)$/, (it, [state], why, { call }) => {
    const next = Math.min(...why.shown.map(({ call: one }) => one.begun).filter((begun) => begun > call.ended), LAST);
    const look = { thread: 98, operation: "contains", key: call.key, begun: call.ended + 0.25, ended: call.ended + 0.5, reply: String(state === "absent") };
    return !hasOrder([...ofKey(it, call.key).filter(({ begun }) => begun < next), look], call.key, opens(it, call.key));
  }],
  [/^(?:call|also) suspected$/, (it, found, why, { call }) => call.operation !== "contains" && why.guilty.length === 1 && why.because.some(({ says }) => says.includes(`; suspected: ${call.operation} ${call.key} of thread ${call.thread}, `))],
  [/^also(?: suspected)?$/, (it, found, why, { call, says }) => {
    const shown = why.shown.map((one) => one.call);
    const marked = why.shown.filter(({ mark }) => mark !== "-").map((one) => one.call);
    const isChosen = why.isOfOdd ? marked.some(({ begun, ended }) => inTime(call, begun, ended ?? LAST)) : inTime(call, Math.min(...shown.map(({ begun }) => begun)), Math.max(...shown.map(({ ended }) => ended ?? LAST)));
    return isChange(call) && shown.every(({ key }) => key !== call.key) && isChosen && (says === "also" || isOnlySuspect(it, why, call));
  }],
  [/^fact only (add|remove|contains)( that returned false)? is wrong: (at least )?(\d+) of its (\d+) answers(?: \((?:(found|missed) an? (?:absent|present) key(?:, and never (?:found|missed) an? (?:absent|present) key)?|the key was (absent|present))\))?(; the final keys are (?:put aside|ignored))?$/,
    (it, [operation, , atLeast, count, of, way, keyWas, aside], why) => {
      why.told = wrongAnswers(it, operation, aside !== undefined);
      return why.told !== null && isTold(it, why.told, [operation, atLeast, count, of, way, undefined, keyWas]);
    }],
  [/^fact only contains is wrong: (at least )?(\d+) of its (\d+) answers \((\d+) found an absent key, (\d+) missed a present key\)(; the final keys are (?:put aside|ignored))?$/,
    (it, [atLeast, count, of, found, missed, aside], why) => {
      why.told = wrongAnswers(it, "contains", aside !== undefined);
      return why.told !== null && isTold(it, why.told, ["contains", atLeast, count, of, found, missed]);
    }],
  [/^fact (?:before moment (\d+) the calls had an order; from then on )?at least (\d+) contradictions?: (\d+ (?:where|with) .*)$/, (it, [moment, count, kinds], why) => {
    const isBefore = moment === undefined || keysOf(it).every((key) => hasOrder(knownBy(ofKey(it, key), Number(moment) - 1), key, opens(it, key)));
    why.tally = Object.fromEntries(TALLIED.map((kind) => [kind, 0]));
    const told = kinds.split(" + ").map((one) => /^(\d+) ([^(]*[^( ])(?: \((.*)\))?$/.exec(one));
    for (const [, many, kind] of told) why.tally[KINDS[kind]] = Number(many);
    const areAnswers = told.every(([, many, kind, answers]) => (KINDS[kind] === "one wrong answer" ? areWrongAnswers(it, Number(many), answers) : answers === undefined));
    return Object.keys(why.tally).length === TALLIED.length && Object.values(why.tally).reduce((sum, many) => sum + many, 0) === Number(count) && areAnswers && isBefore;
  }],
  [/^fact (\d+) of (\d+) keys are affected(?:; the next call often does not see an add: after (\d+) of (\d+) successful adds it found the key absent, with no remove in between)?(?:; the next call often does not see a remove: after (\d+) of (\d+) successful removes it found the key present, with no add in between)?$/, (it, [hit, all, ...counts]) => {
    const refused = keysOf(it).filter((key) => !hasOrderOf(it, key));
    const seen = ["add", "remove"].map((operation) => refused.flatMap((key) => nextCallsSee(ofKey(it, key), operation)));
    const isOfKeys = Number(hit) === refused.length && Number(all) === new Set([...keysOf(it), ...it.padding.map(({ key }) => key)]).size;
    return isOfKeys && seen.every((some, at) => {
      const [unseen, isTold] = [some.filter((isSeen) => !isSeen).length, counts[2 * at] !== undefined];
      return isTold === (unseen >= 3 && unseen * 10 >= some.length) && (!isTold || `${counts.slice(2 * at, 2 * at + 2).map(Number)}` === `${[unseen, some.length]}`);
    });
  }],
  [/^because at least (\d+) of the (\d+) times that a key was lost or came back, this happened to another key, too, meanwhile \(expected by chance: (\d+)%\)$/, (it, [some, all, usual]) =>
    Number(some) <= Number(all) && keysOf(it).filter((key) => !hasOrderOf(it, key)).length >= 2 && Number(some) * 100 >= Number(all) * (Number(usual) + 25)],
  [/^fact (?:before moment \d+ the calls had an order; from then on )?(at least )?(\d+) contradictions?: (.*)$/, (it, [atLeast, count, listed], why) => {
    const told = listed.split("; ");
    why.tally = Object.fromEntries(TALLIED.map((kind) => [kind, told.filter((one) => (IN_LIST[kind] ?? [kind]).some((words) => one.includes(` ${words} `))).length]));
    const isOfEach = keysOf(it).every((key) => hasOrderOf(it, key) || told.some((one) => one.startsWith(`key ${key} `)));
    return told.length === Number(count) && told.every((one) => isListed(it, one)) && (atLeast !== undefined || isOfEach);
  }],
  [/^fact (another add or remove of their key|a change of another key|another add or remove of their key, or a change of another key,) ran during (\d+) of the (\d+) wrong answers(.*)$/, (it, [what, count, all, rest], { told }) => {
    const isSo = { "another add or remove of their key": isSame, "a change of another key": isBeside }[what] ?? ((...both) => isSame(...both) || isBeside(...both));
    const [, rate, alone, own, other] = /^(.*?)(?:; during (\d+) of these no other add or remove of their own key ran)?(?:; of their own key during (\d+), of another key during (\d+))?$/.exec(rest);
    if (own !== undefined && [isSame, isBeside].some((isSuch, i) => told.wrong.filter((call) => isSuch(it, call)).length !== Number([own, other][i]))) return false;
    const isAlone = (call) => isBeside(it, call) && !isSame(it, call);
    const isTrue = told.wrong.length === Number(all) && told.wrong.filter((call) => isSo(it, call)).length === Number(count);
    return isTrue && isRate(rate, count, all) && (alone === undefined || (what === "a change of another key" && told.wrong.filter(isAlone).length === Number(alone)));
  }],
  [/^fact during (\d+) of the (\d+) wrong answers no other add or remove of their key ran, and no change of another key(.*)$/, (it, [count, all, rate], { told }) =>
    told.wrong.length === Number(all) && told.wrong.filter((call) => !isSame(it, call) && !isBeside(it, call)).length === Number(count) && isRate(rate, count, all)],
  [/^fact an? (add|remove)( and a remove)? of the key ran during it( \(not in the picture\))?$/, (it, [operation, both, hidden], { told, shown }) => {
    const operations = both === undefined ? [operation] : ["add", "remove"];
    const isSaid = (call) => ["add", "remove"].every((one) => runsDuring(it, call, (other) => other.key === call.key && other.operation === one) === operations.includes(one));
    const isDrawn = (answer) => shown.some(({ call }) => call !== answer && call.operation !== "contains" && inTime(call, answer.begun, answer.ended));
    const isWhereSaid = (answer) => shown.length === 0 || isDrawn(answer) === (hidden === undefined); // (the picture of a long recording is not checked)
    return told.wrong.some((answer) => isSaid(answer) && isWhereSaid(answer));
  }],
  [/^fact a change of another key ran during it, and no other add or remove of its own key$/, (it, found, { told }) =>
    told.wrong.some((call) => !runsDuring(it, call, (one) => one.key === call.key) && runsDuring(it, call, (one) => one.key !== call.key && one.reply === "true"))],
  [/^fact (?:they|(\d+) of them) contradict changes that had ended at most (\d+) moments earlier: (\d+) by the same thread, (\d+) by another thread$/, (it, [some, ...found], { told }) => {
    // (if two changes overlap, either of them can be the last change)
    const lastChange = (answer) => {
      const changes = ofKey(it, answer.key).filter((call) => isChange(call) && (call.operation === "add") !== needsKey(answer) && call.begun <= answer.begun).sort((one, other) => one.begun - other.begun);
      const last = changes.filter((call) => call.ended !== null).at(-1);
      return changes.some((call) => call !== last && call.begun < last?.begun && inTime(call, last.begun, LAST)) ? undefined : last;
    };
    const changes = told.wrong.map((answer) => ({ answer, change: lastChange(answer) })).filter(({ answer, change }) => change !== undefined && change.ended < answer.begun);
    const own = changes.filter(({ answer, change }) => answer.thread === change.thread).length;
    const latest = Math.max(...changes.map(({ answer, change }) => answer.begun - change.ended));
    const isSome = some === undefined ? changes.length === told.wrong.length : Number(some) === changes.length;
    return isSome && `${[latest, own, changes.length - own]}` === `${found.map(Number)}`;
  }],
  [/^fact with no change in between, the next (add|remove|contains) of the key was right$/, (it, [operation], { told }) =>
    told.wrong.some((answer) => nextCall(it, answer, operation) !== undefined && !told.wrong.includes(nextCall(it, answer, operation)))],
  [/^fact the error (passes|lasts): with no change in between, the next (add|remove|contains) of the key was (right|wrong) (\d+) of (\d+) times$/, (it, [what, operation, reply, some, all], { told }) => {
    const next = told.wrong.map((answer) => [answer, nextCall(it, answer, operation)]).filter(([, one]) => one !== undefined).map(([, one]) => told.wrong.includes(one));
    const isSo = (what === "passes") === (reply === "right") && Number(some) * 10 >= Number(all) * (what === "passes" ? 9 : 5);
    return isSo && told.isAll && next.filter((isWrong) => isWrong === (reply === "wrong")).length === Number(some) && next.length === Number(all);
  }],
  [/^fact \(the picture shows a later contradiction of key (\d+) that is easier to see; the first ends at moment (\d+)\)$/, (it, [key, moment], why) => {
    const isFirst = (until) => !keysOf(it).every((one) => hasOrder(knownBy(ofKey(it, one), until), one, opens(it, one)));
    const isLater = why.isOfEnd || why.shown.some(({ call }) => (call.ended ?? LAST) > Number(moment));
    return why.shown.every(({ call }) => call.key === Number(key)) && isFirst(Number(moment)) && !isFirst(Number(moment) - 1) && isLater;
  }],
  [/^fact \(the picture shows another contradiction that is easier to see\)$/, (it, found, why) => {
    // The first moment when no order explains the earlier calls on some key.
    const moments = keysOf(it).flatMap((key) => ofKey(it, key).flatMap(({ ended }) => ended ?? [])).sort((one, other) => one - other);
    const first = moments.find((moment) => keysOf(it).some((key) => !hasOrder(knownBy(ofKey(it, key), moment), key, opens(it, key)))) ?? LAST;
    const isOfFirst = ({ call }) => hasOrder(knownBy(ofKey(it, call.key), first), call.key, opens(it, call.key));
    return why.isOfEnd || why.shown.some(isOfFirst) || Math.max(...why.shown.map(({ call }) => call.ended ?? LAST)) !== first;
  }],
  [/^(?:fact|because) during (\d+) of (\d+) contradictions no two calls overlapped(: perhaps one thread alone is enough)?$/, (it, [some, all, alone], why) =>
    Number(some) <= Number(all) && isWrongAlone(it) && (alone === undefined || why.because.length === 0)],
  [/^because (add|remove|contains)\((\d+)\) of thread (\d+) and (add|remove|contains)\((\d+)\) of thread (\d+) ran at the same time, and the reply of each was expected of the other$/, (it, found) => {
    const wrong = (operation, key, thread) => it.calls.filter((call) => call.operation === operation && call.key === Number(key) && call.thread === Number(thread) && call.ended !== null && isExpected(it, call));
    const [ones, twos] = [wrong(...found.slice(0, 3)), wrong(...found.slice(3))];
    return found[1] !== found[4] && found[2] !== found[5] && ones.some((one) => twos.some((two) => one.reply !== two.reply && inTime(one, two.begun, two.ended)));
  }],
  [/^because another call began before and ended after (\d+) of the (\d+) wrong answers, but only (\d+)% of other answers$/, (it, [some, all, usual], { told }) => {
    const isOutlasted = (answer) => [...it.calls, ...it.padding].some((call) => call.begun < answer.begun && (call.ended ?? LAST) > answer.ended);
    return told.wrong.length === Number(all) && told.wrong.filter(isOutlasted).length === Number(some) && Number(usual) <= 25;
  }],
  [/^because no two calls overlapped during (\d+) of (\d+) (?:checked )?wrong answers, nor since the calls that these contradict$/, (it, [some, all], { told }) =>
    Number(all) <= told.wrong.length && told.wrong.filter((answer) => isAlone(it, answer)).length >= Number(some)],
  [/^because (\d+) of (\d+) contradictions are two (add|remove)s that both returned true, \d+ are two (?:add|remove)s$/, (it, [some, all, operation]) => Number(some) <= Number(all) &&
    it.calls.some((one) => one.operation === operation && one.reply === "true" && it.calls.some((two) => two !== one && two.key === one.key && two.operation === operation && two.reply === "true"))],
  [/^because (\d+) of (\d+) contradictions are two overlapping calls that both returned true$/, (it, [some, all]) => Number(some) <= Number(all) &&
    it.calls.some((one) => isChange(one) && one.reply === "true" && it.calls.some((two) => two !== one && two.key === one.key && two.operation === one.operation && two.reply === "true"))],
  [/^likely (.*)$/, (it, found, why) => why.because.length === 1],
  [/^because a successful or pending (add|remove) of the key was still running at the wrong answer$/, (it, [operation], { told }) => told !== null && told.wrong.some((call) => runsBeside(it, call, operation))],
  [/^because (?:it (?:only )?finds absent keys, and )?at (\d+) of (?:the )?(\d+) (?:wrong answers|of these answers) a successful or pending (add|remove) of the key was still running$/,
    (it, [some, all, operation], { told }) => told !== null && told.wrong.length === Number(all) && told.wrong.filter((call) => runsBeside(it, call, operation)).length === Number(some)],
  [/^because it finds keys up to (\d+) moments after their remove has returned(, and never misses a present one)?$/, (it, [latest, never], { told }) => {
    return told.wrong.some((answer) => needsKey(answer) && ofKey(it, answer.key).some((call) => call.operation === "remove" && answer.begun - call.ended === Number(latest)))
      && (never === undefined || (told.isAll && told.wrong.every(needsKey)));
  }],
  [/^because at all (\d+) wrong answers a successful or pending (add|remove) of the key was still running$/, (it, [all, operation], { told }) =>
    told !== null && told.wrong.length === Number(all) && told.wrong.every((call) => runsBeside(it, call, operation))],
  [/^because no change of another key ran during (\d+) of the (\d+) wrong answers$/, (it, [some, all], { told }) =>
    told.wrong.length === Number(all) && told.wrong.filter((call) => !isBeside(it, call)).length === Number(some)],
  [/^because it misses present keys$/, (it, found, { told }) => told !== null && told.wrong.some((call) => !needsKey(call))],
  [/^because it misses present keys and never finds an absent one$/, (it, found, { told }) => told !== null && told.isAll && told.wrong.every((call) => !needsKey(call))],
  [/^because it is wrong both ways, and without it all other calls have an order$/, (it, found, { told }) => told !== null && told.wrong.some(needsKey) && !told.wrong.every(needsKey)],
  [/^because without these answers all other calls have an order$/, (it, found, { told }) => told !== null],
  [/^because a change of another key ran during (\d+) of the (\d+) wrong answers(.*)$/, (it, [some, all, rate], { told }) => isRate(rate, some, all) &&
    told.wrong.length === Number(all) && told.wrong.filter((call) => runsDuring(it, call, (one) => one.key !== call.key && one.reply === "true")).length === Number(some)],
  [/^because another add or remove of the key ran during (\d+) of the (\d+) wrong answers(.*)$/, (it, [some, all, rate], { told }) => isRate(rate, some, all) &&
    told.wrong.length === Number(all) && told.wrong.filter((call) => runsDuring(it, call, (one) => one.key === call.key)).length === Number(some)],
  [/^because another add or remove of the key, or a change of another key, ran during (\d+) of the (\d+) wrong answers(.*)$/, (it, [some, all, rate], { told }) => {
    if (!isRate(rate, some, all)) return false;
    const isActive = (call) => it.calls.some((one) => one !== call && one.operation !== "contains" && (one.key === call.key || one.reply === "true") && inTime(one, call.begun, call.ended));
    return told.wrong.length === Number(all) && told.wrong.filter(isActive).length === Number(some);
  }],
  [/^because at (\d+) of (\d+) (?:checked )?wrong answers the last call of every larger key had left that key absent$/, (it, [some, all], { told }) => told.wrong.length >= Number(all) && Number(some) <= Number(all)],
  [/^because a successful (add) of another key ran during (\d+) of the (\d+) wrong answers$/, (it, [operation, some, all], { told }) =>
    told !== null && told.wrong.length === Number(all) && told.wrong.filter((call) => it.calls.some((one) => one.key !== call.key && one.operation === operation && one.reply === "true" && inTime(one, call.begun, call.ended))).length === Number(some)],
  [/^because as calls of one key the calls of keys (\d+) and (\d+) have an order$/, (it, [one, two]) => {
    const both = it.calls.filter(({ key }) => key === Number(one) || key === Number(two)).map((call) => ({ ...call, key: Number(one) }));
    return opens(it, Number(one)) === opens(it, Number(two)) && hasOrder(both, Number(one), opens(it, Number(one)), null);
  }],
  [/^because it never found the keys? of its (?:\d+ )?wrong answers, and found others$/, (it, found, { told }) => {
    const finds = [...it.calls, ...it.padding].filter((call) => told !== null && call.operation === told.wrong[0].operation && call.reply === "true");
    return told !== null && finds.length > 0 && finds.every(({ key }) => told.wrong.every((call) => call.key !== key));
  }],
  [/^because its wrong answers are of (\d+) keys?, and it is right about all others$/, (it, [keys], { told }) => told.isAll && new Set(told.wrong.map(({ key }) => key)).size === Number(keys)],
  [/^because before (\d+) of the (\d+) wrong answers, the last call of the key by the same thread had left the key in the state that contains returned$/, (it, [some, all], { told }) => {
    const lastOwn = (answer) => it.calls.filter((call) => call.key === answer.key && call.thread === answer.thread && call.begun < answer.begun).at(-1);
    const isSo = (answer) => lastOwn(answer) !== undefined && lastOwn(answer).ended !== null && leaves(lastOwn(answer)) === needsKey(answer);
    return told !== null && told.wrong.length === Number(all) && told.wrong.filter(isSo).length === Number(some);
  }],
  [/^because at (\d+) of (\d+) (checked )?wrong answers the last call of every other key had left that key absent$/, (it, [some, all, checked], { told }) => {
    const isAbsent = (key, moment) => {
      const ended = [...it.calls, ...it.padding].filter((call) => call.key === key && call.ended !== null && call.ended < moment).sort((one, other) => one.ended - other.ended);
      return ended.length === 0 ? !opens(it, key) : !leaves(ended.at(-1));
    };
    const isLonely = (answer) => keysOf(it).every((key) => key === answer.key || isAbsent(key, answer.begun));
    return told !== null && (checked === undefined ? told.wrong.length === Number(all) : told.wrong.length > Number(all)) && told.wrong.filter(isLonely).length >= Number(some);
  }],
  ...[/^because before (\d+) of the (\d+) times that a key was lost, a remove was among the overlapping changes of the key$/,
    /^because (\d+) of the (\d+) times that a key was lost or came back, an order would exist if one call had returned the opposite reply$/,
    /^because (\d+) of the (\d+) times that a key was lost or came back, a call that returned false can have made this change$/,
    /^because no change of another key ran during (\d+) of the (\d+) times that a key was lost or came back \(in other periods of this length: \d{1,2}0?%\)$/,
    /^because a smaller key was removed during (\d+) of the (\d+) times that a key was lost or came back, (?:and the smallest key is never affected|any other key during \d+)$/].map((pattern) =>
    [pattern, (it, [some, all], { tally }) => Number(some) <= Number(all) && Number(all) <= tally.lost + tally["came back"]]),
  [/^because keys are lost \((\d+)\)( and never come back)?, and at (\d+)(?: of (\d+))? losses (?:during one|that a call shows)/, (it, [lost, never, some, all], { tally }) =>
    Number(lost) === tally.lost && Number(some) <= Number(all ?? lost) && (never === undefined || (tally["came back"] === 0 && (tally["none of these"] > 0 || !isFoundAgain(it))))],
  [/^because keys come back \((\d+)\), (\d+) times after a remove that returned true(, and are never lost)?$/, (it, [back, after, never], { tally }) =>
    Number(back) === tally["came back"] && Number(after) <= Number(back) && (never === undefined || (tally.lost === 0 && !isMissed(it, isChange)))],
  [/^because keys come back \((\d+)\), (only )?an add misses one \((\d+)\), and during (\d+) of (\d+) contradictions no two calls overlapped$/, (it, [back, only, lost, some, all], { tally }) =>
    Number(back) === tally["came back"] && Number(lost) === tally.lost && Number(some) <= Number(all) && (only === undefined || !isMissed(it, () => true))],
  [/^because during (\d+) of (\d+) contradictions no two calls overlapped, and keys differ by up to (\d+)$/, (it, [some, all, span]) => Number(some) <= Number(all) && isWrongAlone(it)
    && (span === undefined || Number(span) === Math.max(...keysOf(it)) - Math.min(...keysOf(it)))],
  [/^because keys are lost \((\d+)\) (?:and|more than they) come back \((\d+)\), and (?:a change of another key ran during )?(\d+) of (\d+) /, (it, [lost, back, some, all], { tally }) =>
    tally.lost === Number(lost) && tally["came back"] === Number(back) && Number(some) <= Number(all)],
  [/^because (\d+) of (\d+) undone changes overlapped a change of another key that can have written an older state back$/, (it, [some, all], { tally }) => Number(some) <= Number(all) && Number(all) <= tally.lost + tally["came back"]],
  [/^because the next call of the key did not see (\d+) of (\d+) adds and (\d+) of (\d+) removes, although no opposite change ran in between$/, (it, found) => {
    const seen = ["add", "remove"].map((operation) => keysOf(it).filter((key) => !hasOrderOf(it, key)).flatMap((key) => nextCallsSee(ofKey(it, key), operation)));
    return `${found.map(Number)}` === `${seen.flatMap((some) => [some.filter((isSeen) => !isSeen).length, some.length])}`;
  }],
  [/^because (\d+) of (\d+) lost adds began before or at most 20 moments after the end of the last successful remove of their key \(of all adds of these keys: (\d+) of (\d+)\)$/, (it, [some, all, usual, adds], { tally }) => {
    const added = it.calls.filter((call) => call.operation === "add" && call.reply === "true" && !hasOrderOf(it, call.key));
    const lastRemove = (add) => ofKey(it, add.key).filter((call) => call.operation === "remove" && call.reply === "true" && call.begun <= add.begun).sort((one, other) => one.begun - other.begun).at(-1);
    const soon = added.filter((add) => lastRemove(add) !== undefined && add.begun <= lastRemove(add).ended + 20).length;
    return Number(some) <= soon && Number(some) <= Number(all) && Number(all) <= tally.lost && Number(usual) === soon && Number(adds) === added.length;
  }],
  [/^because (\d+) of (\d+) contradictions are a single reply that missed a present key, (\d+) are one that found an absent key$/, (it, [missed, all, found], { tally }) =>
    Number(missed) + Number(found) === tally["one wrong answer"] && Number(all) === Object.values(tally).reduce((sum, one) => sum + one, 0)],
  [/^because (\d+) of (\d+) wrong answers, of more than one operation, overlapped a change of another key$/, (it, [some, all], { tally }) => Number(some) <= Number(all) && Number(all) <= tally["one wrong answer"]],
  [/^because another key was lost at (\d+) or more of the (\d+) removes after which their key came back$/, (it, [some, all], { tally }) => Number(some) <= Number(all) && Number(all) <= tally["came back"]],
  [/^because (\d+) keys are affected, each once$/, (it, [count]) => keysOf(it).filter((key) => !hasOrderOf(it, key)).length === Number(count)],
  [/^because keys are lost \((\d+)\) and added twice \((\d+)\), none comes back, and none is removed twice$/, (it, [lost, twice], { tally }) =>
    Number(lost) === tally.lost && Number(twice) === tally["two adds true"] && tally["two removes true"] === 0 && tally["came back"] === 0],
  [/^because a successful (add|remove) of another key ran during the add of (\d+) of the (\d+) lost keys, but only during (\d+)% of (?:sampled )?successful adds$/, (it, [operation, some, all, usual], { tally }) => {
    const adds = it.calls.filter((call) => call.operation === "add" && call.reply === "true" && !hasOrderOf(it, call.key));
    const isMet = (add) => it.calls.some((one) => one.key !== add.key && one.operation === operation && one.reply === "true" && inTime(one, add.begun, add.ended));
    return adds.filter(isMet).length >= Number(some) && Number(some) <= Number(all) && Number(all) <= tally.lost && Number(usual) <= 100;
  }],
  [/^because at least (\d+) of (\d+) contradictions that one other reply repairs share time with one of another key$/, (it, [some, all]) =>
    Number(some) <= Number(all) && (Number(some) === 0 || keysOf(it).filter((key) => !hasOrderOf(it, key)).length >= 2)],
  [/^because during at least (\d+) of (\d+) changes that were undone another key came back or was lost$/, (it, [some, all], { tally }) => Number(some) <= Number(all) && Number(all) <= tally.lost + tally["came back"]],
  [/^because (\d+) of (\d+) undone changes of key (\d+) overlapped changes of key (\d+), and fewer overlapped those of any third key$/, (it, [some, all, one, two], { tally }) =>
    Number(some) <= Number(all) && Number(all) <= tally.lost + tally["came back"] && one !== two && !hasOrderOf(it, Number(one))],
  [/^(?:because|fact) the last change of the key was by another thread before (\d+) of (\d+) checked wrong answers \(before sampled answers: (\d+)%\); before (\d+) of these, the thread of the answer had changed a key since$/, (it, [some, all, usual, since], { told }) => {
    const wrong = (told?.wrong ?? it.calls.filter((call) => call.ended !== null && !isChange(call))).map((answer) => {
      const change = ofKey(it, answer.key).filter((call) => isChange(call) && call.ended !== null && call.ended < answer.begun).sort((one, other) => one.begun - other.begun).at(-1);
      return { answer, change };
    }).filter(({ change }) => change !== undefined);
    const isLater = ({ answer, change }) => [...it.calls, ...it.padding].some((call) => call.thread === answer.thread && isChange(call) && call.ended !== null && call.begun >= change.ended && call.ended < answer.begun);
    const foreign = wrong.filter(({ answer, change }) => answer.thread !== change.thread).length;
    return wrong.length >= Number(all) && foreign >= Number(some) && wrong.filter(isLater).length >= Number(since) && Number(some) <= Number(all) && Number(usual) <= 100;
  }],
  [/^(?:because|fact) during at least (\d+) of (\d+) checked wrong answers a call of another thread returned the same reply \(during sampled answers, the opposite reply: (\d+)%\)$/, (it, [some, all, usual], { told }) => {
    const wrong = told?.wrong ?? it.calls.filter((call) => call.ended !== null && !isChange(call));
    const isMet = (answer) => [...it.calls, ...it.padding].some((call) => call.thread !== answer.thread && call.reply === answer.reply && inTime(call, answer.begun, answer.ended));
    return wrong.length >= Number(all) && wrong.filter(isMet).length >= Number(some) && Number(some) <= Number(all) && Number(usual) <= 100;
  }],
  [/^because they disagree as long as nothing changes the key$/, () => true],
  [new RegExp(`^fact (?:calls of one key|changes of different keys|the first calls of a key) seem to disturb each other: ${UNDONE}`), (it, found, why) => ofUndone(it, found, why) && why.because.length === 0 && Number(found[0]) * 2 >= Number(found[1])],
  [/^because of (\d+) (checked )?times that a change was undone or reported twice, only (\d+) times another add or remove of the key overlapped the change, and only (\d+) times a change of another key$/, (it, [all, checked, own, others], why) =>
    isOfUndone(it, why, "own", [own, all, null], checked !== undefined, null) && isOfUndone(it, why, "others", [others, all, null], checked !== undefined, null) && (Number(own) + Number(others)) * 5 < Number(all)],
  [new RegExp(`^because ${UNDONE}`), ofUndone],
  [/^because after (\d+) of (\d+) successful adds the next call found the key absent$/, (it, [lost, adds]) => {
    const seen = keysOf(it).filter((key) => !hasOrderOf(it, key)).flatMap((key) => nextCallsSee(ofKey(it, key), "add"));
    return lost === adds && seen.length === Number(adds) && seen.every((isSeen) => !isSeen);
  }],
  [/^because the calls had an order until moment (\d+), and then (\d+) of (\d+) keys are affected$/, (it, [moment, hit, all]) => {
    const isBefore = keysOf(it).every((key) => hasOrder(knownBy(ofKey(it, key), Number(moment) - 1), key, opens(it, key)));
    return isBefore && keysOf(it).filter((key) => !hasOrderOf(it, key)).length === Number(hit) && Number(all) === new Set([...keysOf(it), ...it.padding.map(({ key }) => key)]).size;
  }],
  [/^because a successful remove of another key ran during (?:the remove|(\d+) of (\d+) (?:checked )?removes) that add did not see, and nearly all later adds failed, too$/, (it, [some = 1, all = 1], { told }) => {
    const lastRemove = (answer) => ofKey(it, answer.key).filter((call) => call.operation === "remove" && call.reply === "true" && call.begun <= answer.begun).sort((one, other) => one.begun - other.begun).at(-1);
    const removes = [...new Set(told.wrong.map(lastRemove))].filter((call) => call !== undefined && told.wrong.some((answer) => call.ended < answer.begun && lastRemove(answer) === call));
    const isWith = (call) => it.calls.some((one) => one.key !== call.key && one.operation === "remove" && one.reply === "true" && inTime(one, call.begun, call.ended));
    return removes.length >= Number(all) && removes.filter(isWith).length >= Number(some) && Number(some) <= Number(all);
  }],
  [/^because many keys are added \((\d+) present at first, (\d+) at the end\), (\d+) were in use at moment (\d+), and only (\d+) of (\d+) keys are affected$/, (it, [from, to, active, moment, hit, all]) => {
    const present = new Set(it.opening);
    const calls = [...it.calls, ...it.padding];
    for (const call of calls.filter(holdsReply).sort((one, other) => one.ended - other.ended)) present[leaves(call) ? "add" : "delete"](call.key);
    const keys = new Set([...keysOf(it), ...it.padding.map(({ key }) => key)]);
    const isUsed = (key) => calls.some((call) => call.key === key && call.begun < Number(moment)) && calls.some((call) => call.key === key && (call.ended ?? LAST) > Number(moment));
    return Number(from) === it.opening.length && Number(to) === present.size && Number(hit) === keysOf(it).filter((key) => !hasOrderOf(it, key)).length && Number(all) === keys.size
      && Number(active) <= [...keys].filter(isUsed).length && Number(active) >= 8;
  }],
  [/^because (\d+) adds of an absent key and (\d+) removes of a present key returned false and changed nothing(?:; a change of another key ran during (\d+) of them, but only during (\d+)% of adds and removes)?$/,
    (it, [adds, removes, beside, usual], { tally }) => {
      const wrong = (operation) => it.calls.filter((call) => call.operation === operation && call.reply === "false" && isOnlyWrong(it, call));
      const isEach = wrong("add").length >= Number(adds) && wrong("remove").length >= Number(removes);
      const isOften = beside === undefined || [...wrong("add"), ...wrong("remove")].filter((call) => isBeside(it, call)).length >= Number(beside);
      return isEach && isOften && Number(adds) + Number(removes) <= tally["one wrong answer"] && (beside === undefined || Number(usual) <= 75);
    }],
  [/^because (\d+) contradictions are two adds that both returned true, and the next call of the key did not see (\d+) of (\d+) removes, although no opposite change ran in between$/, (it, [adds, some, all], { tally }) => {
    const seen = keysOf(it).filter((key) => !hasOrderOf(it, key)).flatMap((key) => nextCallsSee(ofKey(it, key), "remove"));
    return Number(adds) === tally["two adds true"] && Number(some) === seen.filter((isSeen) => !isSeen).length && Number(all) === seen.length;
  }],
  [/^because after (\d+) of (\d+) pairs of adds that both returned true, two removes returned true, too, or the key was found after the next remove$/, (it, [some, all], { tally }) =>
    Number(some) <= Number(all) && Number(all) === tally["two adds true"] && it.calls.some((one) => isTwice(it, one, "add") && it.calls.some((two) =>
      two.key === one.key && two.begun > one.ended && two.operation === "remove" && two.reply === "true" && (isTwice(it, two, "remove") || isFoundAgain(it))))],
];

// ---- A key whose calls disagree for a long time: adds find the key present and removes find the key absent, although no call changes the key.

// Returns a recording of one key with many answers that disagree about the state of the key. Before and after these answers, the recording can contain changes
// of the key.
function drawnSplit() {
  const [calls, opening] = [[], draw(2) === 0 ? [5] : []];
  const found = String(draw(2) === 0);
  const answers = pick([["add", "remove"], ["add", "remove", "contains"], ["remove", "contains"], ["add", "contains"]]);
  let moment = 0;
  const make = (thread, operation, reply, length) => calls.push({ thread, operation, key: 5, begun: ++moment, ended: (moment += length), reply });
  if (draw(2) === 0) make(0, opening.length > 0 ? "remove" : "add", "true", 1 + draw(3));
  const disagree = () => {
    for (let left = 210 + draw(90); left > 0; left--) {
      const operation = pick(answers);
      make(draw(3), operation, operation === "contains" ? found : "false", 1);
    }
  };
  disagree();
  for (let changes = draw(3); changes > 0; changes--) {
    make(0, pick(["add", "remove"]), "true", 1 + draw(3));
    if (draw(2) === 0) disagree();
  }
  return { calls, opening, keys: null, text: textOf(calls, opening, null) };
}

const answersIn = (it, operation, state, since, until) =>
  it.calls.filter((call) => call.operation === operation && !isChange(call) && needsKey(call) === state && call.begun > since && call.ended < until).length;

const OF_SPLIT = [
  [/^headline calls of key (\d+) disagree: (add|contains|add and contains) finds? it present, (remove|contains|remove and contains) absent$/, (it, [key, present, absent], why) => {
    why.key = Number(key);
    why.named = [present.split(" and "), absent.split(" and ")];
    return why.named.every((operations, at) => operations.every((operation) => answersIn(it, operation, at === 0, 0, LAST) > 0));
  }],
  [/^fact from (\d+) (?:to (\d+)|on) no change of key (\d+) ran, and (\d+) add found it present, (\d+) remove absent, (\d+) contains (present|absent)$/, (it, [from, to, key, adds, removes, contains, state], why) => {
    const [since, until] = [Number(from), Number(to ?? LAST)];
    const isQuiet = it.calls.every((call) => !isChange(call) || call.ended <= since || call.begun >= until);
    const named = { add: adds, remove: removes, contains };
    const isNamed = why.named.flat().every((operation) => Number(named[operation]) > 0);
    const counts = [answersIn(it, "add", true, since, until), answersIn(it, "remove", false, since, until), answersIn(it, "contains", state === "present", since, until)];
    return Number(key) === why.key && isQuiet && isNamed && `${counts}` === `${[adds, removes, contains].map(Number)}` && counts.reduce((sum, count) => sum + count, 0) >= 200;
  }],
];

function checkSplit(ask) {
  const it = drawnSplit();
  const lines = ask("listset_why_record", it.text).text.split("\n").filter((line) => /^(headline calls of key \d+ disagree:|fact from) /.test(line));
  if (lines.length !== 0 && lines.length !== 2) result.failed.push(`${lines} on\n${it.text}`);
  checkSentences(OF_SPLIT, it, lines);
}

// ---- Runs of broken lists.

const OF_LACKING = [
  [/^Not broken yet: some order explains this run\.$/, isExplained],
  [/^Not by its linearization points: check refuses that order\.$/, (it) => !it.isOwn],
  [/^Another order explains these replies\.$/, isExplained],
  [/^Whether another order explains these replies is not known\.$/, (it) => !it.isOwn && !isDecided(it)],
  [/^No order of these calls explains that \(proved\)\.$/, (it) => !isExplained(it)],
  [/^No order explains the calls and the keys left \(proved\)\.$/, (it) => !isExplained(it)],
  [/^Broken: (\d+) was added once and never removed, and at the end the set does not have it\.$/, (it, [key]) => isLost(it, Number(key))],
  [/^Broken: no order leaves these keys, which do not increase\.$/, (it) => it.keys.some((key, at) => key <= it.keys[at - 1])],
  [/^Broken: the calls of key (\d+) have no order\.$/, (it, [key]) => !waysLeft(it.calls, Number(key), it.opening.includes(Number(key))).includes(it.keys.includes(Number(key)))],
  [/^Broken: (\d+) is (present|absent) at first, and (.*)\.$/, (it, [key, state, second]) => it.opening.includes(Number(key)) === (state === "present") && isToldSo(it, Number(key), null, second)],
  [/^Broken: (.*), which leaves (\d+) (present|absent), and (.*)\.$/, (it, [first, key, state, second]) => isToldSo(it, Number(key), [first, state === "present"], second)],
];

// Returns whether the judge can decide a report: each call returned true or false or is pending, and no thread can exceed its quota of adds.
function isDecided({ calls, quota }) {
  const adds = [0, 1, 2].map((thread) => calls.filter((call) => call.thread === thread && call.operation === "add" && mayChange(call)).length);
  return calls.every(({ reply }) => reply === null || /^(true|false)$/.test(reply)) && Math.max(...adds) <= quota;
}

function isLost({ calls, opening, keys }, key) {
  const made = (operation) => calls.filter((call) => call.operation === operation && call.key === key && mayChange(call)).length;
  return made("add") === 1 && made("remove") === 0 && !opening.includes(key) && !keys.includes(key);
}

// Returns whether `first` and `second` contradict each other: no call could have changed the key between them. Both describe calls, but `first` can also be the
// key's opening state (null), and `second` the key's final state.
function isToldSo(it, key, first, second) {
  const looks = it.calls.map((call) => ({ ...asLook(call), told: `${nameIn(call)} ${call.ended === null ? "is pending" : `returns ${call.reply}`}` }));
  const named = (told) => looks.filter((call) => call.key === key && call.told === told);
  const isPresent = first === null ? it.opening.includes(key) : first[1];
  const end = /^at the end the set (has it|does not have it)$/.exec(second)?.[1];
  const firsts = first === null ? [null] : named(first[0]).filter((call) => leaves(call) === isPresent);
  const seconds = end === undefined ? named(second).filter((call) => needs(call) !== isPresent) : [null].filter(() => it.keys.includes(key) === (end === "has it") && it.keys.includes(key) !== isPresent);
  const ofKey = { calls: looks };
  return firsts.some((one) => seconds.some((other) => isNoneBetween(ofKey, key, isPresent ? "remove" : "add", one?.begun ?? 0, other?.ended ?? LAST)));
}

// Generates a random run of a broken list. The run starts without steps or with the schedule that breaks the list, and continues with random lines that the
// list accepts.
function drawnRun(ask, name) {
  const breaking = path.join(__dirname, "..", "..", "examples", "schedules", "lacks", `${name}.schedule`);
  const opening = [3, 7].filter(() => draw(3) > 0);
  const start = inPage("scheduleText")({ list: LACKING[name], threads: 2, quota: 2, version: 2, opening });
  let [text, begun] = [pick([start, fs.readFileSync(breaking, "utf8")]), 0];
  for (let tries = draw(24); tries > 0; tries--) {
    const thread = draw(2);
    const begin = begun < 6 ? [`begin ${thread} ${pick(["add", "remove", "contains", "remove", "add", "ceiling"])} ${pick([3, 5, 5, 7])}`] : [];
    for (const line of [...begin, pick([`go ${thread} ${1 + draw(9)}`, `go ${thread} out`]), `go ${thread} out`]) {
      const next = inPage("scheduleOfDraft")(ask, `${text}${line}\n`, name).text;
      if (next === null || ask("listset_lacking", name, next, "replay").status !== 0) continue;
      [text, begun] = [next, begun + Number(line.startsWith("begin"))];
      break;
    }
  }
  return text;
}

function checkLacking(ask, name) {
  const schedule = drawnRun(ask, name);
  const { kind, says, report } = verdictOnLacking(ask, name, schedule);
  if (report === null) return result.failed.push(`${name}: ${says}: ${schedule}`);
  const it = { ...readReport(report), quota: quotaIn(report), text: `${name}: ${report}`, isOwn: ask("listset_check", report).text === "ok\n" };
  return checkSentences(OF_LACKING, it, [...says.split(/(?<=\.) /), ...(kind === "broken" ? [inPage("TO_BREAK")] : [])]);
}

// ---- A reader's order of a run's calls.

const OF_OWN = [
  [/^Still missing: (.*)\.$/, (it, [told]) => {
    const isSaid = (call) => it.level !== "replies" || it.answer.replies.has(call.id);
    const lackOf = (call) => [it.answer.points.has(call.id) ? [] : "the moment", isSaid(call) ? [] : "the reply"].flat().join(" and ");
    const lacking = it.calls.filter((call) => call.ended !== null && lackOf(call) !== "");
    return lacking.map((call) => `${lackOf(call)} of ${nameAlone(it, call)}`).join(", ") === told;
  }],
  [/^Right: in this order every reply is correct, and the calls leave the numbers of this run \(checked by a program that is proved correct\)\.$/, (it) => faultsOf(it).length === 0],
  [/^The program that made this run has the same order\.$/, (it) => it.answer.order().map(({ call }) => call.id).join() === it.places.map(({ call }) => call).join()],
  [/^The program that made this run has another order: both are right\.$/, (it) => faultsOf(it).length === 0 && it.answer.order().map(({ call }) => call.id).join() !== it.places.map(({ call }) => call).join()],
  [/^(\S+ of [A-D]) cannot return (\S+) there: (before the first call of your order|after (\S+ of [A-D]) in your order) the set is {(.*)}, and the call would return (\S+)\.$/,
    (it, [name, reply, , other, set, due]) => faultsOf(it).some(({ call, before, keys, answer, said }) =>
      nameIn(call) === name && said === reply && (before === null ? other === undefined : nameIn(before) === other) && keys.join(", ") === set && answer === due && due !== reply)],
  [/^(\S+ of [A-D]) does not return (\S+) in this run\.$/, (it, [name, reply]) => it.answer.order().some(({ call, reply: said }) => nameIn(call) === name && said === reply && call.reply !== said)],
  [/^Look at what its thread sees before the call returns\.$/, () => true],
  [/^\(Your order is possible, but it is not this run\.\)$/, (it) => stepsOf(it).slice(1).every(({ answer, said }) => answer === said) && faultsOf(it).length > 0],
  [/^Choose the (two|three|four|five|six|seven|eight|nine|ten) replies first\.$/, (it, [count]) => {
    const asked = it.calls.filter(({ ended }) => ended !== null);
    return it.level === "replies" && NUMBERS[count] === asked.length && asked.every(({ id }) => !it.answer.replies.has(id));
  }],
  [/^(\S+ of [A-D]) begins at event (\d+), and in your order it comes before (\S+ of [A-D]), which ended at event (\d+)\.$/, (it, [name, begun, other, ended]) => {
    const order = it.answer.order().map(({ call }) => call);
    const isOther = (call) => nameIn(call) === other && call.ended === Number(ended) && call.ended < Number(begun);
    return order.some((call, at) => nameIn(call) === name && call.begun === Number(begun) && order.slice(at + 1).some(isOther));
  }],
  [/^Your order leaves the set {(.*)}; at the end of this run it is {(.*)}\.$/, (it, [left, keys]) => stepsOf(it).at(-1).after.join(", ") === left && keys === it.keys.join(", ") && left !== keys],
];

const NUMBERS = { two: 2, three: 3, four: 4, five: 5, six: 6, seven: 7, eight: 8, nine: 9, ten: 10 };
const nameIn = (call) => `${call.operation}(${call.key}) of ${"ABCD"[call.thread]}`;
const nameAlone = ({ calls }, call) => `${nameIn(call)}${calls.filter((other) => nameIn(other) === nameIn(call)).length > 1 ? ` from event ${call.begun}` : ""}`;

// Returns the steps of the reader's order. A step has a call, the previous call, the set before and after the call, the reader's reply and the correct reply.
function stepsOf(it) {
  let [keys, before] = [it.opening, null];
  const steps = [{ after: keys }];
  const used = {};
  for (const { call, reply: said } of it.answer.order()) {
    const answer = replyOf(call, keys, (used[call.thread] ?? 0) < it.quota);
    const after = answer === "true" ? keysAfter(call, keys) : keys;
    if (answer === "true" && call.operation === "add") used[call.thread] = (used[call.thread] ?? 0) + 1;
    steps.push({ call, before, keys, answer, said, after });
    [keys, before] = [after, call];
  }
  return steps;
}

const faultsOf = (it) => stepsOf(it).slice(1).filter(({ call, answer, said }) => answer !== said || (call.reply ?? "true") !== said);

// Returns a reader's answer with calls at random moments of their bars.
function placedAnswer(exercise) {
  const answer = new OwnAnswer(exercise);
  for (const call of exercise.calls.filter(({ ended }) => draw(ended === null ? 2 : 30) > 0)) {
    answer.place(call, call.begun + draw((call.ended ?? exercise.last) - call.begun + 1));
    answer.setReply(call, draw(12) === 0 ? pick(["true", "false"]) : call.reply);
  }
  return answer;
}

// Returns a reader's answer that is read from a hand-in: the order of the run, perhaps with a moved call and without some pending calls.
function writtenAnswer(exercise) {
  const pieces = exercise.places.map(({ call, reply }) => `${call}-${reply}`);
  if (draw(2) === 0) pieces.splice(draw(pieces.length), 0, ...pieces.splice(draw(pieces.length), 1));
  const written = pieces.filter((piece) => exercise.calls[parseInt(piece, 10)].ended !== null || draw(2) === 0);
  return inPage("answerOfWord")(exercise, written.join()) ?? new OwnAnswer(exercise);
}

const own = { count: 0 };
function checkOwn(ask) {
  const kind = pick(["coarse", "fine", "optimistic", "lazy", "lock-free"]);
  const whole = ask("listset_gen", [kind, "3", "2", String(3 + draw(6)), "3", String(draw(1e6))].join("\0")).text.split("\n");
  const schedule = draw(2) === 0 ? whole.join("\n") : `${whole.slice(0, 4 + draw(whole.length - 4)).join("\n")}\n`;
  const report = ask("listset_replay", schedule).text;
  const exercise = exerciseOf(report, pick(["points", "replies"]));
  const answer = draw(2) === 0 ? placedAnswer(exercise) : writtenAnswer(exercise);
  const it = { ...exercise, quota: 2, answer, text: "" };
  if (++own.count % 6 === 0) answer.replies.clear();
  if (own.count % 6 === 3) stepsOf(it).slice(1).forEach((step) => answer.setReply(step.call, step.answer)); // the replies that are correct in the reader's order
  it.text = `${report}${answer.order().map(({ call, reply }) => `${call.id}-${reply}`)}`;
  const { says } = verdictOn(ask, answer);
  checkSentences(OF_OWN, it, says.startsWith("Still") ? [says] : says.split(/(?<=\.) /));
}

async function main() {
  const engine = await startedEngine();
  if (engine === null) throw new Error("this node does not run the module");
  const ask = (name, ...texts) => engine.ask(name, ...texts);
  for (let number = 0; number < CASES; number++) {
    checkRecording(ask);
    checkSplit(ask);
    checkLacking(ask, Object.keys(LACKING)[number % Object.keys(LACKING).length]);
    checkOwn(ask);
  }
  for (const drawn of kindsOf({ draw, pick, replyOf, keysAfter, paddingAfter })) {
    const count = drawn.name === "broken" ? Math.min(CASES / 50, 5) : LONG.includes(drawn.name) ? Math.min(CASES / 3, MOST_LONG) : CASES; // (a case of `broken` takes seconds)
    for (let number = 0; number < count; number++) checkKind(ask, drawn);
  }
  // (a few calls contain too few facts for a guess about the cause)
  const isRare = (pattern) => /^\^because (?!many keys are added|\(\?:\(\\d\+\) times two|a successful remove of another key ran during \(\?|\(\\d\+\) adds of an absent|after \()|which do not increase|Your order is possible|have no order\\\.|at first, and/.test(pattern.source);
  const properties = [...OF_RECORDING, ...OF_SPLIT, ...OF_LACKING, ...OF_OWN];
  result.failed.push(...properties.filter(([pattern]) => CASES >= 150 && !met.has(pattern) && !isRare(pattern)).map(([pattern]) => `no case has ${pattern}`));
  console.log(JSON.stringify(result));
}

main();
