// Usage: `node tests/sentences.js`. Checks that no sentence about a generated run is false, for each list and each broken list. Parses each sentence and
// compares the statements in the sentence with the run: which keys are compared, whether a key is present, what the step adds, removes, unlinks or marks, which
// thread holds a lock, and what the thread does and returns next.
"use strict";

const fs = require("fs");
const path = require("path");
const { inPage, startedEngine } = require("../in_node.js");

const RUNS = 60; // for each list
const LEAST = 100000; // the minimum number of sentences
const result = { passed: 0, failed: [] };

const numberOf = (key) => ({ "−∞": -Infinity, "+∞": Infinity, "-inf": -Infinity, "+inf": Infinity })[key] ?? Number(key);

const isMarkOf = (event, node, thread) => event.word === `${node}.link` && event.to.endsWith("*") && thread === inPage("letterOf")(event.thread);

// The patterns of sentences. Each pattern has a test that returns true if a matching sentence is false. The arguments of the test are the matched groups and
// the facts after the event: the event, the next step of its thread, the chain, the keys and the locks.
const CLAIMS = [
  [/key: (\S+)\. .*above (\d+)/, ([saw, key]) => numberOf(saw) <= numberOf(key)],
  [/key: (\S+)\. .*is below (\d+)/, ([saw, key]) => numberOf(saw) >= numberOf(key)],
  [/key: (\S+)\. .*The add goes ahead/, ([saw], { event }) => saw === String(event.call.key)],
  [/key: (\S+)\. .*The remove goes ahead/, ([saw], { event }) => saw !== String(event.call.key)],
  [/ (\w+) has the key (\d+):/, ([node, key], { keyOf }) => keyOf(node) !== key],
  [/ (\w+) does not have the key (\d+):/, ([node, key], { keyOf }) => keyOf(node) === key],
  [/leads to (\w+) now, not to (\w+)/, ([found, wanted]) => found === wanted],
  [/This adds (\d+) to the set/, ([key], { keys, keysBefore }) => !keys.includes(key) || keysBefore.includes(key)],
  [/This removes (\d+) from the set/, ([key], { keys, keysBefore }) => keys.includes(key) || !keysBefore.includes(key)],
  [/This unlinks (n\d+)/, ([node], { chain, chainBefore }) => chain.includes(node) || !chainBefore.includes(node)],
  [/(n\d+), .*, which ([A-C]) marked at event (\d+)/, ([node, thread, number], { eventAt }) => !isMarkOf(eventAt(Number(number)), node, thread)],
  [/^[A-C] marks (n\d+)/, ([node], { linkOf }) => !linkOf(node).endsWith("*")],
  [/(n\d+) is (?:marked, and )?still in the chain/, ([node], { chain }) => !chain.includes(node)],
  [/(n\d+) is (?:marked, and no longer|not) in the chain/, ([node], { chain }) => chain.includes(node)],
  [/(n\d+) stays in the chain, marked/, ([node], { chain, linkOf }) => !chain.includes(node) || !linkOf(node).endsWith("*")],
  [/(n\d+) is marked/, ([node], { linkOf }) => !linkOf(node).endsWith("*")],
  [/^[A-C] locks (the list|\w+)\./, ([name], { lockOf, thread }) => lockOf(name) !== thread],
  [/^[A-C] unlocks (the list|\w+)\./, ([name], { lockOf }) => lockOf(name) !== "free"],
  [/tries to lock (the list|\w+), but ([A-C]) holds it/, ([name, other], { lockOf, thread }) => inPage("holderOf")(lockOf(name)) !== other || lockOf(name) === thread],
  [/It will try again/, (_, { event, next }) => next !== null && next.word !== event.word],
  [/holds? the locks? of (\w+)(?: and (\w+))?\./, (names, { lockOf, thread }) => names.some((name) => name !== undefined && lockOf(name) !== thread)],
  [/holds no lock now/, (_, { locks, thread }) => locks[thread] !== undefined],
  [/sets (\w+)\.link to (\w+)\./, ([node, to], { linkOf }) => linkOf(node) !== to],
  [/changes (\w+)\.link from \w+ to (\w+)\./, ([node, to], { linkOf }) => linkOf(node) !== to],
  [/, but finds (\w+)(, marked)?\b/, ([to, mark], { event, linkOf }) => linkOf(event.word.split(".")[0]) !== to + (mark ? "*" : "")],
  [/the next step will fail/, (_, { next }) => next !== null && !(next.deed === "exchange" && next.saw !== next.from)],
  [/the next step tries to unlink it/, (_, { next }) => next !== null && next.deed !== "exchange"],
  [/It will answer (\S+?)[.:]/, ([reply], { event }) => event.call.reply !== null && event.call.reply !== reply],
  [/returns (\S+?)[.;,]/, ([reply], { event }) => event.call.reply !== reply],
  [/the add goes ahead/i, (_, { event }) => event.call.operation !== "add"],
  [/the remove goes ahead/i, (_, { event }) => event.call.operation !== "remove"],
  [/(undefined|null|NaN|\[object)/, () => true],
];

const keysInChain = (state) => inPage("keysInChain")(state).map(String);

// Returns the facts after an event.
function factsAfter(state, event, others) {
  const chain = state.chain();
  const lockOf = (name) => (name === "the list" ? state.lock : state.nodes[name].lock);
  const linkOf = (name) => state.nodes[name].link;
  const keys = keysInChain(state);
  const keyOf = (name) => String(state.nodes[name].key);
  const nameOf = (name) => ({ head: "the head", tail: "the tail" })[name] ?? keyOf(name);
  const lockedKeys = () => {
    const locked = Object.keys(state.nodes).filter((name) => lockOf(name) === `t${event.thread}`);
    return locked.sort((one, other) => numberOf(keyOf(one)) - numberOf(keyOf(other))).map(nameOf);
  };
  return { ...others, event, thread: `t${event.thread}`, lockedKeys, chain, keys, keyOf, lockOf, linkOf, locks: state.locks() };
}

// Patterns and tests of the short sentences of the path, the tour with live lists (story/said.js), in the same form as CLAIMS.
const ownerOf = ({ word }) => word.split(".")[0];
const isNextOn = (next, field, ...owners) => next === null || owners.some((owner) => next.word === `${owner}.${field}`);
const isTrueOrKey = (answer) => answer === "true" || answer?.startsWith("at-") === true;
const SHORT_CLAIMS = [
  [/: \S+ is unlinked\./, (_, { chain, before }) => chain.includes(before.curr)],
  [/: \d+ is in the list\./, (_, { chain, event }) => !chain.includes(event.to.replace("*", ""))],
  [/No other thread sees it yet/, (_, { chain, event }) => chain.includes(ownerOf(event))],
  [/ is not in the list/, (_, { chain, event }) => chain.includes(ownerOf(event))],
  [/: \S+ stays\./, (_, { chain, before }) => !chain.includes(before.curr)],
  [/marks \S+: (\d+) is removed\./, ([key], { event, linkOf, keyOf }) => !linkOf(ownerOf(event)).endsWith("*") || event.call.operation !== "remove" || keyOf(ownerOf(event)) !== key],
  [/ returns (\w+)\.$/, ([reply], { event }) => event.answer.replace("at-", "") !== reply],
  [/takes the lock(?: of [^:.]+)?[:.]/, (_, { event, lockOf, thread }) => lockOf(lockName(event)) !== thread],
  [/releases the lock(?: of [^.]+)?\./, (_, { event, lockOf }) => lockOf(lockName(event)) !== "free"],
  [/(?:: it|^[A-C]) holds (.*?)(?:\.|, and sees)/, ([names], { lockedKeys }) => lockedKeys().length < 2 || names !== lockedKeys().join(" and ")],
  [/has released both locks\./, (_, { event, lockedKeys, lastOwn }) => lockedKeys().length > 0 || lastOwn().word === event.word || ![lastOwn(), event].every(({ released }) => released)],
  [/It does not lock (\S+)\./, ([key], { event, lockOf, next, keyOf, lacks, thread }) => lacks === null || keyOf(ownerOf(event)) !== key || lockOf(ownerOf(event)) === thread || next?.word === `${ownerOf(event)}.lock`],
  [/wants the lock.*, but ([A-C]) holds it/, ([other], { event, lockOf, thread }) => inPage("holderOf")(lockOf(lockName(event))) !== other || lockOf(lockName(event)) === thread],
  [/ The call waits\./, (_, { event, next }) => next !== null && next.word !== event.word],
  [/The call continues without the lock/, (_, { event, next }) => next !== null && next.word === event.word],
  [/reads (\d+): too small/, ([saw], { event }) => Number(saw) >= event.call.key],
  [/reads (\d+): big enough/, ([saw], { event }) => Number(saw) < event.call.key],
  [/reads (\d+): found/, ([saw], { event }) => Number(saw) !== event.call.key],
  [/reads (\d+): too big/, ([saw], { event }) => Number(saw) <= event.call.key],
  [/(?:The place of \d+ is just before it|here is the place)/, (_, { event, chain, keyOf }) => !chain.includes(ownerOf(event)) || !(numberOf(keyOf(chain[chain.indexOf(ownerOf(event)) - 1])) < event.call.key)],
  [/so it stops here/, (_, { event, next }) => next !== null && next.word === `${ownerOf(event)}.link` && next.changes.curr !== undefined],
  [/pred is no longer in the list/, (_, { chain, before }) => chain.includes(before.pred)],
  [/meets its pred: it is still in the list/, (_, { event, chain, before }) => ownerOf(event) !== before.pred || !chain.includes(before.pred)],
  [/this is not its pred/, (_, { event, before, next }) => ownerOf(event) === before.pred || !isNextOn(next, "link", ownerOf(event))],
  [/takes this node for its pred/, (_, { event, before, next, keyOf }) => ownerOf(event) === before.pred || keyOf(ownerOf(event)) !== keyOf(before.pred) || !isNextOn(next, "link", before.pred)],
  [/sees the mark: this \S+ has been removed/, (_, { event, linkOf }) => !linkOf(ownerOf(event)).endsWith("*") || isTrueOrKey(event.answer)],
  [/to be in the set: it does not look at the mark/, (_, { event, linkOf, lacks }) => lacks === null || !linkOf(ownerOf(event)).endsWith("*")],
  [/sees no mark: (\S+) is in the set/, ([key], { keys }) => !keys.includes(key)],
  [/sees no mark on/, (_, { event, linkOf }) => linkOf(ownerOf(event)).endsWith("*")],
  [/which still points to curr|pred still points to curr/, (_, { event, before, linkOf }) => ownerOf(event) !== before.pred || linkOf(before.pred) !== before.curr],
  [/sees a mark on/, (_, { event, linkOf }) => !linkOf(ownerOf(event)).endsWith("*")],
  [/, and does not look at the mark/, (_, { event, linkOf, lacks }) => lacks === null || !linkOf(ownerOf(event)).endsWith("*")],
  [/on \S+: the check succeeds/, (_, { event, before, linkOf }) => ownerOf(event) !== before.curr || linkOf(before.curr).endsWith("*")],
  [/something was linked in between/, (_, { chain, before }) => !chain.includes(before.pred) || !(chain.indexOf(before.curr) > chain.indexOf(before.pred) + 1)],
  [/curr was unlinked/, (_, { chain, before }) => chain.includes(before.curr)],
  [/It starts again\./, (_, { before, nextWalk }) => nextWalk !== null && nextWalk.word !== "head.link" && before.reply === "none"],
  [/which is marked: it tries to unlink it/, (_, { event, before, linkOf, next }) => !linkOf(ownerOf(event)).endsWith("*") || (next !== null && (next.deed !== "exchange" || next.word !== `${before.pred}.link`))],
  [/reads the arrow of \S+: no mark/, (_, { event, linkOf }) => linkOf(ownerOf(event)).endsWith("*")],
  [/wants to mark \S+, but its CAS finds a mark/, (_, { event, linkOf }) => !linkOf(ownerOf(event)).endsWith("*")],
  [/the CAS finds it marked\b/, (_, { event, linkOf }) => !linkOf(ownerOf(event)).endsWith("*")],
  [/the CAS finds another arrow/, (_, { event, linkOf }) => linkOf(ownerOf(event)) === event.from],
  [/[Ww]alks? again\./, (_, { next }) => !isNextOn(next, "link", "head")],
];

// Sets `released` for each event that stores "free" in a lock while the event's thread holds the lock.
function markReleases(events) {
  const held = {};
  for (const event of events.filter(({ word }) => word?.endsWith(".lock"))) {
    const isFree = event.deed === "store";
    event.released = isFree && held[event.word] === event.thread;
    if (isFree || event.saw === event.from) held[event.word] = isFree ? null : event.thread;
  }
}

const lockName = ({ word }) => (word === "list.lock" ? "the list" : ownerOf({ word }));

function falseIn(claims, sentence, facts) {
  const isFalse = ([words, test]) => {
    const found = words.exec(sentence);
    if (found !== null) seen.add(words);
    return found !== null && test(found.slice(1), facts);
  };
  return claims.filter(isFalse).map(([words]) => words.source);
}
const seen = new Set(); // the patterns that some sentence has matched

// Returns the sentences about a run, each with the patterns that match a false statement in the sentence.
function readRun(trace) {
  const state = new (inPage("State"))(trace);
  const events = trace.events();
  markReleases(events);
  return events.map((event, index) => {
    const next = events.slice(index + 1).find(({ thread }) => thread === event.thread) ?? null;
    state.moveTo(event.number - 1);
    const chainBefore = state.chain();
    const nextWalk = events.slice(index + 1).find(({ thread, word }) => thread === event.thread && /\.link$/.test(word ?? "")) ?? null;
    const lastOwn = () => events.slice(0, index).findLast(({ thread }) => thread === event.thread);
    const before = { next, nextWalk, lastOwn, chainBefore, keysBefore: keysInChain(state), eventAt: (number) => events[number - 1], lacks: trace.lacks };
    const moment = inPage("momentAt")(state, event.number);
    const [sentence, short] = [inPage("sentenceOf")(moment), inPage("saidOf")(moment, { isPath: true })].map((text) => text.replace(/<[^>]*>/g, ""));
    const facts = factsAfter(state, event, before);
    const ofLong = trace.lacks === null ? falseIn(CLAIMS, sentence, facts) : []; // the page shows the long sentences only for correct lists
    const wrong = [...ofLong, ...falseIn(SHORT_CLAIMS, short, { ...facts, before: moment.before })];
    return { number: event.number, sentence, short, wrong };
  });
}

// Handwritten runs of broken lists. The lines of each run follow the opening keys 3 and 7.
const BY_HAND = {
  "marks-in-validation": ["begin 0 remove 7", "go 0 4", "begin 1 remove 3", "go 1 10", "begin 1 remove 7", "go 1 10", "go 0 8"],
  "mark-in-remove": ["begin 0 remove 3", "go 0 3", "begin 1 remove 3", "go 1 5", "go 0 3"],
};
const startOf = (lacks) => inPage("scheduleText")({ list: inPage("LACKING")[lacks], threads: 2, quota: 2, opening: [3, 7] });

function runsByHand(engine, lacks) {
  if (lacks === null) return [];
  const example = fs.readFileSync(path.join(__dirname, "..", "..", "examples", "schedules", "lacks", `${lacks}.schedule`), "utf8");
  const own = BY_HAND[lacks] === undefined ? [] : [`${startOf(lacks)}${BY_HAND[lacks].join("\n")}\n`];
  return [example, ...own].map((text) => tracedOf(engine, lacks, text));
}

function runOf(engine, kind, lacks, number) {
  const { text } = engine.ask("listset_gen", [kind, 3, 6, 10, 4, number].join("\0"));
  return tracedOf(engine, lacks, text);
}

function tracedOf(engine, lacks, text) {
  const made = lacks === null ? engine.ask("listset_trace", text) : engine.ask("listset_lacking", lacks, text, "trace");
  return made.text.startsWith("listset-trace") ? new (inPage("Trace"))(made.text, inPage("versionOf")(text)) : null;
}

// Returns the events with a wrong ring in a run of a correct list. For a call that changes nothing, the ring must be at the earliest moment when its reply is
// correct.
function ringsWrong(trace) {
  const keysAt = [new Set(trace.opening)];
  for (const { put, took } of trace.events()) {
    const keys = new Set(keysAt.at(-1));
    if (put !== undefined) keys.add(put);
    keys.delete(took);
    keysAt.push(keys);
  }
  const answer = ({ operation, key, reply }, keys) => {
    if (operation === "ceiling") return `at-${Math.min(...[...keys].filter((one) => one >= key))}`.replace("at-Infinity", "nothing");
    return reply === "full" && !keys.has(key) ? "full" : String(operation === "add" ? !keys.has(key) : keys.has(key));
  };
  const earliest = (call) => keysAt.findIndex((keys, moment) => moment >= call.begun && answer(call, keys) === call.reply);
  return trace.calls.filter((call) => !call.changes && call.ended !== null && earliest(call) !== call.at).map(({ at }) => at);
}

async function main() {
  const engine = await startedEngine();
  const lists = [...Object.keys(inPage("LISTS")).map((kind) => [null, kind]), ...Object.entries(inPage("LACKING"))];
  let count = 0;
  for (const [lacks, kind] of lists) {
    const generated = Array.from({ length: RUNS }, (_, index) => runOf(engine, kind, lacks, index + 1));
    const runs = [...generated, ...runsByHand(engine, lacks)].filter((run) => run !== null);
    const sentences = runs.flatMap(readRun);
    const rings = lacks === null ? runs.flatMap(ringsWrong) : [];
    const wrong = sentences.filter((one) => one.wrong.length > 0);
    count += sentences.length;
    if (rings.length > 0) result.failed.push(`${kind}: ${rings.length} rings are not at the earliest moment`);
    if (runs.length > 0 && wrong.length === 0) result.passed++;
    else result.failed.push(`${lacks ?? kind}: of ${runs.length} runs, ${wrong.length} sentences are false: ${JSON.stringify(wrong.slice(0, 2))}`);
  }
  const unseen = [...SHORT_CLAIMS, ...CLAIMS].filter(([words]) => !seen.has(words)).slice(0, -1);
  if (unseen.length === 0) result.passed++;
  else result.failed.push(`no sentence says ${unseen.map(([words]) => words.source).join(" or ")}`);
  if (count >= LEAST) result.passed++;
  else result.failed.push(`${count} sentences alone were read`);
  process.stdout.write(JSON.stringify(result));
}

main();
