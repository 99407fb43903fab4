// Reads and writes the addresses that are listed in page/README.md. A written address names a broken list by a number, since the name of the list would reveal
// the missing check.
import { LACKING } from "../../made/classics.js";
import { LISTS } from "../../made/rows.js";
import { scheduleText, versionOf } from "./schedule_text.js";
import { isTrace, Trace } from "./trace.js";

export const LONGEST_ADDRESS = 30000; // characters; a schedule whose address would be longer gets no address
const SHORT_EVENT = String.raw`(b\d+\.[a-z]+\.\d+|g\d+\.\d+)`;
const NUMBER = /^\d+$/;
const KIND = `(${Object.keys(LISTS).join("|")})`;
const ADDRESS_PARTS = {
  threads: NUMBER, quota: NUMBER, version: NUMBER, event: NUMBER, list: /^[A-Za-z-]+$/, opening: /^\d+(\.\d+)*$/,
  s: new RegExp(`^(${SHORT_EVENT}(,${SHORT_EVENT})*)?$`),
  example: /^[a-z-]+$/, seed: new RegExp(`^${KIND}(\\.\\d{1,2}){3}\\.\\d{1,9}$`), course: /^[A-Za-z0-9_-]+$/,
  lacks: /^(\d+|[A-Za-z-]+)$/, view: /^(lecture|list|history)$/,
  sides: new RegExp(`^${KIND}\\.${KIND}$`), calls: /^(\d\d?\.[a-z]+\.\d+(,|$))+$/, turns: /^(\d\d?(\.\d\d?)*)?$/,
  watch: /^[a-z-]*$/, learn: /^[a-z0-9-]*$/, break: /^\d*$/, judge: /^$/, compare: /^$/, read: /^$/,
};
export const isSeed = (word) => ADDRESS_PARTS.seed.test(word);

export class AddressFault extends Error {}

// Returns the address of a schedule at an event, or null if the text is not a schedule or is too long.
export function addressOf(text, event, lacks = null) {
  if (text.length > 2 * LONGEST_ADDRESS) return null; // the address of a schedule has more than half the characters of its text
  const [title, list, threads, quota, ...lines] = text.split("\n").slice(0, -1);
  const isOpening = (line) => line.startsWith("opening ");
  const opening = lines.filter(isOpening).map((line) => line.slice("opening ".length));
  const events = lines.filter((line) => !isOpening(line)).map(shortLine);
  const version = title?.split(" ")[1];
  const needed = versionOf(scheduleText({ list, threads, quota, opening }, lines));
  const parts = [`list=${list?.split(" ")[1]}`, `threads=${threads?.split(" ")[1]}`, `quota=${quota?.split(" ")[1]}`];
  if (version !== String(needed)) parts.push(`version=${version}`);
  if (opening.length > 0) parts.push(`opening=${opening.join(".")}`);
  parts.push(`s=${events.join()}`, `event=${event}`);
  if (lacks !== null) parts.push(`lacks=${Object.keys(LACKING).indexOf(lacks) + 1}`);
  const address = `#${parts.join("&")}`;
  return address.length <= LONGEST_ADDRESS && isAddressOf(address, text) ? address : null;
}

export const shortLine = (line) => {
  const [word, ...values] = line.split(" ");
  return `${word[0]}${values.join(".")}`;
};

export const longLine = (short) => `${short[0] === "b" ? "begin" : "go"} ${short.slice(1).replaceAll(".", " ")}`;

function isAddressOf(address, text) {
  try {
    return readAddress(address).text === text;
  } catch (fault) {
    if (!(fault instanceof AddressFault)) throw fault;
    return false;
  }
}

export function readAddress(hash) {
  const { view = null, course = null, lacks: which, seed = null, ...rest } = partsOf(hash);
  const { place, isJudged, parts } = placeOf(rest, seed);
  const lacks = which === undefined ? null : lackingNamed(which, parts);
  const own = { view, course, sides: null, lacks, place, seed, isJudged };
  const named = { example: parts.example ?? null, text: null, event: Number(parts.event ?? 0), ...own };
  if (parts.sides !== undefined) return { ...named, sides: parts };
  const ofSchedule = Object.keys(parts).filter((name) => name !== "event" && name !== "example");
  if (named.example !== null && ofSchedule.length > 0) {
    throw new AddressFault(`the address names an example, and has "${ofSchedule[0]}" too`);
  }
  if (ofSchedule.length > 0) named.text = textOfParts(parts);
  return named;
}

function lackingNamed(which, { list, example }) {
  const names = Object.keys(LACKING);
  const lacks = names.includes(which) ? which : names[which - 1];
  if (lacks === undefined) {
    throw new AddressFault(`there is no broken list "${which}": expected 1 to ${names.length}, or a name that "listset show --help" prints`);
  }
  if (list === LACKING[lacks]) return lacks;
  const named = list !== undefined ? `list=${list}` : example !== undefined ? `example=${example}` : "no list";
  throw new AddressFault(`lacks=${which} is a broken ${LISTS[LACKING[lacks]].name}, and the address has ${named}`);
}

function placeOf(parts, seed) {
  const isRun = seed !== null || parts.example !== undefined || parts.list !== undefined;
  const name = ["watch", "learn", "judge", "break", "compare", "read"].find((one) => parts[one] !== undefined);
  if (name === undefined) return { place: null, isJudged: false, parts };
  const { [name]: value, ...others } = parts;
  const isJudged = name === "judge" && isRun;
  return { place: isJudged ? null : [name, value], isJudged, parts: others };
}

function partsOf(hash) {
  const parts = {};
  for (const [name, value] of new URLSearchParams(hash.replace(/^#/, ""))) {
    if (!Object.hasOwn(ADDRESS_PARTS, name)) throw new AddressFault(`the address has an unknown part "${name}"`);
    if (name in parts) throw new AddressFault(`the address has "${name}" twice`);
    const bad = ADDRESS_PARTS[name].test(value) ? undefined : (value.split(",").find((one) => !ADDRESS_PARTS[name].test(one)) ?? value);
    if (bad !== undefined) throw new AddressFault(`"${bad.slice(0, 60)}" is no ${name} of an address`);
    parts[name] = value;
  }
  return parts;
}

function textOfParts(parts) {
  const missing = ["list", "threads", "quota"].find((name) => parts[name] === undefined);
  if (missing !== undefined) throw new AddressFault(`the address has no "${missing}"`);
  const events = (parts.s ? parts.s.split(",") : []).map(longLine);
  return scheduleText({ ...parts, opening: parts.opening?.split(".") }, events);
}

export const warningOf = (link) =>
  /^(file:|https?:..(localhost|127\.|\[::1\]))/.test(link) ? " This address works on this computer only. Put the page on a web server, open it there, and copy the link again." : "";

// ---- Numbered runs: the engine generates a schedule from a number. All readers get the same run for the same number.
const TRIES = 200;
const MOST_TRIED_CALLS = 8; // calls of a seed; if it has more, the first generated schedule is used, interesting or not
const MOST_SEEN = 60; // events; in a longer run, a reader cannot tell the events apart

// Returns the seed of a numbered run that is small enough to judge by eye: five calls of two threads on two keys.
export const seedOf = (kind, number) => `${kind}.2.5.2.${number}`;

export function partsOfSeed(seed) {
  const [kind, ...values] = seed.split(".");
  const [threads, calls, keys, number] = values.map(Number);
  return { kind, threads, calls, keys, number };
}

// Returns the schedule of a seed. The engine generates up to TRIES schedules for the seed; the first interesting one is returned or, if none is interesting,
// the last.
export function scheduleOfSeed(ask, seed) {
  const { kind, threads, calls, keys, number } = partsOfSeed(seed);
  const tries = calls > MOST_TRIED_CALLS ? 1 : TRIES;
  let text = "";
  for (let tried = 0; tried < tries; tried++) {
    const answer = ask("listset_gen", [kind, threads, 4, calls, keys, number * TRIES + tried].join("\0"));
    if (answer.status !== 0) throw new AddressFault(`the address names no run: ${answer.text.trim()}`);
    text = answer.text;
    const traced = ask("listset_trace", text).text;
    if (!isTrace(traced)) throw new AddressFault(`the run of the address has no trace: ${traced.trim()}`);
    if (isWorthIt(new Trace(traced))) break;
  }
  return joined(text);
}

// Returns whether a run is interesting: all its calls return within MOST_SEEN events, it adds a key, it removes a key, and some call that changes nothing (a
// `contains`, or a call that returns false) overlaps a call of another thread.
function isWorthIt({ calls, changes, total }) {
  const puts = changes.some(({ put }) => put !== undefined) && changes.some(({ took }) => took !== undefined);
  const isBeside = (one, other) => one.thread !== other.thread && one.begun < other.ended && other.begun < one.ended;
  const beside = calls.filter((one) => calls.some((other) => isBeside(one, other)));
  const isInstructive = beside.some(({ changes: own, operation, reply }) => !own && (operation === "contains" || reply === "false"));
  return puts && isInstructive && total <= MOST_SEEN && calls.every(({ ended }) => ended !== null);
}

function joined(text) {
  const stepsIn = (lines) => lines.split("\n").reduce((sum, line) => sum + Number(line.split(" ")[2]), 0);
  return text.replace(/^go (\d+) \d+(?:\ngo \1 \d+)+$/gm, (lines, thread) => `go ${thread} ${stepsIn(lines)}`);
}

export function anotherSeed(before, kind = null) {
  const kinds = Object.keys(LISTS);
  const list = kind ?? kinds[Math.floor(Math.random() * kinds.length)];
  const number = 1 + Math.floor(Math.random() * 9999);
  const seed = seedOf(list, number);
  return seed === before ? seedOf(list, (number % 9999) + 1) : seed;
}
