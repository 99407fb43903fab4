// `judge --only KEY`: prints the recording of one key's calls. If no order explains them, prints the few calls that show why.
"use strict";

const ENOUGH = 16; // the number of last calls in which the search for the beginning of a part starts
const MOST_TRIED = 64; // the maximum number of calls that are tried as the first call of a part

// A part of a key's calls: those with the indices from `first` to `behind - 1`. `opening` and `left` state whether the set has the key before and after
// the part; `left` is null if the recording was cut off.
/** @typedef {{ first: number, behind: number, opening: boolean, left: boolean | null }} Part */

// Returns the recording of a key, given the text of all keys; `null` if no call uses the key. `verdictOn` is the judge.
function onlyKey(text, key, verdictOn) {
  const lines = text.split("\n");
  const calls = lines.filter((line) => line.startsWith("call ") && line.split(" ")[3] === key).map(callOf);
  if (calls.length === 0) return null;
  const left = lines.includes("cut") ? null : lines.includes(`key ${key}`);
  const all = { first: 0, behind: calls.length, opening: lines.includes(`opening ${key}`), left };
  const refusal = (/** @type {Part} */ part) => /^not linearizable\n.* of key \d+(?: up to moment (\d+))?/.exec(verdictOn(textOf(calls, key, part)));
  const refused = refusal(all);
  return textOf(calls, key, refused === null ? all : partOf(calls, all, refused[1], refusal));
}

function callOf(line) {
  const [begin, end] = line.split(" ").slice(4);
  return { line, begin: BigInt(begin), end: end === "-" ? null : BigInt(end) };
}

function textOf(calls, key, { first, behind, opening, left }) {
  const ends = left === null ? ["cut"] : [...(left ? [`key ${key}`] : []), "end"];
  const made = calls.slice(first, behind).map(({ line }) => line);
  return ["listset-calls 1", ...(opening ? [`opening ${key}`] : []), ...made, ...ends, ""].join("\n");
}

// Returns a part of the calls that shows why the calls up to a moment, or all calls, are refused. The part begins with a call when no other call is pending and
// the state of the key is known. It is the first such call among the last ENOUGH calls or, if none exists, the last one before them.
function partOf(calls, all, moment, refusal) {
  const behind = moment === undefined ? all.behind : calls.filter(({ begin }) => begin <= BigInt(moment)).length;
  const part = moment === undefined ? all : { ...all, behind, left: null };
  const rests = restsOf(calls.slice(0, behind));
  const early = rests.filter((first) => first >= behind - ENOUGH);
  const late = rests.filter((first) => first < behind - ENOUGH).reverse();
  for (const first of [...early.slice(0, MOST_TRIED), ...late.slice(0, MOST_TRIED)]) {
    const [there, absent] = [true, false].map((left) => refusal({ ...all, behind: first, left }) === null);
    if (first === 0 || there !== absent) return { ...part, first, opening: first === 0 ? all.opening : there };
  }
  return part;
}

// Returns the indices of the calls that begin while no call is pending.
function restsOf(calls) {
  const rests = [];
  let latest = 0n;
  for (const [place, { begin, end }] of calls.entries()) {
    if (latest !== null && latest < begin) rests.push(place);
    latest = latest === null || end === null ? null : end > latest ? end : latest;
  }
  return rests;
}

module.exports = { onlyKey };
