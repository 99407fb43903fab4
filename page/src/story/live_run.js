// A run that the reader builds step by step. The engine computes each step; this module reads the engine's trace.
import { askNow } from "../page/now.js";
import { askList, verdictOnLacking } from "../run/broken.js";
import { openingIn, scheduleOfDraft, scheduleOfTrace, scheduleText } from "../run/schedule_text.js";
import { isFailed, isLock } from "../run/outcomes.js";
import { keysInChain, promisedKeys, State } from "../run/state.js";
import { isTrace, Trace } from "../run/trace.js";
import { joinedRows, phaseAt } from "./presses.js";

const MOST_STEPS = 80; // steps of one call; lists of the story are short
export const linesOf = (schedule) => schedule.split("\n").filter((line) => /^(begin|go) /.test(line));

export function runOfText(text) {
  const valueOf = (word) => new RegExp(`^${word} (.*)$`, "m").exec(text)?.[1];
  return { threads: Number(valueOf("threads")), quota: Number(valueOf("quota")), opening: openingIn(text).map(Number), lines: linesOf(text) };
}

export class RunFault extends Error {}

export class ShownRun {
  constructor(trace, state, count = 0) {
    this.trace = trace;
    this.state = state;
    this.count = count;
  }

  isIdle(thread) {
    return this.state.threads[thread].pc === 0;
  }

  promised(count = this.trace.total) {
    return promisedKeys(this.trace, count);
  }

  has() {
    return keysInChain(this.state);
  }
}

/**
 * A run to begin with. `lines` are the first lines of the schedule; lines of a draft are allowed. In a `free` run, the reader can begin any call. A `plain` run
 * ignores the list's lock and does not show it. `joined` lists rows of the step table, for all calls or by operation. A press that executes the row before a
 * listed row also executes the listed row. An item "11 14" joins row 14 to row 11 only. A `free` run joins rows only if it is `plain`.
 * @typedef {{ list: string, lacks?: string | null, threads?: number, quota?: number, opening?: number[], lines?: string[], version?: number,
 *   free?: boolean, plain?: boolean, joined?: (number | string)[] | Record<string, (number | string)[]> }} RunSpec
 */
export class LiveRun extends ShownRun {
  /** @param {RunSpec} spec */
  constructor(spec) {
    super(null, null);
    this.spec = { lacks: null, threads: 2, quota: 2, opening: [], plain: false, version: 2, ...spec };
    this.first = this.expanded(spec.lines ?? []);
    this.take(this.first);
  }

  expanded(lines) {
    const { text, fault } = scheduleOfDraft(askNow, this.textOf(lines), this.spec.lacks);
    if (fault !== null) throw new RunFault(fault);
    return linesOf(text);
  }

  textOf(lines) {
    return scheduleText(this.spec, lines);
  }

  traceOf(lines) {
    const { text } = askList(askNow, "listset_trace", this.spec.lacks, this.textOf(lines));
    if (!isTrace(text)) throw new RunFault(text.trim());
    return new Trace(text, this.spec.version);
  }

  take(lines) {
    this.lines = [...lines];
    this.nexts = {}; // the results of `nextOf` for these lines
    this.trace = this.traceOf(this.lines);
    this.state = new State(this.trace);
    this.moveTo(this.trace.total);
  }

  linesHere() {
    return linesOf(scheduleOfTrace(this.trace, this.count));
  }

  get schedule() {
    return this.textOf(this.lines);
  }

  moveTo(count) {
    this.count = Math.max(0, Math.min(this.trace.total, count));
    this.state.moveTo(this.count);
  }

  // Returns the effect of the next press on a thread's button: the steps, their phase, and the holder of a lock that the thread has failed to acquire.
  nextOf(thread, call = null) {
    return (this.nexts[[this.count, thread, call].join()] ??= this.newNextOf(thread, call));
  }

  newNextOf(thread, call) {
    const isBegin = this.isIdle(thread);
    const before = this.count < this.trace.total ? this.linesHere() : this.lines;
    const trace = this.traceOf([...before, ...(isBegin ? [`begin ${thread} ${call.join(" ")}`] : []), `go ${thread} ${MOST_STEPS}`]);
    const begun = this.count + Number(isBegin);
    const row = isBegin ? trace.event(begun).changes.pc : this.state.threads[thread].pc;
    const next = this.chunk(trace, begun, row);
    const tried = this.trace.events().slice(0, this.count).findLast((event) => event.thread === thread);
    const waitsFor = next.waits && next.steps === 1 && tried?.word === next.last.word && tried.saw === next.last.saw ? Number(tried.saw.slice(1)) : null;
    return { ...next, thread, row, isBegin, waitsFor };
  }

  chunk(trace, begun, row) {
    const { list, plain, joined = [] } = this.spec;
    const phase = phaseAt(list, row, plain);
    const own = Array.isArray(joined) ? joined : joined[trace.event(begun + 1).call.operation] ?? [];
    const rows = this.spec.free && !plain ? [] : [...joinedRows(list, plain), ...own];
    let last;
    let steps = 0;
    let before = row;
    for (let number = begun + 1; number <= trace.total; number++) {
      last = trace.event(number);
      steps++;
      if (last.answer !== undefined) break;
      const after = last.changes.pc;
      const ofLock = isFailed(last) && isLock(last.word);
      const waits = ofLock && after === before; // a broken list can continue after a failed attempt to lock
      if (waits || (isFailed(last) && !ofLock)) return { steps, phase, waits, last };
      const isJoined = rows.includes(after) || rows.includes(`${before} ${after}`);
      before = after;
      if (phaseAt(list, after, plain) !== phase && !isJoined) break;
    }
    return { steps, phase: phase === "unlock" && last?.answer === undefined ? "restart" : phase, waits: false, last };
  }

  // Returns the number of the last event that one press of a thread's button executes together with event `count + 1`.
  endOfBit(count) {
    this.moveTo(count);
    const { thread, deed, changes } = this.trace.event(count + 1);
    const [begun, row] = deed === "begin" ? [count + 1, changes.pc] : [count, this.state.threads[thread].pc];
    return begun + this.chunk(this.trace, begun, row).steps;
  }

  // Returns how many steps a thread executes until `isThere` returns true, the thread's call returns, or the thread waits for a lock. Returns 1 if that would
  // need too many steps.
  stepsUntil(thread, isThere) {
    const { total } = this.trace;
    const trace = this.traceOf([...this.lines, `go ${thread} ${MOST_STEPS}`]);
    for (let number = total + 1; number <= trace.total; number++) {
      const event = trace.event(number);
      if (event.answer !== undefined || isThere(event) || this.waitsAt(event)) return number - total;
    }
    return 1;
  }

  waitsAt(event) {
    return isFailed(event) && isLock(event.word) && this.spec.lacks !== "lock";
  }

  begin(thread, [operation, key]) {
    this.take([...this.lines, `begin ${thread} ${operation} ${key}`]);
  }

  go(thread, steps) {
    this.take([...this.lines, `go ${thread} ${steps}`]);
  }

  verdict() {
    return verdictOnLacking(askNow, this.spec.lacks, this.schedule);
  }

  isBroken() {
    return this.spec.lacks !== null && this.verdict().kind === "broken";
  }
}

// Returns the state of a run as text. Runs with equal texts have the same continuations.
function placeOf({ state: { nodes, lock, threads }, trace }) {
  return JSON.stringify([nodes, lock, threads.map(({ call, ...own }) => own), trace.calls.map(({ reply }) => reply)]);
}

/**
 * Searches for the shortest continuation of a run that breaks the list. Returns the threads whose buttons are pressed, in order. Returns null if the run can no
 * longer break the list, and undefined if the search ended after `most` states. `calls` contains the calls of each thread.
 * @param {RunSpec} spec @param {string[]} lines @param {Record<number, any[]>} calls @returns {number[] | null | undefined}
 */
export function waysOn(spec, lines, calls, most = Infinity) {
  const seen = new Set();
  const waiting = [{ lines, way: [] }];
  for (const { lines: begun, way } of waiting) {
    const run = new LiveRun({ ...spec, lines: begun });
    if (seen.size >= most) return undefined;
    if (seen.has(placeOf(run))) continue; // for example, a press of a waiting thread changes nothing
    seen.add(placeOf(run));
    const left = (thread) => calls[thread].slice(run.trace.calls.filter((call) => call.thread === thread).length);
    const able = Object.keys(calls).map(Number).filter((thread) => !run.isIdle(thread) || left(thread).length > 0);
    if (able.length === 0 && run.isBroken()) return way;
    for (const thread of able) {
      const [call] = left(thread);
      const { isBegin, steps } = run.nextOf(thread, call);
      waiting.push({ lines: [...begun, ...(isBegin ? [`begin ${thread} ${call.join(" ")}`] : []), `go ${thread} ${steps}`], way: [...way, thread] });
    }
  }
  return null;
}
