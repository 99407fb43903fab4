// Two lists run the same calls side by side. Each turn executes the next step of one thread in both lists, except in a list where the thread's call has already
// returned.
import { letterOf } from "../run/markup.js";
import { MOST_NUMBER } from "../run/trace.js";
import { LiveRun, RunFault } from "./live_run.js";

const MOST_TURNS = 500;

export function readProgram(text) {
  const program = [];
  for (const line of text.split("\n").filter((one) => one.trim() !== "")) {
    const [, number, letter, calls] = /^\s*(?:t?(\d+)|([A-Z]))\s*:\s*(.+?)\s*$/i.exec(line) ?? [];
    const thread = Number(number ?? letter?.toUpperCase().charCodeAt(0) - "A".charCodeAt(0));
    if (!(thread < 64)) throw new RunFault(`"${line.slice(0, 60)}" is not a line like "A: add 5, remove 5"`);
    for (const call of calls.split(",").map((one) => one.trim())) {
      const [, operation, key] = /^(add|remove|contains|ceiling) (0|[1-9]\d{0,9})$/.exec(call) ?? [];
      if (key === undefined || Number(key) > MOST_NUMBER) throw new RunFault(`"${call.slice(0, 40)}" is not a call like "add 5"`);
      (program[thread] ??= []).push(`${operation} ${key}`);
    }
  }
  if (program.length === 0) throw new RunFault('a program has lines like "A: add 5, remove 5"');
  return Array.from(program, (calls) => calls ?? []);
}

export function programText(program) {
  const lines = program.map((calls, thread) => (calls.length === 0 ? "" : `${letterOf(thread)}: ${calls.join(", ")}\n`));
  return lines.join("");
}

export class Sides {
  constructor(kinds, { program, quota, opening }) {
    this.program = program;
    this.turns = [];
    // `counts` has the number of events of a side after each turn.
    this.sides = kinds.map((list) => ({ run: new LiveRun({ list, threads: program.length, quota, opening }), counts: [0] }));
  }

  // Returns the thread's next schedule line in each list, or null if the thread has no more calls. The line is null in a list where the thread's call has
  // already returned while it is pending in the other list.
  linesOf(thread) {
    if (thread >= this.program.length) return null;
    const isIdle = this.sides.map(({ run }) => run.isIdle(thread));
    if (isIdle.includes(false)) return isIdle.map((idle) => (idle ? null : `go ${thread} 1`));
    const next = this.program[thread]?.[this.sides[0].run.trace.callsOf[thread].length];
    return next === undefined ? null : this.sides.map(() => `begin ${thread} ${next}`);
  }

  // Returns the current or next call of the thread after `at` turns, or undefined if all its calls have returned in both lists.
  callOf(thread, at) {
    const isBegun = ({ counts }) => ({ begun }) => begun <= counts[at];
    const begunIn = (side) => side.run.trace.callsOf[thread].filter(isBegun(side));
    const isPending = this.sides.some((side) => begunIn(side).some(({ ended }) => ended === null || ended > side.counts[at]));
    return this.program[thread][begunIn(this.sides[0]).length - (isPending ? 1 : 0)];
  }

  turn(thread) {
    const lines = this.linesOf(thread);
    if (lines === null || this.turns.length === MOST_TURNS) return false;
    for (const [at, { run, counts }] of this.sides.entries()) {
      if (lines[at] !== null) run.take([...run.lines, lines[at]]);
      counts.push(run.trace.total);
    }
    this.turns.push(thread);
    return true;
  }
}
