// Evaluates the goals of lessons. Each line of a goal describes a call or an event. A condition (a line `say ..`) holds if some choice of calls and events
// satisfies all lines above the condition.
import { isFailed, isLock, ownerIn } from "../run/outcomes.js";
import { State } from "../run/state.js";

export class GoalFault extends Error {
  constructor(line, fault) {
    super(fault);
    this.line = line; // the number of the line in the goal, from 1
  }
}

const isRising = (one, other) => one !== null && other !== null && one < other;
const endOf = (found) => (found.event ? found.event.number : (found.ended ?? Infinity));
const answeredKey = (call) => Number(call.reply?.slice("at-".length));
const hasSmaller = (call, { keys }) => [...keys].some((key) => call.key <= key && key < answeredKey(call));

// The clauses that a line of a goal can contain. Each clause has a pattern and a test of a call or an event. The pattern can contain the name of an earlier
// line or a number.
const CALL_CLAUSES = [
  [/^(add|remove|contains|ceiling)$/, (call, [operation]) => call.operation === operation],
  [/^key (\d+)$/, (call, [key]) => call.key === Number(key)],
  [/^answers a key$/, (call) => call.reply?.startsWith("at-") === true],
  [/^answers (true|false|full|nothing|at-\d+)$/, (call, [reply]) => call.reply === reply],
  [/^ended$/, (call) => call.ended !== null],
  [/^open$/, (call) => call.ended === null],
  [/^begins after ([A-Z]\w*)$/, (call, [other]) => other.begun < call.begun],
  [/^takes effect after ([A-Z]\w*)$/, (call, [other]) => isRising(other.at, call.at)],
  [/^ends during ([A-Z]\w*)$/, (call, [other]) => other.begun < endOf(call) && endOf(call) < (other.ended ?? Infinity)],
  [/^within ([A-Z]\w*)$/, (call, [{ step, others }]) => call.begun > step.event.number && endOf(call) <= step.event.number + others.length],
  [/^its key always in the set$/, (call, _, run) => run.ofCall(call).every(({ keys }) => keys.has(call.key))],
  [/^a smaller key always in the set$/, (call, _, run) => run.ofCall(call).every((moment) => hasSmaller(call, moment))],
  [/^its node in the chain at its end$/, (call, _, run) => run.lastOf(call)?.chain.includes(run.nodeOf(call)) === true],
];
const STEP_CLAUSES = [
  [/^row (\d+)$/, (step, [row]) => step.row === Number(row)],
  [/^to row (\d+)$/, (step, [row]) => step.thread.pc === Number(row)],
  [/^without a reply$/, (step) => step.thread.reply === "none"],
  [/^fails$/, ({ event }) => isFailed(event)],
  [/^tries in vain a lock of (\d+)$/, ({ event }, [thread]) => isFailed(event) && isLock(event.word) && event.saw === `t${thread}`],
  [/^sees a mark$/, ({ event }) => event.saw?.endsWith("*") === true],
  [/^reads a link$/, ({ event }) => event.deed === "load" && event.word.endsWith(".link")],
  [/^in the chain$/, (step) => isInChain(step)],
  [/^out of the chain$/, (step) => !isInChain(step)],
  [/^holding (\d+)$/, (step, [count]) => locksHeld(step) === Number(count)],
  [/^last$/, (step) => step.event.answer !== undefined],
  [/^pred leads to curr$/, (step) => step.linkOfPred === step.thread.curr],
  [/^at another node than ([A-Z]\w*)$/, (step, [other]) => nodeOf(step.event) !== nodeOf(other.event)],
  [/^after ([A-Z]\w*)$/, (step, [other]) => step.event.number > endOf(other)],
  [/^by another thread than ([A-Z]\w*)$/, (step, [other]) => step.event.thread !== (other.event ?? other).thread],
  [/^in ([A-Z]\w*)$/, (step, [rest]) => rest.others.includes(step)],
  [/^takes out the node of ([A-Z]\w*)$/, (step, [call], run) => run.isTakenOut(run.nodeOf(call), step)],
];
const REST_CLAUSES = [[/^holding (\d+)$/, (rest, [count]) => locksHeld(rest.step) === Number(count)]];
export const CLAUSES = { call: CALL_CLAUSES, step: STEP_CLAUSES, rest: REST_CLAUSES };
const NAMED = { "begins after": "call", "takes effect after": "call", "ends during": "call", within: "rest", in: "rest",
  "at another node than": "step", "takes out the node of": "call" };
const GOAL_FORMS = '"call C of 0: ..", "step S in C: ..", "rest R of 0", "3 steps of 1: ..", "all calls ended", "say .."';
const GOAL_LINE = /^(?:(call|step|rest) ([A-Z]\w*)|(\d+) (call|step)s?)(?: (of|in) (\w+))?(?:: (.+))?$/;

function readGoalLine(text, number, names) {
  const fail = (fault) => {
    throw new GoalFault(number, fault);
  };
  if (text.startsWith("say ")) return { says: text.slice("say ".length).trim() };
  if (text === "all calls ended") return { isWhole: (run) => run.calls.every((call) => call.ended !== null) };
  const parts = GOAL_LINE.exec(text) ?? fail(`"${text}" is not a line of a goal, such as ${GOAL_FORMS}`);
  const [, kind, name, count, kinds, join, whose, clauses = ""] = parts;
  const sort = kind ?? kinds;
  const known = (word) => names.get(word) ?? fail(`nothing above is named ${word}`);
  if (join === "in" && known(whose) !== "call") fail(`${whose} is not a call`);
  if (join === "of" && !/^\d+$/.test(whose)) fail(`${whose} is not a thread`);
  const isNew = name !== undefined && !names.has(name);
  if (name !== undefined && !isNew && names.get(name) !== sort) fail(`${name} is a ${names.get(name)}`);
  if (name !== undefined && !isNew && join !== undefined) fail(`${name} is found above: "${kind} ${name}: .." asks for more of it`);
  if (sort === "rest" && isNew && join !== "of") fail('a rest is that of a thread: "rest R of 0"');
  if (sort !== "step" && join === "in") fail(`a ${sort} is "of" a thread`);
  const wanted = clauses.split(",").map((clause) => clause.trim()).filter((clause) => clause !== "");
  const tests = wanted.map((clause) => readClause(sort, clause, known, fail));
  if (isNew) names.set(name, sort);
  return { sort, name, isNew, count: count === undefined ? null : Number(count), join, whose, tests };
}

function formOf([pattern]) {
  const bare = pattern.source.replace(/^\^|\$$/g, "").replaceAll("([A-Z]\\w*)", "X").replace(/\\d\+/g, "N");
  return bare.replace(/\(([^)]*)\)/g, "$1");
}

const formsOf = (sort) => CLAUSES[sort].map(formOf).join(", ");

function readClause(sort, clause, known, fail) {
  const isOf = ([pattern]) => pattern.test(clause);
  const [words, test] = CLAUSES[sort].find(isOf) ?? fail(`"${clause}" is not a clause of a ${sort}; the clauses are ${formsOf(sort)}`);
  const given = words.exec(clause).slice(1);
  for (const word of given.filter((one) => /^[A-Z]/.test(one))) {
    const [found, wanted] = [known(word), NAMED[clause.slice(0, clause.lastIndexOf(" "))]];
    if (wanted !== undefined && found !== wanted) fail(`${word} is a ${found}, and a ${wanted} is due there`);
  }
  return (found, run, bound) => test(found, given.map((word) => bound.get(word) ?? word), run);
}

export function readGoal(lines) {
  const names = new Map();
  const read = lines.map((line, index) => readGoalLine(line, index + 1, names));
  if (read.at(-1)?.says === undefined) throw new GoalFault(lines.length, 'a goal ends with a line "say .."');
  return read;
}

function foundBy(line, run, bound) {
  if (line.name !== undefined && !line.isNew) return [bound.get(line.name)];
  const thread = line.join === "of" ? Number(line.whose) : null;
  if (line.sort === "rest") return run.restsOf(thread);
  if (line.sort === "call") return run.calls.filter((call) => thread === null || call.thread === thread);
  const steps = line.join === "in" ? run.ofCall(bound.get(line.whose)) : run.moments;
  return steps.filter(({ event }) => event.deed !== "begin" && (thread === null || event.thread === thread));
}

const MOST_WAYS = 100000; // combinations of calls and events that are tried for a goal, in about 0.2 s
export class TooManyWays extends Error {}

function canMeet(lines, run) {
  let left = MOST_WAYS;
  const from = (at, bound) => {
    if (at === lines.length) return true;
    if (left-- === 0) throw new TooManyWays();
    const line = lines[at];
    if (line.says !== undefined) return from(at + 1, bound);
    if (line.isWhole !== undefined) return line.isWhole(run) && from(at + 1, bound);
    const fits = foundBy(line, run, bound).filter((found) => line.tests.every((test) => test(found, run, bound)));
    if (line.count !== null) return fits.length >= line.count && from(at + 1, bound);
    return fits.some((found) => from(at + 1, new Map(bound).set(line.name, found)));
  };
  return from(0, new Map());
}

export function conditionsOf(goal, run) {
  const ends = goal.map(({ says }, index) => ({ says, index })).filter(({ says }) => says !== undefined);
  return ends.map(({ says, index }) => ({ says, isMet: canMeet(goal.slice(0, index), run) }));
}

// ---- A run. For each event, it contains the step-table row that the event executes, and the state after the event.
export class Run {
  constructor(trace) {
    const state = new State(trace);
    const keys = new Set(trace.opening);
    this.calls = trace.calls;
    this.moments = trace.events().map((event) => momentAfter(state, keys, event));
  }

  ofCall(call) {
    return this.moments.filter(({ event }) => event.call === call);
  }

  lastOf(call) {
    return this.moments[call.ended - 1];
  }

  // Returns the pauses of a thread. A pause consists of the thread's last step before the pause (`step`) and the steps of other threads during the pause
  // (`others`).
  restsOf(thread) {
    const steps = this.moments.filter(({ event }) => event.thread === thread);
    return steps.map((step, at) => {
      const next = steps[at + 1]?.event.number ?? this.moments.length + 1;
      return { step, others: this.moments.slice(step.event.number, next - 1) };
    });
  }

  nodeOf(call) {
    return call.changes ? nodeOf(this.moments[call.at - 1].event) : null;
  }

  isTakenOut(node, { event, chain }) {
    return this.moments[event.number - 2]?.chain.includes(node) === true && !chain.includes(node);
  }
}

function momentAfter(state, keys, event) {
  const row = state.threads[event.thread].pc;
  state.moveTo(event.number);
  if (event.put !== undefined) keys.add(event.put);
  if (event.took !== undefined) keys.delete(event.took);
  const thread = { ...state.threads[event.thread] };
  const linkOfPred = state.nodes[thread.pred]?.link;
  return { event, row, thread, linkOfPred, chain: state.chain(), locks: state.locks(), keys: new Set(keys) };
}

const locksHeld = ({ locks, event }) => locks[`t${event.thread}`]?.length ?? 0;
const nodeOf = (event) => ownerIn(event.word);
const isInChain = (moment) => moment.chain.includes(nodeOf(moment.event));
