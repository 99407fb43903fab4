// Reads and writes schedules and drafts. A draft can have lines `go T out` (until the call returns) and `go T to ROW` (until a row of the step table).
import { HEADER_LINES, isTrace, Trace } from "./trace.js";

// Returns the text of a schedule or draft that consists of a header and `lines`. Initial keys and ceilings need version 2 of the format.
export function scheduleText({ list, threads, quota, opening = [], version = null }, lines = []) {
  const needed = opening.length > 0 || lines.some((line) => line.includes(" ceiling ")) ? 2 : 1;
  const head = [`listset-schedule ${version ?? needed}`, `list ${list}`, `threads ${threads}`, `quota ${quota}`];
  return [...head, ...opening.map((key) => `opening ${key}`), ...lines, ""].join("\n");
}

const TITLE_OF_SECOND = "listset-schedule 2";
export const versionOf = (schedule) => (schedule.startsWith(`${TITLE_OF_SECOND}\n`) ? 2 : 1);

export function scheduleOfTrace(trace, count = trace.total) {
  const lines = [];
  let [steps, before] = [0, null];
  for (let number = 1; number <= count; number++) {
    const event = trace.event(number);
    const goesOn = before === event.line;
    steps = goesOn ? steps + 1 : 1;
    if (event.deed === "begin") lines.push(`begin ${event.thread} ${event.call.operation} ${event.call.key}`);
    else if (goesOn) lines[lines.length - 1] = `go ${event.thread} ${steps}`;
    else lines.push(`go ${event.thread} ${steps}`);
    before = event.line;
  }
  return scheduleText({ ...trace, list: trace.kind }, lines);
}

export function openingIn(schedule) {
  const lines = schedule.split("\n").slice(HEADER_LINES);
  const count = lines.findIndex((line) => !line.startsWith("opening "));
  return lines.slice(0, count === -1 ? lines.length : count).map((line) => line.slice("opening ".length));
}

export function withOpening(schedule, keys) {
  const lines = schedule.split("\n");
  lines.splice(HEADER_LINES, openingIn(schedule).length, ...keys.map((key) => `opening ${key}`));
  if (keys.length > 0 && lines[0] === "listset-schedule 1") lines[0] = TITLE_OF_SECOND;
  return lines.join("\n");
}

export function eventsAsked(text) {
  let count = 0;
  for (const [, steps] of text.matchAll(/^(?:begin |go \d+ (\d+)$)/gm)) count += Number(steps ?? 1);
  return count;
}

const MOST_TRIED = 1000; // steps that are tried until a thread reaches its row
const DRAFT_LINE = /^go \d+ (?:out|to \d+)$/m;

// Returns the schedule of a draft, or the message about the draft's first error. The engine expands drafts of correct lists only; this module expands drafts of
// the broken list `lacks`.
export function scheduleOfDraft(ask, text, lacks = null) {
  if (!DRAFT_LINE.test(text)) return { text, fault: null };
  if (lacks !== null) return scheduleOfLackingDraft(ask, lacks, text);
  const made = ask("listset_draft", text.replace(/^listset-(?:schedule|draft) [12]$/m, "listset-draft 2"));
  return made.status === 0 ? { text: made.text, fault: null } : { text: null, fault: made.text.trim() };
}

// Returns how many steps a thread of a broken list needs to reach `row`, or to end its call if `row` is undefined. Returns an error if the thread does not get
// that far within MOST_TRIED steps.
function stepsOfLacking(ask, lacks, lines, thread, row) {
  const { text } = ask("listset_lacking", lacks, `${[...lines, `go ${thread} ${MOST_TRIED}`].join("\n")}\n`, "trace");
  if (!isTrace(text)) return { count: null, fault: text.trim() };
  const steps = new Trace(text).events().filter(({ line }) => line === lines.length + 1);
  const end = steps.findIndex(({ answer }) => answer !== undefined);
  const at = row === undefined ? end : steps.findIndex(({ answer, changes }) => answer === undefined && changes.pc === Number(row));
  if (at !== -1) return { count: at + 1, fault: null };
  return { count: null, fault: `listset: line ${lines.length + 1}: ${end !== -1 || steps.length === 0 ? "Idle" : "Waits"}` };
}

function scheduleOfLackingDraft(ask, lacks, text) {
  const lines = [];
  for (const line of text.split("\n").slice(0, -1)) {
    const asked = /^go (\d+) (?:out|to (\d+))$/.exec(line);
    const { count, fault } = asked === null ? { count: null, fault: null } : stepsOfLacking(ask, lacks, lines, asked[1], asked[2]);
    if (fault !== null) return { text: null, fault };
    lines.push(asked === null ? line : `go ${asked[1]} ${count}`);
  }
  return { text: [...lines, ""].join("\n"), fault: null };
}
