// Groups the rows of the step tables into phases: one press on a thread's button executes the steps of one phase. Also names the button for each phase.

const walkers = (...rows) => Object.fromEntries(rows.map((row) => [row, "walk"]));

const PHASES = {
  plain: { ...walkers(1, 2, 3, 4), 5: "make", 6: "make", 7: "link", 8: "unlink", 9: "unlink", 10: "answer" },
  coarse: { 1: "lock", ...walkers(2, 3, 4), 5: "make", 6: "make", 7: "link", 8: "unlink", 9: "unlink", 10: "unlock" },
  fine: {
    1: "first", 2: "next", 3: "next", 4: "next", 5: "letgo", 6: "next", 7: "make", 8: "make", 9: "link", 10: "unlink", 11: "unlink",
    12: "unlock", 13: "unlock", 14: "letgo",
  },
  optimistic: {
    ...walkers(1, 2, 3), 4: "locks", 5: "locks", 6: "again", 7: "again", 8: "again", 9: "make", 10: "make", 11: "link", 12: "unlink",
    13: "unlink", 14: "unlock", 15: "unlock",
  },
  lazy: {
    ...walkers(1, 2, 3, 20, 21, 23, 24), 25: "look", 4: "locks", 5: "locks", 6: "check", 7: "check", 8: "make", 9: "make", 10: "link", 11: "mark",
    12: "unlink", 13: "unlock", 14: "unlock", 22: "look",
  },
  "lock-free": {
    ...walkers(1, 2, 4, 8, 20, 21, 23, 24), 25: "look", 3: "snip", 5: "make", 6: "make", 7: "swing", 9: "marktry", 10: "tidytry", 22: "look",
  },
};

export const phaseAt = (list, row, plain) => PHASES[plain ? "plain" : list][row] ?? "answer";
// Returns the rows that a press on a thread's button always executes together with the row before them, whatever their phase.
export const joinedRows = (list, plain) => (plain ? [10] : list === "lock-free" || list === "lazy" ? [22, 25] : []);

const WORDS = {
  walk: ({ key }) => `walk to the place of ${key}`,
  make: ({ key }, _, lacks) => (lacks === "new-slot" ? `write ${key} into a node` : `make a node for ${key}`),
  link: ({ key }) => `link ${key} in`,
  unlink: ({ key }) => `unlink ${key}`,
  answer: () => "return",
  lock: () => "take the lock",
  unlock: () => "release, and return",
  restart: () => "release, and start again",
  first: () => "lock the head",
  next: () => "lock the next node",
  letgo: () => "release pred",
  locks: () => "lock pred and curr",
  again: (_, row) => (row === 8 ? "check that pred points to curr" : "walk again"),
  check: () => "check the marks and the arrow",
  mark: ({ key }) => `mark ${key}: removed`,
  look: () => "read the mark",
  snip: () => "try to unlink the marked node",
  swing: ({ key }) => `try to link ${key} in`,
  marktry: ({ key }) => `try to mark ${key}`,
  tidytry: ({ key }) => `try to unlink ${key}`,
};

// Names of the threads' buttons on a broken list. The names do not reveal the missing check.
const WORDS_OF_BROKEN = {
  next: () => "walk to the next node",
  check: () => "check pred and curr",
  look: () => "return",
};

// Phases of the path whose steps share a sentence with the phase before them.
const JOINED = ["make link", "make swing", "swing answer", "link unlock", "link answer", "unlink unlock", "unlink answer", "unlock walk"];

// Returns the last event up to `total` that shares a sentence with event `count`. Steps of one phase share a sentence; a lock of FineList has its own.
export function lastTold(trace, count, total, { plain = false, isPath = false }) {
  const events = trace.events().slice(0, total);
  const rowOf = ({ number, deed, thread, changes }) => (deed === "begin" ? changes.pc : events.slice(0, number - 1).findLast((own) => own.thread === thread).changes.pc);
  for (let last = count; last < total; last++) {
    const [one, next] = [events[last - 1], events[last]];
    const [phase, after] = [one, next].map((event) => phaseAt(trace.kind, rowOf(event), plain));
    const isJoined = phase === after ? trace.kind !== "fine" || rowOf(one) !== 3 : isPath && JOINED.includes(`${phase} ${after}`);
    if (one.answer !== undefined || one.thread !== next.thread || !isJoined) return last;
  }
  return total;
}

export const phaseText = (phase, call, row, lacks) => ((lacks !== null && WORDS_OF_BROKEN[phase]) || WORDS[phase])(call, row, lacks);
