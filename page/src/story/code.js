// Draws the algorithm beside the list. Each line is a button that steps a thread. `plain` leaves out the lines about the lock.
import { chipOf, colourOf, escaped, letterOf, tag } from "../run/markup.js";

const WORDS = /\b(while|if|else|return|start again|loop|until|release|lock|find|validate|CAS|new)\b/g;

/**
 * The code to show: the lines for the calls in `operations`. A line executes rows of the list's step table (its numbered atomic steps). Lines of the rows in
 * `hides` are left out, and `instead` replaces the text of a row. Rows in `fresh` are marked as new in this list (0 stands for lines without a row). A part of
 * a `struck` row is struck out; its `line` replaces the text of the row. `next` has the next row of each thread, and `made` the last executed row. A press on a
 * line makes a thread at the line execute it or, if no thread is at the line, makes thread `active` run to the line.
 * @typedef {{ thread: number, row: number }} At
 * @typedef {{ list: string, operations: string[], plain?: boolean, fresh?: number[], hides?: number[], instead?: Record<number, string>,
 *   struck?: { row: number, part: string, line?: string }[], next: At[], made: At | null, canStep: boolean, active: number }} CodeSpec
 */

/** @param {CodeSpec} spec */
function linesShown({ list, operations, plain, hides = [], instead = {}, struck = [] }) {
  const isShown = ({ of, rows = [0] }) =>
    (of === undefined || of.some((name) => operations.includes(name))) && !rows.every((row) => hides.includes(row));
  const lines = BOOK_CODE[list].filter(isShown).map((line) => ({ ...line, text: instead[line.rows?.[0]] ?? struck.find(({ row }) => row === line.rows?.[0])?.line ?? line.text }));
  if (!plain) return lines;
  return lines.filter(({ rows }) => rows?.[0] !== 1).map((line) => (line.rows?.includes(10) ? { text: "return", rows: [10] } : line));
}

function wordsOf(text, rows, struck) {
  const inBold = (words) => escaped(words).replace(WORDS, "<b>$1</b>");
  const part = struck.find(({ row }) => rows.includes(row))?.part;
  if (part === undefined || !text.includes(part)) return inBold(text);
  const at = text.indexOf(part);
  const missing = tag("del", {}, tag("span", { class: "unseen" }, "missing: "), escaped(part));
  return `${inBold(text.slice(0, at))}${missing}${inBold(text.slice(at + part.length))}`;
}

const drawHere = (threads) => (threads.length < 3 ? threads.map(chipOf).join("") : `${chipOf(threads[0])}<small>+${threads.length - 1}</small>`);

/** @param {any} line @param {CodeSpec} spec */
function drawOwnLine({ text, rows = [], isPlain = false }, { next, made, fresh = [], struck = [], canStep, active }) {
  const here = next.filter(({ row }) => rows.includes(row)).map(({ thread }) => thread);
  const isMade = made !== null && rows.includes(made.row);
  const isHead = rows.length === 0 && !isPlain;
  const kinds = [
    "line",
    isHead ? "of" : "",
    isMade ? `made ${colourOf(made.thread)}` : "",
    here.length > 0 ? `lit ${colourOf(here[0])}` : "",
    (isPlain ? [0] : rows).some((row) => fresh.includes(row)) ? "fresh" : "",
  ];
  const words = isHead ? escaped(text.trim()) : wordsOf(text.trim(), rows, struck);
  const depth = text.match(/^ */)[0].length;
  const gutter = tag("span", { class: "gutter", "data-run": letterOf(active) }, drawHere(here));
  const inside = gutter + tag("code", { style: `padding-left:${depth * 0.4}em` }, words);
  const given = { class: kinds.filter((kind) => kind !== "").join(" "), "data-rows": rows.join(" ") };
  if (rows.length === 0 || !canStep) return tag("li", given, tag("span", { class: "row" }, inside));
  const what = here.length > 0 ? `next line of ${here.map(letterOf).join(" and ")}: press to step` : `${letterOf(active)} runs to this line`;
  const button = { class: "row", title: what, "aria-label": `${text.trim()}; ${what}`, "data-threads": here.join(" ") };
  return tag("li", given, tag("button", button, inside));
}

/** @param {CodeSpec} spec */
export const drawOwnCode = (spec) => tag("ol", { class: "steps" }, ...linesShown(spec).map((line) => drawOwnLine(line, spec)));

// ---- The algorithm of each list. `rows` are the rows of the step table that a line executes, `of` the operations that execute the line.

const CHANGES = ["add", "remove"];
const VALID = "valid and ";

// Returns the lines of add and remove that write, for a list with locks. The arguments are rows of the step table; `mark` precedes `unlink`. In a list that
// validates, `valid` is part of the condition: an invalid call writes nothing.
const writes = (make, link, unlink, mark = [], valid = "") => [
  { of: ["add"], text: `add, if ${valid}curr.key ≠ key:` },
  { of: ["add"], text: "    node = new Node(key, next: curr)", rows: make },
  { of: ["add"], text: "    pred.next = node", rows: link },
  { of: ["remove"], text: `remove, if ${valid}curr.key == key:` },
  ...mark.map((row) => ({ of: ["remove"], text: "    mark curr", rows: [row] })),
  { of: ["remove"], text: "    pred.next = curr.next", rows: unlink },
];
const LOOKS = { of: ["contains"], text: "contains: reply = (curr.key == key)" };

const READS = [
  { of: ["contains"], text: "contains(key):  no lock, no retry" },
  { of: ["contains"], text: "  curr = curr.next, from the head", rows: [20] },
  { of: ["contains"], text: "  while curr.key < key: go on", rows: [21] },
  { of: ["contains"], text: "  return key is there and unmarked", rows: [22] },
  { of: ["ceiling"], text: "ceiling(key):" },
  { of: ["ceiling"], text: "  curr = curr.next, from the head", rows: [23] },
  { of: ["ceiling"], text: "  while curr.key < key: go on", rows: [24] },
  { of: ["ceiling"], text: "  if marked: start again; return curr.key", rows: [25] },
];

export const BOOK_CODE = {
  coarse: [
    { text: "take the lock; wait while it is held", rows: [1] },
    { text: "pred = head; curr = pred.next", rows: [2] },
    { text: "while curr.key < key:", rows: [3] },
    { text: "    pred = curr; curr = curr.next", rows: [4] },
    ...writes([5, 6], [7], [8, 9]),
    LOOKS,
    { text: "release the lock; return", rows: [10] },
  ],
  fine: [
    { text: "lock head; pred = head", rows: [1] },
    { text: "curr = pred.next", rows: [2] },
    { text: "loop: lock curr, pred still locked", rows: [3] },
    { text: "    if curr.key ≥ key: leave the loop", rows: [4] },
    { text: "    release pred", rows: [5] },
    { text: "    pred = curr; curr = curr.next", rows: [6] },
    ...writes([7, 8], [9], [10, 11]),
    LOOKS,
    { text: "release curr; release pred; return", rows: [12, 13] },
  ],
  optimistic: [
    { text: "pred = head; curr = pred.next", rows: [1] },
    { text: "while curr.key < key:", rows: [2] },
    { text: "    pred = curr; curr = curr.next", rows: [3] },
    { text: "lock pred; lock curr", rows: [4, 5] },
    { text: "validate: walk from the head again", rows: [6] },
    { text: "    until pred is met, else not valid", rows: [7] },
    { text: "    pred.next == curr, else not valid", rows: [8] },
    ...writes([9, 10], [11], [12, 13], [], VALID),
    LOOKS,
    { text: "release pred; release curr", rows: [14, 15] },
    { text: "if not valid: start again; return", isPlain: true },
  ],
  lazy: [
    { of: CHANGES, text: "pred = head; curr = pred.next", rows: [1] },
    { of: CHANGES, text: "while curr.key < key:", rows: [2] },
    { of: CHANGES, text: "    pred = curr; curr = curr.next", rows: [3] },
    { of: CHANGES, text: "lock pred; lock curr", rows: [4, 5] },
    { of: CHANGES, text: "validate: pred unmarked, leads to curr", rows: [6] },
    { of: CHANGES, text: "    and curr unmarked", rows: [7] },
    ...writes([8, 9], [10], [12], [11], VALID),
    { of: CHANGES, text: "release curr; release pred", rows: [13, 14] },
    { of: CHANGES, text: "if not valid: start again; return", isPlain: true },
    ...READS,
  ],
  "lock-free": [
    { of: CHANGES, text: "find: pred = head; curr = pred.next", rows: [1] },
    { of: CHANGES, text: "    succ, marked = curr.next", rows: [2] },
    { of: CHANGES, text: "    if marked: CAS pred.next: curr → succ", rows: [3] },
    { of: CHANGES, text: "        else start again", isPlain: true },
    { of: CHANGES, text: "    if curr.key < key: go one node on", rows: [4] },
    { of: ["add"], text: "add, if curr.key ≠ key:" },
    { of: ["add"], text: "    node = new Node(key, next: curr)", rows: [5, 6] },
    { of: ["add"], text: "    CAS pred.next: curr unmarked → node", rows: [7] },
    { of: ["add"], text: "    else start again", isPlain: true },
    { of: ["remove"], text: "remove, if curr.key == key:" },
    { of: ["remove"], text: "    succ = curr.next", rows: [8] },
    { of: ["remove"], text: "    CAS curr.next: succ unmarked → marked", rows: [9] },
    { of: ["remove"], text: "    else start again", isPlain: true },
    { of: ["remove"], text: "    CAS pred.next: curr → succ", rows: [10] },
    ...READS,
  ],
};
