// Checks the code that the page shows beside a list: each row of the list's step table belongs to a line, and the calls of a line execute its rows.
"use strict";

const { inPage } = require("../in_node.js");

const result = { passed: 0, failed: [] };
const check = (name, isGood) => (isGood ? result.passed++ : result.failed.push(name));

const BOOK_CODE = inPage("BOOK_CODE");
for (const [kind, { calls, rows }] of Object.entries(inPage("LISTS"))) {
  const lines = BOOK_CODE[kind];
  for (const row of Object.keys(rows).map(Number)) {
    const of = lines.filter((line) => (line.rows ?? []).includes(row));
    check(`${kind}: row ${row} stands on ${of.length} lines`, of.length === 1);
  }
  for (const [call, own] of Object.entries(calls)) {
    const made = lines.filter((line) => line.of === undefined || line.of.includes(call)).flatMap((line) => line.rows ?? []);
    check(`${kind}, ${call}: rows ${own.rows} are not ${made}`, own.rows.every((row) => made.includes(row)));
    const isMore = made.filter((row) => !own.rows.includes(row));
    check(`${kind}, ${call}: it makes no row ${isMore}`, isMore.length === 0);
    const count = lines.filter((line) => line.of === undefined || line.of.includes(call)).length;
    check(`${kind}, ${call}: ${count} lines`, count >= 3 && count <= 15);
  }
}
const levels = inPage("BREAK_LEVELS");
const lacking = inPage("LACKING");
check("each broken list is a level", Object.keys(levels).sort().join() === Object.keys(lacking).sort().join());
const NUMBERS = [
  "lock", "second-lock", "hand-over-hand", "second-walk", "same-node", "marks-in-validation", "mark-in-remove", "mark", "mark-in-add", "mark-at-key",
  "new-slot", "mark-in-ceiling", "mark-in-contains",
]; // the links of assignments contain these numbers
check(`the numbers of the levels: ${Object.keys(levels)}`, Object.keys(levels).join() === NUMBERS.join());
for (const [name, { hints, lacks, others, missing }] of Object.entries(levels)) {
  check(`${name} has three hints and a sentence`, hints.length === 3 && lacks.endsWith("."));
  const replies = Object.values(others);
  check(`${name} has wrong answers with replies`, replies.length === (name === inPage("NO_TASK") ? 0 : 2) && replies.every((reply) => /^it \w+ .*[a-z)]$/.test(reply)));
  const lines = BOOK_CODE[lacking[name]];
  const isThere = ({ row, part, line }) => lines.some(({ rows = [], text }) => rows.includes(row) && (line ?? text).includes(part));
  check(`${name}: what is missing stands in the code`, missing.length > 0 && missing.every(isThere));
}
console.log(JSON.stringify(result));
process.exit(result.failed.length === 0 ? 0 : 1);
