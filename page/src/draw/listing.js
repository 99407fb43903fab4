// Shows the proved code of the pending calls, and marks the current line of each thread. For a call that has no code, shows rows of the list's step table (the
// numbered atomic steps).
import { LISTS } from "../../made/rows.js";
import { more } from "../engine/more.js";
import { callText, chipOf, escaped, tag } from "../run/markup.js";

function stepsAt(functions, row) {
  return functions.flatMap((code) => code.steps.filter(({ rows }) => rows.includes(row)).map((step) => ({ code, ...step })));
}

export function codeOf(kind, { operation }) {
  const { rows } = LISTS[kind].calls[operation];
  const file = more.CODE_OF[kind].find((name) => rows.every((row) => stepsAt(more.CODE[name], row).length > 0));
  return file === undefined ? null : { file, functions: more.CODE[file] };
}

// Returns the current line of a thread. If several lines execute the thread's row of the step table, the progress of the thread's call decides between these
// lines.
export function stepOf(functions, held) {
  let found = stepsAt(functions, held.pc);
  const came = stepsAt(functions, held.came).map(({ code }) => code.name);
  const tests = [
    ({ begins = false }) => begins === (held.came === 0),
    ({ answers = false }) => answers === (held.reply !== "none"),
    ({ code }) => came.includes(code.name),
    ({ code }) => code.calls.some(([, name]) => came.includes(name)),
  ];
  for (const test of tests) if (found.length > 1 && found.some(test)) found = found.filter(test);
  return found[0];
}

function callersOf(functions, name) {
  const calls = functions.flatMap((code) => code.calls.map(([line, called]) => ({ line, called, name: code.name })));
  const direct = calls.filter(({ called }) => called === name);
  return [...direct.map(({ line }) => line), ...direct.flatMap((caller) => callersOf(functions, caller.name))];
}

const rowText = (kind, number) => {
  const { step, then, book } = LISTS[kind].rows[number];
  return `row ${number}: ${escaped(step)} <span class="then">→ ${escaped(then)}</span> <small>${escaped(book)}</small>`;
};

function standingText(kind, threads) {
  const rows = [...new Set(threads.map(({ held }) => held.pc))];
  const chips = (row) => threads.filter(({ held }) => held.pc === row).map(({ thread }) => chipOf(thread)).join(" ");
  return rows.map((row) => tag("p", {}, `${chips(row)} ${rowText(kind, row)}`)).join("");
}

function lineItem(number, text, isSaid, kind, threads) {
  const here = threads.filter(({ step }) => step.line === number);
  const inside = threads.filter(({ callers }) => callers.includes(number));
  const shown = [tag("i", {}, number), tag("code", isSaid ? { class: "said-of-it" } : {}, escaped(text)), standingText(kind, here)];
  const isOfEvent = here.some(({ isMoved }) => isMoved);
  if (here.length > 0) return tag("li", { class: isOfEvent ? "here moved" : "here", "aria-current": "step" }, ...shown);
  return tag("li", inside.length > 0 ? { class: "inside" } : {}, ...shown);
}

function functionOf(code, kind, threads) {
  const lines = code.text.trimStart().split("\n");
  const body = lines.indexOf("{");
  const items = lines.map((text, index) => lineItem(code.first + index, text, index < body, kind, threads));
  return tag("ol", { class: "code" }, ...items);
}

function fileOf(file, functions, kind, threads) {
  const calls = threads.map(({ thread, held }) => `${chipOf(thread)} ${callText(held.call)}`).join(" ");
  return tag("section", {}, tag("h3", {}, `${calls} <small>${file}</small>`), ...functions.map((code) => functionOf(code, kind, threads)));
}

function rowsOf(kind, { thread, held }) {
  const items = LISTS[kind].calls[held.call.operation].rows.map((number) => {
    const given = number === held.pc ? { class: "here", "aria-current": "step" } : {};
    return tag("li", given, rowText(kind, number));
  });
  const head = tag("h3", {}, `${chipOf(thread)} ${callText(held.call)} <small>by the interpreter, row by row</small>`);
  return tag("section", {}, head, tag("ol", { class: "rows" }, ...items));
}

export function drawListing({ trace, state, event }) {
  const { kind } = trace;
  const open = state.threads.map((held, thread) => ({ held, thread })).filter(({ held }) => held.pc !== 0);
  if (open.length === 0) return tag("p", { class: "note" }, "No call is pending.");
  const byFile = new Map();
  for (const one of open) {
    const file = codeOf(kind, one.held.call)?.file;
    byFile.set(file, [...(byFile.get(file) ?? []), one]);
  }
  const byRows = (byFile.get(undefined) ?? []).map((one) => rowsOf(kind, one));
  byFile.delete(undefined);
  const parts = [...byFile].map(([file, threads]) => {
    const functions = more.CODE[file];
    const standing = threads.map(({ held, thread }) => {
      const step = stepOf(functions, held);
      return { held, thread, step, callers: callersOf(functions, step.code.name), isMoved: thread === event?.thread };
    });
    return fileOf(file, functions, kind, standing);
  });
  return tag("div", { class: "listings" }, ...parts, ...byRows);
}
