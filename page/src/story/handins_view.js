// The panel that checks the hand-ins of a class. A teacher drops files on the panel, and gets a table of students and tasks, also as CSV.
import { textOfBytes } from "../course/hand_in.js";
import { saveText } from "../page/files.js";
import { linkTo } from "../page/visit.js";
import { counted, escaped, tag } from "../run/markup.js";
import { inFileName } from "./assignment.js";
import { assignmentOfLink, checkAll, commonText, copiesText, countOf, countText, csvOf, fewNames, markOf, sumsOf } from "./handins.js";
import { part } from "./scene.js";

const MOST_BYTES = 2_000_000; // largest size of a file
const given = { files: [], tooLong: [], result: null, title: "", turn: 0 };
const MARKS = { solved: '<b class="yes">✓</b>', wrong: '<b class="no" title="handed in, and wrong">✗</b>', none: "–" };
const piece = (name) => part(`#in-${name}`);

async function check() {
  const turn = ++given.turn; // if a later check has begun, the result of this check is not shown
  if (given.files.length + given.tooLong.length === 0) return;
  const link = piece("link").value.trim();
  const assignment = link === "" ? null : assignmentOfLink(link);
  if (assignment?.fault !== undefined) return showNothing(assignment.fault);
  Object.assign(piece("progress"), { hidden: false, max: 1, value: 0 });
  piece("said").textContent = `${given.files.length} files …`;
  const isNow = () => turn === given.turn && piece("progress") !== null; // meanwhile, the reader could have opened another place
  const result = await checkAll(given.files, assignment, (value, max) => isNow() && Object.assign(piece("progress"), { value, max }));
  if (!isNow()) return;
  piece("progress").hidden = true;
  Object.assign(given, { result, title: assignment?.title ?? "hand-ins" });
  drawResult(result);
}

async function filesOf(entry) {
  if (entry.isFile) return [await new Promise((done, fail) => entry.file((file) => done({ name: entry.fullPath.slice(1), file }), fail))];
  const reader = entry.createReader();
  const found = [];
  for (;;) {
    const some = await new Promise((done, fail) => reader.readEntries(done, fail));
    if (some.length === 0) return (await Promise.all(found.map(filesOf))).flat();
    found.push(...some);
  }
}

async function take(found) {
  for (const { name, file } of found) {
    if (file.size < MOST_BYTES) given.files.push({ name, text: textOfBytes(new Uint8Array(await file.arrayBuffer())) });
    else given.tooLong.push(name);
  }
  await check();
}

export function beginHandIns() {
  const drop = piece("drop");
  piece("files").onchange = ({ target }) => take([...target.files].map((file) => ({ name: file.name, file })));
  piece("link").oninput = check;
  piece("link").placeholder = linkTo("#assignment=…");
  piece("wrong").onchange = showRows;
  drop.ondragover = (event) => (event.preventDefault(), drop.classList.add("over"));
  drop.ondragleave = () => drop.classList.remove("over");
  drop.ondrop = async (event) => {
    event.preventDefault();
    drop.classList.remove("over");
    const entries = [...event.dataTransfer.items].map((item) => item.webkitGetAsEntry?.()).filter((entry) => entry);
    take((await Promise.all(entries.map(filesOf))).flat());
  };
  check();
}

// If the box is ticked, shows only the rows with a wrong solution, an unreadable line or a text that does not count. Prints how many rows are hidden.
function showRows() {
  const rows = [...piece("table").querySelectorAll("tbody tr")];
  for (const row of rows) row.hidden = piece("wrong").checked && row.querySelector(".no, .garbled") === null;
  const hidden = rows.filter((row) => row.hidden).length;
  piece("hidden").textContent = hidden === 0 ? "" : `${hidden} of ${counted(rows.length, "row")} hidden`;
}

function notesOf({ notes }) {
  const text = escaped(notes.join("; "));
  return `<div title="${text}">${text}</div>`;
}

function drawRow(row, columns) {
  const how = ({ id }) => (row.hows.has(id) ? ` <span class="small">${row.hows.get(id)}</span>` : "");
  const cells = columns.map((column) => `<td class="mark">${MARKS[markOf(row, column)]}${how(column)}</td>`).join("");
  return `<tr><th scope="row">${escaped(row.name)}</th><td>${escaped(row.number)}</td>${cells}<td class="mark"><b>${countText(row, columns, "–")}</b></td>
    <td class="same" title="${escaped(copiesText(row) || row.large)}" data-sort="${escaped(copiesText(row))}">${escaped(copiesText(row) || row.large)}</td><td class="notes${row.faults > 0 || row.isOdd ? " garbled" : ""}">${notesOf(row)}</td></tr>`;
}

function drawResult({ rows, columns, empty, common }) {
  const own = rows.filter(({ isCounted }) => isCounted);
  const full = rows.filter((row) => countOf(row, columns) === columns.length).length;
  const odd = [["Without a hand-in", empty], ["Too long", given.tooLong]];
  const names = common.map((one) => `${escaped(`${one.title}: ${fewNames(one.rows)}`)}.`).join("<br>");
  const wrong = odd.filter(([, names]) => names.length > 0).map(([what, names]) => tag("span", { class: "odd" }, `${what}: ${escaped(names.join(", "))}.`));
  const merged = rows.reduce((sum, { files }) => sum + files.length - 1, 0);
  const files = `${counted(given.files.length + given.tooLong.length, "file")}: <b>${counted(rows.length, "student")}</b>`;
  piece("said").innerHTML = `${files}, ${merged} merged, ${empty.length} without a hand-in. ${full} with ${columns.length === 1 ? "the task" : `all ${columns.length} tasks`}. ${own.length === rows.length ? "" : `${rows.length - own.length} for another assignment, not counted. `}${wrong.join(" ")}`;
  piece("shared").innerHTML = common.length === 0 ? "" : `<details class="small"><summary>${escaped(commonText(common))}</summary>${names}</details>`;
  const head = (name, at) => tag("th", { scope: "col", ...(at === 0 ? { "aria-sort": "ascending" } : {}) }, tag("button", { "data-do": "sort", "data-at": at }, escaped(name)));
  const heads = ["Student", "Number", ...columns.map(({ title }) => title), "Solved", "Same schedules", "Notes"].map(head);
  const body = rows.map((row) => drawRow(row, columns)).join("");
  const sums = sumsOf({ rows, columns }).map((sum) => `<td class="mark">${sum} of ${own.length}</td>`).join("");
  piece("table").innerHTML = `<table class="class"><thead><tr>${heads.join("")}</tr></thead><tbody>${body}</tbody>
    <tfoot><tr><th scope="row">solved by</th><td></td>${sums}<td></td><td></td><td></td></tr></tfoot></table>`;
  showRows();
  piece("save").hidden = false;
}

function showNothing(says) {
  piece("table").innerHTML = piece("shared").innerHTML = "";
  piece("said").textContent = says;
  piece("save").hidden = piece("progress").hidden = true;
}

function clear() {
  Object.assign(given, { files: [], tooLong: [], result: null, turn: given.turn + 1 });
  showNothing("");
  piece("files").value = "";
}

export const handInDeeds = {
  csv: ({ dataset }) => saveText(`${inFileName(given.title)}${dataset.parted === undefined ? "" : "-semicolons"}.csv`, csvOf(given.result, dataset.parted), "text/csv"),
  clear,
  sort({ dataset: { at } }) {
    const body = piece("table").querySelector("tbody");
    const head = piece("table").querySelectorAll("thead th")[at];
    const before = head.getAttribute("aria-sort");
    const isDown = before === null ? at > given.result.columns.length + 1 : before === "ascending"; // the first click sorts counts and notes in descending order, and each further click reverses the order
    for (const other of piece("table").querySelectorAll("thead th")) other.removeAttribute("aria-sort");
    head.setAttribute("aria-sort", isDown ? "descending" : "ascending");
    const sign = isDown ? -1 : 1;
    const textOf = ({ cells }) => cells[at].dataset.sort ?? cells[at].innerText;
    const compared = (one, other) => sign * textOf(one).localeCompare(textOf(other), undefined, { numeric: true });
    body.append(...[...body.rows].sort(compared));
  },
};
