// The figure of a question: the question's run, a branch of the run, or a run of a list without a check.
import { BREAK_LEVELS } from "../data/levels.js";
import { tag } from "../run/markup.js";
import { isLecture, now } from "../page/now.js";
import { QUESTIONS } from "./ask.js";
import { APPENDIX } from "./ask_more.js";
import { Figure } from "./figure.js";
import { LiveRun } from "./live_run.js";
import { drawLedger, isOddRun, LIST_WORDS, part, partsOfQuestion, scene, setScene, takeFigure } from "./scene.js";

export const ALL = [...QUESTIONS, ...APPENDIX];
export const itemOf = ({ id }) => ALL.find(({ name }) => name === id);
export const isEmbed = () => now.place.view === "embed";

export function takeBranch({ lines, opening, lacks = null, isFree = false }) {
  const item = itemOf(now.place);
  const calls = isFree ? {} : item.calls;
  const opensCode = part("#figure .codebox")?.open;
  return takeFigure(new Figure(freshBox(), {
    list: item.list, lacks, lines, calls, threads: item.threads ?? 2, quota: item.quota ?? 4, opening: opening ?? item.opening,
    operations: operationsIn(item), hidden: item.hides && { hides: item.hides.slice(1), instead: { [item.hides[0]]: "validate: …" } },
    strip: true, scrub: true, again: false, free: isFree, isTimed: item.isTimed, slots: 5,
    code: !isEmbed(), opensCode, codeTitle: LIST_WORDS[item.list], codeNote: BREAK_LEVELS[lacks]?.lacks ?? "", struck: BREAK_LEVELS[lacks]?.missing,
  }));
}

// Returns the operations whose code is shown. A slide shows only the code of pending calls, in larger type.
function operationsIn({ lines, rest }) {
  const isOver = (line, at) => isLecture() && lines.slice(at).includes(`go ${line.split(" ")[1]} out`);
  const shown = [...lines.filter((line, at) => !isOver(line, at)), ...rest];
  return shown.filter((line) => line.startsWith("begin")).map((line) => line.split(" ")[2]);
}

function freshBox() {
  const box = Object.assign(document.createElement("div"), { id: "figure" });
  part("#figure").replaceWith(box);
  return box;
}

// ---- "What if": from any event, the reader can continue a run differently. The page keeps all branches that the reader makes.
function takeOwnBranch(branch) {
  const figure = takeBranch({ ...branch, isFree: true });
  Object.assign(figure, { onFork: fork, onStep: grow });
  return figure;
}

// Begins a new branch when a thread steps before the end of a run. The later events stay in the old branch.
function fork(figure) {
  const { branches, at } = now.scene;
  const { lacks, opening, isFixed } = branches[at];
  const isOwn = at > 0 && !isFixed && figure.run.count === figure.run.trace.total;
  if (isOwn) return;
  const number = 1 + branches.filter((one, index) => index > 0 && !one.isFixed).length;
  const lines = figure.run.linesHere();
  const own = { name: `What if ${number}`, lines, lacks, opening, from: figure.run.count };
  figure.run.take(lines);
  setScene({ branches: [...branches, own], at: branches.length });
}

function grow(figure) {
  const { branches, at } = now.scene;
  if (at === 0 || branches[at].isFixed) return;
  const lines = [...figure.run.lines];
  figure.isLost = figure.run.isBroken();
  setScene({ branches: branches.map((one, index) => (index === at ? { ...one, lines } : one)), stage: "task" });
  figure.draw();
}

export async function openBranch(at, plays = false) {
  const branch = now.scene.branches[at];
  const figure = takeOwnBranch(branch);
  figure.isLost = figure.run.isBroken();
  figure.set({ hidesDock: at === 0 || branch.isFixed === true });
  setScene({ at, stage: plays ? "playing" : "done" });
  if (!plays) return;
  const asked = now.scene.branches[0].from;
  const hasOwnRun = itemOf(now.place).without !== undefined;
  await figure.replay(hasOwnRun ? 0 : Math.min(asked, figure.run.trace.total - 1));
  if (scene.figure !== figure) return;
  setScene({ stage: "done" });
}

export const goBack = () => openBranch(0);
export const seeAgain = () => scene.figure.replay(now.scene.branches[0].from);

export function whatIf() {
  const { figure } = scene;
  figure.set({ hidesDock: false });
  if (now.scene.at === 0) figure.moveTo(now.scene.branches[0].from);
  setScene({ stage: "task" });
}

// Opens the question's run on the list that lacks the check or, if that run does not break the list, the run in `item.without`.
export function withoutCheck(item) {
  const { branches } = now.scene;
  const known = branches.findIndex(({ isFixed }) => isFixed);
  if (known !== -1) return openBranch(known, true);
  const { lines = sameLines(item), opening } = item.without ?? {};
  setScene({ branches: [...branches, { name: "Without this check", lines, opening, lacks: item.lacks, isFixed: true }] });
  return openBranch(branches.length, true);
}

function sameLines({ list, opening, lines, rest, lacks }) {
  const whole = new LiveRun({ list, opening, lines: [...lines, ...rest] });
  const broken = new LiveRun({ list, lacks, opening });
  broken.take(whole.lines);
  return [...broken.linesHere(), ...[0, 1].filter((thread) => !broken.isIdle(thread)).map((thread) => `go ${thread} out`)];
}

const ownWords = ({ from, lacks = null }, isBroken) => {
  const proved = "Whatever you choose, some order of the calls explains their answers: that is proved of each run of this list.";
  const broken = "No order of its calls explains their answers and the final list: you have broken this list.";
  return `<b>Your own branch.</b> It leaves the example at step ${from}. ${isBroken ? broken : lacks === null ? proved : ""}`;
};

function fixedWords({ lacks }, isBroken) {
  const { broken } = itemOf(now.place);
  const which = `This is a run of a list with one check less. ${BREAK_LEVELS[lacks].lacks}`;
  const proved = "No order of the calls explains their answers and the final list; that is proved.";
  return `<b>${isBroken ? broken : "Not broken yet."}</b> ${which} ${isBroken ? proved : "The calls so far do not show it."}`;
}

export function promptOfBranch(branch) {
  const { run } = scene.figure;
  const isBroken = run.isBroken();
  const ledger = isBroken && isOddRun(run) ? drawLedger(run) : "";
  const words = branch.isFixed ? fixedWords(branch, isBroken) : ownWords(branch, isBroken);
  const change = branch.isFixed ? '<button data-do="if">Change it from here on</button>' : "";
  return `<div class="reveal${isBroken ? " bad" : ""}">${ledger}<div><p class="why">${words}</p>
    <p class="line"><button data-do="home">← Back to the example</button>${change}</p></div></div>`;
}

export function drawBranches({ branches, at }) {
  const box = part("#branches");
  box.hidden = branches.length === 1;
  const { isFixed = false } = branches[at];
  const { question, without } = itemOf(now.place);
  part("#what-if-mark").hidden = at === 0 || isFixed;
  const [story, asked] = partsOfQuestion((isFixed && without?.question) || question);
  part("#asked").textContent = asked; // the title is the question alone
  part("#story-of").textContent = story ?? "";
  const button = ({ name }, index) =>
    tag("button", { class: "small", "data-do": "branch", "data-branch": index, "aria-pressed": index === at }, index === 0 ? "" : "↳ ", name);
  box.innerHTML = branches.map(button).join("");
}
