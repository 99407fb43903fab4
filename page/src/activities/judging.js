// The panel for judging the current run: the reader chooses a moment and a reply for each call.
import { CLASSICS } from "../../made/classics.js";
import { LISTS } from "../../made/rows.js";
import { slideAddress } from "../data/lecture.js";
import { GROWN, SMALL_GROWN, WIDE_GROWN } from "../draw/history.js";
import { drawJudged, drawOwnOrder, judgeScale } from "../draw/judged_bars.js";
import { byId, redraw } from "../page/dom.js";
import { askNow, dispatch, exampleShown, isJudging, isLecture, now, say } from "../page/now.js";
import { linkTo } from "../page/visit.js";
import { addressOf, partsOfSeed, warningOf } from "../run/address.js";
import { exerciseOf, LEVELS, MOST_JUDGED, OwnAnswer, repliesOf, verdictOn, wordOfAnswer } from "../run/judged.js";
import { callText, chipOf, escaped, letterOf } from "../run/markup.js";
import { itemOf } from "../story/ask_branches.js";
import { homeworkOf } from "../story/assignment.js";
import { isNarrow } from "../story/figure_parts.js";
import { listenToBars } from "../story/placing.js";
import { keepJudged } from "../story/progress.js";

const judgePart = (name) => byId(`judge-${name}`);

class Judging {
  answer = null; verdict = null;
  tries = 0; // the number of refused answers

  get exercise() {
    return now.exercise;
  }

  begin(level) {
    const report = askNow("listset_replay", now.run.text);
    if (report.status !== 0) return say(`This run cannot be judged: ${escaped(report.text.trim())}.`);
    const exercise = exerciseOf(report.text, level);
    Object.assign(this, { answer: new OwnAnswer(exercise), verdict: null, tries: 0 });
    judgePart("level").value = level;
    dispatch("exercise", { exercise });
  }

  place(call, at) {
    this.answer.place(call, at);
    this.changed();
    judgePart("bars").querySelector(`[data-call="${call.id}"]`).focus();
  }

  take(call) {
    this.answer.take(call);
    this.changed();
  }

  changed() {
    this.verdict = null;
    this.draw();
  }

  judge() {
    this.verdict = verdictOn(askNow, this.answer);
    if (this.verdict.isRight === false) this.tries++;
    if (this.verdict.isRight) this.keep();
    this.draw();
    judgePart("verdict").scrollIntoView({ block: "nearest" });
  }

  keep() {
    const run = exampleShown() === "" ? addressOf(now.run.text, now.run.count) : exampleShown();
    this.line = `judge ${run} ${this.exercise.level} ${wordOfAnswer(this.answer)}`;
    if (run !== null) keepJudged(`${run} ${this.exercise.level}`, this.line);
  }

  draw() {
    const { level, calls } = this.exercise;
    this.count = now.run.count;
    const isSlide = isLecture() && !isNarrow();
    const zoom = isSlide ? innerHeight / 450 : 1;
    this.scale = judgeScale(this.exercise, Math.max(300, judgePart("bars").clientWidth / zoom), isSlide ? { bar: 20, grown: GROWN, zoom } : { grown: isNarrow() ? SMALL_GROWN : WIDE_GROWN });
    judgePart("of").textContent = itemOf({ id: exampleShown() })?.question ?? `Your answer is right if the replies${calls.some(({ ended }) => ended === null) ? " and the last set" : ""} are those of this run, and each reply is correct in the order of your moments.`;
    judgePart("task").textContent = `${now.task.kind === "seed" && !isSlide ? `Run ${partsOfSeed(now.task.id).number}. ` : ""}${LEVELS[level].task}`;
    redraw(judgePart("bars"), drawJudged(this));
    const asked = level === "replies" ? calls.filter((call) => call.ended !== null) : [];
    redraw(judgePart("replies"), asked.map((call) => this.replyBox(call)));
    judgePart("order").innerHTML = drawOwnOrder(this.answer);
    this.drawVerdict();
  }

  replyBox(call) {
    const choice = document.createElement("select");
    choice.dataset.call = call.id;
    choice.append(new Option("?", ""), ...repliesOf(this.exercise, call).map((reply) => new Option(reply, reply)));
    choice.value = this.answer.replies.get(call.id) ?? "";
    choice.onchange = () => {
      this.answer.setReply(call, choice.value === "" ? undefined : choice.value);
      this.changed();
    };
    const box = document.createElement("label");
    choice.setAttribute("aria-label", `${letterOf(call.thread)} ${callText(call)} returns`);
    box.innerHTML = `${chipOf(call.thread)} ${callText(call)}: `;
    box.append(choice);
    return box;
  }

  drawVerdict() {
    const { verdict, tries } = this;
    const isAsked = homeworkOf(now.place, now.task) !== null && verdict?.isRight !== true; // in homework, buttons that reveal the answer are hidden until the reader's answer is right
    for (const name of ["end", "levels"]) judgePart(name).style.visibility = isAsked ? "hidden" : "";
    const answer = isLecture() ? now.scene.note : ""; // the answer that the lecturer has opened, or ""
    const link = linkTo(slideAddress(now.place.slide));
    const short = link.replace(/^file:.*\/|^https?:../, "").replace("/index.html", "/");
    const where = isNarrow() ? "" : ` · ${short}${warningOf(link) === "" ? "" : " (this computer only)"}`; // a slide shows the address that the class opens
    const kind = answer === "" ? ({ true: "right", false: "wrong" }[verdict?.isRight] ?? "") : "shown";
    judgePart("verdict").className = kind;
    judgePart("verdict").textContent = answer || (verdict?.says ?? (now.place.slide === 0 ? "" : `${LISTS[now.run.trace.kind].name}${where}`));
    judgePart("tries").textContent = tries === 0 ? "" : `${tries} ${tries === 1 ? "try" : "tries"} refused`;
    judgePart("hint").textContent = kind === "wrong" && tries >= 2 ? hintOfRun() : "";
    judgePart("line").innerHTML = kind === "right" ? `<details><summary>Saved. The line to hand in</summary><code>${escaped(this.line)}</code></details>` : "";
    const drawn = verdict?.report == null ? "" : askNow("listset_show_svg", verdict.report).text;
    judgePart("picture-box").hidden = !drawn.startsWith("<svg ");
    judgePart("picture").innerHTML = judgePart("picture-box").hidden ? "" : drawn;
  }
}

export const judging = new Judging();
export const drawJudging = () => isJudging() && judging.draw();

function hintOfRun() {
  const turns = CLASSICS[exampleShown()]?.turns;
  if (turns !== undefined) return `The deciding events: ${turns.join(", ")}.`;
  const changes = now.run.trace.changes.map(({ number }) => number);
  return changes.length === 0 ? "No event changes the set." : `The set changes at the events ${changes.join(", ")}.`;
}

export function beginJudging() {
  const { trace } = now.run;
  if (!now.run.isRun || trace.refused !== null) return say("A run with a refused event cannot be judged: delete the red line of the schedule first.");
  if (trace.calls.length === 0) return say("No call has begun: there is nothing to judge yet.");
  if (trace.total > MOST_JUDGED) return say(`A run of at most ${MOST_JUDGED} events can be judged; this one has ${trace.total}.`);
  say("");
  judging.begin(homeworkOf(now.place, now.task) === null ? judgePart("level").value : "replies");
  byId("next").focus(); // focuses Step: with the focus on the level, an arrow key would change the level
}

export function listenToJudging() {
  byId("judge-begin").onclick = beginJudging;
  judgePart("level").append(...Object.entries(LEVELS).map(([level, { name }]) => new Option(name, level)));
  judgePart("level").value = "replies";
  judgePart("level").onchange = judgePart("again").onclick = () => judging.begin(judgePart("level").value);
  judgePart("ask").onclick = () => judging.judge();
  judgePart("end").onclick = () => {
    dispatch("exercise", { exercise: null });
    byId("judge-begin").focus();
  };
  listenToBars(judgePart("bars"), judging);
}
