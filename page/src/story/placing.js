// A task of the path: on the bar of each call, the reader places the moment when the call takes effect. The page's state contains these moments, and the proved
// `check` judges them.
import { drawJudged, drawOwnSet, judgeScale } from "../draw/judged_bars.js";
import { redraw } from "../page/dom.js";
import { askNow, now } from "../page/now.js";
import { askList } from "../run/broken.js";
import { exerciseOf, OwnAnswer, verdictOn } from "../run/judged.js";
import { tag } from "../run/markup.js";

const HALF_STEPS = { ArrowLeft: -0.5, ArrowDown: -0.5, ArrowRight: 0.5, ArrowUp: 0.5 };
const SLIDER_KEYS = { ...HALF_STEPS, PageDown: -5, PageUp: 5, Home: -Infinity, End: Infinity };

/**
 * Lets the reader place moments on the bars in `box`, with a pointer or with the keys of a slider.
 * @param {any} box
 * @param {{ exercise: any, scale: any, answer: any, place: (call: any, at: number) => void, take: (call: any) => void }} bars
 */
export function listenToBars(box, bars) {
  const dragged = { call: null };
  const callAt = ({ target }) => bars.exercise.calls[target.closest("[data-call]")?.dataset.call] ?? null;
  box.onpointermove = ({ clientX }) => {
    if (dragged.call === null) return;
    const { left, width } = box.querySelector("svg").getBoundingClientRect();
    bars.place(dragged.call, bars.scale.momentAt(((clientX - left) * bars.scale.width) / width));
  };
  box.onpointerdown = (event) => {
    dragged.call = callAt(event);
    if (dragged.call === null) return;
    event.preventDefault();
    box.setPointerCapture(event.pointerId);
    box.onpointermove(event);
  };
  box.onpointerup = box.onpointercancel = () => (dragged.call = null);
  box.onkeydown = (event) => {
    const call = callAt(event);
    const by = SLIDER_KEYS[event.key];
    if (call === null || event.ctrlKey || event.altKey || event.metaKey) return;
    if (event.key === "Delete" || event.key === "Backspace") bars.take(call);
    else if (by === undefined) return;
    else bars.place(call, bars.answer.points.has(call.id) ? bars.answer.points.get(call.id).at + by : call.begun);
    event.preventDefault();
  };
}

export class Placing {
  /** @param {any} figure @param {(moments: [number, number][]) => void} changed */
  constructor({ run, part }, changed) {
    const { text } = askList(askNow, "listset_replay", run.spec.lacks, run.schedule);
    this.changed = changed;
    this.exercise = exerciseOf(text, "points");
    this.box = this.scale = null;
  }

  get answer() {
    const answer = new OwnAnswer(this.exercise);
    for (const [id, at] of now.scene.moments) answer.place(this.exercise.calls[id], at);
    return answer;
  }

  // Returns the verdict of `check` if the moments of all completed calls are placed, otherwise null.
  verdict() {
    const { answer } = this;
    return answer.unsaid().length > 0 ? null : verdictOn(askNow, answer);
  }

  place(call, at) {
    const { answer } = this;
    answer.place(call, at);
    this.changed([...this.others(call), [call.id, answer.points.get(call.id).at]]);
  }

  take(call) {
    this.changed(this.others(call));
  }

  others(call) {
    return now.scene.moments.filter(([id]) => id !== call.id);
  }

  draw(box, width, zoom) {
    if (this.box === null) listenToBars((this.box = box), this);
    this.scale = judgeScale(this.exercise, width, { bar: 20, zoom });
    const bars = drawJudged({ exercise: this.exercise, answer: this.answer, scale: this.scale, verdict: this.verdict(), count: 0 });
    redraw(box, tag("div", { class: "calls" }, bars) + drawOwnSet(this.answer, this.scale));
  }
}
