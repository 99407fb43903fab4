// A live figure: the list, a sentence, the code, and for each thread a button that executes the thread's next steps.
import { fallTime, wantsStill } from "../draw/glide.js";
import { momentAt } from "../run/sentences.js";
import { drawFigure, frameOf, markLostNodes } from "./figure_parts.js";
import { askCall, beginOwn, chooseCall, pressed } from "./dock.js";
import { LiveRun } from "./live_run.js";
import { lastTold } from "./presses.js";

const BIT = 400; // milliseconds between two steps of one press
const QUICK = 140; // milliseconds for each step, if another press is waiting
const [READ, WORD] = [900, 160]; // milliseconds for which a sentence stays: READ, and WORD for each of its words
const sleep = (time) => new Promise((done) => setTimeout(done, time));
const made = { count: 0 };
const markBusy = (isBusy) => (document.body.dataset.busy = isBusy ? "yes" : "no");

// A spec describes a figure: a run, the `calls` of each thread, the threads with a button (`shown`), and the parts beside the list.
export const STILL = { dock: false, names: true, strip: true, prompt: false, again: false }; // the spec of a figure that shows a run made elsewhere

export class Figure {
  id = `f${made.count++}`;
  active = 0; // the thread that runs to a line of the code
  past = []; // the lines of the run before each change, for undo
  isBusy = false; // steps are being shown
  isHurried = false; // another press waits until these steps are shown
  isSkipped = false; // the reader wants to see the last step only
  isEnded = false;
  isOpen = true; // the reader may step
  hidesDock = false;
  isPlayed = false; // the page makes the steps, not the reader
  isGuess = false; // the lines of code that would reveal the answer are not shown
  isLost = false; // lost nodes are drawn as lost
  isSlow = false; // a node falls out of the chain, in slow motion
  hides = true; // the history shows no later events
  drawn = { count: 0, chain: [], slots: 0, tight: 0 }; // of the last drawing: the event and the chain; of all drawings: the most nodes and the tightest form
  wide = 0; // width of the list in pixels
  tall = 0; stripWide = 0; scroll = 0;
  said = null; // a sentence that replaces the sentence about the step
  told = 0; since = 0; // while steps are shown: the event that the sentence is about, and when the sentence appeared
  /** @type {(value?: any) => void} */
  wake = () => {}; // ends the wait between two steps
  onShown = null; onStep = null; onFork = null;
  placing = null; // the bars of a task to place moments

  /** @param {any} box @param {import("./live_run.js").RunSpec & { [name: string]: any }} spec */
  constructor(box, spec) {
    this.box = box;
    this.spec = spec;
    this.run = spec.run ?? new LiveRun(spec);
    this.shown = spec.shown ?? this.run.state.threads.map((_, thread) => thread);
    this.said = spec.says ?? null;
    this.chosen = spec.chosen ?? {}; // for each idle thread, the call in its fields
    frameOf(this);
    box.addEventListener("click", (event) => this.isEnded || pressed(this, event)); // after the end of this figure, the box can belong to another figure
    box.addEventListener("input", ({ target }) => target.closest(".choose") !== null && chooseCall(this, target.closest("[data-thread]")));
    this.stretch = new ResizeObserver(() => setTimeout(() => this.isEnded || this.measure())); // a timer, since WebKit can serve a frame that is requested here only after the next input
    this.stretch.observe(this.part("list"));
    this.fit();
  }

  // Draws the list again if its box has another size than at the last measurement.
  measure() {
    const { clientWidth, clientHeight } = this.part("list");
    if (clientWidth !== this.wide || clientHeight !== this.tall) this.fit();
  }

  fit() {
    const { clientWidth, clientHeight } = this.part("list");
    if (clientWidth !== this.wide) Object.assign(this.drawn, { slots: 0, tight: 0 });
    Object.assign(this, { wide: clientWidth, tall: clientHeight, stripWide: this.part("strip").clientWidth });
    this.draw();
  }

  end() {
    this.stretch.disconnect();
    this.isEnded = true;
    markBusy(false);
  }

  part(name) {
    return this.box.querySelector(`.${name}`);
  }

  set(given) {
    Object.assign(this, given);
    this.draw();
  }

  get canStep() {
    return this.isOpen && !this.hidesDock && !this.isPlayed && this.spec.dock !== false;
  }

  left(thread) {
    const own = this.spec.calls?.[thread] ?? [];
    return own.slice(this.run.trace.calls.filter((call) => call.thread === thread).length);
  }

  leaves() {
    this.onFork?.(this);
    this.past.push([...this.run.lines]);
  }

  // Executes the next steps of a thread; an idle thread begins its call first. Waits until all earlier steps have been shown.
  async step(thread) {
    while (this.isOpen && this.isBusy && !this.isEnded) await this.hurry();
    if (!this.isOpen || this.isEnded) return;
    const [call] = this.left(thread);
    if (this.run.isIdle(thread) && call === undefined) return;
    this.leaves();
    const next = this.run.nextOf(thread, call);
    const before = this.run.trace.total;
    if (next.isBegin) this.run.begin(thread, call);
    await this.play(thread, next.steps, before);
  }

  press(thread) {
    if (!this.canStep || !this.shown.includes(thread)) return;
    const isFree = this.run.isIdle(thread) && this.left(thread).length === 0 && this.spec.free;
    if (isFree && this.spec.asksCall && this.chosen[thread] === undefined) askCall(this, thread);
    else if (isFree) beginOwn(this, thread);
    else this.step(thread);
  }

  async play(thread, steps, from) {
    this.active = thread;
    this.run.go(thread, steps);
    await this.show(from);
    if (!this.isEnded) this.onStep?.(this);
  }

  // Shows the remaining steps quickly, each for QUICK milliseconds, or only the last one if `isSkipped`. The promise resolves after the last step.
  hurry(isSkipped = false) {
    Object.assign(this, { isHurried: true, isSkipped });
    this.wake();
    return this.playing;
  }

  // Waits between two steps. Another press ends the wait, but not before QUICK milliseconds.
  async wait(time) {
    this.isBusy = true;
    const quick = sleep(Math.min(time, QUICK));
    await Promise.race([sleep(time), new Promise((done) => (this.wake = done))]);
    if (!this.isSkipped) await quick;
  }

  show(from, total = this.run.trace.total) {
    return (this.playing = this.showSteps(from, total));
  }

  async showSteps(from, total) {
    this.isBusy = true;
    this.isHurried = this.isSkipped = false;
    markBusy(true);
    for (let count = Math.min(from + 1, total); count <= total; count++) {
      if (this.isEnded) return;
      const isOfLock = this.spec.plain === true && this.run.trace.event(count).word === "list.lock"; // a list that ignores its lock does not show this step
      if (count < total && (this.isSkipped || wantsStill() || isOfLock)) continue;
      this.run.moveTo(count);
      const told = lastTold(this.run.trace, count, total, this.spec);
      if (told !== this.told) Object.assign(this, { told, since: performance.now() });
      this.part("said").setAttribute("aria-live", told < total ? "off" : "polite"); // a screen reader reads only the last sentence
      this.isBusy = count < total;
      this.draw(true);
      this.onShown?.();
      if (this.isSlow) await this.wait(fallTime()); // the loss is drawn before it is put into words
      if (count < total || (this.isHurried && !this.isSkipped)) await this.wait(this.isHurried ? QUICK : count < told ? BIT : this.readTime());
    }
    Object.assign(this, { isBusy: false, told: 0 });
    markBusy(false);
  }

  // Returns for how many more milliseconds the sentence has to stay so that it can be read.
  readTime() {
    return Math.max(BIT, READ + WORD * this.part("said").textContent.split(" ").length - (performance.now() - this.since));
  }

  async replay(from = 0) {
    if (this.isBusy) return;
    this.run.moveTo(from);
    this.draw();
    await this.show(from);
  }

  async rest() {
    markBusy(true);
    await sleep(this.readTime());
    markBusy(false);
  }

  undo() {
    if (this.isBusy || this.past.length === 0) return;
    if (this.spec.restart !== undefined) return this.spec.restart();
    this.run.take(this.past.pop());
    this.isLost = false;
    this.draw(true);
    this.onStep?.(this);
  }

  again() {
    if (this.isBusy) return;
    if (this.spec.restart !== undefined) return this.spec.restart();
    this.run.take(this.run.first);
    Object.assign(this, { past: [], said: this.spec.says ?? null, isLost: false });
    Object.assign(this.drawn, { slots: 0, tight: 0 });
    this.draw();
    this.onStep?.(this);
  }

  // Shows a run that was created outside of this figure. A move by one event on the same list is animated.
  showRun(run, moment = momentAt(run.state, run.count), hides = true) {
    const isNear = run.trace.kind === this.run.trace.kind && Math.abs(run.count - this.run.count) === 1;
    Object.assign(this, { run, hides });
    this.draw(isNear, moment);
  }

  say(text) {
    this.said = text;
    this.part("said").innerHTML = text;
  }

  draw(isNear = false, moment = momentAt(this.run.state, this.run.count)) {
    if (isNear) this.said = null;
    drawFigure(this, moment, isNear);
    if (this.isLost && this.run.count === this.run.trace.total) markLostNodes(this);
  }

  moveTo(count) {
    if (this.isBusy) return;
    const isNear = Math.abs(count - this.run.count) <= 1;
    this.said = null;
    this.run.moveTo(count);
    this.draw(isNear);
  }
}
