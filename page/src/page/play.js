// Plays the events of a run until the run ends or the reader stops it. Plays more slowly if the system asks for less motion.
import { wantsStill } from "../draw/glide.js";
import { byId } from "./dom.js";
import { goTo, isLecture, now, show } from "./now.js";
import { setView } from "./seen.js";

const play = { timer: null };
export const isPlaying = () => play.timer !== null;

function showPlay() {
  byId("play").textContent = play.timer === null ? "Play" : "Pause";
  byId("play").setAttribute("aria-pressed", String(play.timer !== null));
}

export function stopPlay() {
  clearInterval(play.timer);
  play.timer = null;
  showPlay();
}

function startPlay() {
  const { count, trace } = now.run;
  if (trace.total === 0) return;
  if (count === trace.total) goTo(0);
  play.timer = setInterval(playOn, wantsStill() ? 1600 : 700); // milliseconds for each event
  showPlay();
}

function playOn() {
  const count = now.run.count + 1;
  if (count >= now.run.trace.total) stopPlay();
  goTo(count);
}

export const togglePlay = () => (play.timer === null ? startPlay() : stopPlay());

export function goByHand(count) {
  stopPlay();
  goTo(count);
}

export function goToTurn(step) {
  const changes = (event) => event.put !== undefined || event.took !== undefined || event.answer !== undefined;
  let count = now.run.count + step;
  while (count > 0 && count < now.run.trace.total && !changes(now.run.trace.event(count))) count += step;
  goByHand(count);
}

// ---- Keyboard shortcuts. The reader can switch off those that are letters or digits.
export const keysOf = { scene: (event) => event, slide: (by) => by, next: () => {} }; // handlers for all keys in a scene, for a presenter's keys on a slide, and for N
const WAYS = { PageDown: 1, ArrowRight: 1, ArrowDown: 1, " ": 1, PageUp: -1, ArrowLeft: -1, ArrowUp: -1 };
const isPress = ({ key, target }) => key === " " && target.matches(":is(button, a, summary):focus-visible"); // Space presses the focused button or link

export function pressKey(event) {
  if (/^(TEXTAREA|INPUT|SELECT)$/.test(event.target.tagName) && event.target.id !== "slider") return;
  if (event.ctrlKey || event.metaKey || event.altKey || event.target.closest("[role=slider]") !== null) return;
  if (event.key === "Escape" && now.place.view !== null) return toggleLecture();
  if (isLecture() && event.key in WAYS && !isPress(event)) {
    event.preventDefault();
    if (document.activeElement.matches("button")) document.activeElement.blur(); // otherwise Space would also press the button
    return keysOf.slide(WAYS[event.key]);
  }
  if (isLecture() && event.key === "n" && now.prefs.letters) return keysOf.next();
  if (now.place.screen === "scene") return keysOf.scene(event);
  const { total } = now.run.trace;
  const steps = { ArrowRight: 1, ArrowLeft: -1, PageDown: 10, PageUp: -10, Home: -total, End: total };
  if (event.key in steps) {
    event.preventDefault();
    if (event.shiftKey && event.key.startsWith("Arrow")) goToTurn(steps[event.key]);
    else goByHand(now.run.count + steps[event.key]);
  } else if (event.key === " " && !/^(BUTTON|SUMMARY|A)$/.test(event.target.tagName)) {
    event.preventDefault();
    togglePlay();
  } else if (event.key === "?" || (event.key === "p" && now.prefs.letters)) ({ "?": toggleKeys, p: togglePlay })[event.key]();
}

export function toggleKeys() {
  byId("key-help").hidden = !byId("key-help").hidden;
  byId("keys").setAttribute("aria-expanded", String(!byId("key-help").hidden));
}

export function toggleLecture() {
  if (now.place.slide > 0) return void (location.hash = "#teachers");
  const isLeft = document.activeElement === byId("leave");
  setView(now.place.view === null ? "lecture" : null);
  show();
  if (isLeft) (byId("sides-lecture") ?? byId("lecture")).focus();
}
