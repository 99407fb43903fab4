// Handles a presenter's keys: they move through the steps of a slide, and then to the next slide. A key pressed during an animation waits.
import { LECTURE, slideAddress } from "../data/lecture.js";
import { isLecture, now } from "../page/now.js";
import { goByHand, goToTurn } from "../page/play.js";
import { scene, setScene } from "./scene.js";

const queue = { last: Promise.resolve(), waiting: 0 };
const hurry = () => scene.figure?.isBusy && scene.figure.hurry();

// Handles keys one after the other. While a key is waiting, the steps of earlier keys are shown quickly.
function inTurn(deed) {
  queue.waiting++;
  hurry();
  queue.last = queue.last.then(async () => {
    const done = deed();
    if (--queue.waiting > 0) hurry();
    await done;
    await scene.figure?.playing;
    await new Promise((next) => setTimeout(next));
  });
}

export const pressInScene = (event) => (isLecture() ? inTurn(() => scene.view?.press?.(event)) : scene.view?.press?.(event));

export function toSlide(by) {
  const number = now.place.slide + by;
  if (now.place.slide === 0 || number === 0) return false;
  const isThere = new Promise((done) => window.addEventListener("popstate", () => setTimeout(done), { once: true }));
  location.hash = number > LECTURE.length ? "#teachers" : slideAddress(number);
  return isThere;
}

// Shows or hides the answer from the lecturer's notes on a slide with Compare or Judge (such a slide has no panel for the answer). At the end of the slide, the
// key for forward shows the answer, and the key for back hides the answer. Returns whether the answer was shown or hidden.
function goesOverAnswer(by) {
  const isShown = now.scene.note !== "";
  if (now.place.slide === 0 || !["judge", "compare"].includes(now.place.activity) || isShown === (by > 0)) return false;
  setScene({ note: isShown ? "" : LECTURE[now.place.slide - 1][4] });
  return true;
}

function goesOnStage(by) {
  const { count } = now.run;
  if (now.place.slide > 0) goToTurn(by);
  else goByHand(count + by);
  return now.run.count !== count;
}

// Goes to the next or previous step and, past the last step, to the next slide. If the last steps of a slide are still being shown, a key only shows the rest
// of them.
export function goOnSlide(by) {
  const isPlaying = scene.figure?.isBusy === true;
  const goes = () => (now.place.screen === "stage" ? goesOnStage(by) : scene.view?.goes?.(by));
  return inTurn(async () => (by < 0 && goesOverAnswer(by)) || (await goes()) || isPlaying || (by > 0 && goesOverAnswer(by)) || toSlide(by));
}
