// Opens the activity or the run that an address names, and chooses the first place of a visit.
import { LECTURE } from "../data/lecture.js";
import { numberOfLevel } from "../data/levels.js";
import { byId } from "../page/dom.js";
import { isExample, openExample, openTask } from "../page/work.js";
import { HERE, isText, keptUnder } from "../page/kept.js";
import { exampleShown, goTo, now, say } from "../page/now.js";
import { setView } from "../page/seen.js";
import { stopPlay } from "../page/play.js";
import { entryOf, OWN_TASK } from "../page/reducer.js";
import { keepSoon, sceneOfHash, visit } from "../page/visit.js";
import { AddressFault, readAddress } from "../run/address.js";
import { escaped } from "../run/markup.js";
import { learning } from "../story/learning.js";
import { keptStory } from "../story/progress.js";
import { faultOfScene, openScene } from "../story/scene.js";
import { showCourseText, takeCourseOfAddress } from "./courses.js";
import { beginJudging } from "./judging.js";
import { showRecorded } from "./recording.js";
import { openSeed } from "./bench.js";

function openStory(place) {
  if (place.activity === "story" && place.id === "") place.id = String(keptStory().at);
  const fault = faultOfScene({ id: "", given: {}, ...place });
  if (fault !== null) throw new AddressFault(fault);
  stopPlay();
  say("");
  openScene(place);
}

/** @param {string[]} place @param {any} wanted */
function openPlace([activity, value], { text, event, view }) {
  if (value === "" || activity !== "watch") {
    openStory({ activity: activity === "watch" ? "ask" : activity, id: value, given: text === null ? {} : { text }, view });
  } else if (text === null) openRun({ seed: null, example: value, event });
  else openLink({ text, event });
}

async function openCourse(wanted) {
  await takeCourseOfAddress(wanted.course);
  const { panel } = learning;
  openPlace(wanted.place ?? ["learn", (panel.firstUnsolved() ?? panel.course.lessons[0]).name], wanted);
}

function openRun(wanted) {
  if (wanted.seed !== null) openSeed(wanted.seed, wanted.event);
  else if (wanted.example !== null) {
    if (!isExample(wanted.example)) throw new AddressFault(`the address names an example "${wanted.example}" that does not exist`);
    if (exampleShown() === wanted.example && now.run.isRun && now.place.screen === "stage") goTo(wanted.event);
    else openExample(wanted.example, wanted.event);
  } else openLink(wanted);
  if (wanted.isJudged) beginJudging();
}

// Opens the schedule in a link. If the link names a broken list (a list without one of its checks), opens that list's level of the Break activity, otherwise
// the bench.
function openLink({ text, event, lacks = null, view = null }) {
  if (lacks !== null) return openStory({ activity: "break", id: String(numberOfLevel(lacks)), given: { text }, view });
  if (text === now.run.text && now.run.isRun && now.place.screen === "stage") return goTo(event);
  openTask(OWN_TASK, text, event);
}

// Returns the number of the slide that an address opens or shows, or 0 for any other address. Throws if the lecture has no such slide.
export function slideOf(hash) {
  const [, number = "1"] = /^#lecture(?:=(.*))?$/.exec(hash) ?? [null, `${1 + LECTURE.findIndex(([, , address]) => address === hash)}`];
  if (number === "0" || LECTURE[Number(number) - 1] !== undefined) return Number(number);
  throw new AddressFault(`the lecture has the slides 1 to ${LECTURE.length}, and no "${number.slice(0, 60)}"`);
}

async function openAddress(given) {
  try {
    const slide = slideOf(given);
    const hash = slide === 0 ? given : LECTURE[slide - 1][2];
    const place = sceneOfHash(hash);
    if (place !== null) {
      openStory({ ...place, slide });
      return true;
    }
    const wanted = readAddress(hash);
    setView(wanted.view, slide);
    if (wanted.course !== null) await openCourse(wanted);
    else if (wanted.place !== null) openPlace(wanted.place, wanted);
    else if (wanted.sides !== null) openStory({ activity: "compare", given: wanted.sides, view: wanted.view, slide });
    else if (wanted.example !== null || wanted.text !== null || wanted.seed !== null) openRun(wanted);
    else return false;
    return true;
  } catch (fault) {
    if (!(fault instanceof AddressFault)) throw fault;
    say(`<b class="bad">${escaped(fault.message)}</b>`);
    return false;
  }
}

export function openRecorded(text) {
  openStory({ activity: "judge" });
  showRecorded(text);
}

export function openCourseFile(text) {
  openStory({ activity: "learn" });
  showCourseText(text);
}

// Opens the address in the address bar after a link, typing, or a move in the browser's history has changed the address.
export async function followAddress(event) {
  clearTimeout(visit.timer);
  const kept = event.state;
  if (typeof kept?.text === "string") openLink({ text: kept.text, event: kept.count });
  else await openAddress(location.hash);
  visit.entry = entryOf(now);
  keepSoon();
}

const addressKept = () => (isText(keptUnder(HERE)) ? keptUnder(HERE) : "");

export async function openFirst() {
  const isNamed = location.hash !== "" && (await openAddress(location.hash));
  const said = byId("said").innerHTML;
  const isWrong = location.hash !== "" && !isNamed;
  if (!isNamed && (isWrong || addressKept() === "" || !(await openAddress(addressBack())))) openStory({ activity: "story", id: "1" });
  if (!isNamed && said !== "") say(said);
  Object.assign(visit, { isRead: true, entry: entryOf(now) });
  keepSoon();
}

// Returns the stored address of the last visit. If the visit ended on the path (the guided tour) after its first screen, adds `back=yes`, so that the page
// greets the reader.
const addressBack = () => addressKept().replace(/^#story=(?!1$)\d+$/, "$&&back=yes");
