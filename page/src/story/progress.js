// The progress stored in this browser: finished screens, guesses, broken lists, the student's name.
import { BOOK_NAME } from "../../made/book.js";
import { LACKING } from "../../made/classics.js";
import { NAMED as NAMED_TOO } from "../course/hand_in.js";
import { isText, keepUnder, keptUnder } from "../page/kept.js";
import { change } from "../page/now.js";

const STORY = "listset-story";
const BROKEN = "listset-broken"; // stores for each broken list the line to hand in
const NAMED = "listset-named-checks"; // stores the lists with a missing check that the reader has named
const NOTHING = { at: 1, done: {}, asks: {}, student: "", number: "", homework: null };

/** @returns {{ at: number, done: Record<string, boolean>, asks: Record<string, string>, student: string, number: string, homework: any }} */
export const keptStory = () => ({ ...NOTHING, ...keptUnder(STORY) });
export const keepStory = (change) => keepUnder(STORY, { ...keptStory(), ...change });
// The name under which the browser stores the orders that were judged right: for each run and level, the line of a hand-in.
const JUDGED = "listset-judged";
export const judgedLines = () => Object.fromEntries(textsKept(keptUnder(JUDGED)));
export const keepJudged = (run, line) => keepUnder(JUDGED, { ...keptUnder(JUDGED), [run]: line });
export const brokenLines = () => textsKept(keptUnder(BROKEN)).filter(([name]) => Object.hasOwn(LACKING, name)).map(([name, line]) => [name, isNamed(name) ? `${line} ${NAMED_TOO}` : line]);
export const isBrokenOnce = (name) => brokenLines().some(([one]) => one === name);
export const keepBrokenLine = (name, line) => keepUnder(BROKEN, { ...keptUnder(BROKEN), [name]: line });
export const isNamed = (name) => (keptUnder(NAMED) ?? []).includes(name);
export const keepNamed = (name) => keepUnder(NAMED, [...new Set([...(keptUnder(NAMED) ?? []), name])]);

// Deletes everything that the page has stored in this browser, if the button is pressed for the second time.
export function startAfresh(button) {
  if (button.dataset.isSure !== "yes") {
    button.dataset.isSure = "yes";
    button.textContent = "Press again to delete";
    return;
  }
  change("run", { text: "" }); // otherwise the text would be stored again
  try {
    for (const name of Object.keys(localStorage)) if (name.startsWith("listset-")) localStorage.removeItem(name);
  } catch {
  }
  location.hash = "#story=1&gone=yes"; // the first screen confirms it
  location.reload();
}

const LESSONS_KEPT = "listset-lessons-2";
const textsKept = (kept) => Object.entries(kept ?? {}).filter(([, text]) => isText(text));
const namesKept = (kept) => (Array.isArray(kept) ? kept.filter(isText) : []);

export class KeptLessons {
  constructor() {
    const kept = keptUnder(LESSONS_KEPT) ?? {};
    this.course = isText(kept.course) ? kept.course : BOOK_NAME;
    this.courses = new Map(textsKept(kept.courses));
    this.of = new Map(Object.entries(kept.of ?? {}).map(([name, own]) => [name, ownOf(own)]));
  }

  ofCourse(name) {
    if (!this.of.has(name)) this.of.set(name, ownOf({}));
    return this.of.get(name);
  }

  save() {
    const toObject = ({ solutions, tries, looked }) => ({ solutions: Object.fromEntries(solutions), tries: Object.fromEntries(tries), looked: [...looked] });
    const of = Object.fromEntries([...this.of].map(([name, own]) => [name, toObject(own)]));
    return keepUnder(LESSONS_KEPT, { course: this.course, courses: Object.fromEntries(this.courses), of });
  }
}

const ownOf = (kept) => ({ solutions: new Map(textsKept(kept?.solutions)), tries: new Map(textsKept(kept?.tries)), looked: new Set(namesKept(kept?.looked)) });
