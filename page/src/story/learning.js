// The state of the Solve activity: the open course, the current lesson, the stored attempts, and the verdict on a run.
import { BOOK, BOOK_NAME } from "../../made/book.js";
import { courseAddress } from "../course/course_text.js";
import { judged, triedCourse } from "../course/lesson.js";
import { askNow } from "../page/now.js";
import { visit } from "../page/visit.js";
import { bookCourse } from "./assignment.js";
import { KeptLessons } from "./progress.js";
import { linesOf } from "./live_run.js";

const courseOf = (text) => (text === BOOK ? bookCourse() : triedCourse(askNow, text));

class Learning {
  constructor() {
    this.kept = new KeptLessons();
    const course = courseOf(this.kept.courses.get(this.kept.course) ?? BOOK);
    this.takeCourse(course.faults.length === 0 ? course : bookCourse());
  }

  // Opens a course that has no errors, and computes the course's link in the background.
  takeCourse(course) {
    this.course = course;
    this.kept.course = course.name;
    this.own = this.kept.ofCourse(course.name);
    if (course.name !== BOOK_NAME) this.kept.courses.set(course.name, course.text);
    this.lesson = course.lessons[0];
    visit.course = null;
    if (course.name === BOOK_NAME) return;
    const take = (address) => this.course === course && (visit.course = address);
    courseAddress(course.text).then(take, () => null);
  }

  // Returns the lesson with this name from the open course, the built-in course, or a stored course. If a stored course contains the lesson, opens that course.
  lessonNamed(name) {
    const find = ({ lessons }) => lessons.find((lesson) => lesson.name === name);
    if (find(this.course) !== undefined) return find(this.course);
    for (const text of [BOOK, ...this.kept.courses.values()]) {
      const course = courseOf(text);
      if (course.faults.length > 0 || find(course) === undefined) continue;
      this.takeCourse(course);
      return find(course);
    }
    return undefined;
  }

  isSolved(name) {
    return this.own.solutions.has(name);
  }

  firstUnsolved() {
    return this.course.lessons.find(({ name }) => !this.isSolved(name));
  }

  // Judges and stores the reader's attempt. The attempt does not count as a solution if it equals the lesson's answer and the reader has looked at that answer.
  judge(text, isBegun) {
    const { lesson, own } = this;
    const { name, solution } = lesson;
    if (isBegun) own.tries.set(name, text);
    const verdict = judged(askNow, lesson, text);
    const isShown = own.looked.has(name) && solution !== null && linesOf(text).join() === linesOf(solution).join() && !own.solutions.has(name);
    if (verdict.isSolved && !isShown && !own.solutions.has(name)) own.solutions.set(name, text);
    const isKept = this.kept.save();
    return { ...verdict, isShown, isKept };
  }

  lookAtAnswer() {
    this.own.looked.add(this.lesson.name);
    this.kept.save();
  }
}

// The panel is created on first use, since checking its lessons takes a while.
export const learning = {
  get panel() {
    return (made.panel ??= new Learning());
  },
};
const made = { panel: null };
