// The collapsible panels below the lessons. In these panels, readers hand in their work, and choose, open, write, check and share courses.
import { BOOK, BOOK_NAME } from "../../made/book.js";
import { courseAddress, courseOfAddress } from "../course/course_text.js";
import { handInText } from "../course/hand_in.js";
import { triedCourse } from "../course/lesson.js";
import { byId } from "../page/dom.js";
import { onFile, saveText } from "../page/files.js";
import { askNow } from "../page/now.js";
import { copied, linkTo } from "../page/visit.js";
import { AddressFault, warningOf } from "../run/address.js";
import { counted } from "../run/markup.js";
import { brokenLines, judgedLines, keepStory } from "../story/progress.js";
import { learning } from "../story/learning.js";
import { drawLearnMap } from "./maps.js";

const lessonPart = (name) => byId(`lesson-${name}`);

function takeCourseText(text) {
  const course = triedCourse(askNow, text);
  const { faults, name, lessons } = course;
  const lines = faults.map(({ line, fault }) => `line ${line}: ${fault}`);
  lessonPart("faults").textContent = lines.length > 0 ? lines.join("\n") : `${name}: ${counted(lessons.length, "lesson")}, all good.`;
  lessonPart("faults").dataset.isGood = faults.length > 0 ? "no" : "yes";
  lessonPart("link-text").hidden = true;
  if (faults.length === 0) learning.panel.takeCourse(course);
  drawLearnMap();
  return faults.length === 0;
}

export async function takeCourseOfAddress(letters) {
  const text = await courseOfAddress(letters);
  if (text === learning.panel.course.text) return;
  showCourseText(text);
  if (lessonPart("faults").dataset.isGood !== "yes") {
    throw new AddressFault(`the course of the address has faults: ${lessonPart("faults").textContent.split("\n")[0]}`);
  }
}

export function showCourseText(text) {
  lessonPart("course-text").value = text;
  lessonPart("write").open = true;
  takeCourseText(text);
}

async function copyCourseLink() {
  const { course } = learning.panel;
  const address = await courseAddress(course.text);
  if (course !== learning.panel.course || lessonPart("faults").dataset.isGood !== "yes") return; // another course was checked while the link was made
  if (address === null) return (lessonPart("faults").textContent = "This course is too long for a link: save it, and hand out the file.");
  const link = linkTo(address);
  const box = lessonPart("link-text");
  box.value = link;
  box.hidden = false;
  box.select();
  const isCopied = await copied(link);
  if (box.hidden) return;
  lessonPart("faults").textContent = `${isCopied ? "The link is copied" : "Copy the link below"}: it opens "${course.name}".${warningOf(link)}`;
}

export function listenToCourses() {
  const box = lessonPart("course-text");
  lessonPart("course").onchange = () => {
    const name = lessonPart("course").value;
    takeCourseText(name === BOOK_NAME ? BOOK : learning.panel.kept.courses.get(name));
    box.value = learning.panel.course.text;
  };
  lessonPart("write").ontoggle = () => {
    if (box.value === "") box.value = learning.panel.course.text;
  };
  onFile(lessonPart("file"), showCourseText);
  lessonPart("try").onclick = () => takeCourseText(box.value);
  lessonPart("link").onclick = () => takeCourseText(box.value) && copyCourseLink();
  lessonPart("save").onclick = () => saveText("lessons.course", box.value);
  lessonPart("hand-in").onclick = handIn;
  lessonPart("student").onchange = () => {
    if (!keepStory({ student: lessonPart("student").value.trim() })) lessonPart("said").textContent = "This browser stores nothing: hand in before you leave the page.";
  };
}

async function handIn() {
  const { panel } = learning;
  const lessons = panel.course.lessons.filter(({ name }) => panel.isSolved(name));
  const solutions = lessons.map(({ name }) => ({ name, schedule: panel.own.solutions.get(name) }));
  const orders = Object.values(judgedLines());
  const broken = brokenLines().map(([, line]) => line);
  const box = lessonPart("text");
  box.value = handInText(panel.course.name, lessonPart("student").value.trim() || "?", solutions, [...orders, ...broken]);
  box.hidden = false;
  box.focus();
  box.select();
  const count = `${counted(solutions.length, "solution")}, ${counted(orders.length, "judged order")} and ${counted(broken.length, "broken list")}`;
  lessonPart("said").textContent = (await copied(box.value)) ? `The text with ${count} is copied.` : `Copy this text: it has ${count}.`;
}

