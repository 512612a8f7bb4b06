// Plays a script line by line: its `#` lines are captions. In `now.lesson`, and in this file, the
// lesson is such a script; study.js shows the whole lesson that it is a part of.
import { captionAt, nextStop } from "./document.js";
import { element, one, putIfChanged } from "./elements.js";
import { counted } from "./labels.js";
import { taskOf } from "./tasks.js";
import { now } from "./state.js";

const MOST_LINES_SHOWN = 12;
// whether a script has captions, so that it can be played
const isLessonIn = (script) => /^#/m.test(script) && !taskOf(script.split("\n")).isTask;
// a script as a lesson to play: its title and its lines; false if it is none
export const lessonOf = (title, script, isLesson = isLessonIn(script)) =>
  isLesson && { title, lines: script.replace(/\n+$/, "").split("\n") };
// the document with the lesson's next line, or all of them; after steps of one's own, the lesson's
// lines alone
export function lessonStep(way) {
  const { lesson: { lines }, document } = now, { count, isUnchanged } = document.played(lines);
  const stop = way === "next" ? nextStop(lines, count) : lines.length;
  return document.playing(lines, isUnchanged ? stop : count);
}
// whether nothing of a lesson is played yet, so that there is something to predict
export function isLessonAtStart() {
  const { lesson, document } = now;
  return Boolean(lesson) && document.lines.every((it) => it === "" || it.startsWith("#"));
}
export function putLesson() {
  const { lesson, model, document } = now;
  one("#lesson").hidden = !lesson;
  if (!lesson) return;
  const { lines } = lesson, { count, isUnchanged } = document.played(lines);
  const isEnd = count >= lines.length;
  const played = count ? lines[count - 1] : "", found = count ? model.answers[count - 1] : null;
  const next = lines[nextStop(lines, count) - 1] || "";
  one("#lesson-title").textContent = lesson.title;
  one("#caption").textContent = captionAt(lines, count);
  one("#lesson-at").textContent = `line ${count} of ${lines.length}`;
  Object.assign(one("#lesson-next"), { disabled: isUnchanged && isEnd,
    textContent: !isUnchanged ? "Back to the lesson" : isEnd ? "The end" : "Next line \u25b6" });
  one("#lesson-end").disabled = !isUnchanged || isEnd;
  const answer = found && answerText(found), hasNext = isUnchanged && !isEnd;
  putIfChanged(one("#played"), JSON.stringify([played, answer, next, isUnchanged]), () => [
    played && element("code", {}, played), found && element("pre", {}, answer),
    hasNext && element("small", {}, "next: ", element("code", {}, next))]);
}
// an answer's first lines, and how many more there are
function answerText({ first, lines }) {
  const shown = lines.slice(0, MOST_LINES_SHOWN), left = lines.length - shown.length;
  return [first, ...shown, left && `and ${counted(left, "more line")}`].filter(Boolean).join("\n");
}
