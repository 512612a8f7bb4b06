// A whole lesson to read: its text, which tools/page takes from the lesson's Markdown, with
// pictures that can be played, a prediction before them, and exercises with a button to begin each.
// player.js plays a script of it.
import { hasSearch, packedContents } from "./engine.js";
import { EMPTY_TOWER } from "./document.js";
import { allLessons, exerciseDocument, hashOfLesson, isSolved, partOf } from "./exercises.js";
import { putFigure } from "./figures.js";
import { setLessonHash } from "./address.js";
import { remember, remembered } from "./kept.js";
import { askForSecond } from "./second.js";
import { withWords } from "./words.js";
import { say } from "./acting.js";
import { element, one } from "./elements.js";

// the folder of the lesson that is shown, or nothing
let studied = "";
export const isStudying = () => studied !== "";
// the part of a lesson's text that is folded away
function foldedAnswers(article) {
  return [...article.children].find((it) => it.localName === "details");
}
// shows what reads give, and the reader's prediction next to the answers
function uncover(article, words) {
  const answers = foldedAnswers(article);
  article.classList.remove("covered");
  answers?.querySelector(".predicted")?.remove();
  if (!words) return;
  const made = [element("b", {}, "You predicted: "), words];
  answers?.querySelector("summary").after(element("p", { class: "predicted" }, made));
}
// what the reader predicts; until then the pictures hide what reads give
function prediction(article, folder) {
  const key = `predicted ${folder}`, kept = remembered(key);
  const box = element("textarea", { rows: 2, id: "prediction", maxlength: 600,
    placeholder: "Your prediction, in a few words", "aria-label": "your prediction" });
  const look = element("button", { class: "big", "data-look": "", onclick: () => {
    remember(key, box.value.trim());
    uncover(article, box.value.trim());
    row.classList.add("done");
  } }, "Now look");
  const about = element("small", {}, "The pictures hide what reads give until then.");
  const row = element("div", { class: "predict" }, box, look, about);
  box.value = kept;
  article.classList.add("covered");
  if (kept) {
    uncover(article, kept);
    row.classList.add("done");
  }
  return row;
}
function exerciseRow(lesson, exercise, begin) {
  const order = (it) => lesson.parts.findIndex(({ name }) => name === it.name);
  const parts = [...exercise.parts].sort((a, b) => order(a) - order(b));
  const onWhich = ({ name }) => {
    const { tower } = partOf(lesson, name), [kind, line] = (tower || EMPTY_TOWER).split("\n");
    return kind.startsWith("bench") ? " on the saved branches" : ` on ${line}`;
  };
  const button = (part) => {
    const { tower, script } = exerciseDocument(lesson, exercise, part);
    const given = { "data-begin": `${lesson.folder} ${exercise.number} ${part.name}` };
    return element("button", { class: "big", ...given, onclick: () => begin(tower, script, null) },
      `Begin${parts.length > 1 ? onWhich(part) : ""}`);
  };
  const solved = isSolved(lesson, exercise) && element("b", { class: "met" }, "\u2713 solved");
  return element("div", { class: "begin" }, parts.map(button), solved);
}
function lessonButtons(lessons, folder) {
  const sign = (it) => (it.exercises.every((each) => isSolved(it, each)) ? " \u2713" : "");
  const current = (it) => it.folder === folder && "page";
  const given = (it) => ({ "data-study": it.folder, "aria-current": current(it) });
  return [element("h2", {}, "Lessons"),
    ...lessons.map((it) => element("button", given(it), it.title + sign(it)))];
}
// puts a lesson's text, with the question, the buttons of its exercises and words to point at
function putArticle(lesson, begin) {
  const article = one("#study-text"), text = packedContents.texts[lesson.folder];
  article.replaceChildren(...new DOMParser().parseFromString(text, "text/html").body.childNodes);
  const isQuestion = (it) => it.firstChild?.textContent === "Question.";
  const question = [...article.querySelectorAll("p")].find(isQuestion);
  question?.classList.add("question");
  question?.after(prediction(article, lesson.folder));
  for (const it of article.querySelectorAll("em")) it.replaceChildren(...withWords(it.textContent));
  const list = [...article.children].find((it) => it.localName === "ol");
  if (!list) return article;
  [...list.children].forEach((it, at) =>
    it.append(exerciseRow(lesson, lesson.exercises[at], begin)));
  list.before(element("h2", {}, "Exercises"));
  return article;
}
// after a question for all answers a button for each register of the lesson
function putAsks(code, { parts }, ask) {
  const taught = parts.filter(({ script }) => script).map(({ tower }) => tower.split("\n")[1]);
  const button = (line) => element("button", { class: "big", "data-ask": line,
    onclick: () => ask(`tower 2\n${line}\n`, code.textContent) }, `Ask on ${line}`);
  code.closest("p").append(element("span", { class: "begin asks" }, taught.map(button)));
}
// the button that opens the lesson after this one
function nextLessonRow(lessons, lesson) {
  const next = lessons[lessons.indexOf(lesson) + 1];
  const button = next && element("button", { class: "big", "data-study": next.folder },
    `Next lesson: ${next.title} \u25b6`);
  return element("p", { class: "next-lesson" }, button || "This is the last lesson.");
}
// `data-drawn` says that nothing moves any more
async function putFigures(article, put) {
  const figures = [...article.querySelectorAll("figure")];
  delete article.dataset.drawn;
  await Promise.all(figures.map((it) => put(it).catch((fault) => say(fault.message, "refusal"))));
  if (figures.every((it) => it.isConnected)) article.dataset.drawn = "";
}
// shows a lesson; `begin` makes a document of a tower file, a script and a lesson's lines
export function putStudy(folder, begin, { showsAnswers = false, ask } = {}) {
  const lessons = allLessons(), lesson = lessons.find((it) => it.folder === folder);
  if (!lesson) return;
  studied = folder;
  setLessonHash(hashOfLesson(lesson));
  const article = putArticle(lesson, begin), answers = foldedAnswers(article);
  one("#study-list").replaceChildren(...lessonButtons(lessons, folder));
  for (const it of hasSearch() ? article.querySelectorAll("code") : [])
    if (it.textContent.startsWith("process ")) putAsks(it, lesson, ask);
  article.append(nextLessonRow(lessons, lesson));
  document.body.classList.add("studying");
  one("#study").hidden = false;
  // on a phone the list is one row
  one("#study-list [aria-current]").scrollIntoView({ block: "nearest", inline: "nearest" });
  one("#study-scroll").scrollTop = 0;
  scrollTo(0, 0);
  const enter = (part) => {
    const { tower, script } = partOf(lesson, part), lines = script.replace(/\n+$/, "").split("\n");
    const title = lesson.parts.length > 2 ? `${lesson.title} (${part})` : lesson.title;
    begin(tower || EMPTY_TOWER, "", { title, lines });
  };
  const enterBoth = async (part, place, second) => {
    const { tower } = partOf(lesson, part);
    await begin(tower, `0 join\n0 go main ${place}\n`, null);
    askForSecond(second);
  };
  putFigures(article, (it) => putFigure(it, lesson, enter, enterBoth));
  if (!showsAnswers || !answers) return;
  answers.open = true;
  answers.scrollIntoView({ block: "start" });
}
export function leaveStudy() {
  if (isStudying()) setLessonHash("");
  studied = "";
  document.body.classList.remove("studying");
  one("#study").hidden = true;
}
