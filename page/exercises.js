// The exercises of the lessons that tools/page packed: with which document each begins, which one
// comes next, and which are solved.
import { packedContents } from "./engine.js";
import { EMPTY_TOWER } from "./document.js";
import { remember, remembered } from "./kept.js";

export const allLessons = () => packedContents.lessons;
export const hashOfLesson = (lesson) => `#lesson-${allLessons().indexOf(lesson) + 1}`;
export const partOf = (lesson, name) => lesson.parts.find((it) => it.name === name);
// its tower, and its question and goals as comments
export function exerciseDocument(lesson, { number, title, text, parts }, part) {
  const { name, lines } = part || parts[0], { tower } = partOf(lesson, name);
  const head = [`# exercise: ${lesson.folder} ${number} ${title}`, `# ${text}`];
  return { tower: tower || EMPTY_TOWER, script: `${[...head, ...lines, "0 join"].join("\n")}\n` };
}
// the lesson and the exercise that a script's words name, or nothing
export function exerciseNamed(words) {
  const [folder, number] = words.split(" ");
  const lesson = allLessons().find((it) => it.folder === folder);
  const exercise = lesson?.exercises.find((it) => it.number === Number(number));
  return exercise ? { lesson, exercise } : null;
}
export function exerciseAfter({ lesson, exercise }) {
  const next = lesson.exercises.find((it) => it.number === exercise.number + 1 && it.parts.length);
  return next && { title: next.title, ...exerciseDocument(lesson, next) };
}
export function lessonAfter({ folder }) {
  const all = allLessons(), index = all.findIndex((it) => it.folder === folder);
  return (all[index + 1] || all[0]).folder;
}
const keyOf = (lesson, exercise) => `solved ${lesson.folder} ${exercise.number}`;
export const markSolved = ({ lesson, exercise }) => remember(keyOf(lesson, exercise), "yes");
export const isSolved = (lesson, exercise) => remembered(keyOf(lesson, exercise)) !== "";
