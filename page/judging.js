// What a file that somebody handed in is judged by: the exercise that is open, or else the packed
// one that the file names, or else what the file itself asks. Its own goals, options and tower
// count in the last case alone.
import { answer } from "./engine.js";
import { openedLines } from "./back.js";
import { Document } from "./document.js";
import { exerciseDocument, exerciseNamed } from "./exercises.js";
import { metGoals } from "./goals.js";
import { Model } from "./model.js";
import { startLine, startOf, taskOf } from "./tasks.js";
import { now } from "./state.js";

const NO_GOAL = { scope: "", groups: [] };
const isSameFile = (one, other) => one.trim() === other.trim();
const isBench = (text) => text.startsWith("bench ");
// which options of each question are right: those that hold on the document as it begins
export async function rightOptions(asks, tower, script) {
  const model = await Model.of(Document.of(tower, script), answer);
  const of = ({ options }) => metGoals(options.map((it) => it.goal || NO_GOAL), model);
  return Promise.all(asks.map(of));
}
// the lines with which a script begins, if it has steps of its own then
export const startScript = (lines) => `${startOf(lines).join("\n")}\n`;
// `key`: files of the same key are judged by the same; `title`: an exercise's number, if it has one
const judgeOf = (by, tower, task, start, key, title = "") =>
  ({ by, tower, start, key, title, goals: task.goals, asks: task.asks });
function openStart(lines, task) {
  const opened = openedLines(), line = startLine(opened);
  if (task.start) return startScript(lines);
  return line ? startScript([line, ...opened]) : "";
}
// the exercise that is open, or nothing
export function openJudge() {
  const { document: { tower, lines } } = now, task = taskOf(lines);
  return task.isTask ? judgeOf("open", tower, task, openStart(lines, task), "open") : null;
}
function packedJudge({ lesson, exercise }, { tower, isNamed }) {
  const made = exercise.parts.map((it) => exerciseDocument(lesson, exercise, it));
  const found = made.find((it) => isNamed && isSameFile(it.tower, tower)) || made[0];
  const task = taskOf(Document.of("", found.script).lines);
  return judgeOf("packed", found.tower, task, "", `${task.exercise} ${made.indexOf(found)}`,
    `${lesson.title.split(".")[0]}.${exercise.number}`);
}
function judgeFor(file, task, open) {
  const of = open ? null : exerciseNamed(task.exercise);
  if (open) return open;
  if (of && of.exercise.parts.length) return packedJudge(of, file);
  const start = task.start ? startScript(Document.of("", file.script).lines) : "";
  return judgeOf("own", file.tower, task, start, `own ${file.name}`);
}
// whether a document is on the judge's tower, and begins with its steps as far as its file says so
async function isOnTower({ tower }, model, judge) {
  if (!isBench(tower)) return isSameFile(tower, judge.tower);
  const { tower: line } = await Model.of(Document.of(judge.tower, ""), answer);
  return line === model.tower;
}
// each predicted answer, and whether it is right if its question has options
async function predictions(task, judge) {
  const { asks, tower, start } = judge, isAny = asks.some((it) => task.predicted.has(it.number));
  const right = isAny ? await rightOptions(asks, tower, start) : [];
  return asks.filter((it) => task.predicted.has(it.number)).map((ask) => {
    const words = task.predicted.get(ask.number), { options } = ask;
    const isRight = right[asks.indexOf(ask)].some((it, at) => it && options[at].words === words);
    return { words, isRight: options.some((it) => it.goal) ? isRight : null };
  });
}
// a file as it is judged; a fault of it is thrown
export async function judgedFile(file, open) {
  const task = taskOf(Document.of("", file.script).lines), judge = judgeFor(file, task, open);
  const tower = file.isNamed ? file.tower : judge.tower;
  const model = await Model.of(Document.of(tower, file.script), answer);
  const isOn = await isOnTower({ tower }, model, judge), found = await metGoals(judge.goals, model);
  return { ...file, tower, model, judge, isOn, met: found.map((it) => it && isOn),
    student: task.student, predicted: await predictions(task, judge) };
}
