// An exercise as comment lines of a script: what is asked and predicted, and goals (goals.js).
//   # exercise: FOLDER NUMBER TITLE     # goal: GOAL              # student: NAME
//   # ask: QUESTION                     # option: WORDS [if GOAL] # predicted: WORDS
//   # tower: LINE; LINE; ..           # start: how many lines it began with, once it is predicted
// Other comments before the first command are the question's text. A number after the kind says
// which exercise of a lesson the line is of, as in `# goal 3: ..`. Of a question's options the
// right one is the one whose goal holds at the start: the program decides that, too.
import { goalIn } from "./goals.js";

const KINDS = "goal|ask|option|predicted|student|exercise|tower|start";
const DATA_LINE = new RegExp(`^# (${KINDS})(?: ([0-9]{1,3}))?: (.*)$`);
const MOST = { goals: 40, asks: 12, options: 12, text: 40 };
const isComment = (line) => line.startsWith("#");
export const isData = (line) => isComment(line) && DATA_LINE.test(line);
// how many lines come before the first command
export function headOf(lines) {
  const found = lines.findIndex((it) => it && !isComment(it));
  return found < 0 ? lines.length : found;
}
function optionIn(text) {
  const [, words, goal] = /^(.*?)(?: if (\S+: .*))?$/.exec(text);
  return { words, goal: goal ? goalIn(goal) : null };
}
const TAKES = {
  goal: ({ goals }, text, number) =>
    goals.length < MOST.goals && goals.push({ ...goalIn(text), number }),
  ask: ({ asks }, text, number) =>
    asks.length < MOST.asks && asks.push({ text, number, options: [] }),
  option: ({ asks }, text) => asks.length && asks.at(-1).options.length < MOST.options &&
    asks.at(-1).options.push(optionIn(text)),
  predicted: ({ predicted }, text, number) => predicted.set(number, text),
};
function readTask(lines) {
  const task = { text: [], goals: [], asks: [], predicted: new Map(), student: "", exercise: "",
    tower: "", start: "", left: 0 };
  const head = headOf(lines);
  lines.forEach((line, index) => {
    if (!isComment(line)) return;
    const [, kind, digits, text] = DATA_LINE.exec(line) || [];
    if (TAKES[kind]) task.left += !TAKES[kind](task, text, Number(digits || 0));
    else if (kind) task[kind] ||= text;
    else if (index < head && task.text.length < MOST.text) task.text.push(line.replace(/^# ?/, ""));
  });
  task.isTask = Boolean(task.goals.length || task.asks.length);
  return task;
}
const knownTasks = new WeakMap();
// what a script's comments ask; `left`: how many lines of it were too many
export function taskOf(lines) {
  if (!knownTasks.has(lines)) knownTasks.set(lines, readTask(lines));
  return knownTasks.get(lines);
}
export const isPredicted = ({ asks, predicted }) => asks.every((it) => predicted.has(it.number));
// the tower file that a script names, or nothing
export const towerIn = ({ tower }) => tower && `${tower.split("; ").join("\n")}\n`;
export const towerLine = (tower) => `# tower: ${tower.trim().split("\n").join("; ")}`;
// a script's lines with another one after its comments
export function withHeadLine(lines, line) {
  const head = headOf(lines);
  return [...lines.slice(0, head), line, ...lines.slice(head)];
}
const isAnswer = (line) => /^# (predicted|student|start)(?: [0-9]+)?:/.test(line);
const commandsIn = (lines) => lines.filter((it) => it && !isComment(it));
// the comment that says how many of a script's lines were there when it was opened, if there are
// steps among them and nothing is predicted yet
export function startLine(opened) {
  const count = commandsIn(opened).length;
  return count > 1 && !taskOf(opened).predicted.size ? `# start: ${count}` : "";
}
// the lines with which an exercise begins: its comments, without what somebody answered, and the
// steps that it had
export function startOf(lines) {
  const head = lines.slice(0, headOf(lines)).filter((it) => !isAnswer(it));
  const count = Number(taskOf(lines).start) || 0;
  return [...head, ...(count ? commandsIn(lines).slice(0, count) : ["0 join"])];
}
// whether a script has comments and moves alone, so that nobody has worked on it
export const isUntouched = (lines) => lines.every((it) =>
  it === "" || (isComment(it) && !isAnswer(it)) || /^[0-9]+ (join|go)\b/.test(it));
