// Decides goals and questions of scripts, and of attempts at them, as the page does.
// usage: node goals.mjs PROGRAM FOLDER < TASKS     next to page/; files are written to FOLDER
// TASKS: [{ name, tower, script, attempts: [{ number, isRight, what, lines }] }]. Prints a line of
// JSON of each: `exercises` and `goals`, numbers that have them, and `faults`, sentences.
import { spawnSync } from "node:child_process";
import { readFileSync, writeFileSync } from "node:fs";
import { Document } from "./page/document.js";
import { metGoals } from "./page/goals.js";
import { inWords } from "./page/goalwords.js";
import { Model } from "./page/model.js";
import { taskOf } from "./page/tasks.js";

const [program, folder] = process.argv.slice(2);
async function ask(tower, script, { words = [] } = {}) {
  const [given, saved] = [`${folder}/given`, `${folder}/saved`];
  writeFileSync(given, tower);
  const options = { input: script, maxBuffer: 2 ** 28 };
  const ran = spawnSync(program, [...words, given, "--save", saved], options);
  const bench = ran.status === 0 ? readFileSync(saved, "utf8") : "";
  return { status: ran.status, output: String(ran.stdout), errors: String(ran.stderr), bench };
}
const modelOf = (tower, script) => Model.of(Document.of(tower, script), ask);
const isQuoted = (goal) => / page \w+ (?:has|doesn't have) /.test(inWords(goal));
function faultOfGoal(goal, isMet) {
  if (goal.fault) return `${goal.text}: ${goal.fault}`;
  if (!isMet) return `the script doesn't meet: ${goal.text}`;
  return isQuoted(goal) ? `no words for: ${goal.text}` : null;
}
function faultsOfGoals(goals, before, after) {
  const faults = goals.map((it, index) => faultOfGoal(it, after[index]));
  for (const number of new Set(goals.map((it) => it.number)))
    if (goals.every((it, index) => it.number !== number || before[index]))
      faults.push(`exercise ${number} is solved at its start`);
  return faults.filter(Boolean);
}
async function faultsOfQuestions(asks, start) {
  const faults = [];
  for (const { text, number, options } of asks) {
    const goals = options.map((it) => it.goal).filter(Boolean);
    const right = await metGoals(goals, start);
    faults.push(...goals.filter((it) => it.fault).map((it) => `${it.text}: ${it.fault}`));
    const many = right.filter(Boolean).length;
    if (goals.length && many !== 1)
      faults.push(`exercise ${number}: "${text}" has ${many} right answers`);
  }
  return faults;
}
async function faultOfAttempt(tower, goals, { number, isRight, what, lines }) {
  const made = await modelOf(tower, lines.map((it) => `${it}\n`).join(""));
  const [refused] = made.refusals, named = `exercise ${number}, ${what}`;
  if (refused) return `${named}: line ${refused.line} is refused, ${refused.words}`;
  const met = await metGoals(goals.filter((it) => it.number === number), made);
  if (!met.length) return `${named}: it has no goal`;
  if (met.every(Boolean) === isRight) return null;
  return `${named}: this ${isRight ? "doesn't meet" : "meets"} the goals`;
}
for (const { name, tower, script, attempts } of JSON.parse(readFileSync(0, "utf8"))) {
  const { goals, asks } = taskOf(script.split("\n"));
  const [start, end] = [await modelOf(tower, ""), await modelOf(tower, script)];
  const faults = faultsOfGoals(goals, await metGoals(goals, start), await metGoals(goals, end));
  faults.push(...await faultsOfQuestions(asks, start));
  for (const it of attempts) faults.push(await faultOfAttempt(tower, goals, it));
  const numbers = (list) => [...new Set(list.map((it) => it.number))];
  console.log(JSON.stringify({ name, faults: faults.filter(Boolean), goals: numbers(goals),
    exercises: numbers([...goals, ...asks]) }));
}
