// A question about all answers: which operations each process makes; its text, as the program of
// all answers takes it; what that program prints, as data; and what is predicted. No browser.
import { FEW_VALUES } from "./measures.js";
import { between } from "./pages.js";

// how many lists are shown one by one, and guessed one by one
export const FEW_LISTS = 16;
const MOST_OPERATIONS = 6;
// the limits of states that are tried one after the other, so that one sees how far a search is
export const LIMITS = [16384, 131072, 1048576];
// `operations`: of each process its operations, as "r" or "w V"; `stops`: which processes may stop;
// `after`: [P, I, Q, J], operation I of P begins only after operation J of Q has ended
const emptyQuestion = (processes) =>
  ({ operations: Array.from({ length: processes }, () => []), stops: [], after: [] });
const isRead = (operation) => operation === "r";
// the value that a tower holds before any write
function initialOf(tower) {
  const [kind, ...numbers] = tower.split(" ");
  return ["stamped", "matrix"].includes(kind) ? 0 : Number(numbers.at(-1));
}
// a question to begin with: one write of another value, and two reads by one process
export function firstQuestion({ processes, values, reads, side }, tower) {
  const question = emptyQuestion(processes), initial = initialOf(tower);
  question.operations[0].push(`w ${initial === 0 ? 1 : 0}`);
  const reader = between(0, processes).find((it) => it !== 0 && reads(it));
  if (side) question.operations[1].push("w 0");
  question.operations[reader].push("r", ...(side || values > FEW_VALUES ? [] : ["r"]));
  return question;
}
export const hasRoom = ({ operations }, process) => operations[process].length < MOST_OPERATIONS;
export function textOf(tower, { operations, stops, after }, most) {
  const lines = operations.flatMap((its, process) =>
    (its.length ? [`process ${process} ${its.join(" ")}`] : []));
  const asked = [tower, ...lines, ...after.map((it) => `after ${it.join(" ")}`),
    ...stops.map((it) => `stop ${it}`), `most ${most}`];
  return `${asked.join("\n")}\n`;
}
// a question as comments and lessons write it: lines of the program's file, joined by "; "
export function questionIn(text, processes) {
  const question = emptyQuestion(processes);
  for (const line of text.split("; ")) {
    const [kind, ...words] = line.split(" "), numbers = words.map(Number);
    if (kind === "process" && question.operations[numbers[0]])
      question.operations[numbers[0]] = words.slice(1).join(" ").match(/w [0-9]+|r/g) || [];
    else if (kind === "after" && numbers.length === 4) question.after.push(numbers);
    else if (kind === "stop") question.stops.push(numbers[0]);
  }
  return question;
}
// the operations of a history, each with its process and its first and last step
export function operationsIn(events) {
  const live = new Map(), found = [];
  for (const { step, process, words } of events) {
    const [what, kind, value] = words.split(" "), it = live.get(process);
    if (what === "invoke") {
      live.set(process, { process, words: kind === "read" ? "r" : `w ${value}`, begun: step,
        ended: Infinity });
      found.push(live.get(process));
    } else if (it && ["return", "refused"].includes(what)) {
      it.ended = step;
      live.delete(process);
    }
  }
  return found;
}
// The question which values a read of a schedule could have given: by the operations that had begun
// when it ended, each of which begins only after those that had ended before it began there.
// `at`: the read's process, and its index among that one's operations.
export function questionOf(operations, processes, { process: reader, begun }) {
  const question = emptyQuestion(processes), its = question.operations, taken = [];
  const read = operations.find((it) => it.process === reader && it.begun === begun);
  for (const it of operations.filter((each) => each.begun <= read.ended)) {
    const { process } = it, index = its[process].length;
    const isBefore = (each) => each.of.process !== process && each.of.ended < it.begun;
    its[process].push(it.words);
    const last = new Map(taken.filter(isBefore).map((each) => [each.of.process, each.index]));
    for (const [other, at] of last) question.after.push([process, index, other, at]);
    taken.push({ of: it, index });
  }
  return { question, at: [reader, taken.find(({ of }) => of === read).index] };
}
// how many operations a question has
export const sizeOf = ({ operations }) => operations.flat().length;
// What the program printed: how many states it searched, and each list of answers with its
// schedule. A list has of each process with operations what they gave.
export function listsIn(output) {
  const lists = [];
  let states = 0;
  for (const line of output.split("\n").slice(0, -1)) {
    const [kind, ...words] = line.split(" ");
    if (kind === "states") states = Number(words[0]);
    else if (kind === "answers") lists.push({ answers: answersByProcess(words), steps: [] });
    else if (kind !== "lists" && line) lists.at(-1).steps.push(line);
  }
  return { states, lists };
}
function answersByProcess(words) {
  const found = new Map();
  let last = null;
  for (const word of words)
    if (/^p[0-9]$/.test(word)) found.set(Number(word[1]), last = []);
    else if (word !== "none") last.push(word);
  return found;
}
const WRITTEN = "written";
export const keyOf = (answers) =>
  [...answers].map(([process, its]) => `p${process} ${its.join(" ")}`).join(" ");
// the lists that can be guessed: every value for every read, and each write returns
export function guessable({ operations }, { values }) {
  const of = (operation) => (isRead(operation) ? between(0, values).map(String) : [WRITTEN]);
  const ways = operations.map((its) => its.reduce((made, it) =>
    (made.length > FEW_LISTS ? made : made.flatMap((list) => of(it).map((one) => [...list, one]))),
  [[]]));
  const count = ways.reduce((product, it) => product * it.length, 1);
  if (count > FEW_LISTS) return null;
  return ways.reduce((made, lists, process) => (operations[process].length
    ? made.flatMap((answers) => lists.map((it) => new Map([...answers, [process, it]]))) : made),
  [new Map()]);
}
// what a list says of each process: what its reads gave, and operations that were refused or that
// it never ended
export function wordsOf(answers, { operations }) {
  const word = (its, operation, index) => {
    const gave = its[index];
    if (gave === undefined) return index === its.length ? "stops" : "";
    if (gave.startsWith("spent")) return isRead(operation) ? "refused" : "write refused";
    return isRead(operation) ? gave : "";
  };
  return [...answers].map(([process, its]) => ({ process,
    words: operations[process].map((it, index) => word(its, it, index)).filter(Boolean) }))
    .filter(({ words }) => words.length);
}
const isRefused = (it) => it.startsWith("spent");
// what a list shows, in one word, if it is odd
export function oddityOf(answers, { operations }, tower) {
  const initial = initialOf(tower), writes = operations.flat().filter((it) => !isRead(it))
    .map((it) => Number(it.slice(2)));
  const reads = [...answers].map(([process, its]) => its.filter((it, index) =>
    isRead(operations[process][index]) && !isRefused(it)).map(Number));
  if (reads.flat().some((it) => it !== initial && !writes.includes(it))) return "stray";
  const [written] = writes, isOne = writes.length === 1 && written !== initial;
  const isInverted = (its) => its.includes(written)
    && its.lastIndexOf(initial) > its.indexOf(written);
  return isOne && reads.some(isInverted) ? "inversion" : "";
}
// one entry for each list of one process's answers, with its shortest schedule
export function groupedBy(process, lists) {
  const found = new Map();
  for (const it of lists) {
    const key = (it.answers.get(process) || []).join(" "), group = found.get(key);
    if (!group) found.set(key, { key, count: 1, list: it });
    else group.count++;
  }
  return [...found.values()];
}
const SENTENCES = [
  [/more than ([0-9]+) states: leave out process ([0-9]), shorten process ([0-9])/,
    (count, last, longest) => `There are more than ${count} states, too many to search: leave out `
      + `p${last}, or give p${longest} fewer operations.`],
  [/in a cycle/, () => "These operations wait for each other in a cycle: none of them begins."],
  [/: memory|line 0: 40/, () =>
    "The search ran out of memory: leave out a process or an operation."]];
export function sentenceOf(errors) {
  const [pattern, sentence] = SENTENCES.find(([it]) => it.test(errors)) || [];
  return sentence ? sentence(...pattern.exec(errors).slice(1))
    : `The search failed: ${errors.trim()}`;
}
export const isTooMany = (errors) => /more than [0-9]+ states/.test(errors);
