// What the program's answers say, as data. Nothing is worked out that no page says; a line that
// isn't known is noted.
import { framesIn } from "./frames.js";
import { NAME, NUMBER, STEP, whole } from "./grammar.js";

// the session that asks for pages: none that can join, and none that a script uses
export const LOOK = 999999999;
const NEXT_ACTION = `next (ws|we|rs|re) (${NUMBER})`;
const PROCESS = whole(`p([0-9]) (idle|read|write (${NUMBER}))(?: (stopped)| ${NEXT_ACTION})?`);
const HAPPENS = ["invoke read", `invoke write ${NUMBER}`, `return ${NUMBER}`, "return written",
  "stop", "void (?:busy|idle|stopped)", `chosen bit ${NUMBER} value [01]`,
  "refused spent (?:stamped|matrix)"];
const EVENT = whole(`(${NUMBER}) p([0-9]) (${HAPPENS.join("|")})`);
const CELL = whole(`(${NUMBER}) ([01]) ([01-]) ([rh-])`);
const WORDS = whole(`words (?:-|${NUMBER}(?: ${NUMBER})*)`);
const BITS = /^bits [01]+$/;
const VERDICT = whole(`(${NUMBER} p[0-9] ${NUMBER}) (fresh|overlap|stray)`);
const UNDEFINED = "undefined for matrix";
const STEP_LINE = whole(STEP), BRANCH = whole(`branch (${NAME}) (${NUMBER}) (${NUMBER})`);
const CURSOR = whole(`${NUMBER}: cursor (\\S+) (${NUMBER}) breaks ${NUMBER}`);
// the beginning of a line, for a sentence that quotes it
const MOST_QUOTED = 60;
export const quoted = (line) => line.slice(0, MOST_QUOTED);
export const between = (from, to) =>
  [...Array(Math.max(0, to - from)).keys()].map((it) => it + from);
// each answer, its first line and the others; a last line that is cut off isn't one
export function answersIn(output) {
  const found = [];
  for (const line of output.split("\n").slice(0, -1))
    if (line.startsWith("  ") && found.length) found.at(-1).lines.push(line.slice(2));
    else found.push({ first: line, lines: [] });
  return found;
}
// the answer to each line of a script, or null for one that has none
export function pairedAnswers(lines, found) {
  let count = 0;
  return lines.map((line) => (line === "" || line.startsWith("#") ? null : found[count++] || null));
}
export function cursorIn({ first, lines }) {
  const match = CURSOR.exec(first);
  return match && { name: match[1], place: Number(match[2]), breaks: lines };
}
// A branch: the first cells of its parent, which both share, and then cells of its own.
class Branch {
  constructor(name, parent, shared, index) {
    Object.assign(this, { name, parent, shared, index, own: [] });
  }
  get length() { return this.shared + this.own.length; }
  step(index) {
    const { parent, shared, own } = this;
    return index < shared ? parent.step(index) : own[index - shared];
  }
  get steps() {
    const { parent, shared, own } = this;
    return [...(parent ? parent.steps.slice(0, shared) : []), ...own];
  }
  // the branch that had the first cells, up to a place, before all others
  owner(place) { return this.shared && place <= this.shared ? this.parent.owner(place) : this; }
}
// a bench file as data: its text, its tower, and its branches with what they share
export function forestIn(bench) {
  const [, tower = "", ...lines] = bench.split("\n").slice(0, -1), branches = [];
  for (const line of lines) {
    const match = line.startsWith("b") && BRANCH.exec(line), begin = quoted(line);
    if (match) {
      const shared = Number(match[3]), parent = shared ? branches[match[2]] : null;
      if (shared > (parent ? parent.length : 0))
        throw new Error(`A branch shares steps that aren't there: ${begin}`);
      branches.push(new Branch(match[1], parent, shared, branches.length));
    } else if (STEP_LINE.test(line) && branches.length) branches.at(-1).own.push(line);
    else throw new Error(`The saved branches have a line that isn't known: ${begin}`);
  }
  if (!branches.length) throw new Error("The program saved no branches.");
  return { bench, tower, branches };
}
// the same branches as new ones, which may be changed
export function copiesOf(branches) {
  const copies = [];
  for (const { name, parent, shared, index, own } of branches) {
    const copy = new Branch(name, parent && copies[parent.index], shared, index);
    copies.push(Object.assign(copy, { own: own.slice() }));
  }
  return copies;
}
// the bench file that a tower and its branches are saved as
export function benchOf(tower, branches) {
  const lines = branches.map(({ name, parent, shared, own }) =>
    [`branch ${name} ${parent ? parent.index : 0} ${shared}`, ...own]);
  return `${["bench 1", tower, ...lines.flat()].join("\n")}\n`;
}
// how many cells two branches share: the later one begins with cells of its parent, and shares no
// others
export function sharedCells(a, b) {
  if (a === b) return a.length;
  const [earlier, later] = a.index < b.index ? [a, b] : [b, a];
  return later.shared && Math.min(later.shared, sharedCells(later.parent, earlier));
}
// the first step in which two branches differ; the first `at` are known to be equal
export function firstDifference(a, b, at = sharedCells(a, b)) {
  while (at < a.length && at < b.length && a.step(at) === b.step(at)) at++;
  return at;
}
function processIn(line) {
  const match = PROCESS.exec(line);
  if (!match) return null;
  const [, number, doing, value, stopped, action, bit] = match, [kind] = doing.split(" ");
  return { number: Number(number), kind, doing, value, isStopped: Boolean(stopped), action,
    bit: bit && Number(bit) };
}
// equal texts are one object, so that comparing them takes no time
const CELL_TEXTS = new Map();
const sharedText = (words) => CELL_TEXTS.get(words) || CELL_TEXTS.set(words, words).get(words);
// what each kind of page is at first, and how it takes a line, if it knows it
const PAGES = {
  // `bits` has a digit for each bit
  state: [() => ({ processes: [], words: "", bits: "" }), (page, line) => {
    const found = processIn(line), isWords = !found && WORDS.test(line);
    if (found) page.processes.push(found);
    else if (isWords) page.words = line;
    else if (BITS.test(line)) page.bits = line.slice("bits ".length);
    else return false;
    return true;
  }],
  // `cells` has for each bit its value, what is being written and whether it is read, as `0 1 h`
  bits: [() => ({ cells: [] }), (page, line) => {
    const space = line.indexOf(" "), number = Number(line.slice(0, space));
    const isNext = number === page.cells.length && CELL.test(line);
    if (isNext) page.cells.push(sharedText(line.slice(space + 1)));
    return isNext || WORDS.test(line);
  }],
  history: [() => ({ events: [] }), (page, line) => {
    const match = EVENT.exec(line), [, step, process, words] = match || [];
    if (match) page.events.push({ step: Number(step), process: Number(process), words, line });
    return match || line === "none";
  }],
  verdict: [() => ({ verdicts: new Map(), isUndefined: false }), (page, line) => {
    const match = VERDICT.exec(line);
    if (match) page.verdicts.set(match[1], match[2]);
    page.isUndefined ||= line === UNDEFINED;
    return match || line === "none" || line === UNDEFINED;
  }],
  // `frames` has the frames of each process
  pending: [() => ({ frames: [] }), (page, line) => {
    const found = framesIn(line);
    if (found) page.frames[found.process] = found.frames;
    return found;
  }],
};
export function pageIn(kind, lines) {
  const [first, take] = PAGES[kind], page = first();
  return Object.assign(page, { lines, unknown: lines.filter((it) => !take(page, it)) });
}
