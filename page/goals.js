// Goals: what must hold on a document's branches, decided by the program's pages alone. The page
// and tests/exercises.py decide by this code.
//   GOAL   = SCOPE ":" GROUP {";" GROUP}                 SCOPE = some | every | a branch's name
//   GROUP  = ["same" ("read" | "write") ":"] CLAUSE {"," CLAUSE}
//   CLAUSE = PAGE [PLACE] "has" ["no" | COUNT] "WORDS" {"then" "WORDS"}
// A page is that of PLACE, or of the branch's end. WORDS are whole words in a row of one line, and
// after `then` of a later line; COUNT: exactly as many lines. One branch meets all groups. Clauses
// after `same read:` are about one read: the events from its invocation to its end, and its
// verdict; after `same write:` about one write, and the verdicts of reads that return during it.
import { NAME } from "./grammar.js";

const SCOPE = new RegExp(`^${NAME}$`);
const OF_PLACES = ["verdict", "history", "state", "bits", "pending"];
const PAGES = [...OF_PLACES, "steps", "branches", "cursor"], OF_OPERATIONS = ["verdict", "history"];
const TOKEN = /"([^"]*)"|[a-z][a-z0-9]*|[0-9]+|[:;,]|\S/g, NUMBER = /^[0-9]{1,9}$/;
const MOST_TEXT = 2000;

class Unreadable extends Error {}
class Tokens {
  constructor(text) {
    this.left = [...text.matchAll(TOKEN)].map(([whole, inside]) => ({ whole, inside })).reverse();
  }
  get next() { return this.left.at(-1)?.whole ?? ""; }
  take() { return this.left.pop() || { whole: "" }; }
  takes(word) { return this.next === word && Boolean(this.left.pop()); }
  number() { return NUMBER.test(this.next) ? Number(this.take().whole) : null; }
  need(word) {
    if (this.takes(word)) return;
    throw new Unreadable(`${word} is missing before ${this.next || "its end"}`);
  }
}
function patternIn(tokens) {
  const { whole, inside } = tokens.take();
  if (!inside?.trim())
    throw new Unreadable(`words in quotation marks are missing before ${whole || "its end"}`);
  return inside.trim().split(/ +/);
}
function clauseIn(tokens, operation) {
  const page = tokens.take().whole, known = operation ? OF_OPERATIONS : PAGES;
  if (!known.includes(page))
    throw new Unreadable(`${page || "nothing"} is none of ${known.join(", ")}`);
  const place = tokens.number();
  tokens.need("has");
  const count = tokens.takes("no") ? 0 : tokens.number(), patterns = [patternIn(tokens)];
  while (tokens.takes("then")) patterns.push(patternIn(tokens));
  if (count && patterns.length > 1) throw new Unreadable("a count goes with one pattern");
  return { page, place, count, patterns };
}
function groupIn(tokens) {
  const operation = tokens.takes("same") ? tokens.take().whole : "", clauses = [];
  if (operation && !["read", "write"].includes(operation))
    throw new Unreadable(`after same comes read or write, not ${operation}`);
  if (operation) tokens.need(":");
  do clauses.push(clauseIn(tokens, operation)); while (tokens.takes(","));
  return { operation, clauses };
}
// a goal as data; one that can't be read has `fault`, a sentence
export function goalIn(text) {
  try {
    if (text.length > MOST_TEXT) throw new Unreadable(`it is longer than ${MOST_TEXT} characters`);
    const tokens = new Tokens(text), scope = tokens.take().whole, groups = [];
    if (!SCOPE.test(scope))
      throw new Unreadable("it begins with some, every or a branch's name");
    tokens.need(":");
    do groups.push(groupIn(tokens)); while (tokens.takes(";"));
    if (tokens.next) throw new Unreadable(`${tokens.next} is too much`);
    return { text, scope, groups };
  } catch (fault) {
    if (!(fault instanceof Unreadable)) throw fault;
    return { text, scope: "", groups: [], fault: fault.message };
  }
}
function hasWords(words) {
  const wanted = ` ${words.join(" ")} `;
  return (line) => ` ${line} `.includes(wanted);
}
function areInOrder(lines, patterns) {
  let at = 0;
  return patterns.every((words) => {
    const has = hasWords(words), found = lines.findIndex((line, index) => index >= at && has(line));
    at = found + 1;
    return found >= 0;
  });
}
function holds({ count, patterns }, lines) {
  if (count === null) return areInOrder(lines, patterns);
  return count ? lines.filter(hasWords(patterns[0])).length === count
    : !areInOrder(lines, patterns);
}
function branchesOf({ scope }, { branches }) {
  return ["some", "every"].includes(scope) ? branches : branches.filter((it) => it.name === scope);
}
const placeOn = ({ place }, branch) => place ?? branch.length;
function looksOfGroup({ operation, clauses }, branch) {
  const { name, length } = branch, its = clauses.filter((it) => OF_PLACES.includes(it.page));
  const looks = its.map((it) => [it.page, name, placeOn(it, branch)]);
  return [...looks.filter(([, , place]) => place <= length),
    ...(operation ? [["history", name, length]] : [])];
}
// the pages that goals need, as a model takes them
export function looksFor(goals, model) {
  return goals.flatMap((goal) => branchesOf(goal, model).flatMap((branch) =>
    goal.groups.flatMap((it) => looksOfGroup(it, branch))));
}
// the operations of a kind: each with its process, and its first and last event
function operationsOfKind(events, kind) {
  const live = new Map(), found = [];
  events.forEach(({ process, words }, index) => {
    const [what, of] = words.split(" "), it = live.get(process);
    if (what === "invoke" && of === kind) {
      live.set(process, { process, kind, first: index, last: events.length - 1 });
      found.push(live.get(process));
    } else if (it && ["return", "refused"].includes(what)) {
      it.last = index;
      live.delete(process);
    }
  });
  return found;
}
const numbered = (lines) => new Map(lines.map((it) => [it.slice(0, it.indexOf(" ")), it]));
// what a page says of an operation: its events, or the verdicts of reads that end during it
function linesOf({ process, kind, first, last }, events, { page, place }, byStep) {
  const its = events.slice(first, last + 1).filter((it) => it.step < (place ?? Infinity));
  if (page === "history") return its.map((it) => it.line);
  const isOurs = (it) => kind === "write" || it.process === process;
  const isEnd = (it) => it.words.startsWith("return ") && isOurs(it);
  return its.filter(isEnd).map((it) => byStep.get(String(it.step))).filter(Boolean);
}
function linesFor(clause, branch, model) {
  const { page } = clause, place = placeOn(clause, branch), { name } = branch;
  if (place > branch.length) return null;
  if (page === "steps") return branch.steps.slice(0, place).map((it, index) => `${index} ${it}`);
  if (page === "branches") return model.branchLines;
  if (page === "cursor") return model.cursors.flatMap((it, who) =>
    (it?.name === name ? [`${who} ${name} ${it.place}`, ...it.breaks] : []));
  return model.page(page, name, place)?.lines || null;
}
function isMetOn({ operation, clauses }, branch, model) {
  const given = clauses.map((it) => linesFor(it, branch, model));
  if (given.includes(null)) return false;
  if (!operation) return clauses.every((it, index) => holds(it, given[index]));
  const { events = [] } = model.page("history", branch.name, branch.length) || {};
  const byStep = given.map(numbered);
  return operationsOfKind(events, operation).some((of) => clauses.every((it, index) =>
    holds(it, linesOf(of, events, it, byStep[index]))));
}
// whether what the model has meets a goal; the pages must be there
export function isMet(goal, model) {
  const of = branchesOf(goal, model);
  const isOn = (branch) => goal.groups.every((it) => isMetOn(it, branch, model));
  if (goal.fault || !of.length) return false;
  return goal.scope === "every" ? of.every(isOn) : of.some(isOn);
}
export async function metGoals(goals, model) {
  await model.look(looksFor(goals, model));
  return goals.map((it) => isMet(it, model));
}
