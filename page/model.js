// What the program says of a document: its answer to each line, the branches, the cursors, and
// the pages that were asked for.
import { placeOf } from "./document.js";
import { SESSIONS } from "./grammar.js";
import { grown } from "./grown.js";
import { looksAfterEdits, looksAfterMove } from "./guesses.js";
import { Codes } from "./layers.js";
import { LOOK, answersIn, between, cursorIn, firstDifference, forestIn } from "./pages.js";
import { pageIn, pairedAnswers, quoted, sharedCells } from "./pages.js";
import { faultInWords, refusalOf } from "./refusals.js";
import { shapeOf } from "./towers.js";

const EVERY_SESSION = between(0, SESSIONS);
// at most this many lines of pages are kept
const MOST_KEPT = 2000000;
// a file with more steps than the program takes by default is run with a higher limit
const USUAL_CELLS = 65536, MORE_CELLS = ["--cells", "16777216"];
// how many pages were asked for, in how many runs, and how many lines these wrote in all
export const spent = { pages: 0, runs: 0, lines: 0 };
const countLines = (text) => text.split("\n").length - 1;
// `isSaved` asks for the branches' next version too, which takes time if the document is large
async function answered(ask, tower, script, isSaved = false) {
  const isBig = tower.length > USUAL_CELLS && countLines(tower) - 2 > USUAL_CELLS;
  const made = await ask(tower, script, { isSaved, ...(isBig ? { words: MORE_CELLS } : {}) });
  spent.runs++;
  spent.lines += countLines(made.output) + countLines(made.bench);
  if (made.fault) throw new Error(made.fault);
  if (made.status !== 0) throw new Error(faultInWords(made.errors, made.status));
  return made;
}
// The branches that a run of a document leaves: the expected ones, if the program's page of
// branches has their names and lengths, as it does if it refuses no line; else those that it saves.
async function forestAfter(document, ask, made, expected, listed) {
  const names = expected?.branches.map((it) => `${it.name} ${it.length}`);
  if (expected && names.join() === listed?.lines.join()) return expected;
  const saved = expected ? await answered(ask, document.tower, document.script, true) : made;
  return forestIn(saved.bench);
}
const linesOf = (lines) => lines.map((line) => `${line}\n`).join("");
export class Model {
  // The answers to a document; throws a fault of the file, or of the whole run. Keeps the pages of
  // `before` that are still right.
  static async of(document, ask, before) {
    const expected = before && grown(before, document);
    const guess = expected === before ? looksAfterMove : looksAfterEdits;
    const guessed = before ? guess(before, document) : [];
    const looks = [...EVERY_SESSION.map((who) => `${who} cursor`), `${LOOK} branches`,
      ...guessed.map((it) => `${LOOK} ${it}`)];
    const asked = [...document.lines, ...looks];
    const made = await answered(ask, document.tower, linesOf(asked), !expected);
    const found = pairedAnswers(asked, answersIn(made.output));
    const listed = found[document.lines.length + SESSIONS];
    const forest = await forestAfter(document, ask, made, expected, listed);
    const isSame = before?.bench === forest.bench;
    const model = new Model(document, ask, forest, isSame ? before.pages : new Map());
    model.readAnswers(found);
    if (before && !isSame) model.keep(before);
    guessed.forEach((look, at) => model.take(look, found.at(at - guessed.length)));
    return model;
  }
  constructor(document, ask, { bench, tower, branches }, pages) {
    const shape = shapeOf(tower), codes = new Codes(shape);
    // `sought`: the looks that the picture asks for; `faults`: sentences on looks without a page
    Object.assign(this, { document, ask, bench, tower, branches, pages, shape, codes });
    Object.assign(this, { faults: [], sought: [] });
    this.byName = new Map(branches.map((it) => [it.name, it]));
  }
  // `found`: the answers to the document's lines, to each session's `cursor`, and to `branches`
  readAnswers(found) {
    const { document } = this, count = document.lines.length;
    this.answers = found.slice(0, count);
    this.cursors = EVERY_SESSION.map((who) => this.cursorOf(found[count + who]));
    // the page `branches`: its first line, and a line for each branch
    const { first = "", lines = [] } = found[count + SESSIONS] || {};
    this.branchLines = [first.replace(/^[0-9]+: /, ""), ...lines];
    const wordsOf = (it, index) => it && refusalOf(it.first, document.lines[index]);
    const refused = this.answers.map((it, index) =>
      ({ line: index + 1, words: wordsOf(it, index) }));
    this.refusals = refused.filter((it) => it.words);
  }
  cursorOf(found) {
    const cursor = found && cursorIn(found), branch = cursor && this.branch(cursor.name);
    return branch && cursor.place <= branch.length ? cursor : null;
  }
  branch(name) { return this.byName.get(name); }
  // where a session is: at the place that the last line is about, at its cursor, or at the end of
  // the first branch
  placeOf(who) {
    const cursor = this.cursors[who], [first] = this.branches;
    const at = this.placeOfLastLine(who) || cursor || { name: first.name, place: first.length };
    const isAtCursor = Boolean(cursor) && cursor.name === at.name && cursor.place === at.place;
    return { ...at, branch: this.branch(at.name), breaks: cursor ? cursor.breaks : [],
      isJoined: Boolean(cursor), isAtCursor };
  }
  // the place that the last line is about, if it is a session's own and isn't refused
  placeOfLastLine(who) {
    const { lines } = this.document, last = lines.findLastIndex((it) => it && it[0] !== "#");
    const line = placeOf(lines[last]), isRefused = this.refusals.at(-1)?.line === last + 1;
    const branch = line && line.who === who && !isRefused && this.branch(line.name);
    return branch && { name: branch.name, place: Math.min(line.place, branch.length) };
  }
  othersThan(branch) { return this.branches.filter((it) => it !== branch); }
  // the other branches that hold a branch's step too
  sharers(branch, index) {
    return this.othersThan(branch).filter((it) => sharedCells(it, branch) > index);
  }
  // how many of a branch's first steps other branches hold too
  sharedSteps(branch) {
    return Math.max(0, ...this.othersThan(branch).map((it) => sharedCells(it, branch)));
  }
  // a page depends on the steps up to its place alone, so those of equal steps stay
  keep(before) {
    if (before.tower !== this.tower) return;
    const equal = new Map(before.branches.map((old) => [old.name, this.equalSteps(old)]));
    for (const [key, page] of before.pages) {
      const [, name, place] = key.split(" ");
      if (Number(place) <= equal.get(name)) this.pages.set(key, page);
    }
  }
  // how many first steps of a branch are equal in both models; -1: it is gone
  equalSteps(old) {
    const branch = this.branch(old.name);
    return branch ? firstDifference(old, branch, 0) : -1;
  }
  // branches that share their steps up to a place share its page
  key(kind, name, place) { return `${kind} ${this.branch(name).owner(place).name} ${place}`; }
  page(kind, name, place) { return this.pages.get(this.key(kind, name, place)); }
  // gets those of these pages that aren't there yet; each is a kind, a branch's name and a place
  async look(looks) {
    const keys = new Set(looks.map((it) => this.key(...it)));
    const wanted = [...keys].filter((it) => !this.pages.has(it));
    const kept = [...this.pages.values()].reduce((sum, { lines }) => sum + lines.length, 0);
    if (kept > MOST_KEPT)
      for (const key of this.pages.keys()) if (!keys.has(key)) this.pages.delete(key);
    if (!wanted.length) return;
    spent.pages += wanted.length;
    const script = linesOf(wanted.map((it) => `${LOOK} ${it}`));
    const found = answersIn((await answered(this.ask, this.bench, script)).output);
    wanted.forEach((look, index) => {
      const words = quoted(found[index]?.first || "nothing");
      if (!this.take(look, found[index]))
        this.faults.push(`To the look ${look} the program answered ${words}`);
    });
  }
  // keeps the page that answers a look, and says whether there is one
  take(look, found) {
    if (!found?.first.startsWith(`${LOOK}: ${look} of `)) return false;
    const [kind, name, place] = look.split(" ");
    this.pages.set(this.key(kind, name, Number(place)), pageIn(kind, found.lines));
    return true;
  }
}
// How many of these steps a process needs to the end of its operation, or to a choice; null if
// neither comes.
export async function stepsToEnd({ ask, bench }, commands, at, process, most) {
  // an edit needs a session that can join
  const end = `${LOOK} history ${at.name} ${at.place + most}`;
  const lines = [...commands.map((it) => `0 ${it}`), end];
  const found = answersIn((await answered(ask, bench, linesOf(lines))).output).at(-1);
  for (const { step, process: who, words } of pageIn("history", found ? found.lines : []).events) {
    if (step < at.place || who !== process) continue;
    return step - at.place + (words.startsWith("chosen") ? 0 : 1);
  }
  return null;
}
