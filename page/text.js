// The text next to the picture: the pages at the cursor, the script and the tower file, and the
// schedule as a table.
import { putAnswers } from "./answers.js";
import { Document } from "./document.js";
import { ACTIONS } from "./deck.js";
import { FEW_CELLS } from "./measures.js";
import { memoryCard } from "./memory.js";
import { between } from "./pages.js";
import { reasonOf } from "./reading.js";
import { all, element, one, putIfChanged } from "./elements.js";
import { here, now } from "./state.js";

const LONG = 900, LONG_SCRIPT = 40000, PAUSE = 400, LINE_HEIGHT = 20;
const MOST_FAULTS = 20, MOST_REFUSALS = 50, MOST_MARKED = 1000;
const script = one("#script"), file = one("#file");
// the timer of text that is being typed; 0: none is; -1: it wasn't taken, and stays in the editor
let typing = 0;
const isOpen = (name) => !one(`#${name}`).hidden;
// the pages at the cursor; what differs from the place before is marked
function putPages() {
  const { model, readings } = now, { name, place, branch } = here(), { length } = branch;
  const events = readings.get(name).run.eventsAt(place - 1);
  const pageAt = (kind, at) => model.page(kind, name, at) || model.page(kind, name, place);
  const linesAt = (kind, at) => pageAt(kind, at)?.lines || [];
  const pages = ["state", "pending", "bits"].map((kind) =>
    ({ kind, lines: linesAt(kind, place), was: linesAt(kind, place - 1) }));
  const ofReadings = [...readings.values()].flatMap((it) => it.faults);
  const faults = [...model.faults, ...ofReadings].slice(0, MOST_FAULTS);
  const step = () => `step ${place - 1}, just made: ${branch.step(place - 1)}`;
  const held = JSON.stringify([name, place, length, events, pages, faults]);
  putIfChanged(one("#here"), held, () => [
    memoryCard(name, place),
    place && element("h3", {}, step()), element("pre", {}, events.join("\n")),
    programPages(pages.map((it) => programPage(it, `${name} ${place} of ${length}`))),
    ...faults.map((it) => element("p", { class: "wrong" }, it))]);
}
function programPage({ kind, lines, was }, at) {
  const given = { class: lines.join("").length > LONG && "long", "data-page": kind };
  const marked = (it, index) => [it === was[index] ? it : element("mark", {}, it), "\n"];
  return [element("h3", {}, `${kind} ${at}`), element("pre", given, lines.flatMap(marked))];
}
// the program's pages of a tower of many bits are folded, until somebody unfolds them
function programPages(pages) {
  const isUnfolded = one("#here details")?.open ?? now.model.shape.cells <= FEW_CELLS;
  return element("details", { open: isUnfolded && "" },
    element("summary", {}, "pages of the program"), pages.flat());
}
function putScript() {
  const { document: { script: text, lines, tower }, model } = now;
  const refused = new Map(model.refusals.slice(0, MOST_MARKED).map((it) => [it.line, it.words]));
  const look = (it) => ({ class: "wrong", title: refused.get(it) });
  const number = (it) =>
    (refused.has(it) ? element("span", look(it), `\u2715${it}\n`) : `${it}\n`);
  // text that is being typed isn't touched
  if (!typing && script.value !== text) script.value = text;
  if (!typing && file.value !== tower) file.value = tower;
  if (!isOpen("text")) return;
  if (document.activeElement !== script) script.scrollTop = script.scrollHeight;
  putIfChanged(one("#gutter"), `${lines.length} ${[...refused]}`, () =>
    lines.map((_, index) => number(index + 1)));
  one("#gutter").scrollTop = script.scrollTop;
  putAnswer();
}
// below the script: each refusal in words, and the answer to the line where the caret is
function putAnswer() {
  const { answers, refusals } = now.model;
  const line = script.value.slice(0, script.selectionStart).split("\n").length;
  const found = answers[line - 1], said = refusals.slice(0, MOST_REFUSALS);
  const look = (it) => ({ class: `wrong${it === line ? " here" : ""}`, "data-line": it,
    onclick: () => goToLine(it) });
  const answered = () => [element("h3", {}, `line ${line} was answered`),
    element("pre", {}, [found.first, ...found.lines].join("\n"))];
  putIfChanged(one("#answer"), JSON.stringify([said, line, found]), () => [
    ...said.map((it) => element("button", look(it.line), `Line ${it.line}: ${it.words}.`)),
    ...(found ? answered() : [])]);
}
function goToLine(line) {
  const begin = script.value.split("\n").slice(0, line - 1).join("\n").length + (line > 1);
  script.focus();
  script.setSelectionRange(begin, begin);
  script.scrollTop = (line - 4) * LINE_HEIGHT;
  putAnswer();
}
// what a step did: its events, or else its bit action
function eventsIn({ run, branch, actions }, step) {
  const events = run.eventsAt(step).map((it) => it.slice(it.indexOf(" ") + 1));
  const [kind, process] = branch.step(step).split(" "), found = actions.get(`${step} ${process}`);
  if (kind !== "g" || !found?.action || events.some((it) => it.startsWith("void"))) return events;
  return [`p${process} ${ACTIONS[found.action]} ${found.bit}`, ...events];
}
// the columns in sight as a table, for screen readers and for those who prefer text
function putTable() {
  const { name, place, branch } = here(), reading = now.readings.get(name);
  const { from, to, processes } = reading, isSmall = now.model.shape.cells <= FEW_CELLS;
  const heads = ["step", "", "what happens", ...processes.map((it) => `p${it} then`)];
  const rows = between(from, to).map((step) => tableRow(reading, step));
  if (isSmall) {
    heads.push("bits then");
    rows.forEach((it, index) => it.push(bitsAt(name, from + index + 1)));
  }
  const about = `${name}: steps ${from} to ${Math.max(from, to - 1)} of ${branch.length}. `
    + "A button opens what can be done with a step.";
  const isHere = (step) => step === place - 1 && "step";
  putIfChanged(one("#table"), JSON.stringify([place, about, heads, rows]), () => [
    element("table", {}, element("caption", {}, about),
      element("thead", {}, element("tr", {},
        heads.map((it) => element("th", { scope: "col" }, it)))),
      element("tbody", {}, rows.map((it) =>
        element("tr", { "aria-current": isHere(it[0]) }, tableCells(it)))))]);
}
// a step, its words, what happens, and what each process does then
function tableRow(reading, step) {
  const { run, branch, processes, actions } = reading;
  const reads = run.operations.filter((it) => it.kind === "read" && it.ended === step);
  const said = [...eventsIn(reading, step), ...reads.map((it) => reasonOf(run, it))];
  const doing = processes.map((it) => actions.get(`${step + 1} ${it}`)?.doing || "");
  return [step, branch.step(step), said.join("; "), ...doing];
}
function tableCells([step, words, ...others]) {
  const button = element("button", { "data-step": step }, words);
  return [String(step), button, ...others].map((it) => element("td", {}, it));
}
function bitsAt(name, place) {
  const reads = { h: " hit", r: " read", "-": "" };
  const writes = (it) => (it === "-" ? "" : `\u2192${it}`);
  const words = ([bit, written, read]) => `${bit}${writes(written)}${reads[read]}`;
  const { cells } = now.model.page("bits", name, place) || { cells: [] };
  return cells.map((it) => words(it.split(" "))).join(", ");
}
const TABS = { here: putPages, text: putScript, table: putTable, answers: putAnswers };
export function putText() {
  const isShort = now.document.script.length + now.document.tower.length < LONG_SCRIPT;
  for (const [name, put] of Object.entries(TABS))
    if (isOpen(name) || (name === "text" && isShort)) put(null);
}
export function showTab(name) {
  for (const it of all("[data-tab]"))
    it.setAttribute("aria-selected", String(it.dataset.tab === name));
  for (const it of Object.keys(TABS)) one(`#${it}`).hidden = it !== name;
  if (now.model) putText();
}
// puts texts into the editor that the program couldn't take, so that they can be mended
export const putTyped = (tower, text) => {
  [file.value, script.value, typing] = [tower, text, -1];
};
// calls `changed` with what a person typed, once they pause or go elsewhere
export function watchText(changed) {
  const typed = (pause) => {
    clearTimeout(typing);
    typing = setTimeout(async () => {
      // text typed meanwhile isn't lost
      const mine = typing, isTaken = await changed(Document.of(file.value, script.value));
      if (typing === mine) typing = isTaken ? 0 : -1;
    }, pause);
  };
  for (const it of [script, file]) {
    it.addEventListener("input", () => typed(PAUSE));
    it.addEventListener("change", () => typing > 0 && typed(0));
  }
  script.addEventListener("scroll", () => { one("#gutter").scrollTop = script.scrollTop; });
  for (const it of ["keyup", "click"]) script.addEventListener(it, () => now.model && putAnswer());
}
// the typed text is given up for what a gesture made
export const forgetTyped = () => { clearTimeout(typing); typing = 0; };
