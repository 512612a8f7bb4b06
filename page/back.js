// Documents that another one replaced: Undo then reads Back and opens the last one again, Redo
// reads Forward, and the dialog Open lists the latest.
import { storeDocument } from "./kept.js";
import { isUntouched, taskOf } from "./tasks.js";
import { one } from "./elements.js";
import { now } from "./state.js";

const leftDocuments = [], aheadDocuments = [];
let opened = { tower: "", script: "" }, restored = "";
function titleOf({ lesson, model, document: { lines } }) {
  const named = taskOf(lines).exercise.split(" ").slice(2).join(" ");
  const count = lines.filter((it) => it && !it.startsWith("#")).length;
  return `${lesson?.title || named || model.tower}${count > 1 ? `, ${count} lines` : ""}`;
}
// the lines that the document had when it was opened
export const openedLines = () => opened.script.split("\n");
// whether somebody changed the document since it was opened
function isChanged() {
  const { document: { tower, script } } = now;
  return tower !== opened.tower || script.trim() !== opened.script.trim();
}
// whether there is work in the document
const hasWork = ({ document, model }) =>
  model && (!isUntouched(document.lines) || document.tower !== opened.tower);
const currentDocument = () => ({ document: now.document, lesson: now.lesson, who: now.who, opened,
  title: now.model ? titleOf(now) : "" });
const isStep = (line) => line && !/^[0-9]+ (join|go)\b/.test(line);
const workIn = ({ tower, lines }) => `${tower}${lines.filter(isStep).join("\n")}`;
// Returns what keeps the document, if there is work in it, once another one is opened: `next`, as
// it was opened. `way` is "back" or "forward" if that one was open before.
export function leaving(next, way) {
  const was = currentDocument(), isKept = hasWork(now);
  return () => {
    opened = next;
    restored = way ? workIn(now.document) : "";
    if (way === "back") aheadDocuments.push(was);
    else if (way === "forward" || isKept) leftDocuments.push(was);
    if (!way) aheadDocuments.length = 0;
    if (!isKept) return;
    const { document: { tower, script }, title } = was;
    storeDocument({ tower, script, title, when: Date.now() });
  };
}
// what was left last, if Undo takes it up: if nothing was done here yet
function backTo() {
  const isHere = now.document.lastGesture > 0 && (!leftDocuments.length || isChanged());
  return isHere ? null : leftDocuments.at(-1) || null;
}
// what Undo left last, if Redo takes it up: if nothing was done since
const aheadTo = () => (workIn(now.document) === restored ? aheadDocuments.at(-1) || null : null);
export function takeBack() {
  const was = backTo();
  if (was) leftDocuments.pop();
  return was;
}
export function takeForward() {
  const was = aheadTo();
  if (was) aheadDocuments.pop();
  return was;
}
function putButton(id, was, [words, wordsOf, title, titleOfWas]) {
  one(id).textContent = was ? wordsOf : words;
  one(id).title = was ? titleOfWas(was.title) : title;
  if (was) one(id).disabled = false;
}
export function putUndo() {
  putButton("#undo", backTo(), ["\u21b6 Undo", "\u21b6 Back",
    "takes the last lines off the script (Ctrl+Z)", (it) => `back to ${it} (Ctrl+Z)`]);
  putButton("#redo", aheadTo(), ["\u21b7 Redo", "\u21b7 Forward", "puts them back (Ctrl+Y)",
    (it) => `forward to ${it} (Ctrl+Y)`]);
}
// a document that was forgotten is kept again once it changes
let forgotten = null;
function keepOpen() {
  if (!hasWork(now) || now.document === forgotten) return;
  const { tower, script } = now.document;
  storeDocument({ tower, script, title: titleOf(now), when: Date.now() }, true);
}
addEventListener("pagehide", keepOpen);
// a tab that is closed while it is hidden gets no other event
document.addEventListener("visibilitychange", () => document.hidden && keepOpen());
export function forgetLeft() {
  forgotten = now.document;
  leftDocuments.length = aheadDocuments.length = 0;
  putUndo();
}
