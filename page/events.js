// The page as it begins: each event of it does a gesture, and then its first document is opened.
// engine.js comes first, as it takes the page's text before others put anything into it
import { packedData } from "./engine.js";
import { act, isSaying, say } from "./acting.js";
import { closeMenu, openMenu } from "./deck.js";
import { one } from "./elements.js";
import { allLessons } from "./exercises.js";
import { redrawFigures } from "./figures.js";
import { documentInAddress, firstDocument, leaveAddress } from "./address.js";
import { watchDrops } from "./choosing.js";
import { actAs, begin, change, clickRead, commands, gestures, draw, focusOn } from "./gestures.js";
import { move, openFiles, putWelcome, redraw, show, study, views } from "./gestures.js";
import { watchKeys } from "./keys.js";
import { lessonNumberIn } from "./links.js";
import { LABEL } from "./measures.js";
import { areBitsMissing, isMissing } from "./picture.js";
import { watchFolds } from "./room.js";
import { here, now } from "./state.js";
import { leaveStudy } from "./study.js";
import { showTab, watchText } from "./text.js";
import { watchWords } from "./words.js";

watchKeys();
// without a document only these commands work
function command(name, branch) {
  if (!now.model && !["stop", "help", "theme"].includes(name)) return;
  commands[name](branch || (now.model && here().name));
}
const placeAt = (x) =>
  Math.round(now.range.axis.place(x - one("#inner").getBoundingClientRect().left - LABEL));
async function openMenuAt(branch, step) {
  await focusOn(branch);
  openMenu(step, gestures);
}
addEventListener("click", ({ target, clientX }) => {
  const at = (selector) => target.closest(selector), branch = at(".panel")?.dataset.branch;
  if (!at("#menu")) closeMenu();
  // figures.js explains the reads of a lesson's pictures, which aren't of the document
  if (at(".drawn-here")) return;
  if (at("[data-study]")) study(at("[data-study]").dataset.study);
  else if (at("[data-do]")) command(at("[data-do]").dataset.do, branch);
  else if (at("[data-tab]")) showTab(at("[data-tab]").dataset.tab);
  else if (at(".chip")) openMenuAt(branch, Number(at(".chip").dataset.step));
  else if (at("#table [data-step]")) openMenuAt("", Number(at("#table [data-step]").dataset.step));
  else if (at("[data-nest]")) views.open(at("[data-nest]").dataset);
  else if (at(".operation.write")) views.open({ process: at(".operation.write").dataset.process });
  else if (at(".operation.read")) clickRead(branch, at(".operation.read").dataset);
  else if (at("[data-select]")) focusOn(at("[data-select]").dataset.select);
  else if (at(".drawn"))
    move(({ name }) => ({ name: branch || name, place: placeAt(clientX) }));
});
for (const it of [one("#panels"), one("#tree-fold")])
  it.addEventListener("toggle", ({ target }) => {
    const { open: key } = target.dataset, { open: isOpen } = target;
    if (key) views.fold(key, isOpen);
    else if (now.model) redraw(false);
  }, true);
one("#here").addEventListener("toggle", () => { if (areBitsMissing()) redraw(false); }, true);
one("#place").addEventListener("input", ({ target }) => gestures.go(Number(target.value)));
one("#show").addEventListener("change", ({ target }) => show(target.value));
one("#session").addEventListener("change", ({ target }) => actAs(Number(target.value)));
let isScrolled = false;
one("#scroll").addEventListener("scroll", () => {
  if (isScrolled || !now.model || !isMissing()) return;
  isScrolled = true;
  act(() => { isScrolled = false; return draw(false); });
});
addEventListener("resize", () => {
  if (now.model) redraw(true);
  redrawFigures();
});
function openLesson(number) {
  const lesson = allLessons()[number - 1];
  return lesson ? study(lesson.folder) : say(`This page has no lesson ${number}.`, "refusal");
}
addEventListener("hashchange", async () => {
  leaveAddress();
  const asked = lessonNumberIn(location.hash);
  if (asked) return openLesson(asked);
  const given = await documentInAddress();
  if (given?.fault) return say(given.fault, "refusal");
  leaveStudy();
  return given && begin(given.tower, given.script, given);
});
watchText((next) => act(() => { say(""); return change(next); }).then(() => !isSaying("refusal")));
watchDrops(openFiles);
watchFolds(() => now.model && redraw(true));
watchWords();
const versionWords = ({ version, commit, kit }) =>
  `Version ${version}, commit ${commit || "unknown"}, kit ${kit || "unknown"}`;
showTab("here");
one("#made").textContent = versionWords(packedData());
const number = lessonNumberIn(location.hash), first = await firstDocument();
putWelcome(!first.isFirst);
await begin(first.tower, first.script, { who: first.who, lesson: first.lesson });
if (first.fault) say(first.fault, "refusal");
if (number) openLesson(number);
document.documentElement.dataset.ready = "";
