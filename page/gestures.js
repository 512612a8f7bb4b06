// Gestures: what a person does becomes lines of the script, or changes what is drawn.
import { act, ask, isSaying, say } from "./acting.js";
import { askOf, askOfPicked } from "./answers.js";
import { leaving, openedLines, putUndo, takeBack, takeForward } from "./back.js";
import { FEW_FILES, openClass } from "./classroom.js";
import { processesHere, putDeck } from "./deck.js";
import { Document, EMPTY_TOWER, detached, dropped, forked } from "./document.js";
import { loaded, otherChoice, put, removed, replaced } from "./document.js";
import { one } from "./elements.js";
import { answer, stop } from "./engine.js";
import { allLessons, exerciseNamed } from "./exercises.js";
import { keepDocument, leaveAddress } from "./address.js";
import { chooseOpen, chooseTower } from "./choosing.js";
import { SESSIONS } from "./grammar.js";
import { remember, remembered } from "./kept.js";
import { lessonOf, lessonStep, putLesson } from "./player.js";
import { Model, stepsToEnd } from "./model.js";
import { documentOf, textsOf } from "./opened.js";
import { light, shownBranches } from "./picture.js";
import { present, unfold } from "./room.js";
import { openShare } from "./share.js";
import { here, now, setNow, setView } from "./state.js";
import { leaveStudy, putStudy } from "./study.js";
import { task } from "./taskstrip.js";
import { startLine, startOf, withHeadLine } from "./tasks.js";
import { forgetTyped, putTyped, showTab } from "./text.js";
import { forgetViewing, viewing } from "./viewing.js";
import { drawWhole, putSpent } from "./whole.js";
import { lookIntoRead } from "./whys.js";

// with how many steps an operation is tried, until it ends; and the most steps that are made again
// after another choice
const TRIES = [64, 1024, 16384], MOST_STEPS_ON_A_BRANCH = 4000;
export const draw = (isFollowing) => drawWhole(gestures, taskGestures, isFollowing);
// Changes the document, but for a gesture that is refused or finds nothing: no line of it stays in
// the script.
export async function change(next, added = 0) {
  const model = await Model.of(next, answer, now.model), first = next.lines.length - added;
  const refused = added && model.refusals.find(({ line }) => line > first);
  if (refused) {
    const { words, line } = refused;
    return say(`Refused: ${words}. The line was ${next.lines[line - 1]}`, "refusal");
  }
  const isMiss = (it) => it && it.first.endsWith(": no hit");
  if (added && model.answers.slice(first).some(isMiss)) return say("No break is met there.");
  const before = { document: now.document, model: now.model };
  setNow({ document: next, model });
  try {
    await draw();
  } catch (fault) {
    setNow(before);
    if (before.model) await draw();
    throw fault;
  }
  keepDocument();
  return true;
}
// what a gesture begins with: nothing said, nothing picked
function clear() {
  forgetTyped();
  say("");
  setView({ picked: null, awaiting: "" });
}
function add(commands) {
  const { isJoined, isAtCursor, name, place } = here(), [first] = commands;
  // a search begins at the place in sight, not at a cursor elsewhere
  const isElsewhere = ["seek", "back"].includes(first) && !isAtCursor;
  const before = [...(isJoined ? [] : ["join"]), ...(isElsewhere ? [`go ${name} ${place}`] : [])];
  const whole = [...before, ...commands];
  return change(now.document.adding(now.who, whole), whole.length);
}
const edit = (make) => act(() => { clear(); return add([make()].flat()); });
// begins a document; one that the program can't take is kept in the editor, so that it can be
// mended
export function begin(tower, script, { lesson = null, who, opened, way = "", undone = [] } = {}) {
  return act(async () => {
    clear();
    const leave = leaving(opened || { tower, script }, way);
    const { lines } = Document.of(tower, script), next = new Document(tower, lines, undone);
    const before = { lesson: now.lesson, who: now.who };
    setNow({ lesson: lesson || null, who: who ?? next.lastSession });
    setView({ show: "all" });
    forgetViewing();
    setNow({ followed: "" });
    try {
      await change(next);
      leave();
      putUndo();
      // keys now go to a process that waits for a choice
      const asked = processesHere().find((it) => it.isHit);
      if (asked) gestures.choose(asked.number);
    } catch (fault) {
      setNow(before);
      // the address stays as it was
      if (!now.model) await change(Document.of(EMPTY_TOWER, "0 join\n")).then(leaveAddress);
      putTyped(tower, script);
      throw fault;
    }
  });
}
// what the page is for, until a person begins something
let hasBegun = false;
export function putWelcome(begun = hasBegun) {
  hasBegun = begun;
  one("#welcome").hidden = hasBegun || remembered("welcomed") === "yes";
}
function open(tower, script, lesson) {
  putWelcome(true);
  leaveStudy();
  return begin(tower, script, { lesson });
}
async function askAll(tower, question) {
  await open(tower, "0 join\n", null);
  showTab("answers");
  unfold("aside");
  askOf(question);
}
export function study(folder, given) {
  putWelcome(true);
  putStudy(folder, open, { ...given, ask: askAll });
}
// opens a document again that another one took the place of
function openAgain({ document: { tower, script, undone }, ...more }, way) {
  return begin(tower, script, { ...more, way, undone });
}
function undo() {
  const was = takeBack();
  if (was) return openAgain(was, "back");
  return act(() => {
    clear();
    return now.document.lastGesture && change(now.document.undo());
  });
}
function redo() {
  const was = takeForward();
  if (was) return openAgain(was, "forward");
  return act(() => {
    clear();
    return now.document.undone.length && change(now.document.redo());
  });
}
const withLines = (lines) => new Document(now.document.tower, lines, now.document.undone);
function predictedLine(number, words) {
  return `# predicted${number ? ` ${number}` : ""}: ${words.trim().replace(/\s+/g, " ")}`;
}
// options are judged on the document as it was opened
function withPredicted(line) {
  const { lines } = now.document, start = task().start ? "" : startLine(openedLines());
  return withLines(withHeadLine(start ? withHeadLine(lines, start) : lines, line));
}
const taskGestures = {
  line: (command) => edit(() => command),
  begin: (tower, script) => open(tower, script, null),
  again: () => open(now.document.tower, `${startOf(now.document.lines).join("\n")}\n`, null),
  predict: (number, words) => act(() => change(withPredicted(predictedLine(number, words)))),
  study,
};
// one document of one file or two; of more the teacher's table
export async function openFiles(files) {
  const texts = await textsOf(files);
  if (texts.length > FEW_FILES) return openClass(texts, open);
  if (!texts.length) return null;
  let found = null;
  await act(() => { found = documentOf(texts); });
  return found && openOne(found);
}
async function openOne({ name, tower, script, isPlayed, said }) {
  await open(tower, script, isPlayed && lessonOf(name, script));
  if (said && !isSaying("refusal")) say(`${said}${now.model.tower}.`);
}
// a place of a branch, or the nearest that it has
function nearest(name, place) {
  const { length } = now.model.branch(name);
  return { name, place: Math.max(0, Math.min(place, length)) };
}
export const move = (find) => act(() => {
  const { document, model, who } = now, to = find(here());
  const base = here().isJoined ? document : document.adding(who, ["join"]);
  if (!to || !model.branch(to.name)) return null;
  if (isSaying("message", "refusal")) say("");
  return change(base.moving(who, to.name, nearest(to.name, to.place).place));
});
export const moveBy = (steps) => move(({ name, place }) => ({ name, place: place + steps }));
export function focusOn(name) {
  if (!name || name === here().name) return null;
  return move(({ place }) => ({ name, place }));
}
export const panelNext = (way) => move(({ name, place }) => {
  const drawn = shownBranches();
  return { name: drawn[drawn.findIndex((it) => it.name === name) + way]?.name, place };
});
// a name for a branch that none has: the wish, or that with a number
function freeName(wish) {
  const numbered = [...now.model.branches.keys()].map((it) => `${wish}${it + 2}`);
  return [wish, ...numbered].find((it) => !now.model.branch(it));
}
export const redraw = (isFollowing) => act(() => draw(isFollowing));
export const views = viewing(redraw);
export const gestures = {
  edit: (command) => edit(() => command),
  go: (place) => move(({ name }) => ({ name, place })),
  before: async (index) => {
    await gestures.go(index);
    say(`Steps now go in before step ${index}.`);
  },
  replace: (index, step) => edit(() => replaced(here(), index, step)),
  remove: (index) => edit(() => removed(here(), index)),
  tryOther: (index) => act(() => {
    const { name, branch } = here(), { steps } = branch;
    clear();
    if (steps.length - index > MOST_STEPS_ON_A_BRANCH)
      return say("Too many steps come after it: fork there instead.", "refusal");
    return add(otherChoice(name, steps, index, freeName("other")));
  }),
  // a schedule as a branch: the one that has it already, or a new one
  load(steps) {
    const { branches } = now.model, text = steps.join(), isIt = (it) => it.steps.join() === text;
    const there = branches.find((it) => it.length === steps.length && isIt(it));
    if (there) return move(() => ({ name: there.name, place: there.length }));
    const name = freeName("answer");
    return edit(() => {
      setView({ show: `only ${name}` });
      return loaded(branches[0].name, name, steps);
    });
  },
  choose(p) { setView({ process: p, awaiting: "" }); putDeck(gestures); },
  // a read that returns by the step is picked, so one sees why
  async put(p, step) {
    setView({ process: p });
    await edit(() => put(here(), step));
    const { name, place } = here(), { operations } = now.readings.get(name).run;
    const isOurs = (it) => it.kind === "read" && it.process === p;
    const read = operations.find((it) => isOurs(it) && it.ended === place - 1);
    if (read && !isSaying("refusal")) pick(name, read.begun);
  },
  // as many steps as the operation needs, but none that chooses: that is the person's
  end: (p) => act(async () => {
    clear();
    setView({ process: p });
    if (!processesHere().some((it) => it.number === p && it.action))
      return say(`p${p} has no operation to go on with.`);
    for (const most of TRIES) {
      const steps = Array(most).fill(`g ${p} 0`), at = here();
      const count = await stepsToEnd(now.model, put(at, ...steps).slice(0, -1), at, p, most);
      if (count === 0) return say(`p${p}'s read is hit: give 0 or 1?`);
      if (count) return add(put(at, ...steps.slice(0, count)));
    }
    return say(`p${p}'s operation has no end in sight.`);
  }),
  async fork(place = here().place) {
    const { name } = here(), steps = `the first ${place} steps of ${name}, which both hold`;
    one("#name-about").textContent =
      `It begins with ${steps}: what is changed there changes on both.`;
    one("#name").value = freeName("other");
    if (await ask(one("#name-dialog")) !== "fork") return;
    edit(() => forked({ name, place }, one("#name").value));
  },
};
export function pick(name, begun) {
  setView({ picked: begun === undefined ? null : { name, begun } });
  say("");
  light();
  putDeck(gestures);
  act(async () => {
    await lookIntoRead();
    putSpent();
    light();
    putDeck(gestures);
  });
}
// a click on a read says why it gave its value; another one opens the layer below
export function clickRead(name, { at: begun, process }) {
  const { picked } = now.view, isSame = picked?.name === name && picked.begun === Number(begun);
  return isSame ? views.open({ process }) : pick(name, Number(begun));
}
export function pickNext() {
  const { name } = here(), { picked } = now.view;
  const reads = now.readings.get(name).operations.filter((it) => it.kind === "read");
  const next = reads[reads.findIndex((it) => it.begun === picked?.begun) + 1] || reads[0];
  if (next) pick(name, next.begun);
}
export function show(choice) {
  setView({ show: choice });
  const names = choice.split(" ").slice(1);
  return choice === "all" || names.includes(here().name) ? redraw(true) : focusOn(names[0]);
}
function compare(name) {
  const { view, model } = now, at = here().name, branch = model.branch(name);
  if (view.show.startsWith("compare ")) return show("all");
  const near = () => branch.parent || model.branches.find((it) => it !== branch);
  const other = name !== at ? at : near()?.name, indexOf = (it) => model.branch(it).index;
  const inOrder = () => [other, name].sort((a, b) => indexOf(a) - indexOf(b));
  return other && show(`compare ${inOrder().join(" ")}`);
}
const THEMES = { "": "\u25d1 auto", light: "\u2600 light", dark: "\u263e dark" };
function switchTheme() {
  const { style } = document.documentElement, names = Object.keys(THEMES);
  style.colorScheme = names[(names.indexOf(style.colorScheme) + 1) % names.length];
  one("#theme").textContent = THEMES[style.colorScheme];
}
export const actAs = (who) => act(() => { setNow({ who }); clear(); return draw(); });
export const nextSession = (way) => actAs((now.who + way + SESSIONS) % SESSIONS);
const play = (way) => act(() => { clear(); return now.lesson && change(lessonStep(way)); });
// what the buttons with data-do do; `name` is the branch of the panel that has the button, or the
// cursor's
export const commands = {
  left: () => moveBy(-1), right: () => moveBy(1), help: () => ask(one("#help-dialog")), stop,
  undo, redo,
  fork: async (name) => { await focusOn(name); gestures.fork(); },
  detach: async (name) => { await focusOn(name); edit(() => detached(here())); },
  drop: (name) => edit(() => {
    const other = now.model.branches.find((it) => it.name !== name);
    if (!other) return `drop ${name}`;
    return dropped(name, here().name === name ? nearest(other.name, here().place) : here());
  }),
  ...views.commands,
  compare, alone: (name) => show(now.view.show === `only ${name}` ? "all" : `only ${name}`),
  own: (name) => move(() => ({ name, place: now.model.branch(name).shared })),
  chooseTower: () => chooseTower(open), theme: switchTheme,
  chooseOpen: () => chooseOpen(open, openFiles),
  study: () => study((exerciseNamed(task().exercise)?.lesson || allLessons()[0]).folder),
  studyClose: () => { leaveStudy(); redraw(true); }, table: () => openClass(null, open),
  values: () => { showTab("answers"); unfold("aside"); askOfPicked(); },
  share: () => act(() => openShare((script) =>
    act(() => change(Document.of(now.document.tower, script))))),
  welcomed: () => { remember("welcomed", "yes"); putWelcome(); },
  present: () => present(() => redraw(true)),
  lessonNext: () => play("next"), lessonEnd: () => play("end"),
  lessonClose: () => { setNow({ lesson: null }); keepDocument(); putLesson(); },
};
