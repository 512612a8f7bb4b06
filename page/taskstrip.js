// The exercise that a document's comments ask: its text, what is predicted, and each goal, met or
// not, at every change. `gestures` are line, predict, begin, again, study.
import { isPossible } from "./document.js";
import { isMet, looksFor } from "./goals.js";
import { inWords } from "./goalwords.js";
import { rightOptions, startScript } from "./judging.js";
import { isPredicted, taskOf } from "./tasks.js";
import { exerciseAfter, exerciseNamed, lessonAfter, markSolved } from "./exercises.js";
import { counted } from "./labels.js";
import { withWords } from "./words.js";
import { element, one, putIfChanged } from "./elements.js";
import { here, now } from "./state.js";

const COMMAND = /^[0-9]+ ([a-z]+ ?.*)$/, SIGN = { met: "\u2713", open: "\u25cb", not: "\u2717" };
let decided = { key: "", right: [] };
export const task = () => taskOf(now.document.lines);
export const goalLooks = () => (now.model ? looksFor(task().goals, now.model) : []);
// which options are right: the program decides on the document as it begins, once something is
// predicted
async function decide({ asks, start }, { tower, lines }) {
  const script = start ? startScript(lines) : "";
  const key = JSON.stringify([tower, asks, script]);
  if (key === decided.key) return;
  decided = { key, right: await rightOptions(asks, tower, script) };
}
function optionRow({ number }, { words }, mark, made, gestures) {
  const given = { type: "radio", name: `ask${number}`, value: words, checked: words === made && "",
    disabled: made && "", onchange: () => gestures.predict(number, words) };
  return element("label", { class: mark === SIGN.met && "met" }, element("input", given),
    ` ${words} ${mark}`);
}
function typedRow({ number }, made, gestures) {
  const onchange = ({ target }) => target.value.trim() && gestures.predict(number, target.value);
  return element("input", { value: made || "", disabled: made && "", maxlength: 300,
    "aria-label": "your prediction", onchange });
}
function question(ask, right, { predicted }, gestures) {
  const made = predicted.get(ask.number), isDecided = Boolean(made && right);
  const signOf = ({ words, goal }, at) => {
    if (!isDecided || !goal) return "";
    return right[at] ? SIGN.met : words === made ? SIGN.not : "";
  };
  const rows = ask.options.map((it, at) => optionRow(ask, it, signOf(it, at), made, gestures));
  if (!rows.length) rows.push(typedRow(ask, made, gestures));
  const isRight = isDecided && right[ask.options.findIndex((it) => it.words === made)];
  const said = isRight ? " As you predicted." : " Not as you predicted: see why in the picture.";
  const isAnswered = isDecided && ask.options.some((it) => it.goal);
  const legend = element("legend", {}, element("b", {}, "Predict: "), ask.text);
  return element("fieldset", {}, legend, rows, isAnswered && element("b", {}, said));
}
function goalRow(goal, isMetNow) {
  const sign = goal.fault ? "!" : isMetNow ? SIGN.met : SIGN.open;
  const look = { class: goal.fault ? "wrong" : isMetNow && "met", "data-met": String(isMetNow) };
  return element("li", { ...look, title: goal.text }, element("b", {}, `${sign} `),
    withWords(inWords(goal)));
}
// backquotes enclose what is typed: a command becomes a button that adds it to the script
function withCommands(text, gestures) {
  return text.split("`").flatMap((it, index) => {
    const [, command] = (index % 2 && COMMAND.exec(it)) || [];
    if (!command) return index % 2 ? [element("code", {}, it)] : withWords(it);
    const isNow = isPossible(command, now.model, here().isJoined);
    const title = isNow ? "add this line to the script" : "not possible here, or not yet";
    const onclick = () => gestures.line(command);
    const given = { class: "line", "data-line-of": command };
    return [element("button", { ...given, onclick, title, disabled: !isNow && "" }, it)];
  });
}
function asked(found, of) {
  const { lesson, exercise } = of || {};
  const title = exercise ? `${lesson.title.split(".")[0]}.${exercise.number} ${exercise.title}`
    : found.exercise || (found.isTask ? "Question" : "");
  const whose = found.student && element("small", {}, ` ${found.student}`);
  return [title && element("b", {}, title), whose];
}
function buttons({ of, isDone }, gestures) {
  const next = isDone && of && exerciseAfter(of), { folder } = of?.lesson || {};
  const button = (words, onclick, given) => element("button", { onclick, ...given }, words);
  const begin = () => gestures.begin(next.tower, next.script);
  const big = { class: "big", "data-next": "" };
  const goOn = () => gestures.study(lessonAfter(of.lesson));
  return [isDone && element("b", { class: "met", role: "status" }, `${SIGN.met} Done`),
    next && button(`Next: ${next.title} \u25b6`, begin, big),
    isDone && of && !next && button("Next lesson \u25b6", goOn, big),
    button("Start again", gestures.again, { "data-again": "" }),
    of && button("Answer", () => gestures.study(folder, { showsAnswers: true }),
      { "data-answer": "" }),
    of && button("\u25c0 Lesson", () => gestures.study(folder), { "data-lesson": "" }),
    button("\u25b4", null, { "data-fold": "task", class: "fold-it", "aria-label": "the text" })];
}
function parts(found, state, gestures) {
  const { met, of } = state, goals = isPredicted(found) ? found.goals : [];
  const left = found.left > 0 && element("p", { class: "wrong" },
    `Left out, as there are too many goals, questions or options: ${counted(found.left, "line")}.`);
  return [element("div", { class: "asked" }, asked(found, of),
    found.text.map((it) => element("p", {}, withCommands(it, gestures)))),
  element("div", {}, found.asks.map((it, at) => question(it, decided.right[at], found, gestures)),
    element("ul", { class: "goals" }, goals.map((it, at) => goalRow(it, met[at]))), left),
  element("div", { class: "play" }, buttons(state, gestures))];
}
// puts the strip, and returns whether what reads give is covered
export async function putTask(gestures) {
  const found = task(), { document, model, lesson } = now, target = one("#task");
  const isShown = found.isTask || (found.text.length > 0 && !lesson), isOpen = isPredicted(found);
  target.hidden = !isShown;
  if (!isShown) return false;
  if (found.asks.length && isOpen) await decide(found, document);
  const met = found.goals.map((it) => isMet(it, model)), of = exerciseNamed(found.exercise);
  const isDone = found.isTask && isOpen && met.every(Boolean);
  if (isDone && of) markSolved(of);
  const held = [found.text, found.exercise, found.asks, [...found.predicted], met, found.goals,
    decided.key, isDone, found.student, here().isJoined,
    model.branches.map(({ name, length }) => `${name} ${length}`)];
  putIfChanged(target, JSON.stringify(held), () => parts(found, { met, of, isDone }, gestures));
  return !isOpen;
}
