// The panel of all answers as elements: what is asked, what is predicted, and what was found.
// `acts` are what its buttons do.
import { counted } from "./labels.js";
import { FEW_VALUES } from "./measures.js";
import { between } from "./pages.js";
import { FEW_LISTS, groupedBy, guessable, hasRoom, keyOf } from "./questions.js";
import { oddityOf, sizeOf, wordsOf } from "./questions.js";
import { element } from "./elements.js";
import { now } from "./state.js";

const MOST_ROWS = 64;
const NO_SCHEDULE = "No schedule: the search tried every order of these operations' steps, and "
  + "both choices at each hit read, and none ends so. That it misses no answer is proved. Other "
  + "operations may give it.";
const ORDINALS = ["first", "second", "third", "fourth", "fifth", "sixth"];
const ODD = { stray: "stray", inversion: "new-old inversion" };
const button = (words, onclick, given = {}) =>
  element("button", { type: "button", onclick, ...given }, words);
const operationWords = (it) => (it === "r" ? "read" : `write ${it.slice(2)}`);
const stepsOf = ({ steps }) => element("b", {}, `${counted(steps.length, "step")} \u25b6`);
const boxOf = (words) => element("b", { class: "box-of" }, words);
function writeButtons(process, values, add) {
  if (values <= FEW_VALUES)
    return between(0, values).map((value) => button(`+ write ${value}`, () => add(`w ${value}`),
      { "data-more": `p${process} w ${value}` }));
  const input = element("input", { type: "number", min: 0, max: values - 1, value: 1,
    "aria-label": `value that p${process} writes` });
  const write = () => input.value && input.checkValidity() && add(`w ${Number(input.value)}`);
  return [button("+ write", write), input];
}
function moreButtons(process, { change }) {
  const { shape } = now.model, add = (it) => change((next) => next.operations[process].push(it));
  const read = () => button("+ read", () => add("r"), { "data-more": `p${process} r` });
  return [shape.reads(process) && read(),
    ...(shape.writes(process) ? writeButtons(process, shape.values, add) : [])];
}
function operationChip(process, it, index, { change }) {
  const remove = () => change((next) => next.operations[process].splice(index, 1));
  const look = `asked-operation${it === "r" ? "" : " is-write"}`;
  return button(`${operationWords(it)} \u00d7`, remove,
    { title: "leave it out", class: look, "data-less": `p${process} ${index}` });
}
function stopBox(process, { stops }, { change }) {
  const onchange = ({ target }) => change((next) => {
    next.stops = target.checked ? [...stops, process] : stops.filter((it) => it !== process);
  });
  const checked = stops.includes(process) && "";
  return element("label", {}, element("input",
    { type: "checkbox", "data-may-stop": process, checked, onchange }), " may stop");
}
function processRow(process, question, acts) {
  const its = question.operations[process];
  return [element("dt", {}, `p${process}`), element("dd", {},
    its.map((it, index) => operationChip(process, it, index, acts)),
    hasRoom(question, process) && moreButtons(process, acts),
    its.length > 0 && stopBox(process, question, acts))];
}
// an operation that begins only after another one has ended
function afterRows({ operations, after }, { change }) {
  const every = operations.flatMap((its, p) => its.map((_, i) => [p, i]));
  const named = ([p, i]) => `p${p}'s ${ORDINALS[i]} operation, ${operationWords(operations[p][i])}`;
  const option = (it) => element("option", { value: it.join(" ") }, named(it));
  const pick = (key) => element("select", { "data-after": key, "aria-label": `the ${key} one` },
    every.map(option));
  const [later, earlier] = ["later", "earlier"].map(pick);
  const chosen = () => [later, earlier].flatMap(({ value }) => value.split(" ").map(Number));
  const add = () => change((next) => next.after.push(chosen()));
  const remove = (index) => () => change((next) => next.after.splice(index, 1));
  const row = (it, index) => element("li", {}, `${named(it.slice(0, 2))} begins after the end of `
    + `${named(it.slice(2))} `, button("\u00d7", remove(index), { title: "leave it out" }));
  return element("details", { open: after.length > 0 && "" },
    element("summary", {}, "one after the end of another"), element("ul", {}, after.map(row)),
    element("p", {}, later, " begins after the end of ", earlier, " ",
      button("add", add, { "data-after": "add" })));
}
function valueBoxes(answers, question) {
  const its = wordsOf(answers, question);
  if (!its.length) return ["all writes return"];
  return its.map(({ process, words }) => element("span", { class: "of-process" }, `p${process} `,
    words.map(boxOf)));
}
function listWords(answers, { question, tower, lists }) {
  const odd = lists && ODD[oddityOf(answers, question, tower)];
  return element("span", { class: "values" }, valueBoxes(answers, question),
    odd && element("b", { class: "odd" }, ` ${odd}`));
}
function guessRow(key, answers, panel, { guess }) {
  const onchange = ({ target }) => guess({ guesses: target.checked ? [...panel.guesses, key]
    : panel.guesses.filter((it) => it !== key) });
  const checked = panel.guesses.includes(key) && "";
  return element("label", { class: "list", "data-guess": key }, listWords(answers, panel),
    element("span", {}, element("input", { type: "checkbox", checked, onchange }), " possible"));
}
function guessResult(key, isPossible, { guesses }) {
  const isGuessed = guesses.includes(key), isRight = isGuessed === isPossible;
  const said = isRight ? "\u2713 as predicted"
    : `\u2717 you said ${isGuessed ? "possible" : "impossible"}`;
  return element("small", { class: isRight ? "met" : "wrong" }, guesses.length ? said : "");
}
function foundRow(key, answers, list, panel, { load }) {
  const parts = [listWords(answers, panel), guessResult(key, Boolean(list), panel)];
  const look = key === panel.shown ? " is-shown" : "";
  if (!list) return element("div", { class: "list is-none", "data-answers": key }, parts,
    element("b", {}, "no schedule"));
  return button([...parts, stepsOf(list)], () => load(list), { class: `list${look}`,
    "data-answers": key, title: "shows a shortest schedule as a branch" });
}
// each list that was guessed or found
function eachRow(guessed, panel, acts) {
  const lists = panel.lists || [], byKey = new Map(lists.map((it) => [keyOf(it.answers), it]));
  const all = new Map([...guessed, ...lists.map((it) => it.answers)].map((it) => [keyOf(it), it]));
  if (!panel.lists) return [...all].map((it) => guessRow(...it, panel, acts));
  const rows = [...all].map(([key, it]) => foundRow(key, it, byKey.get(key), panel, acts));
  return [...rows, all.size > byKey.size && element("p", { class: "no-schedule" }, NO_SCHEDULE)];
}
// if there are more lists than one looks at: what each process's reads gave
function groupRows({ question, lists, shown }, { load }) {
  const { operations } = question, everyone = between(0, operations.length);
  const words = (process, list) =>
    valueBoxes(new Map([[process, list.answers.get(process)]]), question);
  const row = (process, { key, count, list }) => button([
    element("span", { class: "values" }, words(process, list)),
    element("small", {}, counted(count, "list")), stepsOf(list)], () => load(list),
  { class: `list${keyOf(list.answers) === shown ? " is-shown" : ""}`,
    "data-group": `p${process} ${key}` });
  return everyone.filter((it) => operations[it].includes("r")).flatMap((process) => {
    const groups = groupedBy(process, lists), left = groups.length - MOST_ROWS;
    return [element("h3", {}, `p${process}: ${counted(groups.length, "list")} of its own`),
    ...groups.slice(0, MOST_ROWS).map((it) => row(process, it)),
    left > 0 && element("p", {}, `and ${left} more`)];
  });
}
function guessNumber({ guessedCount }, acts) {
  const onchange = ({ target }) => acts.guess({ guessedCount: target.value });
  return element("label", {}, "Your prediction: how many lists of answers are possible? ",
    element("input",
      { type: "number", min: 1, value: guessedCount, "data-guess-number": "", onchange }));
}
function resultRows(panel, acts) {
  const { question, lists, guessedCount, states } = panel;
  const guessed = guessable(question, now.model.shape);
  const isMany = lists ? lists.length > FEW_LISTS : !guessed;
  if (!lists) return isMany ? [guessNumber(panel, acts)]
    : [element("h3", {}, "Predict: which answers are possible?"), ...eachRow(guessed, panel, acts)];
  const head = `${counted(lists.length, "list")} of answers possible, in ${states} states`;
  return [element("h3", {}, head),
    guessedCount && element("p", {}, `You predicted ${guessedCount}.`),
    ...(isMany ? groupRows(panel, acts) : eachRow(guessed || [], panel, acts))];
}
function findRow({ isSearching, lists, said, question }, acts) {
  const disabled = !sizeOf(question) && "", big = { class: "big", "data-find": "", disabled };
  const made = isSearching ? button("Stop", acts.stopFinding, { "data-find-stop": "" })
    : lists ? button("Ask again", acts.again, { "data-find-again": "" })
      : button("Find all answers", acts.find, big);
  return element("p", { class: "find" }, made, " ",
    element("span", { role: "status", id: "answers-said" }, said));
}
export function panelRows(panel, acts) {
  const { question } = panel, { processes } = now.model.shape;
  return [element("h2", {}, "Which answers are possible?"),
    element("dl", { class: "asked-of" },
      between(0, processes).flatMap((it) => processRow(it, question, acts))),
    afterRows(question, acts), ...resultRows(panel, acts), findRow(panel, acts)];
}
// what a single read could have given
export function readRows(panel, acts) {
  const { read: { at: [process, index], gave, words }, lists } = panel, values = new Map();
  for (const it of lists || []) {
    const value = it.answers.get(process)?.[index] || "";
    if (value && !values.has(value)) values.set(value, it);
  }
  const row = ([value, list]) => button([boxOf(value.replace(/^spent.*/, "refused")),
    element("small", {}, value === gave ? "as in the schedule" : ""), stepsOf(list)],
  () => acts.load(list), { class: "list", "data-value": value });
  const head = values.size === 1 ? "One value alone:" : `${values.size} values:`;
  return [element("h2", {}, words), lists && element("h3", {}, head), ...[...values].map(row),
    element("p", {}, "Each operation begins only after those that had ended before it began in "
      + "the schedule. All else may differ: the order of steps, and what hit reads give."),
    findRow(panel, acts), button("\u25c0 another question", acts.other, { "data-other": "" })];
}
