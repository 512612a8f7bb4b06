// All answers: the panel that asks which answers some operations can have, lets one predict, and
// loads a shortest schedule of each as a branch. The program of all answers finds them.
import { findAnswers, hasSearch, stopSearch } from "./engine.js";
import { panelRows, readRows } from "./answerrows.js";
import { LIMITS, firstQuestion, isTooMany, keyOf, listsIn } from "./questions.js";
import { operationsIn, questionIn, questionOf, sentenceOf, textOf } from "./questions.js";
import { pickedRead } from "./whys.js";
import { one, putIfChanged } from "./elements.js";
import { now } from "./state.js";

const MOST_SECONDS = 120, ADVICE = "Leave out a process or an operation.";
// `guesses`: the keys of lists that are thought possible; `guessedCount`: how many lists there are
// thought to be; `read`: the one read that is asked about, or nothing; `lists`: what was found, or
// nothing
const NOTHING = { guesses: [], guessedCount: "", read: null };
const NOT_FOUND = { lists: null, states: 0, said: "", isSearching: false, shown: "" };
const panel = { tower: "", question: null, ...NOTHING, ...NOT_FOUND };
// the page's gestures; the number of the latest search, as older ones count no more; and how often
// the panel was changed
let gestures = null, search = 0, drawn = 0;
// changes what the panel holds, and draws it
function setPanel(parts) {
  Object.assign(panel, parts);
  drawn++;
  drawPanel();
}
// gives up what was found and guessed, for another question or the same one
function restart(parts) {
  if (panel.isSearching) stopSearch();
  search++;
  setPanel({ ...NOT_FOUND, ...NOTHING, ...parts });
}
// changes a copy of the question; an order of operations that are gone goes too
function change(make) {
  const { operations, stops, after } = structuredClone(panel.question);
  const next = { operations, stops, after };
  make(next);
  const isThere = ([p, i, q, j]) => operations[p][i] && operations[q][j];
  restart({ question: { operations, stops: next.stops.filter((it) => operations[it].length),
    after: next.after.filter(isThere) } });
}
// one search after another, each with a higher limit, so that one sees how far it is
async function searched(turn) {
  for (const most of LIMITS) {
    const made = await findAnswers(textOf(panel.tower, panel.question, most), MOST_SECONDS);
    if (turn !== search) return null;
    if (made.fault) return { said: `${made.fault} ${ADVICE}` };
    if (made.status === 0) return listsIn(made.output);
    if (!isTooMany(made.errors) || most === LIMITS.at(-1)) return { said: sentenceOf(made.errors) };
    setPanel({ said: `more than ${most} states so far\u2026` });
  }
  return null;
}
async function find() {
  const turn = ++search;
  setPanel({ ...NOT_FOUND, isSearching: true, said: "searching\u2026" });
  const made = await searched(turn);
  if (made) setPanel({ ...NOT_FOUND, ...made });
}
function stopFinding() {
  search++;
  stopSearch();
  setPanel({ ...NOT_FOUND, said: "The search was stopped." });
}
function load({ answers, steps }) {
  setPanel({ shown: keyOf(answers) });
  gestures.load(steps);
}
const other = () =>
  restart({ question: firstQuestion(now.model.shape, now.model.tower), tower: now.model.tower });
const acts = { change, find, stopFinding, load, other,
  again: () => restart({}), guess: (parts) => Object.assign(panel, parts) };
function drawPanel() {
  if (!now.model || one("#answers").hidden) return;
  putIfChanged(one("#answers"), drawn, () => (panel.read ? readRows : panelRows)(panel, acts));
}
// draws the panel; `given` are the gestures of the page
export function putAnswers(given) {
  gestures = given || gestures;
  one("[data-tab=answers]").hidden = !hasSearch();
  if (panel.tower !== now.model.tower) other();
  drawPanel();
}
// asks which values the picked read could have given
export async function askOfPicked() {
  const read = pickedRead(), { model, view: { picked } } = now;
  if (!read || read.ended === null) return;
  const look = ["history", picked.name, model.branch(picked.name).length];
  await model.look([look]);
  const operations = operationsIn(model.page(...look).events);
  const { question, at } = questionOf(operations, model.shape.processes, read);
  const words = `Which values could p${read.process}'s read of steps ${read.begun} to ${read.ended}`
    + " have given?";
  restart({ tower: model.tower, question, read: { at, gave: read.value, words } });
  await find();
}
// asks a question that a lesson has
export const askOf = (text) => restart({ tower: now.model.tower,
  question: questionIn(text, now.model.shape.processes) });
