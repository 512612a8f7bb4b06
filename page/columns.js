// Which columns are drawn, and how wide each step is.
import { Axis } from "./axis.js";
import { depthOf } from "./depths.js";
import { Layers, layersOf } from "./layers.js";
import { FEW_CELLS, MARGIN } from "./measures.js";
import { between } from "./pages.js";
import { Reading } from "./reading.js";
import { one } from "./elements.js";
import { now } from "./state.js";

const EQUAL_WIDTHS = [104, 76, 52, 44], SCALES = [8, 12, 16, 22, 28, 36, 44, 52, 76, 104, 140];
const AROUND_SIGHT = 20, MOST_PAGE_LINES = 200000, MOST_ELASTIC = 2000;
// a width that a person chose, or 0 for what fits; and whether all columns are to be equal
const choice = { column: 0, isEqual: false };
export const lengthOf = (branches) => Math.max(...branches.map((it) => it.length), 1);
export const forgetScale = () => Object.assign(choice, { column: 0, isEqual: false });
export function setScale(way) {
  const at = now.range.column;
  choice.column = (way > 0 ? SCALES.find((it) => it > at) : SCALES.findLast((it) => it < at)) || at;
}
export const setEqual = () => Object.assign(choice, { column: 0, isEqual: !choice.isEqual });
// An elastic axis takes the pages `pending` of all places: of layered towers whose steps don't fit.
function isElastic(branches, room) {
  const { shape } = now.model, count = lengthOf(branches), least = EQUAL_WIDTHS.at(-1);
  return layersOf(shape).length > 0 && shape.cells > FEW_CELLS && !choice.isEqual
    && count * least + MARGIN > room && count * branches.length <= MOST_ELASTIC;
}
// the looks that the columns of branches need before they are known
export function axisLooks(branches, room) {
  if (!isElastic(branches, room)) return [];
  return branches.flatMap(({ name, length }) => [["history", name, length],
    ["verdict", name, length], ...between(0, length + 1).map((place) => ["pending", name, place])]);
}
// of each step whether something that is drawn begins or ends there
function wideSteps(branches) {
  const { model } = now, wide = Array(lengthOf(branches)).fill(false);
  for (const branch of branches)
    for (const step of wideStepsOf(branch, (kind, at) => model.page(kind, branch.name, at)))
      if (step < branch.length) wide[step] = true;
  return wide;
}
function wideStepsOf(branch, page) {
  const { length } = branch, isOfAllSteps = (kind) => ["history", "verdict"].includes(kind);
  const only = (kind) => (isOfAllSteps(kind) ? page(kind, length) : null);
  const { run } = new Reading(branch, length, length, only), layers = layersOf(now.model.shape);
  const all = { run, operations: run.operations, from: 0, to: length };
  const nested = new Layers(all, page).roots.flatMap((root) =>
    layers.slice(0, depthOf(root.process)).flatMap((layer) => endsOf(layer, root)));
  const ends = run.operations.flatMap(({ begun, ended }) => [begun, ended ?? begun]);
  const marks = run.marks.filter(({ kind }) => kind !== "void").map(({ step }) => step);
  return [...nested, ...ends, ...marks];
}
const endsOf = (layer, it) => (it.layer === layer && layer !== "copies" ? [it.to]
  : it.layer === "copies" && layer === "copies" ? it.inner.map((each) => each.to)
    : it.inner.flatMap((each) => endsOf(layer, each)));
function axisOf(branches, room) {
  const count = lengthOf(branches), isFitting = (it) => count * it + MARGIN <= room;
  const made = isElastic(branches, room)
    ? Axis.elastic(wideSteps(branches), room - MARGIN, choice.column)
    : new Axis(choice.column || EQUAL_WIDTHS.find(isFitting) || EQUAL_WIDTHS.at(-1));
  return made.isSame(now.range.axis) ? now.range.axis : made;
}
// The columns in sight and some around them; if the page follows it, the cursor comes in sight.
// `scrolled` is where the picture is scrolled to, `cells` how many lines of pages a place takes.
export function findColumns(branches, { room, scrolled, place, isFollowing, cells }) {
  const axis = axisOf(branches, room), { column } = axis, x = axis.left(place);
  // the greatest left end to which the picture scrolls
  const farthest = Math.max(0, axis.left(lengthOf(branches)) + MARGIN - room);
  const centred = Math.max(0, Math.min(x - room / 2, farthest)), isWhole = farthest === 0;
  let left = isWhole ? 0 : axis === now.range.axis ? scrolled : centred;
  if (isFollowing && (x < left + column || x > left + room - column)) left = isWhole ? 0 : centred;
  const first = axis.place(left), last = axis.place(left + room), middle = (first + last) / 2;
  const most = Math.max(20, MOST_PAGE_LINES / cells);
  const half = Math.min((last - first) / 2 + AROUND_SIGHT, most / 2);
  const [from, to] = [middle - half, middle + half].map((it) => Math.round(it / 10) * 10);
  return { from: Math.max(0, from), to: Math.max(10, to), column, axis, left };
}
export function putScale() {
  const isElastic = now.range.axis.isElastic || choice.isEqual;
  one("#scale").hidden = !layersOf(now.model.shape).length;
  const equal = { hidden: !isElastic, ariaPressed: String(choice.isEqual) };
  Object.assign(one("[data-do=equal]"), equal);
}
