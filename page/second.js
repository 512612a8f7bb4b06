// A second tower below the picture, on which the same operations are done: nobody edits it.
import { othersOf, transferred } from "./aligned.js";
import { Axis } from "./axis.js";
import { Document } from "./document.js";
import { Drawing } from "./drawing.js";
import { layersOf } from "./layers.js";
import { MARGIN } from "./measures.js";
import { Model } from "./model.js";
import { stripNode } from "./picture.js";
import { Reading } from "./reading.js";
import { looksOf, readInside } from "./still.js";
import { element, one, putIfChanged } from "./elements.js";
import { here, now } from "./state.js";

const MOST_TRANSFERRED = 200, LEAST_STEP = 12;
// the tower that was chosen, and what is made of it
const below = { tower: "", key: "", model: null };
export const forgetSecond = () => Object.assign(below, { tower: "", key: "", model: null });
export function chooseSecond(tower) { below.tower = tower; }
// as if a person chose it
export function askForSecond(tower) {
  const select = one("#second-tower");
  select.value = tower;
  select.dispatchEvent(new Event("change"));
}
// all that the cursor's branch does; its pages are asked for once a second tower is chosen
function firstRun() {
  const { name, branch: { length } } = here(), { model } = now;
  const branch = model.branch(name), page = (kind) => model.page(kind, name, length);
  return new Reading(branch, length, length, page).run;
}
// the towers that can take the operations of the cursor's branch
function offeredTowers() {
  const { branch } = here(), { tower } = now.model;
  return branch.length && branch.length <= MOST_TRANSFERRED ? othersOf(tower, branch.steps) : [];
}
// makes the second schedule, if a tower is chosen that can take it
export async function lookAtSecond() {
  const { name, branch } = here(), { ask, tower } = now.model;
  if (!below.tower || !offeredTowers().includes(below.tower)) return;
  const key = JSON.stringify([tower, name, below.tower, branch.steps]);
  await now.model.look(["history", "verdict"].map((kind) => [kind, name, branch.length]));
  if (below.key === key) return;
  const steps = await transferred(ask, firstRun(), (at) => branch.step(at), below.tower);
  const file = ["tower 2", below.tower, ...steps].map((it) => `${it}\n`).join("");
  const model = await Model.of(Document.of(file, "0 join\n"), ask), [main] = model.branches;
  await model.look(looksOf(main, 0, main.length));
  Object.assign(below, { key, model });
}
// An axis on which operations begin and end below the steps at which they do on the first tower.
function axisBelow(first, run, reading) {
  const { axis } = now.range, anchors = new Map([[reading.to, axis.left(first.length)]]);
  const taken = run.operations.filter(({ refusal }) => !refusal);
  reading.run.operations.forEach((it, index) => {
    const there = taken[index];
    anchors.set(it.begun, axis.left(there.begun));
    if (it.ended !== null && there.ended !== null)
      anchors.set(it.ended + 1, axis.left(there.ended + 1));
  });
  const edges = [0], known = [...anchors].filter(([at]) => at > 0).sort((a, b) => a[0] - b[0]);
  for (const [at, x] of known) {
    const from = edges.length - 1, left = edges[from], count = at - from;
    const width = Math.max(LEAST_STEP, (x - left) / count);
    for (let it = 1; it <= count; it++) edges.push(left + it * width);
  }
  return new Axis(now.range.column, edges);
}
function partsBelow({ model }) {
  const [branch] = model.branches, { length } = branch;
  const reading = readInside(model, branch, 0, length);
  const axis = axisBelow(here().branch, firstRun(), reading), depth = layersOf(model.shape).length;
  const range = { from: 0, to: length, column: axis.column, axis };
  const drawing = new Drawing(range, model.shape, { codes: model.codes, depthOf: () => depth });
  const { offsetWidth: whole } = one("#inner"), width = axis.left(length) + MARGIN;
  const rows = drawing.bits(reading, drawing.groups([reading]))
    .map(({ fold, rows: bits }) => fold || bits);
  const strips = [drawing.chips(reading), drawing.lanes(reading), ...rows];
  return strips.map((it) => stripNode(it, { x: 0, width, whole }));
}
export function putSecond() {
  const towers = offeredTowers(), select = one("#second-tower"), section = one("#second");
  const firstChoice = below.tower ? "one tower" : "and on\u2026";
  const words = [["", firstChoice], ...towers.map((it) => [it, `and ${it}`])];
  select.hidden = !towers.length;
  putIfChanged(select, JSON.stringify(words), () =>
    words.map(([value, text]) => element("option", { value }, text)));
  select.value = towers.includes(below.tower) ? below.tower : "";
  section.hidden = !select.value || !below.model;
  const { axis } = now.range, held = JSON.stringify([section.hidden || below.key, axis.key]);
  const title = () => element("h2", {}, `The same operations on ${below.tower}`);
  putIfChanged(section, held, () => (section.hidden ? [] : [title(), ...partsBelow(below)]));
}
