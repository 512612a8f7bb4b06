// How deep the picture goes: how many layers are drawn below operations, and which rows unfolded.
import { layersOf } from "./layers.js";
import { FEW_CELLS } from "./measures.js";
import { element, one, putIfChanged } from "./elements.js";
import { now } from "./state.js";

const DEPTH_NAMES = { stamped: "+ registers", unary: "+ numbers", regular: "+ bits",
  copies: "+ copies" };
// the choice for all processes, that for each process whose bars were clicked, and for each fold
const chosen = { depth: null, byProcess: new Map(), folds: new Map() };
const deepest = () => layersOf(now.model.shape).length;
// of a tower of few bits all layers are drawn at first, else one
export function depthForAll() {
  const { cells } = now.model.shape, first = cells <= FEW_CELLS ? deepest() : 1;
  return Math.min(deepest(), chosen.depth ?? first);
}
export const depthOf = (process) => chosen.byProcess.get(process) ?? depthForAll();
// all choices of depth, as a text that changes if one of them does
export const depthKey = () =>
  JSON.stringify([depthForAll(), [...chosen.byProcess], [...chosen.folds]]);
export function forgetDepths() {
  chosen.depth = null;
  for (const it of [chosen.byProcess, chosen.folds]) it.clear();
}
export function setDepth(depth) {
  forgetDepths();
  chosen.depth = Math.max(0, Math.min(deepest(), depth));
}
// a click on a bar opens the layer below it, or closes those below it if they are open
export function openLayer(process, row) {
  const depth = depthOf(process) > row ? row : Math.min(deepest(), row + 1);
  chosen.byProcess.set(process, depth);
}
// few bits are unfolded at first if all layers are drawn
export function isFoldOpen(key) {
  const isDeep = now.model.shape.cells <= FEW_CELLS && depthForAll() === deepest();
  return chosen.folds.get(key) ?? (isDeep && !key.endsWith(" words"));
}
export const setFold = (key, isOpen) => chosen.folds.set(key, isOpen);
export function putDepths() {
  const layers = layersOf(now.model.shape), select = one("#depth");
  const words = ["operations", ...layers.map((it) => DEPTH_NAMES[it])];
  select.hidden = !layers.length;
  putIfChanged(select, JSON.stringify(words), () =>
    words.map((it, index) => element("option", { value: index }, it)));
  select.value = String(depthForAll());
}
