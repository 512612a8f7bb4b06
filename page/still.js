// A still picture: SVG as text, in rows that fit a page. It needs no browser.
import { Drawing } from "./drawing.js";
import { counted } from "./labels.js";
import { Facts, Layers, layersOf } from "./layers.js";
import { FEW_CELLS, LABEL, MARGIN } from "./measures.js";
import { Reading } from "./reading.js";
import { between } from "./pages.js";
import { Model } from "./model.js";
import { Document } from "./document.js";
import { shape } from "./shapes.js";

const MOST_STILL = 400, GAP = 16;
const ESCAPED = { "&": "&#38;", "<": "&#60;", ">": "&#62;", '"': "&#34;" };
const escaped = (words) => String(words).replace(/[&<>"]/g, (it) => ESCAPED[it]);
function svgText({ name, attributes, children }) {
  const given = Object.entries(attributes).map(([key, value]) => ` ${key}="${escaped(value)}"`);
  const inside = children.map((it) => (typeof it === "string" ? escaped(it) : svgText(it)));
  return `<${name}${given.join("")}>${inside.join("")}</${name}>`;
}
export function hatch() {
  const given = { id: "hatch", width: 7, height: 7, patternUnits: "userSpaceOnUse",
    patternTransform: "rotate(45)" };
  return shape("pattern", given, shape("rect", { class: "hatch-ground", width: 7, height: 7 }),
    shape("rect", { class: "hatch-line", width: 3, height: 7 }));
}
export function looksOf({ name }, from, to, kinds = ["state", "bits", "pending"]) {
  const places = between(from, to + 1).flatMap((place) => kinds.map((kind) => [kind, name, place]));
  return [["history", name, to], ["verdict", name, to], ...places];
}
export function aboutBranch(branch) {
  const { length, shared, parent } = branch, steps = counted(length, "step");
  return shared ? `${steps}, the first ${shared} shared with ${parent.name}` : steps;
}
// a branch between two places, with what is inside its operations
export function readInside(model, branch, from, to, end = to) {
  const page = (kind, at) => model.page(kind, branch.name, at);
  const reading = new Reading(branch, from, to, page, end);
  reading.facts = new Facts(new Layers(reading, page), model.codes);
  return reading;
}
// a tower of many bits is drawn with one layer, its numbers folded
function stillDrawing({ shape: tower, codes }, range) {
  const isSmall = tower.cells <= FEW_CELLS, depth = isSmall ? layersOf(tower).length : 1;
  return { isSmall, drawing: new Drawing(range, tower, { codes, depthOf: () => depth }) };
}
// the strips of branches between two steps
function stillStrips(model, branches, range, most) {
  const { drawing, isSmall } = stillDrawing(model, range), readings = new Map();
  for (const it of branches) {
    const [from, to, end] = [range.from, range.to, most].map((place) => Math.min(place, it.length));
    readings.set(it.name, readInside(model, it, from, to, end));
  }
  const drawn = [...readings.values()].filter((it) => it.to > it.from || range.from === 0);
  const groups = drawing.groups(drawn), strips = [drawing.ruler(longestLength(branches))];
  const inTree = branches.map((it, index) => ({ ...branchInTree(it, branches), index }));
  if (branches.length > 1) strips.push(drawing.tree(inTree, readings));
  for (const reading of drawn) {
    strips.push(headStrip(drawing, reading.branch, drawing.left(range.from)));
    strips.push(drawing.chips(reading, { shared: model.sharedSteps(reading.branch) }));
    strips.push(drawing.lanes(reading));
    strips.push(...drawing.bits(reading, groups)
      .flatMap(({ fold, rows }) => (fold && !isSmall ? [fold] : [fold, rows].filter(Boolean))));
  }
  return { drawing, strips };
}
const longestLength = (branches) => Math.max(...branches.map((it) => it.length));
function headStrip(drawing, branch, x) {
  const name = shape("text", { x: 10, y: 24, class: "process" }, branch.name);
  const about = shape("text", { x, y: 24, class: "role" }, aboutBranch(branch));
  return drawing.strip("head", [name], [about], 34);
}
// a branch whose parent isn't drawn begins at the left
function branchInTree({ name, length, parent, shared }, branches) {
  const index = branches.indexOf(parent);
  return { name, length, parent: { index }, shared: index < 0 ? 0 : shared };
}
const evenCount = (most, perRow) => Math.ceil(most / Math.ceil(Math.max(1, most) / perRow)) || 1;
// The branches of a model in rows of columns; each row is an element `svg` and its size. The pages
// must be there. `count`: how many columns a row has; without it they are even, of at most `perRow`
export function stillRows(model, branches, { most, column = 76, perRow = 24, count }) {
  if (!count) return stillRows(model, branches, { most, column, count: evenCount(most, perRow) });
  const rows = [], width = count * column + MARGIN;
  for (let from = 0; from < Math.max(1, most); from += count) {
    const range = { from, to: Math.min(most, from + count), column };
    const { drawing, strips } = stillStrips(model, branches, range, most);
    rows.push(rowOf(strips, drawing.left(from), width));
  }
  return rows;
}
// strips one below the other: labels, and what is drawn from an x on, that wide
function rowOf(strips, x, width) {
  const inner = [], whole = LABEL + width;
  let y = 0;
  for (const { label, drawn, height } of strips) {
    const viewBox = `${x} 0 ${width} ${height}`;
    inner.push(shape("svg", { y, height, width: LABEL }, label));
    inner.push(shape("svg", { x: LABEL, y, width, height, viewBox }, drawn));
    y += height;
  }
  const given = { viewBox: `0 0 ${whole} ${y}`, width: whole, height: y };
  return { width: whole, height: y, svg: shape("svg", given, inner) };
}
// a style sheet with its colours for paper in place of their names
function forPaper(style) {
  const noComments = style.replace(/\/\*[^*]*\*\//g, ""), colours = new Map();
  const light = noComments.replace(/light-dark\(([^,()]+),[^()]+\)/g, "$1");
  for (const [, name, value] of light.matchAll(/(--[a-z-]+): ?([^;}]+)/g))
    colours.set(name, value.trim());
  const rules = light.replace(/:root ?\{[^}]*\}/, "");
  return rules.replace(/var\((--[a-z-]+)\)/g, (_, name) => colours.get(name)).trim();
}
// The branches of a model as SVG; `style` is drawing.css, whose colours for paper are taken.
export function stillPicture(model, branches, style, options = {}) {
  const most = Math.min(MOST_STILL, longestLength(branches)), inner = [];
  const rows = stillRows(model, branches, { ...options, most });
  const paper = shape("rect", { width: "100%", height: "100%", class: "paper" });
  let y = 0;
  for (const row of rows) {
    inner.push({ ...row.svg, attributes: { ...row.svg.attributes, y } });
    y += row.height + GAP;
  }
  const [{ width }] = rows;
  const given = { xmlns: "http://www.w3.org/2000/svg", viewBox: `0 0 ${width} ${y}`, width,
    height: y };
  return svgText(shape("svg", given, shape("style", {}, forPaper(style)),
    shape("defs", {}, hatch()), paper, inner));
}
// The picture of what a script leaves; `ask` answers a tower file and a script, as engine.js does.
export async function pictureOf(ask, tower, script, style, options) {
  const model = await Model.of(Document.of(tower, script), ask);
  await model.look(model.branches.flatMap((it) => looksOf(it, 0, Math.min(MOST_STILL, it.length))));
  return stillPicture(model, model.branches, style, options);
}
