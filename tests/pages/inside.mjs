// Draws schedules with all their layers, and prints what is drawn, and the program's pages.
// usage: node inside.mjs MODULE SCHEDULES     in a folder where page/ is; a line of SCHEDULES is
// a tower file and the place from which it is drawn once more, as if nothing before it were known,
// as JSON; so is a line that is printed
import { readFileSync } from "node:fs";
import { answerBy } from "./page/machine.js";
import { Document } from "./page/document.js";
import { Drawing } from "./page/drawing.js";
import { Facts, Layers, layersOf } from "./page/layers.js";
import { Model } from "./page/model.js";
import { Reading } from "./page/reading.js";
import { looksOf } from "./page/still.js";
import { storyOf } from "./page/stories.js";

// wide enough for the longest words of each bar and each box; and as narrow as they are in the page
const COLUMN = 3000, NARROW = [44, 104];
const [wasm, schedules] = process.argv.slice(2);
const module = await WebAssembly.compile(readFileSync(wasm));
const ask = async (...given) => answerBy(module, ...given);
const childrenOf = (it) => it.children.filter((each) => typeof each !== "string");
function found(shapes, isWanted) {
  return shapes.flatMap((it) => (isWanted(it) ? [it] : found(childrenOf(it), isWanted)));
}
const titleOf = (it) => it.children.find(({ name }) => name === "title").children[0];
const isText = ({ name }) => name === "text";
const textsOf = (it) => found(childrenOf(it), isText).map(({ children }) => children[0]);
const rectOf = (it) => childrenOf(it).find(({ name }) => name === "rect").attributes;
const has = (key) => ({ attributes }) => key in attributes;
function nestIn(it) {
  const { "data-nest": layer, "data-process": process, "data-from": from, "data-to": to,
    class: kind } = it.attributes, { x, width } = rectOf(it);
  return { layer, process, from, to, kind, x, width, title: titleOf(it) };
}
function barIn(it) {
  const isOnBar = ({ attributes: { class: kind = "" } }) => /^op( |$)/.test(kind);
  const [text] = found(childrenOf(it), isOnBar);
  return { begun: it.attributes["data-at"], process: it.attributes["data-process"],
    words: text ? text.children[0] : "" };
}
function rowIn(it) {
  const boxes = found(childrenOf(it), has("data-from")), isBox = ({ name }) => name === "g";
  const at = ({ attributes }) => [attributes["data-from"], attributes["data-to"]];
  return { row: it.attributes["data-row"],
    boxes: boxes.filter(isBox).map((each) => [...at(each), titleOf(each), rectOf(each)]),
    scans: boxes.filter((each) => !isBox(each))
      .map((each) => [...at(each), each.attributes.class === "hit"]) };
}
// the words that are on bars and boxes, with those that say all
function labelsIn({ lanes, strips }) {
  const isBox = (it) => it.name === "g" && has("data-from")(it) && !has("data-nest")(it);
  const all = [...found(lanes, has("data-nest")),
    ...found(strips.flatMap(({ fold, rows }) => [...(fold?.drawn || []), ...rows.drawn]), isBox)];
  return all.map((it) => [titleOf(it), textsOf(it)]);
}
function drawnFrom(model, branch, from) {
  const page = (kind, at) => (at >= from ? model.page(kind, branch.name, at) : undefined);
  const reading = new Reading(branch, from, branch.length, page);
  const layers = new Layers(reading, page);
  const facts = new Facts(layers, model.codes), depthOf = () => layersOf(model.shape).length;
  reading.facts = facts;
  const drawnAt = (column) => {
    const range = { from, to: branch.length, column };
    const drawing = new Drawing(range, model.shape, { codes: model.codes, depthOf });
    return { lanes: drawing.lanes(reading).drawn,
      strips: drawing.bits(reading, drawing.groups([reading])) };
  };
  const { lanes, strips } = drawnAt(COLUMN), narrow = NARROW.map(drawnAt);
  const rows = strips.map(({ name, fold, rows: below }) => ({ name,
    rows: found([...(fold?.drawn || []), ...below.drawn], has("data-row")).map(rowIn) }));
  const stories = layers.roots.map((it) =>
    [it.operation.begun, it.process, storyOf(facts, it).words]);
  const isBar = ({ attributes: { class: kind = "" } }) => kind.startsWith("operation");
  const barsIn = (shapes) => found(shapes, isBar).map(barIn);
  return { nests: found(lanes, has("data-nest")).map(nestIn), bars: barsIn(lanes), rows, stories,
    faults: reading.faults, labels: narrow.flatMap(labelsIn),
    short: narrow.flatMap((it) => barsIn(it.lanes)) };
}
for (const line of readFileSync(schedules, "utf8").trim().split("\n")) {
  const [tower, middle] = JSON.parse(line);
  const model = await Model.of(Document.of(tower, "0 join\n"), ask);
  const [branch] = model.branches, { name, length } = branch;
  await model.look([...looksOf(branch, 0, length), ...looksOf(branch, middle, length)]);
  const pages = Object.fromEntries(["state", "bits"].map((kind) => [kind,
    [...Array(length + 1).keys()].map((place) => model.page(kind, name, place).lines)]));
  pages.history = model.page("history", name, length).lines;
  console.log(JSON.stringify({ pages, whole: drawnFrom(model, branch, 0),
    middle: drawnFrom(model, branch, middle) }));
}
