// The operations inside an operation as bars, a row for each layer below its own bar.
import { labelsOf } from "./labels.js";
import { fitting, shape, sized, textAt, titled } from "./shapes.js";

export const NEST = 23;
// the sizes of letters, and how drawing.css names them
const NEST_LOOKS = { 13: "in begins", 11: "in less begins" };
const NEST_SIZES = [13, 11];
const LITTLE_SIZE = 10, REPEATED_EVERY = 700, GOES_ON = 40;
// `layers` are the names of the layers that are drawn, and `top` is the first one's y
export function nestedBars(drawing, reading, root, layers, top) {
  const { facts } = reading;
  return layers.flatMap((layer, row) => facts.layers.allIn(layer, root)
    .filter((it) => it.to >= reading.from && it.from <= reading.to)
    .map((it) => nestedBar(drawing, reading, it, layer, top + row * NEST)));
}
function nestedBar(drawing, reading, it, layer, y) {
  const { facts, isCut } = reading, [x, right] = reachOf(drawing, reading, it);
  const width = Math.max(2, right - x), got = layer === "regular" ? facts.bitOf(it) : null;
  const isGoing = !it.isEnded && !isCut, isHit = Boolean(got?.isHit);
  const labels = labelsOf(facts, it), room = width - (isHit ? drawing.column / 2 + 8 : 0);
  const kind = ["nest", layer, it.isWrite ? "writes" : "reads", isHit && "is-hit",
    isGoing && "going"].filter(Boolean).join(" ");
  const given = { class: kind, "data-nest": layer, "data-from": it.from, "data-to": it.to,
    "data-process": it.process };
  return shape("g", given, titled(labels[0]),
    shape("rect", { x, y, width, height: NEST - 4, rx: 2 }), nestTexts(labels, x, y, room));
}
// the words that fit, again and again on a long bar
function nestTexts(labels, x, y, width) {
  const { words, size } = sized(labels, width, NEST_SIZES) || {};
  if (!words) {
    const little = fitting(labels, width + 3, LITTLE_SIZE);
    return little ? [textAt(little, x + width / 2, y + 13, "in little")] : [];
  }
  const count = Math.max(1, Math.floor(width / REPEATED_EVERY)), texts = [];
  for (let at = 0; at < count; at++)
    texts.push(textAt(words, x + 4 + at * (width / count), y + 14, NEST_LOOKS[size]));
  return texts;
}
// one that goes on at the branch's end reaches a little further, unless its process stopped
function reachOf(drawing, { from, to, run, isCut }, it) {
  const gap = drawing.axis.isElastic ? 1 : 2, stop = run.stops.get(it.process);
  const left = it.from < from ? drawing.left(from) : drawing.left(it.from) + gap;
  const end = Math.min(it.to + 1, to), isGoing = !it.isEnded && !isCut;
  if (isGoing && stop !== undefined) return [left, drawing.left(Math.min(to, stop + 1)) - gap];
  return [left, drawing.left(end) - gap + (isGoing ? GOES_ON : 0)];
}
