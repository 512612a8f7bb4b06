// Rows of bits and of words. A bit changes in the middle of a column, so that at each place its row
// shows what the page of bits says there.
import { ROW, registerRows, teeth } from "./bandrows.js";
import { FEW_CELLS, TICK_WORDS } from "./measures.js";
import { lengthen } from "./reading.js";
import { rounded, shape, textAt } from "./shapes.js";

const TEXT_EVERY = 16;
// the bits that have a row, by the register they are in: all if they are few, else those that
// change or are used
export function groupsOf({ tower, codes }, readings) {
  const used = new Set(), { cells, side } = tower, groups = new Map();
  const isUsed = (runs) => cells <= FEW_CELLS || runs.length > 1 || !runs[0][2].endsWith("- -");
  for (const reading of readings)
    reading.cells.forEach((runs, number) => isUsed(runs) && used.add(number));
  for (const number of [...used].sort((a, b) => a - b)) {
    const register = side && Math.floor(number * side ** 2 / cells);
    const single = codes?.registers[0]?.name || "";
    const name = side ? `R[${Math.floor(register / side)}][${register % side}]` : single;
    groups.set(name, [...(groups.get(name) || []), number]);
  }
  return groups;
}
// strips of bits by register, each with what is shown while it is folded
export function bitStrips(drawing, reading, groups, shared) {
  const { tower, codes } = drawing;
  const rowOf = (it, offset) =>
    [`bit ${it}`, reading.cells[it] || [], bitName(tower, codes, it - offset)];
  const bitRows = (numbers, offset = 0) =>
    rowsStrip(drawing, reading, numbers.map((it) => rowOf(it, offset)), "bits", shared);
  const ofRegister = ({ name, cell }) => bitRows(groups.get(name) || [], cell);
  if (reading.facts && codes?.size) return registerRows(drawing, reading, ofRegister, shared);
  return [...groups].map(([name, numbers]) => {
    const all = numbers.map((it) => reading.cells[it] || []);
    const title = [`${name} (${numbers.length})`, foldedRuns(all)];
    const fold = name && rowsStrip(drawing, reading, [title], "fold", shared);
    return { name, fold, rows: bitRows(numbers) };
  });
}
// a bit's name in its number, or among copies
function bitName({ readers }, codes, at) {
  if (readers < 2) return `bit ${at}`;
  return codes?.size ? `bit ${Math.floor(at / readers)}, p${at % readers + 1}`
    : `bit ${at}: p${at + 1}'s copy`;
}
export function wordStrip(drawing, reading, shared) {
  if (reading.facts && drawing.codes?.size) return { name: "words", rows: { drawn: [] } };
  const all = [];
  for (const [begin, end, line] of reading.words)
    for (const [index, word] of line.split(" ").slice(1).entries())
      lengthen(all[index] ||= [], begin, `${word} - -`, end);
  const isDrawn = ([, runs]) => all.length <= FEW_CELLS || runs.length > 1;
  const named = all.map((runs, it) => [`word ${it}`, runs]).filter(isDrawn);
  const fold = drawing.strip("fold", [textAt("words", 26, 18, "bit-name")], [], 26);
  return { name: "words", fold, rows: rowsStrip(drawing, reading, named, "words", shared) };
}
function rowsStrip(drawing, reading, named, kind, shared) {
  const height = named.length * ROW + 2;
  const words = named.map(([name, , label = name]) => label);
  const labels = words.map((it, index) => textAt(it, 26, index * ROW + 16, "bit-name"));
  const drawn = named.map(([name, runs], index) =>
    shape("g", { "data-row": name }, row(drawing, reading, runs, index * ROW, kind)));
  const veil = named.length ? drawing.veil(reading.from, shared, height) : [];
  return drawing.strip(`rows ${kind}`, labels, [...drawn, ...veil], height);
}
// values as boxes, and below them where a bit is read, and where that read is hit
function row(drawing, reading, runs, y, kind) {
  const boxes = [], reads = [];
  for (const [begin, end, words] of runs) {
    const [value, written, read] = words.split(" ");
    lengthen(boxes, begin, `${value} ${written}`, end);
    lengthen(reads, begin, read, end);
  }
  return [...boxes.flatMap((it) => valueBox(drawing, reading, it, y, kind)),
    ...reads.map((it) => readLine(drawing, reading, it, y + ROW - 5))];
}
function valueBox(drawing, reading, [begin, end, words], y, kind) {
  const [x, right] = drawing.reach(reading, begin, end), [value, written] = words.split(" ");
  const ofValue = kind === "words" ? "word" : { "": "word", 0: "zero", 1: "one" }[value];
  const look = written === "-" ? ofValue : "written", hasRoom = right - x > TICK_WORDS;
  const box = shape("rect", { class: look, x, y, width: right - x, height: ROW - 10 }), texts = [];
  const change = `${value}\u2192${written}`, every = TEXT_EVERY * drawing.column;
  if (look === "written")
    return [box, value && hasRoom && textAt(change, (x + right) / 2, y + 15, "value")];
  for (let at = x + 6; at + 10 <= right; at += every)
    texts.push(value && textAt(value, at, y + 15, `of-${look}`));
  return [box, ...texts];
}
function readLine(drawing, reading, [begin, end, read], y) {
  const [x, right] = drawing.reach(reading, begin, end);
  const begun = `M${rounded(x)} ${y}`;
  if (read === "r") return shape("path", { class: "read-line", d: `${begun}H${rounded(right)}` });
  return read === "h" && shape("path", { class: "hit", d: `${begun}${teeth(right - x)}` });
}
// the runs of many bits as those of one: what is done to any of them
function foldedRuns(all) {
  const places = [], runs = [];
  for (const [begin, end, words] of all.flat()) {
    const done = words.slice(words.indexOf(" "));
    for (let place = begin; place <= end; place++) places[place] = `${places[place] || ""}${done}`;
  }
  const worst = (words) => ["h", "r"].find((it) => words.includes(it)) || "-";
  const written = (words) => (/[01]/.test(words) ? "?" : "-");
  places.forEach((words, place) =>
    lengthen(runs, place, ` ${written(words)} ${worst(words)}`));
  return runs;
}
