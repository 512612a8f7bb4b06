// Rows of a tower's numbers, each foldable to its bits, and of what processes remember.
import { numberRuns, scanRuns, wordRuns } from "./bands.js";
import { numberLabels, tagLabels, writtenLabels } from "./labels.js";
import { rounded, shape, sized, stacked, textAt, titled, widthOf } from "./shapes.js";

export const ROW = 30;
const BAND = ROW - 10, BAND_SIZES = [13, 11], MORE_EVERY = 700, FEW_REGISTERS = 4;
// For each register its name, the strip that is shown while it is folded, and the one below it.
// `bits` makes the strip of the rows of a register's bits.
export function registerRows(drawing, reading, bits, shared) {
  const { codes } = drawing, { facts } = reading, isMatrix = codes.kind === "matrix";
  const isUsed = (it) => codes.registers.length <= FEW_REGISTERS
    || numberRuns(facts, it).length > 1 || scanRuns(facts, it).length > 0;
  return codes.registers.filter(isUsed).map((register) => {
    const number = bandOf(register.name, numberRuns(facts, register), codes);
    number.scans = scanRuns(facts, register);
    const memory = codes.kind === "unary" ? [] : memoryBands(facts, codes, register);
    const strip = (bands, kind) => bandStrip(drawing, reading, bands, kind, shared);
    const fold = strip([number, ...(isMatrix ? [] : memory.slice(0, 1))], "fold decoded");
    const below = memory.slice(isMatrix ? 0 : 1), ownBits = bits(register);
    const rows = below.length ? stacked(ownBits, strip(below, "memory")) : ownBits;
    return { name: register.name, fold, rows };
  });
}
function bandOf(name, runs, codes) {
  const labels = (numbers, written) => (written === null ? numberLabels(codes, numbers[0])
    : writtenLabels(codes, numbers));
  return { name, kind: "band", runs: runs.map(([from, to, numbers, written]) => ({ from, to,
    isWritten: written !== null, isEither: numbers.length > 1,
    words: labels(numbers, written) })) };
}
function memoryBands(facts, codes, register) {
  const { reader, writer } = register, labelled = (runs, labels) =>
    runs.map(([from, to, value]) => ({ from, to, words: value === null ? ["?"] : labels(value) }));
  const best = (code) => (codes.kind === "matrix"
    ? tagLabels(codes, codes.parts(code).inner) : numberLabels(codes, code));
  return [
    { name: `p${reader} remembers`, kind: "band memory",
      runs: labelled(wordRuns(facts, register, "best"), best) },
    { name: `p${writer}'s stamp`, kind: "band",
      runs: labelled(wordRuns(facts, register, "stamp"), (stamp) => [`${stamp}`]) }];
}
function bandStrip(drawing, reading, bands, kind, shared) {
  const height = bands.length * ROW + 2;
  const labels = bands.map(({ name }, at) => textAt(name, 26, at * ROW + 16, "bit-name"));
  const drawn = bands.map((it, at) => shape("g", { "data-row": it.name },
    it.runs.map((run) => boxOf(drawing, reading, run, it.kind, at * ROW)),
    (it.scans || []).map((scan) => scanLine(drawing, reading, scan, at * ROW + ROW - 5))));
  const veil = drawing.veil(reading.from, shared, height);
  return drawing.strip(`rows ${kind}`, labels, [...drawn, ...veil], height);
}
// a box with words, dashed while the number is being written, and hatched while it changes
function boxOf(drawing, reading, { from, to, isWritten, isEither, words }, kind, y) {
  const [x, right] = drawing.reach(reading, from, to), width = right - x;
  const { words: found, size } = sized(words, width, BAND_SIZES) || {};
  const look = isEither ? "written" : `${kind}${isWritten ? " going" : ""}`;
  const box = shape("rect", { class: look, x, y, width, height: BAND });
  const given = { class: isWritten ? "box going" : "box", "data-from": from, "data-to": to };
  if (!found) return shape("g", given, titled(words[0]), box);
  const less = size === BAND_SIZES[0] ? "" : " less";
  if (isEither) {
    const plate = Math.min(width - 4, widthOf(found, size) + 2);
    return shape("g", given, titled(words[0]), box,
      shape("rect", { class: "plate", x: x + 3, y: y + 2, width: plate, height: BAND - 4 }),
      textAt(found, x + 5, y + 15, `on-hatch${less}`));
  }
  const count = Math.max(1, Math.floor(width / MORE_EVERY)), texts = [];
  for (let at = 0; at < count; at++)
    texts.push(textAt(found, x + 5 + at * (width / count), y + 15, `in${less} begins`));
  return shape("g", given, titled(words[0]), box, texts);
}
// a bit's read below the number's row: a line, or teeth if it was hit
function scanLine(drawing, reading, [from, to, kind], low) {
  const x = drawing.left(from) + 2;
  const right = Math.max(x + 2, Math.min(drawing.left(to + 1) - 2, drawing.left(reading.to)));
  const line = { class: "read-line", d: `M${rounded(x)} ${low}H${rounded(right)}` };
  const hit = { class: "hit", d: `M${rounded(x)} ${low}${teeth(right - x)}` };
  return shape("path", { ...(kind === "h" ? hit : line), "data-from": from, "data-to": to });
}
// stretched a little, so that they end with the read
export function teeth(width) {
  const count = Math.max(1, Math.round(width / 10)), half = rounded(width / count / 2 * 100) / 100;
  return `l${half} -5l${half} 5`.repeat(count);
}
