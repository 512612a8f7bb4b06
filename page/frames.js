// The frames of a process, as a line of the page `pending` has them, outermost first.

const PROCESS_LINE = /^p([0-9]) (.*?)( stopped)?$/;
const FRAME = /^(safe|copies|regular|unary|stamped|matrix) ([wr])((?: (?:[0-9]+|read|write))*)$/;
const MADE = new Map();
// Returns a line's process, its frames, and whether it stopped; null if the line isn't known.
export function framesIn(line) {
  const match = PROCESS_LINE.exec(line);
  if (!match) return null;
  const [, process, words, stopped] = match;
  const frames = words === "idle" ? [] : words.split(" > ").map(frameOf);
  return frames.every(Boolean)
    ? { process: Number(process), frames, isStopped: Boolean(stopped) } : null;
}
// most places have the same few frames
function frameOf(words) {
  if (!MADE.has(words)) MADE.set(words, madeFrame(words));
  return MADE.get(words);
}
// `value` is what is written there, `part` which of its parts is in work, and `index` its number;
// a matrix has a phase too, `read` in the column and `write` in the row, and a tagged code; a safe
// bit is begun, or it isn't yet
function madeFrame(words) {
  const match = FRAME.exec(words);
  if (!match) return null;
  const [, layer, way, rest] = match, given = rest.split(" ").slice(1), isWrite = way === "w";
  const frame = { words, layer, isWrite, value: isWrite ? Number(given.shift()) : null, part: "" };
  if (layer === "unary" || layer === "copies")
    return { ...frame, part: given[0], index: Number(given[0]) };
  if (layer === "safe") return { ...frame, isBegun: given[0] === "1" };
  if (layer !== "matrix") return frame;
  const [phase, index, code] = given;
  return { ...frame, phase, index: Number(index), code: Number(code), part: `${phase} ${index}` };
}
