// The six towers: their numbers with the limits, what each promises, and who may do what in one.
import { quoted } from "./pages.js";

const field = (name, meaning, least, most, first) => ({ name, meaning, least, most, first });
const INITIAL = field("INIT", "the initial value", 0, 1, 0);
const READERS = field("READERS", "processes that read", 1, 4, 2);
export const MOST_VALUES = 512, MOST_BITS = 4096;
const VALUES = field("VALUES", "how many values, counted from 0", 2, MOST_VALUES, 2);
export const TOWERS = {
  safe: { fields: [INITIAL], bits: () => 1,
    promise: "One bit. A read that overlaps a write may return 0 or 1." },
  copies: { fields: [READERS, INITIAL], bits: (readers) => readers,
    promise: "A safe bit for each reader, written one after the other. Readers may disagree." },
  regular: { fields: [READERS, INITIAL], bits: (readers) => readers,
    promise: "A bit that is written only if its value changes. "
      + "An overlapped read returns the old or the new value." },
  unary: { fields: [{ ...VALUES, first: 3 }, { ...READERS, first: 1 },
    field("INIT", "the initial value, below VALUES", 0, MOST_VALUES - 1, 0)],
    bits: (values, readers) => values * readers,
    promise: "A number, by the first bit that is 1. "
      + "A second read may return an older value than the first." },
  stamped: { fields: [VALUES,
    field("LAST", "the last stamp: at most this many writes succeed", 0, MOST_VALUES - 1, 2)],
    bits: (values, last) => (last + 1) * values,
    promise: "A number with a stamp, and a reader that remembers. "
      + "Atomic for its one reader, up to LAST writes." },
  matrix: { fields: [field("N", "processes, each of which reads and writes", 2, 4, 2), VALUES,
    field("TAG", "the last tag", 0, MOST_VALUES - 1, 2),
    field("INNER", "the last stamp of each register", 0, MOST_VALUES - 1, 3)],
    bits: (n, values, tag, inner) => n * n * (inner + 1) * (tag + 1) * n * values,
    promise: "Stamped registers between N processes. Atomic for them all; "
      + "TAG and INNER bound how many operations succeed." },
};
// what is wrong with a tower's numbers, in a sentence, or nothing
export function sizeFault(kind, numbers) {
  const { fields, bits } = TOWERS[kind];
  for (const [index, { name, least, most }] of fields.entries()) {
    const number = numbers[index], isWhole = Number.isInteger(number);
    if (!(isWhole && number >= least && number <= most)) return `${name} is ${least} to ${most}.`;
  }
  const [first, second, third, fourth] = numbers;
  if (kind === "unary" && third >= first) return `INIT is below VALUES, which is ${first}.`;
  const ofMatrix = (fourth + 1) * (third + 1) * first * second;
  const codes = { stamped: (second + 1) * first, matrix: ofMatrix }[kind] || 0;
  const formula = kind === "stamped" ? "(LAST+1)*VALUES" : "(INNER+1)*(TAG+1)*N*VALUES";
  if (codes > MOST_VALUES) return `${formula} is ${codes}: at most ${MOST_VALUES}.`;
  const count = bits(...numbers);
  return count > MOST_BITS ? `It has ${count} bits: at most ${MOST_BITS}.` : "";
}
// what a tower's line says: how many bits, values and processes it has, and who may do what
export function shapeOf(line) {
  const [kind, ...words] = line.split(" "), numbers = words.map(Number);
  if (!Object.hasOwn(TOWERS, kind) || sizeFault(kind, numbers))
    throw new Error(`This isn't a tower: ${quoted(line)}`);
  const { fields, bits } = TOWERS[kind], isMatrix = kind === "matrix";
  const indexOf = (name) => fields.findIndex((it) => it.name === name);
  const number = (name, otherwise) => numbers[indexOf(name)] ?? otherwise;
  const readers = number("READERS", 1), cells = bits(...numbers), side = isMatrix ? numbers[0] : 0;
  // `size` is how many codes a number has, `tagged` how many of them have one stamp
  const size = { unary: numbers[0], stamped: cells, matrix: cells / side ** 2 }[kind] || 0;
  const tagged = isMatrix ? size / (number("INNER") + 1) : 0;
  return { kind, cells, values: number("VALUES", 2), side, readers, size, tagged,
    processes: isMatrix ? side : 1 + readers, isRefusing: isMatrix || kind === "stamped",
    writes: (process) => isMatrix || process === 0,
    reads: (process) => isMatrix || process > 0 };
}
