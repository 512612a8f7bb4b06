// The operations inside an operation, layer by layer, from the pages `pending`, `state` and
// `history` alone.
//
// One rule nests them: an inner operation goes on as long as the frame above it, and the part of
// that frame that is in work, stay the same. What they gave follows by five facts of decoding, each
// of which docs/guide/towers.md states where it describes the layer that is named here:
// - a scan's number is the last bit that it looked at (unary): `found`;
// - a read of a bit gives the choice if it was hit, else the bit where it ends (safe): `bitOf`;
// - a number is the index of its first bit that is 1, with either value for the bit that is being
//   written (unary, safe): `numbersAt`;
// - what a code is of, and which cells and words R[i][j] has (stamped, matrix): `Codes`;
// - a write of X sets bit X and then clears X - 1 down to 0, and passes those bits that were last
//   written so (unary, regular): `skipped`.
import { between } from "./pages.js";

// The layers below a tower's operations that say something new, outermost first: copies do if
// there are several.
export function layersOf({ kind, readers = 1 }) {
  const copies = readers > 1 ? ["copies"] : [];
  return { safe: [], copies, regular: copies, unary: ["regular", ...copies],
    stamped: ["unary", "regular"], matrix: ["stamped", "unary", "regular"] }[kind];
}
// The codes of a tower's numbers; a tower of bits has none.
export class Codes {
  constructor({ kind, values, side, readers, size, tagged }) {
    Object.assign(this, { kind, values, side, readers, size, tagged });
    this.registers = this.size ? this.madeRegisters() : [];
  }
  // of a stamped register stamp*VALUES + value; of a matrix stamp*tagged + (tag*N + writer)*VALUES
  // + value, in which `tagged` is how many tagged codes there are
  parts(code) {
    const { kind, values, tagged, side } = this, value = code % values;
    if (kind === "unary") return { value: code };
    if (kind === "stamped") return { stamp: Math.floor(code / values), value };
    const inner = code % tagged, author = Math.floor(inner / values);
    return { stamp: Math.floor(code / tagged), inner, tag: Math.floor(author / side),
      writer: author % side, value };
  }
  // each unary number: its name, its first cell and first word, who writes and who reads it
  madeRegisters() {
    const { kind, side, size } = this, name = kind === "unary" ? "number" : "register";
    if (kind !== "matrix") return [{ name, cell: 0, word: 0, writer: 0, reader: 1 }];
    return between(0, side ** 2).map((it) => {
      const writer = Math.floor(it / side), reader = it % side;
      const words = size + 2;
      return { name: `R[${writer}][${reader}]`, cell: it * size, word: it * words, writer, reader };
    });
  }
  // the register that a matrix's operation has in work: of its column, or of its row
  partOf(process, { phase, index }) {
    const [writer, reader] = phase === "read" ? [index, process] : [process, index];
    return this.registers[writer * this.side + reader];
  }
}
// An operation of a layer. It has its frame at the places `from` to `to`; the step `to` ends it.
class Inner {
  constructor(operation, frame, above, place) {
    const { layer, isWrite, value } = frame;
    Object.assign(this, { operation, process: operation.process, layer, isWrite, value, above,
      within: above ? above.last : null, last: frame, from: place, to: place, isEnded: false,
      isCut: false, inner: [] });
  }
  get ended() { return this.isEnded ? this.to : null; }
}
// What is inside the operations of a reading; `page` returns a page of a place, if it is there.
export class Layers {
  constructor(reading, page) {
    Object.assign(this, { reading, page, roots: [] });
    for (const operation of reading.operations) this.take(operation);
  }
  framesAt(place, process) { return this.page("pending", place)?.frames[process] || []; }
  // the first place of an operation whose pages are there, with all after it
  firstOf({ begun }) {
    let place = Math.max(this.reading.from, begun + 1);
    while (place > begun + 1 && this.page("pending", place - 1) && this.page("state", place - 1))
      place--;
    return place;
  }
  take(operation) {
    const { process, begun, ended } = operation, { to } = this.reading;
    const first = this.firstOf(operation), last = Math.min(to, ended ?? to);
    let open = [];
    for (let place = first; place <= last; place++)
      open = this.goOn(operation, open, this.framesAt(place, process), place);
    if (ended !== null && ended <= to) open.forEach((it) => { it.isEnded = true; });
    const root = this.roots.at(-1);
    if (root?.operation === operation && first > begun + 1) markCut(root);
  }
  // the inner operations at a place, outermost first: those that go on, and new ones
  goOn(operation, open, frames, place) {
    const isSame = (it, depth) => open[depth] && open[depth].layer === it.layer
      && (depth === 0 || open[depth - 1].last.part === frames[depth - 1].part);
    const other = frames.findIndex((it, depth) => !isSame(it, depth));
    const next = open.slice(0, other < 0 ? frames.length : other);
    open.slice(next.length).forEach((it) => { it.isEnded = true; });
    next.forEach((it, depth) => Object.assign(it, { to: place, last: frames[depth] }));
    for (const frame of frames.slice(next.length)) {
      const above = next.at(-1), made = new Inner(operation, frame, above, place);
      (above ? above.inner : this.roots).push(made);
      next.push(made);
    }
    return next;
  }
  root(operation) { return this.roots.find((it) => it.operation === operation); }
  // all of a layer inside one; of several copies those below them are meant, one for each copy
  allIn(layer, it) {
    if (it.layer === layer) return layer === "copies" ? it.inner : [it];
    return it.inner.flatMap((each) => this.allIn(layer, each));
  }
  all(layer) { return this.roots.flatMap((it) => this.allIn(layer, it)); }
}
// one that began before the first place that is known, and the inner ones that may have
function markCut(it) {
  it.isCut = true;
  if (it.inner.length) markCut(it.inner[0]);
}
// What inner operations gave, and what the memory holds.
export class Facts {
  constructor(layers, codes) {
    const { page, reading } = layers, isChoice = ({ kind }) => kind === "chosen";
    Object.assign(this, { layers, codes, page, reading, memories: new Map() });
    this.choices = new Map(reading.run.marks.filter(isChoice)
      .map(({ step, process, words }) => [`${step} ${process}`, words]));
  }
  memory(place) {
    const { memories } = this, words = this.page("state", place)?.words || "";
    if (!memories.has(place)) memories.set(place, words.split(" ").slice(1).map(Number));
    return memories.get(place);
  }
  // the last stamp of a register's writer, and the greatest code that its reader has read
  stamp({ word }, place) { return this.memory(place)[word + this.codes.size] ?? null; }
  best({ word }, place) { return this.memory(place)[word + this.codes.size + 1] ?? null; }
  // the numbers that scans of a register's bits find if these stay as they are, the written one
  // last: while a bit is being written, those with either value of it
  numbersAt(register, place, written) {
    const { size, readers } = this.codes, bits = this.page("state", place)?.bits || "";
    const inWork = this.bitInWork(register, place);
    // kept short, as it is called for each place of each register
    const firstOne = (copy, value) => {
      for (let index = 0; index < size; index++) {
        const cell = register.cell + copy + index * readers;
        if (cell === inWork ? value : bits[cell] === "1") return index;
      }
      return null;
    };
    const copies = between(0, written === null ? 1 : readers);
    const found = copies.flatMap((copy) => [firstOne(copy, false), firstOne(copy, true)]);
    return [...new Set(found)].sort((a, b) => (a === written) - (b === written));
  }
  // the bit of a register that is being written at a place, or null
  bitInWork({ cell, name, writer }, place) {
    const { layers, codes } = this, frames = layers.framesAt(place, writer), safe = frames.at(-1);
    if (!safe?.isWrite || !safe.isBegun) return null;
    if (codes.kind === "matrix" && codes.partOf(writer, frames[0]).name !== name) return null;
    const indexIn = (layer) => frames.find((it) => it.layer === layer).index;
    return cell + indexIn("unary") * codes.readers + indexIn("copies") - 1;
  }
  // what a read of a bit gave, whether it was hit, and its cell; null while it goes on
  bitOf(it) {
    const { ended, process } = it, line = this.page("state", ended)?.processes[process];
    if (ended === null || line?.action !== "re") return null;
    const choice = this.choices.get(`${ended} ${process}`);
    const value = choice ?? this.page("state", ended).bits[line.bit];
    if (value === undefined) return null;
    return { value: Number(value), isHit: choice !== undefined, cell: line.bit };
  }
  // the number that a scan found, also of a read that has it inside; null while it goes on
  found(it) {
    const scan = it.layer === "unary" ? it : this.layers.allIn("unary", it)[0];
    return scan && scan.isEnded && !scan.isWrite ? scan.last.index : null;
  }
  // the register in which something is done, if that is known
  registerOf(it) {
    const { codes } = this;
    if (codes.kind !== "matrix") return codes.registers[0] || null;
    let at = it;
    while (at && at.above?.layer !== "matrix") at = at.above;
    return at ? codes.partOf(at.process, at.within) : null;
  }
  // the first read of a matrix's column that found its greatest tagged code; null if it isn't known
  entryOf(root) {
    const bestAfter = (it) => this.best(this.registerOf(it), it.to + 1);
    const isIt = (it) => it.within.phase === "read" && it.isEnded
      && this.codes.parts(bestAfter(it)).inner === root.last.code;
    return root.isCut ? null : root.inner.find(isIt) || null;
  }
  // the bits that a write of a number passes before each of its inner writes, and after the last
  skipped(it) {
    if (it.layer !== "unary" || !it.isWrite || it.isCut) return [];
    const ends = [...it.inner.map((each) => each.within.index), ...(it.isEnded ? [-1] : [])];
    return ends.map((index, at) =>
      between(index + 1, at ? ends[at - 1] : it.value + 1).reverse());
  }
}
