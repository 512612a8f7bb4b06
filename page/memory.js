// What a tower's numbers hold at the cursor's place: a card, or of a matrix a square of N by N.
import { codeWords, tagWords } from "./labels.js";
import { between } from "./pages.js";
import { element } from "./elements.js";
import { now } from "./state.js";

const SMALL_SIDE = 2;
// who has a number in work at a place: the process, the number, and its frames
function usesAt(codes, pending) {
  return (pending?.frames || []).flatMap((frames, process) => {
    const unary = frames.find((it) => it.layer === "unary"), [outermost] = frames;
    if (!unary) return [];
    const matrix = outermost.layer === "matrix" ? outermost : null;
    const register = matrix ? codes.partOf(process, matrix) : codes.registers[0];
    return [{ process, register, unary, matrix }];
  });
}
// the card at a place of a branch; null if its tower has no numbers
export function memoryCard(name, place) {
  const { model } = now, { codes } = model, state = model.page("state", name, place);
  if (!codes.size || !state) return null;
  const uses = usesAt(codes, model.page("pending", name, place));
  const card = { codes, uses, state, words: state.words.split(" ").slice(1).map(Number) };
  const inside = codes.kind === "matrix" ? [squareOf(card), progressOf(card)]
    : codes.registers.map((it) => registerCell(card, it, "div"));
  return element("div", { class: "card" }, inside);
}
function squareOf(card) {
  const { codes: { side, registers }, uses } = card, numbers = between(0, side);
  const inWork = (i, j) => uses.map(({ process, matrix }) => (matrix.phase === "read"
    ? j === process && "column" : i === process && "row"));
  const cell = (i, j) => {
    const made = registerCell(card, registers[i * side + j], "td");
    made.classList.add(...inWork(i, j).filter(Boolean));
    return made;
  };
  const row = (i) => element("tr", {}, element("th", { scope: "row" }, `p${i} writes`),
    numbers.map((j) => cell(i, j)));
  const heads = numbers.map((j) => element("th", { scope: "col" }, `p${j} reads`));
  return element("table", { class: "square" }, element("tr", {}, element("td"), heads),
    numbers.map(row));
}
// what each process in work has found, and which part it is at
function progressOf({ codes, uses }) {
  const words = ({ process, matrix: { isWrite, value, phase, index, code } }) => {
    const what = `p${process}'s ${isWrite ? `write ${value}` : "read"}`;
    const tag = tagWords(codes, code);
    return phase === "read"
      ? `${what}: reads its column, now R[${index}][${process}]; greatest so far: ${tag}`
      : `${what}: writes ${tag} to its row, now R[${process}][${index}]`;
  };
  return element("ul", {}, uses.map((it) => element("li", {}, words(it))));
}
function numberIn({ codes: { size, readers }, state }, { cell }) {
  return between(0, size).find((it) => state.bits[cell + it * readers] === "1");
}
function registerCell(card, register, name) {
  const { codes, uses, words } = card, mine = uses.filter((it) => it.register === register);
  const writing = mine.find((it) => it.unary.isWrite), code = numberIn(card, register);
  const reading = mine.filter((it) => !it.unary.isWrite), isSmall = codes.side <= SMALL_SIDE;
  const kind = ["memory", writing && "is-written", reading.length && "is-read"].filter(Boolean);
  const at = ({ process, unary }, does) => element("div", { class: does },
    isSmall ? `p${process} ${does}, at bit ${unary.index}` : `${does}, bit ${unary.index}`);
  const best = words[register.word + codes.size + 1];
  const bestWords = () => (codes.kind === "matrix" ? tagWords(codes, codes.parts(best).inner)
    : `code ${best} = ${codeWords(codes, best).long}`);
  const memory = codes.kind !== "unary" && isSmall && best !== code
    && `p${register.reader} remembers ${bestWords()}`;
  const given = { class: kind.join(" "), "data-register": register.name, "data-code": code };
  return element(name, given,
    element("b", {}, register.name), writing && at(writing, "writes"),
    codeLines(codes, writing ? writing.unary.value : code, isSmall),
    reading.map((it) => at(it, "scans")), memory && element("small", {}, memory));
}
// a number in lines: its value, and then what its code is of
function codeLines(codes, code, isSmall) {
  if (code === undefined) return [element("div", {}, "no bit is 1")];
  const { stamp, tag, writer, value } = codes.parts(code);
  const author = `tag ${tag} by p${writer}`;
  const lines = { unary: [], stamped: [`stamp ${stamp}, code ${code}`],
    matrix: [author, ...(isSmall ? [`stamp ${stamp}, code ${code}`] : [`stamp ${stamp}`])] };
  return [element("div", { class: "value-now" }, `${value}`),
    ...lines[codes.kind].map((it) => element("div", {}, it))];
}
