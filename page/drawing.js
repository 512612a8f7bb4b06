// A picture of branches as strips of SVG, one below the other over one axis of steps. A step is a
// column, and a place is the line between two columns. All here is data: picture.js puts it into
// the page, and still.js writes it as text.
import { Axis } from "./axis.js";
import { bitStrips, groupsOf, wordStrip } from "./bitrows.js";
import { SIGNS } from "./labels.js";
import { Lanes } from "./lanes.js";
import { layersOf } from "./layers.js";
import { TICK_WORDS, TINY, TREE_ROW, WORDY } from "./measures.js";
import { between } from "./pages.js";
import { rounded, shape, textAt, titled, widthOf } from "./shapes.js";

const CHIP = 34, FLAGS = 20;
// how wide a letter of a step's text is
const CHIP_LETTER = 7.9;
export class Drawing {
  // The columns from a step to another are drawn, of a tower of that shape. `depthOf` is how many
  // layers are drawn below a process's operations.
  constructor({ from, to, column, axis = new Axis(column) }, tower, { depthOf, codes } = {}) {
    const layers = layersOf(tower), hasTexts = column >= TICK_WORDS && !axis.isElastic;
    Object.assign(this, { from, to, column, axis, tower, layers, hasTexts, codes, depthOf });
  }
  left(step) { return this.axis.left(step); }
  width(step) { return this.axis.width(step); }
  middle(step) { return (this.left(step) + this.left(step + 1)) / 2; }
  // the x at which runs of places begin and end
  reach({ from, to }, begin, end) {
    return [begin <= from ? this.left(from) : this.middle(begin - 1),
      end >= to ? this.left(to) : this.middle(end)];
  }
  strip(kind, label, drawn, height) { return { kind, label, drawn, height }; }
  ruler(longest) {
    const steps = this.numbered(between(this.from, Math.min(this.to, longest)));
    const numbers = steps.map((it) => textAt(it, this.middle(it), 20, "number"));
    return this.strip("ruler", [textAt("step", 10, 20, "role")], numbers, 28);
  }
  // the steps that have room for their number
  numbered(steps) {
    let last = -Infinity;
    return steps.filter((it) => {
      const x = this.middle(it), isWide = !this.axis.isElastic || this.width(it) > TINY;
      const hasRoom = isWide && x - last > TICK_WORDS;
      if (hasRoom) last = x;
      return hasRoom;
    });
  }
  // a line for each branch, which leaves that of the branch whose cells it begins with
  tree(branches, readings) {
    const labels = [], drawn = [];
    for (const branch of branches) {
      const y = branch.index * TREE_ROW + TREE_ROW / 2 + 2;
      drawn.push(...this.stem(branch, y), ...this.values(branch, readings.get(branch.name), y));
      labels.push(textAt(branch.name, 10, y + 5, "name", { "data-select": branch.name }));
    }
    return this.strip("tree", labels, drawn, branches.length * TREE_ROW + 6);
  }
  stem({ index, parent, shared, length }, y) {
    const x = this.left(shared), above = shared ? y - TREE_ROW * (index - parent.index) : y;
    const path = shared ? `M${x - 12} ${above}l12 12V${y - 12}l12 12` : `M0 ${y}`;
    const d = `${path}H${Math.max(this.left(length), x + 12)}`;
    const first = Math.max(shared, this.from), last = Math.min(length, this.to);
    const dots = first < last ? [shape("path", this.dots(first, last, y))] : [];
    return [shape("path", { class: "stem", d }), ...dots];
  }
  dots(first, last, y) {
    if (!this.axis.isElastic) {
      const d = `M${this.middle(first)} ${y}H${this.left(last)}`;
      return { class: "nodes", d, "stroke-dasharray": `0 ${this.column}` };
    }
    const dot = (it) => `M${rounded(this.middle(it))} ${y}h0`;
    return { class: "nodes", d: between(first, last).map(dot).join("") };
  }
  // what reads of a branch's own steps returned
  values({ shared }, reading, y) {
    const first = Math.max(shared, this.from);
    const isIn = (it) => it.ended >= first && it.ended < reading.to;
    const isShown = (it) => it.kind === "read" && it.ending === "returned" && isIn(it);
    return (reading ? reading.run.operations.filter(isShown) : []).map((it) => {
      const words = `${SIGNS[it.verdict] || ""} ${it.value}`.trim();
      const right = this.middle(it.ended) + widthOf(words) / 2 + 5;
      return this.verdict(it, words, right, y - 11, 22);
    });
  }
  verdict(read, words, right, y, height) {
    const width = widthOf(words) + 10;
    return shape("g", { class: `verdict ${read.verdict}`, "data-verdict": read.verdict || null },
      shape("rect", { x: right - width, y, width, height, rx: 4 }),
      textAt(words, right - width / 2, y + height - 6));
  }
  // the steps as chips; `shared` is how many of them other branches hold too, `differing` are those
  // to mark
  chips(reading, { shared = 0, differing = [] } = {}) {
    const { branch, run, from, to } = reading;
    const kinds = new Map(run.marks.map((it) => [it.step, it.kind]));
    const drawn = between(from, to).map((step) => {
      const words = branch.step(step), kind = kinds.get(step);
      const said = [`step ${step}: ${words}`, ...run.eventsAt(step)].join("; ");
      const marks = [kind, step < shared && "shared", differing.includes(step) && "differs"];
      const given = { class: ["chip", ...marks].filter(Boolean).join(" "), "data-step": step };
      return shape("g", given, titled(said), ...this.chip(step, words, kind === "chosen"));
    });
    return this.strip("chips", [textAt("steps", 10, 21, "role")], drawn, CHIP);
  }
  // a narrow step has a part of its words, or none
  chip(step, words, isChosen) {
    const column = this.width(step), isWide = column >= WORDY, room = column - 6;
    const [what, process, number] = words.split(" "), short = what === "g"
      ? (isChosen ? `${process}\u25c6${number}` : `p${process}`) : `${what}${process}`;
    const shown = isWide ? words : column >= TINY ? short : "";
    const isTight = isWide && shown.length * CHIP_LETTER > room;
    const squeezed = isTight && { textLength: room, lengthAdjust: "spacingAndGlyphs" };
    const box = { x: this.left(step) + 1.5, y: 2, rx: isWide ? 5 : 1, height: CHIP - 6 };
    return [shape("rect", { ...box, width: Math.max(1, column - 3) }),
      shown && textAt(shown, this.middle(step), 21, isWide ? null : "tight", squeezed)];
  }
  flags(cursors) {
    const isIn = ({ place }) => place >= this.from && place <= this.to;
    const drawn = cursors.filter(isIn).map((it) => this.flag(it));
    return this.strip("flags", [textAt("sessions", 10, 14, "role")], drawn, FLAGS);
  }
  flag({ who, place }) {
    const x = this.left(place), words = `s${who}`;
    const box = { x, y: 1, width: widthOf(words, 13) + 8, height: 17, rx: 3 };
    return shape("g", { class: "flag", "data-session": who },
      shape("path", { d: `M${x} 0v${FLAGS}` }), shape("rect", box), textAt(words, x + 4, 14));
  }
  // a lane for each process; `asked` are the processes that give a choice next
  lanes(reading, { asked = [], shared = 0 } = {}) {
    return new Lanes(this, reading, shared).strip(asked);
  }
  // over what is drawn above already, as another branch shares it
  veil(from, shared, height) {
    const x = this.left(from), width = this.left(Math.min(shared, this.to)) - x;
    return width > 0 ? [shape("rect", { class: "veil", x, y: 0, width, height })] : [];
  }
  // the bits that have a row, by the register they are in
  groups(readings) { return groupsOf(this, readings); }
  bits(reading, groups, shared = 0) { return bitStrips(this, reading, groups, shared); }
  words(reading, shared = 0) { return wordStrip(this, reading, shared); }
}
