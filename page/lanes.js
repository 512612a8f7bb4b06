// A lane for each process: its operations as bars, the ticks of their actions, and marks.
import { SIGNS, labelsOf } from "./labels.js";
import { BAR, MARGIN, TICK_WORDS } from "./measures.js";
import { NEST, nestedBars } from "./nests.js";
import { between } from "./pages.js";
import { rounded, shape, sized, textAt, titled, widthOf } from "./shapes.js";

// how high a row of ticks and a verdict are, how far below its tick a long number of a bit is, and
// how many bits have short ones; how far apart words on a long bar are, and the gap between them
const TICKS = 21, VERDICT = 24, LONG_BITS = 16, SHORT_BITS = 10, TEXT_EVERY = 832, TEXT_GAP = 240;
// the sizes of letters on an operation's bar, and how drawing.css names them
const OP_LOOKS = { 17: "op", 15: "op small", 13: "op less" }, OP_SIZES = [17, 15, 13];
// The lanes of one reading. `shared`: how many steps are drawn above already, on another branch.
export class Lanes {
  constructor(drawing, reading, shared) {
    Object.assign(this, { drawing, reading, shared });
    Object.assign(this, this.layOut());
  }
  layersAt(process) {
    const { depthOf, layers } = this.drawing;
    return depthOf ? layers.slice(0, depthOf(process)) : [];
  }
  hasBits(process) { return this.layersAt(process).includes("regular"); }
  // many bits have long numbers, which go below their ticks
  hasLongNumbers(process) {
    const { hasTexts, tower } = this.drawing;
    return hasTexts && tower.cells > SHORT_BITS && !this.hasBits(process);
  }
  nestHeight(process) { return this.layersAt(process).length * NEST; }
  // where each process's lane is; verdicts and refusals are over it
  layOut() {
    const { drawing: { tower, hasTexts }, reading } = this, tops = new Map();
    let y = 2;
    for (const process of reading.processes) {
      y += tower.reads(process) || tower.isRefusing ? VERDICT + 2 : 4;
      tops.set(process, y);
      y += BAR + 8 + this.nestHeight(process) + (hasTexts ? TICKS : 4);
      y += LONG_BITS * this.hasLongNumbers(process);
    }
    return { tops, height: y };
  }
  // `asked` are the processes that give a choice next
  strip(asked) {
    const { drawing, reading, shared, tops, height } = this, { from, to } = reading;
    const has = (it) => tops.has(it.process), waiting = reading.isCut ? [] : asked;
    const columns = shape("path", { class: "columns", d: this.stripes(from, to) });
    const end = shape("path", { class: "end", d: `M${drawing.left(to)} 0V${height}` });
    const drawn = [columns, ...(reading.isCut ? [] : [end]),
      ...[...tops].map((it) => this.line(...it)),
      ...reading.operations.filter(has).map((it) => this.operation(it, tops.get(it.process))),
      ...reading.marks.filter(has).map((it) => this.mark(it, tops.get(it.process))),
      ...waiting.filter((it) => tops.has(it)).map((it) => this.question(tops.get(it))),
      ...drawing.veil(from, shared, height)];
    return drawing.strip("lanes", [...tops].flatMap((it) => this.labels(...it)), drawn, height);
  }
  labels(process, top) {
    const { tower } = this.drawing;
    const roles = [tower.writes(process) && "writes", tower.reads(process) && "reads"];
    return [textAt(`p${process}`, 10, top + 22, "process"),
      textAt(roles.filter(Boolean).join(", "), 42, top + 21, "role")];
  }
  line(process, top) {
    const { drawing, reading: { from, to, run } } = this, left = drawing.left(from);
    const stop = Math.min(drawing.left(to), drawing.left(run.stops.get(process) ?? to));
    const d = `M${left} ${top + BAR / 2}H${Math.max(stop, left)}`;
    return shape("path", { class: "lane", d });
  }
  question(top) {
    const x = this.drawing.left(this.reading.to) + MARGIN - 22;
    return shape("g", { class: "mark asked" }, this.diamond(x, top + BAR / 2, "?"));
  }
  // every second column
  stripes(from, to) {
    const { drawing, height } = this;
    const stripe = (it) => {
      const width = rounded(drawing.width(it));
      return `M${rounded(drawing.left(it))} 0h${width}v${height}h-${width}z`;
    };
    return between(from, to).filter((it) => it % 2 === 0).map(stripe).join("") || "M0 0";
  }
  operation(it, top) {
    const { drawing, reading } = this, { from, to } = reading, { process } = it, low = top + BAR;
    const begin = it.begun < from ? drawing.left(from) : drawing.left(it.begun) + 3;
    const { end, bar } = this.bar(it, begin, top);
    const root = reading.facts?.layers.root(it), layers = this.layersAt(process);
    const drawn = [...bar, ...this.barTexts(it, root, [begin, end, top])];
    if (root) drawn.push(...nestedBars(drawing, reading, root, layers, low + 3));
    for (const tick of reading.ticks(it))
      drawn.push(this.tick(tick, low + this.nestHeight(process), process));
    if (it.ended !== null && it.ended < to) drawn.push(...this.ending(it, end, top));
    const until = it.ended === null ? `on, ${it.ending} at place ${to}` : `to ${it.ended}`;
    const said = `p${process} ${it.name}, from step ${it.begun} ${until}`;
    const given = { class: `operation ${it.kind} ${it.ending} ${it.verdict}`.trim(),
      "data-at": it.begun, "data-process": process };
    return shape("g", given, titled(`${said}${it.verdict && `: ${it.value}, ${it.verdict}`}`),
      drawn);
  }
  // a read's verdict, or a refusal (the verdict of what isn't drawn above stays next to the veil)
  ending(it, end, top) {
    const { drawing, reading, shared } = this;
    if (it.ending === "refused") return this.refused(it, end, top);
    if (it.ending !== "returned" || it.kind !== "read") return [];
    const words = `${it.value} ${SIGNS[it.verdict] || ""} ${it.verdict}`.trim();
    const first = Math.max(reading.from, it.ended >= shared ? shared : 0);
    const least = drawing.left(first) + widthOf(words) + 10;
    return [drawing.verdict(it, words, Math.max(end, least), top - VERDICT, VERDICT)];
  }
  // what an operation does and gave, again and again on a long bar, but not over a diamond
  barTexts(it, root, [begin, end, top]) {
    const { drawing, reading } = this, { from, to } = reading, { process, begun, name } = it;
    const labels = root ? labelsOf(reading.facts, root) : [name], y = top + 21;
    const isOwn = (mark) => mark.kind === "chosen" && mark.process === process
      && mark.step > begun && mark.step <= (it.ended ?? to);
    const hits = this.hasBits(process) ? [] : reading.marks.filter(isOwn);
    const diamonds = hits.map(({ step }) => drawing.middle(step) - 16);
    const room = Math.min(end, drawing.left(to), ...diamonds) - begin;
    const short = `${it.kind[0]} ${name.slice(6)}`.trim();
    const { words: shown, size } = sized(labels, room - 6, OP_SIZES) || {};
    if (!shown) return begun >= from ? [textAt(short, begin + 3, y, "op")] : [];
    const kind = OP_LOOKS[size], width = widthOf(shown, size), texts = [];
    const first = drawing.left(begun) + 8, every = Math.max(TEXT_EVERY, width + TEXT_GAP);
    let x = first + Math.max(0, Math.ceil((begin - first) / every)) * every;
    for (; x + width * 0.9 <= begin + room - 4; x += every) texts.push(textAt(shown, x, y, kind));
    return texts;
  }
  // equal refusals one after the other are written once
  refused({ process, refusal, ended }, end, top) {
    const { drawing, reading } = this, words = `refused: ${refusal}`, width = widthOf(words, 13);
    const near = ended - Math.ceil(width / drawing.column);
    const isSame = (it) => it.process === process && it.refusal === refusal;
    const isNear = (it) => it.ended >= near && it.ended < ended;
    const right = Math.max(end, drawing.left(drawing.from) + width);
    const isSaid = reading.operations.some((it) => isSame(it) && isNear(it));
    return isSaid ? [] : [textAt(words, right, top - 6, "refusal")];
  }
  // where a bar ends, and the bar, which stays open if the operation is pending at the branch's end
  bar(it, begin, top) {
    const { drawing, reading: { to, run, isCut } } = this, low = top + BAR;
    if (it.ended !== null || isCut) {
      const isIn = it.ended !== null && it.ended < to;
      const end = isIn ? drawing.left(it.ended + 1) - 3 : drawing.left(to);
      const box = { x: begin, y: top, width: Math.max(0, end - begin), height: BAR };
      return { end, bar: [shape("rect", { class: "bar", ...box })] };
    }
    const far = drawing.left(to) + MARGIN - 40, stopped = run.stops.get(it.process);
    const end = Math.min(far, Math.max(begin, drawing.left((stopped ?? to - 1) + 1)));
    const word = stopped === undefined || end + 60 > far ? "pending" : "never ends";
    const at = Math.max(end + 5, far - widthOf(word, 14));
    const open = { x: end, y: top, width: far - end, height: BAR };
    const edge = `M${end} ${top}H${far}M${end} ${low}H${far}`;
    return { end, bar: [shape("rect", { class: "open", ...open }),
      shape("path", { class: "open-edge", d: edge }),
      shape("path", { class: "bar", d: `M${end} ${top}H${begin}V${low}H${end}` }),
      textAt(word, at, top + 20, "role")] };
  }
  // a tick with its action and its bit, which goes below if bits have many digits; it is left out
  // if a bar says it too
  tick({ step, action, bit }, y, process) {
    const { drawing } = this, x = drawing.middle(step);
    const given = { class: "tick", "data-action": `${action} ${bit}`, "data-step": step };
    if (drawing.axis.isElastic || drawing.width(step) < TICK_WORDS)
      return shape("g", given, shape("path", { d: `M${x} ${y + 1}v5` }));
    const below = this.hasLongNumbers(process) ? { x, dy: LONG_BITS } : {};
    const tspan = { class: "bit", ...below };
    const hasNest = this.nestHeight(process) > 0;
    const number = !this.hasBits(process) && shape("tspan", tspan, String(bit));
    return shape("g", given, shape("path", { d: hasNest ? `M${x} ${y}v5` : `M${x} ${y - 6}v10` }),
      shape("text", { x, y: y + 18 }, `${action} `, number));
  }
  diamond(x, y, words, most = 14) {
    const r = Math.max(5, Math.min(most, this.drawing.column * 0.42));
    return [shape("path", { d: `M${x} ${y - r}l${r} ${r}l-${r} ${r}l-${r} -${r}z` }),
      r > 7 && textAt(words, x, y + (r > 12 ? 5 : 4), r > 12 ? null : "tight")];
  }
  mark(it, top) {
    const { kind, step, process, words } = it, { drawing, reading: { run } } = this;
    const isSame = (other) => other.kind === kind && other.step === step - 1
      && other.process === process && other.words === words;
    const isSaid = kind === "stop" || (kind === "void" && drawing.width(step) >= TICK_WORDS);
    const drawn = this.sign(it, drawing.middle(step), top);
    if (isSaid && !run.marks.some(isSame)) {
      const y = top + BAR + this.nestHeight(process) + 18;
      drawn.push(textAt(words, drawing.middle(step), y));
    }
    return shape("g", { class: `mark ${kind}`, "data-step": step },
      titled(`step ${step}, p${process}: ${kind} ${words}`), drawn);
  }
  // a diamond for a choice, a cross for a stop, or a circle
  sign({ kind, step, process, words }, x, top) {
    const isNested = kind === "chosen" && this.hasBits(process), middle = top + BAR / 2;
    const row = this.layersAt(process).indexOf("regular");
    const y = isNested ? top + BAR + 3 + row * NEST + (NEST - 4) / 2 : middle;
    if (kind === "chosen") return this.diamond(x, y, words, isNested ? 11 : 14);
    const cross = shape("path", { d: `M${x - 11} ${y - 11}l22 22m0 -22l-22 22` });
    if (kind === "stop") return [cross, cross];
    const r = Math.max(2.5, Math.min(7, this.drawing.width(step) * 0.4));
    return [shape("circle", { cx: x, cy: kind === "refused" ? y + BAR / 2 : y, r })];
  }
}
