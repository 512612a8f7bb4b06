// A time line of a lesson as a picture that can be played, step by step.
import { othersOf } from "./aligned.js";
import { answer } from "./engine.js";
import { Document, EMPTY_TOWER } from "./document.js";
import { LABEL, MARGIN } from "./measures.js";
import { Model } from "./model.js";
import { looksOf, readInside, stillRows } from "./still.js";
import { whyReturned } from "./stories.js";
import { partOf } from "./exercises.js";
import { withWords } from "./words.js";
import { element, mounted } from "./elements.js";

const LONG_SCHEDULE = 60, LEAST_WIDTH = 560, EDGES = 30, PLAY_PAUSE = 900;
const COLUMN = { least: 34, most: 104 };
// the figures of the lesson that is shown
const shownFigures = new Set();
// a branch up to a place, in rows that are as wide as there is room
async function picture(model, branch, place, room) {
  const { length } = branch, fitting = Math.floor((room - LABEL - MARGIN) / Math.max(1, length));
  const column = Math.max(COLUMN.least, Math.min(COLUMN.most, fitting));
  const count = Math.max(4, Math.min(length, Math.floor((room - LABEL - MARGIN) / column)));
  await model.look(looksOf(branch, 0, place));
  return stillRows(model, [branch], { most: place, column, count }).map(({ svg }) => mounted(svg));
}
class Figure {
  constructor(target, model, branch) {
    Object.assign(this, { target, model, branch, place: branch.length, playing: 0, turn: 0 });
    const { length } = branch, button = (label, sign, onclick) =>
      element("button", { onclick, "aria-label": label, title: label }, sign);
    this.why = element("p", { class: "why-here", role: "status" });
    this.drawn = element("div", { class: "drawn-here", onclick: (event) => this.explain(event) });
    this.at = element("b", { class: "at-place" });
    this.play = element("button", { class: "big", "data-figure": "play",
      onclick: () => this.playOrPause() });
    this.range = element("input", { type: "range", min: 0, max: length, "aria-label": "place",
      oninput: () => { this.pause(); this.put(Number(this.range.value)); } });
    this.row = element("div", { class: "play" }, element("code", {}, model.tower), this.play,
      button("a step back", "\u25c0", () => this.by(-1)), this.range,
      button("a step on", "\u25b6", () => this.by(1)), this.at);
    this.pause();
  }
  // if there is less room, the place stays in sight
  async put(place) {
    await this.draw(place);
    this.drawn.scrollLeft = this.drawn.scrollWidth;
  }
  async draw(place) {
    const { range, at, drawn, target, model, branch } = this, { length } = branch;
    const wide = (target.closest("article")?.clientWidth || 0) - EDGES, turn = ++this.turn;
    this.place = Math.max(0, Math.min(length, place));
    this.why.replaceChildren();
    range.value = this.place;
    at.textContent = this.place === length ? `all ${length} steps`
      : `place ${this.place} of ${length}, before ${branch.step(this.place)}`;
    const rows = await picture(model, branch, this.place, Math.max(LEAST_WIDTH, wide));
    if (turn === this.turn) drawn.replaceChildren(...rows);
  }
  // no explanation while a prediction is asked for
  explain({ target }) {
    const read = target.closest(".operation.read");
    if (!read || target.closest(".covered")) return;
    const reading = readInside(this.model, this.branch, 0, this.place);
    this.why.replaceChildren(...withWords(whyReturned(reading, read.dataset)));
  }
  by(count) {
    this.pause();
    return this.put(this.place + count);
  }
  pause() {
    clearInterval(this.playing);
    this.playing = 0;
    this.play.textContent = "\u25b6 Play";
  }
  playOrPause() {
    if (this.playing) return this.pause();
    if (this.place === this.branch.length) this.put(0);
    this.play.textContent = "\u2016 Pause";
    this.playing = setInterval(() => this.next(), PLAY_PAUSE);
    return null;
  }
  next() {
    if (this.place >= this.branch.length || !this.target.isConnected) this.pause();
    else this.put(this.place + 1);
  }
}
// draws the lesson's figures again, as wide as there is room now
export function redrawFigures() {
  for (const it of shownFigures)
    if (it.target.isConnected) it.draw(it.place);
    else shownFigures.delete(it);
}
// the stamped tower, which has no inversions, that can take the operations of a number's time line
function secondOf({ tower }, { steps }) {
  const isStamped = (it) => it.startsWith("stamped ");
  return tower.startsWith("unary ") ? othersOf(tower, steps).find(isStamped) : undefined;
}
// makes the picture of a time line; `enter` opens the lesson's script in the workbench, and
// `enterBoth` its schedule with a second tower below
export async function putFigure(target, lesson, enter, enterBoth) {
  const { part, branch: name } = target.dataset, { tower, script } = partOf(lesson, part);
  const text = target.querySelector("pre"), written = name === "main" ? "" : script;
  const model = await Model.of(Document.of(tower || EMPTY_TOWER, written), answer);
  const branch = model.branch(name), figure = new Figure(target, model, branch);
  const title = "play the lesson's script line by line", onclick = () => enter(part);
  const open = element("button", { "data-play": part, onclick, title }, "Play its script");
  const second = secondOf(model, branch), both = second && element("button", {
    "data-second": second, title: "the same operations on both towers, one above the other",
    onclick: () => enterBoth(part, branch.length, second) }, `Next to ${second}`);
  figure.row.append(element("span", { class: "gap" }), ...[both, open].filter(Boolean));
  const fold = (words, ...its) => element("details", {}, element("summary", {}, words), ...its);
  // the text of a long schedule says more at a glance than its picture
  if (branch.length > LONG_SCHEDULE)
    target.replaceChildren(text,
      fold(`as a picture, ${branch.length} steps`, figure.row, figure.drawn, figure.why));
  else target.replaceChildren(figure.row, figure.drawn, figure.why, fold("as text", text));
  shownFigures.add(figure);
  await figure.draw(branch.length);
}
