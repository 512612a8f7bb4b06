// Prints schedules of towers, and the same operations on another tower.
// usage: node aligned.mjs MODULE SCHEDULES     in a folder where page/ is; a line of SCHEDULES is a
// tower's line and its steps, as JSON; for each other tower that can take these operations a line
// is printed: both towers' lines, both histories and the steps on the other one
import { readFileSync } from "node:fs";
import { answerBy } from "./page/machine.js";
import { othersOf, transferred } from "./page/aligned.js";
import { Document } from "./page/document.js";
import { Model } from "./page/model.js";
import { Reading } from "./page/reading.js";

const [wasm, schedules] = process.argv.slice(2);
const module = await WebAssembly.compile(readFileSync(wasm));
const ask = async (...given) => answerBy(module, ...given);
async function historyOf(tower, steps) {
  const file = `tower 2\n${tower}\n${steps.map((it) => `${it}\n`).join("")}`;
  const model = await Model.of(Document.of(file, "0 join\n"), ask), [branch] = model.branches;
  const { length } = branch, page = (kind) => model.page(kind, "main", length);
  await model.look([["history", "main", length], ["verdict", "main", length]]);
  const { run } = new Reading(branch, length, length, page);
  return { run, lines: page("history").lines };
}
for (const line of readFileSync(schedules, "utf8").trim().split("\n")) {
  const [tower, steps] = JSON.parse(line), first = await historyOf(tower, steps);
  for (const other of othersOf(tower, steps)) {
    const made = await transferred(ask, first.run, (at) => steps[at], other);
    const { lines } = await historyOf(other, made);
    console.log(JSON.stringify([tower, other, first.lines, lines, made]));
  }
}
