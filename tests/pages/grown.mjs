// Follows documents as the page does, and prints what it takes their branches for.
// usage: node grown.mjs MODULE CHAINS     in a folder where page/ is; a line of CHAINS is a tower
// or bench file and scripts, one after the other, as JSON; for each script a line is printed: the
// branches as a bench file, how many runs there were, how many of them saved, and a fault or none
import { readFileSync } from "node:fs";
import { answerBy } from "./page/machine.js";
import { Document } from "./page/document.js";
import { Model } from "./page/model.js";
import { benchOf, forestIn } from "./page/pages.js";

const [wasm, chains] = process.argv.slice(2);
const module = await WebAssembly.compile(readFileSync(wasm));
const spent = { runs: 0, saves: 0 };
async function ask(tower, script, options) {
  spent.runs++;
  spent.saves += options.isSaved;
  return answerBy(module, tower, script, options);
}
// what is wrong with the branches of a model, next to those that its bench file has
function faultOf({ bench, tower, branches }) {
  const stepsOf = (all) => JSON.stringify(all.map(({ name, steps }) => [name, steps]));
  if (benchOf(tower, branches) !== bench) return "the branches aren't those of the bench file";
  if (stepsOf(branches) !== stepsOf(forestIn(bench).branches)) return "a branch has other steps";
  const isOurs = ({ parent }) => !parent || branches[parent.index] === parent;
  return branches.every(isOurs) ? "" : "a branch has a parent of another model";
}
let before;
for (const line of readFileSync(chains, "utf8").trim().split("\n")) {
  const [tower, scripts] = JSON.parse(line);
  for (const script of scripts) {
    Object.assign(spent, { runs: 0, saves: 0 });
    const model = await Model.of(Document.of(tower, script), ask, before);
    // the model before is kept, as a gesture may be given up
    const fault = faultOf(model) || (before ? faultOf(before) : "");
    console.log(JSON.stringify([model.bench, spent.runs, spent.saves, fault]));
    before = model;
  }
}
