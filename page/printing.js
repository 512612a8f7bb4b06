// The page on paper: the task, pictures, what the reads returned and why, the file and the script.
import { reasonOf, Reading } from "./reading.js";
import { looksOf, stillRows } from "./still.js";
import { shownBranches } from "./picture.js";
import { inWords } from "./goalwords.js";
import { taskOf } from "./tasks.js";
import { element, mounted, one } from "./elements.js";
import { now } from "./state.js";

const MOST_PRINTED = 400000, MOST_PREPARED = 6000, PRINT_PAUSE = 800;
// the pages for paper, of as many columns of each shown branch as fit
function printedLooks() {
  const branches = shownBranches(), ofEach = MOST_PRINTED / branches.length;
  const most = Math.floor(ofEach / now.model.shape.cells);
  return branches.flatMap((it) => looksOf(it, 0, Math.min(most, it.length)));
}
export const lookAtAll = () => now.model.look(printedLooks());
// a few are fetched when nothing else happens, as a browser's own print command waits for nothing
let preparing = 0;
export function preparePrint() {
  const { model } = now;
  clearTimeout(preparing);
  const isFew = () => printedLooks().length * model.shape.cells < MOST_PREPARED;
  preparing = setTimeout(() => {
    if (model === now.model && isFew()) lookAtAll().catch(() => null);
  }, PRINT_PAUSE);
}
function printedBranch(branch) {
  const { model } = now, { name, length } = branch, said = (words) => element("p", {}, words);
  const of = printedLooks().filter((it) => it[1] === name), [[, , most]] = of;
  if (!of.every((it) => model.page(...it)))
    return [said(`Print ${name} by Ctrl+P or by the list Save of the page.`)];
  const { run } = new Reading(branch, most, most, (kind, at) => model.page(kind, name, at));
  const reads = run.operations.filter((it) => it.kind === "read" && it.ended !== null);
  const gave = (it) => (it.ending === "returned" ? ` returned ${it.value}.` : ":");
  const about = (it) => `p${it.process}'s read of steps ${it.begun} to ${it.ended}`
    + `${gave(it)} ${reasonOf(run, it)}`;
  const rows = stillRows(model, [branch], { most, perRow: 20, column: 52 });
  return [...rows.map(({ svg }) => element("div", { class: "row" }, mounted(svg))),
    element("ul", {}, reads.map((it) => element("li", {}, about(it)))),
    most < length && said(`Of ${name} the first ${most} steps are printed.`)];
}
// the question and whose answer it is
function printedTask() {
  const { text, asks, goals, predicted, student } = taskOf(now.document.lines);
  const asked = asks.map((it) => `${it.text} ${predicted.get(it.number) || ""}`);
  return [student && element("h2", {}, student),
    ...[...text, ...asked].map((it) => element("p", {}, it)),
    element("ul", {}, goals.map((it) => element("li", {}, inWords(it))))];
}
addEventListener("beforeprint", () => {
  if (!now.model) return;
  const { model, document: { script, tower } } = now;
  const text = (title, words) => [element("h2", {}, title), element("pre", {}, words)];
  const title = element("h1", {}, `towerbench: ${model.tower}`), task = printedTask();
  const branches = shownBranches().flatMap(printedBranch);
  one("#print").replaceChildren(element("section", {}, title, task, branches,
    text("The file", tower), text("The script", script)));
});
addEventListener("afterprint", () => one("#print").replaceChildren());
