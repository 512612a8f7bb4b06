// Prints what the page says of each read of histories, a line of JSON for each history.
// usage: node sentences.mjs < HISTORIES     in a folder where page/ is; a line of input is, as
// JSON, the lines of a page `history` and of a page `verdict`, and how many steps there are
import { createInterface } from "node:readline";
import { pageIn } from "./page/pages.js";
import { Reading, reasonOf } from "./page/reading.js";

for await (const line of createInterface({ input: process.stdin })) {
  const [history, verdict, length] = JSON.parse(line);
  const pages = { history: pageIn("history", history), verdict: pageIn("verdict", verdict) };
  const branch = { name: "main", length };
  const { run, faults } = new Reading(branch, length, length, (kind) => pages[kind]);
  const reads = run.operations.filter((it) => it.kind === "read");
  console.log(JSON.stringify([faults, reads.map((it) => [it.begun, reasonOf(run, it)])]));
}
