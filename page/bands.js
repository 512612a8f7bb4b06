// The number in each register over time, by runs of places: what a scan finds, what is being
// written, when it is scanned, and what its writer and its reader remember.
import { lengthen } from "./reading.js";

// runs of [first place, last place, numbers that a scan can find, number being written or null]
export function numberRuns(facts, register) {
  const { reading: { from, to } } = facts, runs = [], written = Array(to + 1).fill(null);
  for (const it of writesOfNumber(facts, register))
    written.fill(it.value, Math.max(it.from, from), Math.min(it.to, to) + 1);
  for (let place = from; place <= to; place++) {
    const numbers = facts.numbersAt(register, place, written[place]), last = runs.at(-1);
    if (last && last[3] === written[place] && String(last[2]) === String(numbers)) last[1] = place;
    else runs.push([place, place, numbers, written[place]]);
  }
  return runs;
}
const isOf = (facts, register) => (it) => facts.registerOf(it)?.name === register.name;
const writesOfNumber = (facts, register) => facts.layers.all("unary")
  .filter((it) => it.isWrite && isOf(facts, register)(it)).sort((a, b) => a.from - b.from);
// runs of [first place, last place, `r`, or `h` if that bit's read was hit], for each bit read
export function scanRuns(facts, register) {
  const { reading: { from, to } } = facts;
  const scans = facts.layers.all("unary").filter((it) => !it.isWrite && isOf(facts, register)(it));
  return scans.flatMap((it) => it.inner).filter((it) => it.to >= from && it.from <= to)
    .map((it) => [Math.max(it.from, from), it.to, facts.bitOf(it)?.isHit ? "h" : "r"]);
}
// runs of [first place, last place, value] of a word that a process remembers: `stamp` or `best`
export function wordRuns(facts, register, kind) {
  const { reading: { from, to } } = facts, runs = [];
  for (let place = from; place <= to; place++) lengthen(runs, place, facts[kind](register, place));
  return runs;
}
