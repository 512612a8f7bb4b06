// The same operations on another tower: a schedule of it in which they begin and end in the order
// in which they do on the first. Between two of these, each operation in flight makes the same part
// of its own bit actions as it did there; the k-th hit of a read takes the choice of its k-th hit.
import { LOOK, answersIn, pageIn } from "./pages.js";
import { Reading } from "./reading.js";
import { MOST_VALUES } from "./towers.js";

// how many actions an operation is tried with, one after the other, until it ends
const LENGTHS = [16, 128, 1024, 4096];
// so that a whole number of due actions isn't rounded down
const ROUNDING = 1e-9;
const fileOf = (tower, steps) => ["tower 2", tower, ...steps].map((it) => `${it}\n`).join("");
// what a schedule of a tower does, by its history
async function runOn(ask, tower, steps) {
  const { length } = steps, branch = { name: "main", length };
  const made = await ask(fileOf(tower, steps), `${LOOK} history main ${length}\n`);
  const history = pageIn("history", answersIn(made.output)[0]?.lines || []);
  return new Reading(branch, length, length, (kind) => (kind === "history" ? history : null)).run;
}
const lastOf = (run, process) => run.operations.findLast((it) => it.process === process);
// An operation on the second tower: what it does there, and what it did on the first.
class Flight {
  constructor(it, acts, choices) {
    Object.assign(this, { it, acts, choices, process: it.process, done: 0, hits: 0, count: 0 });
    this.isOver = false;
  }
  // how many of its actions are due before a step of the first schedule, its last one left out
  due(step) {
    const before = this.acts.filter((it) => it < step).length;
    const share = before / Math.max(1, this.acts.length);
    return Math.min(Math.floor(share * this.count + ROUNDING), this.count - 1);
  }
}
// The schedule on the second tower as it is made; `flights`: the operations in flight, by process.
class Transfer {
  constructor(ask, tower) { Object.assign(this, { ask, tower, steps: [], flights: new Map() }); }
  run(more = []) { return runOn(this.ask, this.tower, [...this.steps, ...more]); }
  // begins an operation, and finds how many actions it has if nothing else happens
  async begin(flight) {
    const { it: { kind, process, value } } = flight, at = this.steps.length;
    this.steps.push(kind === "write" ? `w ${process} ${value}` : `r ${process}`);
    for (const length of LENGTHS) {
      const { ended } = lastOf(await this.run(Array(length).fill(`g ${process} 0`)), process);
      if (ended === null) continue;
      flight.count = ended - at;
      flight.isOver = ended === at;
      this.flights.set(process, flight);
      return;
    }
    throw new Error("An operation on the other tower has no end in sight.");
  }
  // makes an operation's next actions, until `count` are done, or it ends
  async goOn(flight, count) {
    const { process } = flight;
    while (!flight.isOver && flight.done < count) {
      const at = this.steps.push(`g ${process} 0`) - 1, run = await this.run();
      const isHit = run.marks.some((it) => it.kind === "chosen" && it.step === at);
      const choice = isHit ? flight.choices[flight.hits++] || "0" : "0";
      this.steps[at] = `g ${process} ${choice}`;
      flight.done++;
      flight.isOver = lastOf(choice === "0" ? run : await this.run(), process).ended !== null;
    }
  }
  // brings all operations as far as they are at an operation's beginning or end on the first tower
  async event({ step, isEnd, flight }) {
    for (const other of this.flights.values())
      if (other !== flight) await this.goOn(other, other.due(step));
    if (!isEnd) await this.begin(flight);
    if (isEnd || flight.it.ended === flight.it.begun) {
      await this.goOn(flight, Infinity);
      this.flights.delete(flight.process);
    }
  }
}
// what an operation did: the steps of its actions, and the choices of its hits
function flightOf(it, { marks, length }, stepAt) {
  const last = it.ended ?? length - 1, acts = [];
  for (let at = it.begun + 1; at <= last; at++)
    if (stepAt(at).startsWith(`g ${it.process} `)) acts.push(at);
  const isHit = ({ kind, step, process }) => kind === "chosen" && process === it.process
    && step > it.begun && step <= last;
  return new Flight(it, acts, marks.filter(isHit).map(({ words }) => words));
}
// The steps on the other tower of what a run does; `stepAt` gives the run's own steps.
export async function transferred(ask, run, stepAt, tower) {
  const transfer = new Transfer(ask, tower), events = [];
  for (const it of run.operations.filter(({ refusal }) => !refusal)) {
    const flight = flightOf(it, run, stepAt);
    events.push({ step: it.begun, isEnd: false, flight });
    if (it.ended !== null && it.ended > it.begun)
      events.push({ step: it.ended, isEnd: true, flight });
  }
  events.sort((a, b) => a.step - b.step || a.isEnd - b.isEnd);
  for (const it of events) await transfer.event(it);
  return transfer.steps;
}
// The towers that can take the operations of some steps: those with one writer, one reader, the
// same values and the same initial value.
export function othersOf(tower, steps) {
  const [kind, ...numbers] = tower.split(" "), ofBit = [2, numbers[0], numbers[1]];
  const [values, readers, initial] = { safe: [2, 1, numbers[0]], copies: ofBit, regular: ofBit,
    unary: numbers, stamped: [numbers[0], 1, 0] }[kind] || [];
  if (Number(readers) !== 1) return [];
  const bits = Number(values) === 2 ? [`safe ${initial}`, `regular 1 ${initial}`] : [];
  const last = Math.max(1, steps.filter((it) => it.startsWith("w")).length);
  const isSmall = Number(initial) === 0 && (last + 1) * values <= MOST_VALUES;
  const stamped = isSmall ? [`stamped ${values} ${last}`] : [];
  return [...bits, `unary ${values} 1 ${initial}`, ...stamped]
    .filter((it) => it.split(" ")[0] !== kind);
}
