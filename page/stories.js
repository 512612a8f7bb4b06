// Why a read gave its value, by what it read inside: a sentence, and what it names.
import { codeWords, tagWords } from "./labels.js";
import { reasonOf } from "./reading.js";

const NOTHING = { words: "", parts: [], rows: [] };
// Returns `words`, the sentence on a read; `parts`, the inner operations that it names; and `rows`,
// for each row that it names the place at which it was read. What gave the value is `source`, a
// part, or it is the row that has `code`. `root` is the read's outermost inner operation.
export function storyOf(facts, root) {
  if (!root || root.isWrite || root.isCut) return NOTHING;
  if (root.layer === "matrix") return storyOfMatrix(facts, root);
  if (root.layer === "stamped") return storyOfStamped(facts, root);
  return root.layer === "unary" ? storyOfNumber(facts, root) : storyOfBit(facts, root);
}
// why a read of a branch gave its value, in words, by what `readInside` returns: what it returned,
// why it has its verdict, and its story; the read is found by its process and its first step, `at`
export function whyReturned({ run, facts }, { at: begun, process }) {
  const isIt = (it) => it.kind === "read" && it.begun === Number(begun)
    && it.process === Number(process);
  const read = run.operations.find(isIt);
  if (!read) return "";
  const root = facts.layers.roots.find(({ operation }) => isIt(operation));
  const gave = read.ending === "returned" ? ` returned ${read.value}` : "";
  const words = [reasonOf(run, read), root && storyOf(facts, root)?.words].filter(Boolean);
  return `p${read.process}'s read${gave}. ${words.join(" ")}`;
}
function storyOfBit(facts, root) {
  const got = facts.bitOf(root), { readers } = facts.codes;
  const name = got && (readers > 1 ? `Its copy, bit ${got.cell},` : `Bit ${got.cell}`);
  const words = !got ? "" : got.isHit
    ? `${name} was being written, so it was given the choice ${got.value}.`
    : `${name} was ${got.value}.`;
  return { words, parts: [], rows: got ? [{ name: `bit ${got.cell}`, place: root.to }] : [] };
}
// the bits that a scan read, neighbours that gave the same as one
function scanWords(facts, scan) {
  const runs = [];
  for (const it of scan.inner) {
    const got = facts.bitOf(it), last = runs.at(-1), at = it.within.index;
    if (!got) continue;
    if (last && !got.isHit && !last.isHit && last.value === got.value) last.to = at;
    else runs.push({ ...got, from: at, to: at });
  }
  const words = ({ from, to, value, isHit }) => {
    if (isHit) return `bit ${from}, hit, chosen ${value}`;
    return from === to ? `bit ${from} = ${value}` : `bits ${from} to ${to} = ${value}`;
  };
  return `Its scan read ${runs.map(words).join("; ") || "nothing"}`;
}
function storyOfNumber(facts, root) {
  const found = facts.found(root), words = scanWords(facts, root);
  const end = found === null ? ", so far" : `: the first 1 that it found is bit ${found}`;
  const source = found === null ? null : root.inner.at(-1);
  return { words: `${words}${end}.`, parts: root.inner, source,
    rows: [{ name: "number", place: root.to }] };
}
function storyOfStamped(facts, root) {
  const { codes } = facts, [register] = codes.registers, [scan] = facts.layers.allIn("unary", root);
  if (!scan) return NOTHING;
  const parts = [scan, ...scan.inner], remembers = `p${root.process} remembers`;
  const found = facts.found(root), words = scanWords(facts, scan), place = root.to;
  if (found === null)
    return { parts, rows: [{ name: "register", place }], words: `${words}, so far.` };
  const before = facts.best(register, root.from), after = facts.best(register, root.to + 1);
  const givesFound = after === found, rows = [{ name: "register", place },
    givesFound ? { name: remembers, place: place + 1 } : { name: remembers, place, code: after }];
  const named = { parts, rows, source: givesFound ? scan : null };
  const code = (it) => `code ${it} = ${codeWords(codes, it).long}`, who = `p${root.process}`;
  const first = `${words}: so it found ${code(found)}.`;
  if (!givesFound)
    return { ...named, words: `${first} But ${who} remembered ${code(after)}, which is greater, `
      + `and gives that one's value, ${codes.parts(after).value}.` };
  return { ...named, words: `${first} ${who} ${before === found ? "remembered that code already"
    : `remembers it now, as it is greater than ${before}`}.` };
}
function storyOfMatrix(facts, root) {
  const { codes } = facts, { phase, code } = root.last;
  const inPhase = (wanted) => root.inner.filter((it) => it.within.phase === wanted);
  const nameOf = (it) => facts.registerOf(it)?.name || "a register";
  const column = inPhase("read"), row = inPhase("write").map(nameOf), parts = column;
  const words = column.map((it) => partWords(facts, it, nameOf(it)));
  const first = `It read its column: ${words.join("; ")}.`, source = facts.entryOf(root);
  const rows = column.map((it) => ({ name: nameOf(it), place: it.to,
    code: it === source && facts.best(facts.registerOf(it), it.to + 1) }));
  if (phase === "read" || root.operation.refusal) return { words: first, parts, rows };
  const { value, writer } = codes.parts(code), last = root.isEnded ? "wrote" : "writes";
  return { parts, rows, source, written: { code, writer },
    words: `${first} The greatest is ${tagWords(codes, code)}, in ${nameOf(source)}: it gives that `
    + `one's value, ${value}. It ${last} that to its row, ${row.join(" and ")}, so that no later `
    + "read gives an older value." };
}
// what a read of a register of the column gave
function partWords(facts, it, name) {
  const { codes } = facts, register = facts.registerOf(it), found = facts.found(it);
  const best = it.isEnded && register ? facts.best(register, it.to + 1) : null;
  if (best === null) return `${name} is being read`;
  const words = `${name}: ${tagWords(codes, codes.parts(best).inner)}`;
  return found === best ? words : `${words} (remembered; its scan found code ${found})`;
}
