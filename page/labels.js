// What is written on the bars of inner operations, and on the bands of numbers: words in several
// lengths, the longest first, of which a drawing takes the first that fits.

// the signs of verdicts
export const SIGNS = { fresh: "\u25cf", overlap: "\u25d0", stray: "\u25b2" };
export const counted = (count, thing) => `${count} ${thing}${count === 1 ? "" : "s"}`;
// a code in words: what it is of, and the same in short
export function codeWords(codes, code) {
  const { stamp, inner, value } = codes.parts(code);
  if (codes.kind === "unary") return { long: `${value}`, short: `${value}` };
  if (codes.kind === "stamped")
    return { long: `stamp ${stamp}, value ${value}`, short: `s${stamp}: ${value}` };
  return { long: `${tagWords(codes, inner)}, stamp ${stamp}`, short: shortTag(codes, inner) };
}
// a tagged code of a matrix in words
export function tagWords(codes, inner) {
  const { tag, writer, value } = codes.parts(inner);
  return `tag ${tag}, p${writer} wrote ${value}`;
}
function shortTag(codes, inner) {
  const { tag, writer, value } = codes.parts(inner);
  return `t${tag} p${writer}: ${value}`;
}
export const tagLabels = (codes, inner) => [tagWords(codes, inner), shortTag(codes, inner)];
// the words for a number on a band
export function numberLabels(codes, code) {
  if (code === null) return ["no bit is 1", "?"];
  const { long, short } = codeWords(codes, code);
  return codes.kind === "unary" ? [long] : [`code ${code} = ${long}`, long, short, `${code}`];
}
// while a number is written, the words for those that a scan can find, the written one last (of a
// code the old one alone, as its bit is cleared last)
export function writtenLabels(codes, numbers) {
  const [first, last] = [numbers[0], numbers.at(-1)], { long, short } = codeWords(codes, last);
  if (codes.kind === "unary") {
    const words = numbers.length > 1 ? `${first} or ${last}` : `${last}`;
    return [`a scan finds ${words}`, `finds ${words}`, words, `${first}|${last}`];
  }
  if (numbers.length > 1)
    return [`a scan finds code ${first} or code ${last}`, `code ${first} or ${last}`,
      `${first} or ${last}`, `${first}|${last}`];
  const brief = codes.kind === "matrix" ? [`still ${short}`] : [];
  return [`still code ${last} = ${long}`, ...brief, `still code ${last}`, `still ${last}`,
    `${last}`];
}
// the words for an inner operation; an outermost one has those of its operation
export function labelsOf(facts, it) {
  if (it.layer === "matrix") return matrixLabels(facts, it);
  if (it.layer === "stamped") return it.above ? partLabels(facts, it) : stampedLabels(facts, it);
  if (!it.above) return wholeLabels(facts, it);
  if (it.layer === "unary") return scanOrWriteLabels(facts, it);
  return it.layer === "regular" ? bitLabels(facts, it) : copyLabels(facts, it);
}
function matrixLabels(facts, root) {
  const { operation: { name }, last: { phase, code }, isWrite } = root, { codes } = facts;
  if (phase === "read") return [`${name}: reads its column`, name];
  const [long, short] = tagLabels(codes, code);
  const entry = isWrite ? null : facts.entryOf(root), of = entry && facts.registerOf(entry).name;
  const ofEntry = of ? [`${name} = ${of}: ${long}`, `${name} = ${of}: ${short}`] : [];
  return [...ofEntry, `${name} = ${long}`, `${name} = ${short}`, name];
}
function stampedLabels(facts, it) {
  const { codes } = facts, { name } = it.operation, [register] = codes.registers;
  const words = (code) => `code ${code} = ${codeWords(codes, code).long}`;
  if (it.isWrite) return [`${name} = ${words(it.value)}`, `${name} = code ${it.value}`, name];
  const found = facts.found(it), best = it.isEnded ? facts.best(register, it.to + 1) : null;
  if (found === null || best === null) return [name, "r"];
  if (found === best)
    return [`${name}: found ${words(found)}`, `${name}: found code ${found}`, `found ${found}`,
      name];
  return [`${name}: found code ${found}, but remembers ${words(best)}`,
    `${name}: found ${found}, remembers ${best}`, `found ${found}, kept ${best}`,
    `${found}, kept ${best}`, "r"];
}
// an operation of a tower of one number, or of bits
function wholeLabels(facts, it) {
  const { name } = it.operation;
  if (it.isWrite) return [name];
  if (it.layer === "unary") {
    const found = facts.found(it);
    if (found === null) return [name, "r"];
    return [`${name}: the first 1 that it found is bit ${found}`, `${name}: found bit ${found}`,
      `found bit ${found}`, name, "r"];
  }
  const got = facts.bitOf(it);
  if (!got) return [name, "r"];
  const how = got.isHit ? `was hit, chosen ${got.value}` : `is ${got.value}`;
  return [`${name}: bit ${got.cell} ${how}`, name, "r"];
}
// an operation on a register of a matrix
function partLabels(facts, it) {
  const { codes } = facts, register = facts.registerOf(it), name = register?.name || "register";
  const digits = name.replace(/\D/g, ""), labels = [name, digits];
  if (it.isWrite) {
    const { inner, stamp } = codes.parts(it.value), long = tagWords(codes, inner);
    return [`${name} := ${long} (stamp ${stamp})`, `${name} := ${long}`,
      `${name} := ${shortTag(codes, inner)}`, `${digits} := ${shortTag(codes, inner)}`,
      `${name} :=`, ...labels];
  }
  const best = it.isEnded && register ? facts.best(register, it.to + 1) : null;
  if (best === null) return [`read ${name}`, ...labels];
  const found = facts.found(it), { inner } = codes.parts(best), short = shortTag(codes, inner);
  const kept = found === best ? "" : ` (remembered; found code ${found})`;
  return [`read ${name}: ${tagWords(codes, inner)}${kept}`, `read ${name}: ${short}`,
    `${name}: ${short}`, `${digits}: ${short}`, `read ${name}`, ...labels];
}
function scanOrWriteLabels(facts, it) {
  const { codes } = facts, noun = codes.kind === "unary" ? "" : "code ";
  const about = (code) => (noun ? ` (${codeWords(codes, code).long})` : "");
  if (it.isWrite)
    return [`write ${noun}${it.value}${about(it.value)}`, `write ${noun}${it.value}`,
      `:= ${it.value}`];
  const found = facts.found(it);
  if (found === null) return [`scan, at bit ${it.last.index}`, "scan"];
  return [`scan up to bit ${found}: ${noun}${found}${about(found)}`, `scan: ${noun}${found}`,
    `= ${found}`];
}
// a bit is named by its place in the number, if there is one
function bitLabels(facts, it) {
  const index = it.within?.index ?? "", name = index === "" ? "" : `bit ${index} `;
  if (it.isWrite) {
    const passed = passedWords(facts, it), set = `${name}:= ${it.value}`;
    return [...(passed ? [`${set} (${passed})`] : []), set, `${index}:=${it.value}`, `${index}`];
  }
  const got = facts.bitOf(it);
  if (!got) return [`${name}is being read`, `${name}\u2026`, `${index}`];
  if (got.isHit)
    return [`${name}hit, chosen ${got.value}`, `${name}hit`, name.trim(), `${index}`];
  return [`${name}is ${got.value}`, `${index}=${got.value}`, `${index}`];
}
function copyLabels(facts, it) {
  const reader = it.within?.index ?? "";
  if (it.isWrite)
    return [`copy for p${reader} := ${it.value}`, `p${reader} := ${it.value}`, `p${reader}`];
  const got = facts.bitOf(it);
  return got ? [`its copy is ${got.value}`, `=${got.value}`] : ["its copy", "?"];
}
// the bits that a write of a number passes before an inner write, or after its last one
function passedWords(facts, it) {
  const { above } = it;
  if (above?.layer !== "unary" || !above.isWrite) return "";
  const groups = facts.skipped(above), at = above.inner.indexOf(it);
  const isLast = at === above.inner.length - 1;
  const bits = [...(groups[at] || []), ...(isLast ? groups[at + 1] || [] : [])];
  const zeros = bits.filter((bit) => bit !== above.value), has = zeros.length > 1 ? "are" : "is";
  const one = zeros.length < bits.length ? [`bit ${above.value} is 1`] : [];
  const words = [...one, ...(zeros.length ? [`${bitNames(zeros)} ${has} 0`] : [])];
  return words.length ? `skipped: ${words.join(", ")} already` : "";
}
// bits as runs of neighbours
function bitNames(bits) {
  const sorted = [...bits].sort((a, b) => a - b), runs = [];
  for (const it of sorted)
    if (runs.at(-1)?.[1] === it - 1) runs.at(-1)[1] = it;
    else runs.push([it, it]);
  const words = ([a, b]) => (a === b ? `${a}` : b === a + 1 ? `${a}, ${b}` : `${a} to ${b}`);
  return `${sorted.length > 1 ? "bits" : "bit"} ${runs.map(words).join(", ")}`;
}
