// The looks that a document will need, guessed by what was in sight before a gesture, so that they
// are asked in the run of its script. A wrong guess costs its lines and changes nothing.
import { isChange } from "./document.js";
import { between } from "./pages.js";

const MOST_GUESSED = 2000;
const EDIT = /^[0-9]+ (insert|remove|replace) (\S+) ([0-9]+)(?: |$)/;
const GO = /^[0-9]+ go (\S+) ([0-9]+)$/;
// pages from the first step on, of which a picture has one for each branch
const OF_ALL_STEPS = ["history", "verdict"];
// the edits that were added to a document, if they are of the steps of one branch
function editsAdded(before, { lines }) {
  const old = before.lines.length, isAdded = before.lines.every((it, at) => it === lines[at]);
  const found = lines.slice(old).filter(isChange).map((it) => EDIT.exec(it));
  const isOne = found.every((it) => it && it[2] === found[0][2]);
  return isAdded && isOne ? found.map(([, how, name, place]) => ({ how, name, place })) : [];
}
// after edits; `before` is the model of the document before, with the looks that its picture sought
export function looksAfterEdits(before, document) {
  const edits = editsAdded(before.document, document), branch = before.branch(edits[0]?.name);
  if (!branch) return [];
  const count = (wanted) => edits.filter(({ how }) => how === wanted).length, { name } = branch;
  const first = Math.min(...edits.map(({ place }) => Number(place))), end = branch.length;
  const length = end + count("insert") - count("remove"), looks = new Set();
  for (const [kind, , place] of before.sought.filter(([, it]) => it === name)) {
    const last = place === end ? length : Math.min(place, length), isAtEnd = place === end;
    if (OF_ALL_STEPS.includes(kind)) looks.add(`${kind} ${name} ${last}`);
    else for (const it of between(Math.max(place, first + 1), (isAtEnd ? length : place) + 1))
      if (it <= length) looks.add(`${kind} ${name} ${it}`);
  }
  return looks.size <= MOST_GUESSED ? [...looks] : [];
}
// after a move, at the cursor's place
export function looksAfterMove(before, { lines }) {
  const [, name, place] = GO.exec(lines.at(-1)) || [], branch = before.branch(name);
  if (!branch || Number(place) > branch.length) return [];
  const kinds = new Set(before.sought.map(([kind]) => kind));
  const ofPlaces = [...kinds].filter((it) => !OF_ALL_STEPS.includes(it));
  return ofPlaces.filter((kind) => !before.page(kind, name, Number(place)))
    .map((kind) => `${kind} ${name} ${place}`);
}
