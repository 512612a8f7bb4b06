// The branches that a document leaves, from those that the document before leaves: so a step at the
// end of a branch, the commonest gesture, doesn't take all branches from the program again. An
// insert at a branch's end changes that branch alone, whatever it shares with others.
import { isChange } from "./document.js";
import { NAME, NUMBER, STEP, whole } from "./grammar.js";
import { benchOf, copiesOf } from "./pages.js";

const INSERT = whole(`${NUMBER} (?:@${NUMBER} )?insert (${NAME}) (${NUMBER}) (${STEP})`);
const isDone = (answer) => /^[0-9]+: edit [0-9]+$/.test(answer?.first);
// adds the step that a line inserts at its branch's end, and says whether the line does so
function appendStep(branches, line) {
  const [, name, place, step] = INSERT.exec(line) || [], branch = branches.get(name);
  return branch?.length === Number(place) && branch.own.push(step) > 0;
}
// likewise takes off the step that a line inserted, while no other step comes after it
function dropStep(branches, line) {
  const [, name, place] = INSERT.exec(line) || [], branch = branches.get(name);
  return branch?.length === Number(place) + 1 && branch.own.pop() !== undefined;
}
// `before` is the model of the document before. Returns it if both documents do the same edits; the
// branches after the other edits, if all of them are inserts at ends of branches; or else null. Of
// the lines that are added the program may refuse none, which isn't known here.
export function grown(before, document) {
  const { document: { tower, lines }, answers } = before, same = document.sameLines(lines);
  if (tower !== document.tower) return null;
  const isTaken = (line, at) => isChange(line) && isDone(answers[same + at]);
  const taken = lines.slice(same).filter(isTaken);
  const added = document.lines.slice(same).filter(isChange);
  if (!taken.length && !added.length) return before;
  const branches = copiesOf(before.branches);
  const byName = new Map(branches.map((it) => [it.name, it]));
  const isKnown = taken.reverse().every((line) => dropStep(byName, line))
    && added.every((line) => appendStep(byName, line));
  return isKnown ? { bench: benchOf(before.tower, branches), tower: before.tower, branches } : null;
}
