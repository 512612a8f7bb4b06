// The address, and the browser's entry for it, have the document.
import { packedData } from "./engine.js";
import { EMPTY_TOWER } from "./document.js";
import { lessonOf } from "./player.js";
import { documentInHash } from "./links.js";
import { now } from "./state.js";

// the first screen: a read of a safe bit that overlaps a write, before the step that chooses
const FIRST = { tower: "tower 2\nsafe 0\nw 0 1\ng 0 0\nr 1\ng 1 0\n",
  script: "0 join\n0 go main 4\n", isFirst: true };
const MOST_ADDRESS = 8000, SAVE_PAUSE = 500;
// a document that is too long for the address is in the entry of the browser's history alone
const hashOf = ({ tower, script }) => `#${encodeURIComponent(JSON.stringify([tower, script]))}`;
let saving = 0, lessonHash = "";
function saveAddress() {
  const { document: { tower, script }, who, lesson } = now;
  const isShort = tower.length + script.length < MOST_ADDRESS;
  saving = 0;
  try {
    const hash = lessonHash || (isShort ? hashOf({ tower, script }) : "#");
    history.replaceState({ tower, script, who, lesson }, "", hash);
  } catch { /* a browser may refuse what is very long: then a reload begins at the first screen */ }
}
// not at each change, as browsers refuse too many
export function keepDocument() {
  clearTimeout(saving);
  saving = setTimeout(saveAddress, SAVE_PAUSE);
}
export const leaveAddress = () => clearTimeout(saving);
// while a lesson is open, the address ends in the lesson's hash, not in the document's
export function setLessonHash(hash) {
  lessonHash = hash;
  keepDocument();
}
addEventListener("pagehide", () => saving && saveAddress());
// the document of the address, or nothing; `fault` if the address is damaged
export const documentInAddress = async () =>
  (history.state?.tower !== undefined ? history.state : documentInHash(location.hash));
export async function firstDocument() {
  const { document: packed } = packedData();
  const given = packed && { tower: packed.tower || EMPTY_TOWER, script: packed.script || "0 join\n",
    lesson: lessonOf(packed.name || "script", packed.script || "") };
  const found = await documentInAddress();
  if (!found?.fault) return found || given || FIRST;
  return { ...(given || FIRST), fault: `${found.fault} Below is the first screen.` };
}
