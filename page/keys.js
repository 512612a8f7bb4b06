// Keys: which gesture each does.
import { say } from "./acting.js";
import { closeMenu, openMenu, processesHere, putDeck } from "./deck.js";
import { flipped } from "./document.js";
import { one } from "./elements.js";
import { saveAs } from "./files.js";
import { commands, gestures, moveBy, nextSession } from "./gestures.js";
import { panelNext, pick, pickNext, views } from "./gestures.js";
import { FEW_VALUES } from "./measures.js";
import { isPresenting } from "./room.js";
import { here, now, setView } from "./state.js";
import { isStudying } from "./study.js";

// more steps than any branch has
const FAR = 1e9;
// a step of the process that keys go to; a write waits for its value, and the end of a hit read for
// its choice
function keyStep(step) {
  const p = now.view.process, it = processesHere().find((each) => each.number === p);
  const isWrite = step === "w", isStep = step === "g", { values } = now.model.shape;
  if (isWrite && values > FEW_VALUES) return one(`[data-key="p${p} value"]`)?.focus();
  if (!isWrite && !(isStep && it?.isHit))
    return gestures.put(p, `${step} ${p}${isStep ? " 0" : ""}`);
  setView({ awaiting: step });
  say(isWrite ? `p${p} writes which value?` : `p${p}'s read: give 0 or 1?`, "awaits");
  return putDeck(gestures);
}
// a value or a choice that a step waits for, or else the number of the process that keys go to
function digit(number) {
  const { awaiting, process } = now.view, p = Number(number);
  if (awaiting) return gestures.put(process, `${awaiting} ${process} ${number}`);
  return processesHere().some((it) => it.number === p) && gestures.choose(p);
}
const atStep = (offset, use) => () => {
  const { place, branch } = here(), index = place + offset;
  return index >= 0 && index < branch.length && use(index, branch.step(index));
};
const atBranch = (name) => () => commands[name](here().name);
const keys = {
  ArrowLeft: (count) => moveBy(-count), ArrowRight: (count) => moveBy(count),
  Home: () => moveBy(-FAR), End: () => moveBy(FAR),
  ArrowUp: () => panelNext(-1), ArrowDown: () => panelNext(1),
  w: () => keyStep("w"), r: () => keyStep("r"), g: () => keyStep("g"), x: () => keyStep("x"),
  e: () => gestures.end(now.view.process), f: () => gestures.fork(),
  d: atBranch("detach"), j: atBranch("own"), m: atBranch("compare"),
  a: atBranch("alone"), D: atBranch("drop"),
  ...views.keys,
  n: () => gestures.edit("seek"), b: () => gestures.edit("back"), v: pickNext,
  l: commands.lessonNext, "?": commands.help,
  "[": () => nextSession(-1), "]": () => nextSession(1),
  Escape: () => { setView({ awaiting: "" }); pick(); },
  Enter: atStep(0, (index) => openMenu(index, gestures)),
  o: atStep(0, (index) => gestures.tryOther(index)),
  c: atStep(0, (index, step) => gestures.replace(index, flipped(step))),
  Delete: atStep(0, (index) => gestures.remove(index)),
  Backspace: atStep(-1, (index) => gestures.remove(index)),
};
const heldKeys = { z: () => commands.undo(), Z: () => commands.redo(), y: () => commands.redo(),
  p: () => saveAs("print") };
const NO_KEYS = "textarea, select, dialog, #menu, input:not([type=range])";
function gestureOf({ key: name, ctrlKey, metaKey }) {
  if (ctrlKey || metaKey) return heldKeys[name];
  return /^[0-9]$/.test(name) ? () => digit(name) : keys[name];
}
// a key waits until the last one is done, as its meaning depends on that
let lastKey = Promise.resolve();
function press(event) {
  const { target, shiftKey } = event;
  if (event.key === "Escape" && !one("#menu").hidden) return closeMenu();
  if (event.key === "Escape" && isPresenting()) return commands.present();
  if (!now.model || event.altKey || target.closest(NO_KEYS) || isStudying()) return null;
  if (["Enter", " "].includes(event.key) && target.closest("button, summary")) return null;
  const found = gestureOf(event);
  if (!found) return null;
  event.preventDefault();
  const count = shiftKey && event.key.startsWith("Arrow") ? 10 : 1;
  lastKey = lastKey.then(() => found(count)).catch((fault) => say(fault.message, "refusal"));
  return lastKey;
}
export const watchKeys = () => addEventListener("keydown", press);
