// What can be done next: buttons of each process, breaks, sessions, and what can be done with a
// step. Each button says which step it adds to the script.
import { hasSearch } from "./engine.js";
import { flipped } from "./document.js";
import { TYPED_STEP } from "./grammar.js";
import { FEW_VALUES } from "./measures.js";
import { between } from "./pages.js";
import { reasonOf } from "./reading.js";
import { refusalReason } from "./operationrefusals.js";
import { comparison } from "./picture.js";
import { pickedRead, storyOfRead } from "./whys.js";
import { withWords } from "./words.js";
import { isSaying, say } from "./acting.js";
import { element, one, putIfChanged } from "./elements.js";
import { here, now, runHere, setView } from "./state.js";

const STEP_WORDS = "A step is w P V (process P writes V), r P (P reads), g P C (P's next action, " +
  "with choice C) or x P (P stops)";
export const ACTIONS = { ws: "starts to write bit", we: "ends its write of bit",
  rs: "starts to read bit", re: "ends its read of bit" };
// a button; its key finds it again when all is made again, so that it keeps the focus
const button = (key, words, onclick, given = {}) =>
  element("button", { "data-key": key, onclick, ...given }, words);
const number = (label, value, max, given = {}) =>
  element("input", { type: "number", min: 0, max, value, "aria-label": label, ...given });
function form(given, done, ...parts) {
  const onsubmit = (event) => { event.preventDefault(); done(); };
  return element("form", { ...given, onsubmit }, ...parts);
}
// each process at the cursor: what it does there, and whether the read that it ends next is hit
export function processesHere() {
  const { name, place } = here();
  const [state, bits] = ["state", "bits"].map((kind) => now.model.page(kind, name, place));
  const isHit = ({ action, bit }) => action === "re" && Boolean(bits?.cells[bit]?.endsWith("h"));
  return (state ? state.processes : []).map((it) => ({ ...it, isHit: isHit(it) }));
}
function doingWords({ kind, value, isStopped, action, bit, isHit }) {
  const words = kind === "write" ? `write ${value}` : kind;
  if (isStopped) return kind === "idle" ? "stopped" : `${words}, stopped in the middle`;
  return action ? `${words}: ${ACTIONS[action]} ${bit}${isHit ? ", hit by a write" : ""}` : words;
}
function writeButtons(p, step, gestures) {
  const { shape: { values } } = now.model;
  const isAwaited = now.view.awaiting === "w" && now.view.process === p;
  const few = between(0, Math.min(values, FEW_VALUES)), look = { class: isAwaited && "await" };
  if (few.length === values)
    return few.map((value) => step(`write ${value}`, `w ${p} ${value}`, look));
  const label = `value that p${p} writes, 0 to ${values - 1}`;
  const write = () => gestures.put(p, `w ${p} ${Number(input.value)}`);
  const onkeydown = (event) => { if (event.key === "Enter") write(); };
  const input = number(label, 1, values - 1, { "data-key": `p${p} value`, onkeydown });
  return [input, button(`p${p} w`, "write", write)];
}
const STOP_TITLE = "it stops for good, in the middle of what it does (x)";
const END_TITLE = "steps to the end of the operation, or up to its first choice (e)";
function stepButtons(it, gestures) {
  const p = it.number, { shape } = now.model, isIdle = it.kind === "idle", buttons = [];
  const step = (words, command, given) => button(`p${p} ${command}`, words,
    () => gestures.put(p, command),
    { title: `the step ${command}`, "data-action": command, ...given });
  const give = (choice) => step(`give ${choice}`, `g ${p} ${choice}`, { class: "give" });
  const end = () =>
    button(`p${p} end`, "run to its end", () => gestures.end(p), { title: END_TITLE });
  if (isIdle && shape.writes(p)) buttons.push(...writeButtons(p, step, gestures));
  if (isIdle && shape.reads(p)) buttons.push(step("read", `r ${p}`));
  if (it.isHit) buttons.push(give(0), give(1));
  else if (it.action) buttons.push(step("step", `g ${p} 0`), end());
  // at the far end, so that it never lies where another button was a moment ago
  return [...buttons, step("stop", `x ${p}`, { title: STOP_TITLE, class: "stop-it" })];
}
function row(it, gestures) {
  const p = it.number, isActive = now.view.process === p;
  const look = { "aria-pressed": String(isActive), title: `keys go to p${p} (${p})` };
  const kinds = `actor${isActive ? " active" : ""}${it.isHit ? " hit" : ""}`;
  return element("div", { class: kinds, "data-process": p },
    button(`p${p} process`, `p${p}`, () => gestures.choose(p), look),
    element("span", { class: "does" }, doingWords(it)),
    it.isStopped ? [] : stepButtons(it, gestures));
}
function breakAdder(processes, gestures) {
  const returns = processes.map((it) => `returns ${it.number}`);
  const wordsOf = (kind) => (kind === "bit" ? "bit \u2026 is \u2026" : kind);
  const kinds = ["chosen", "void", "refused", ...returns, "bit"];
  const options = [["", "+ break\u2026"], ...kinds.map((it) => [it, wordsOf(it)])];
  const add = element("select", { "aria-label": "set a break", "data-key": "break" },
    options.map(([value, words]) => element("option", { value }, words)));
  const inputs = [number("bit", 0, now.model.shape.cells - 1), number("value", 1, 1)];
  const set = () => gestures.edit(`break bit ${inputs.map((it) => Number(it.value)).join(" ")}`);
  const bit = form({ hidden: "" }, set, "bit ", inputs[0], " is ", inputs[1], " ",
    element("button", {}, "set"));
  add.onchange = () => {
    if (add.value === "bit") [add.hidden, bit.hidden] = [true, false];
    else gestures.edit(`break ${add.value}`);
  };
  return [add, bit];
}
function breakButtons(processes, gestures) {
  const { breaks } = here(), disabled = breaks.length ? null : "";
  const back = { title: "back to the last break (b)", disabled };
  const seek = { title: "on to the next break (n)", disabled };
  const clear = (it) =>
    button(`clear ${it}`, `${it} \u00d7`, () => gestures.edit(`clear ${it}`),
      { title: "clear it" });
  return [button("back", "\u25c0 break", () => gestures.edit("back"), back),
    button("seek", "break \u25b6", () => gestures.edit("seek"), seek),
    ...breaks.map(clear), ...breakAdder(processes, gestures)];
}
function putSessions(gestures) {
  const { model: { cursors }, who } = now;
  const at = (it) => (it ? `: ${it.name} ${it.place}` : "");
  const words = (it, index) => `session ${index}${index === who ? "" : at(it)}`;
  const held = JSON.stringify([who, cursors.map((it) => it && [it.name, it.place])]);
  putIfChanged(one("#session"), held, () =>
    cursors.map((it, index) => element("option", { value: index }, words(it, index))));
  one("#session").value = String(who);
  one("#leave").hidden = !here().isJoined || cursors.filter(Boolean).length < 2;
  one("#leave").onclick = () => gestures.edit("leave");
}
// what the cursor's place asks for, or else what a picked read or the step before it did
function sayAboutPlace(hit, gestures) {
  const { name, place, branch } = here(), run = runHere(), picked = pickedRead();
  const events = run.eventsAt(place - 1);
  const compared = comparison();
  if (compared && !picked) return say(compared, "why");
  const asked = hit.map(({ number: p, bit }) =>
    `A write overlaps p${p}'s read of bit ${bit}. Give 0 or 1?`);
  if (hit.length && !picked) return say(asked.join(" "), "asks");
  const read = picked || run.operations.find((it) => it.kind === "read" && it.ended === place - 1);
  const isChosen = events.some((it) => it.includes(" chosen "));
  const other = isChosen && flipped(branch.step(place - 1)).at(-1);
  const tryOther = () => gestures.tryOther(place - 1);
  const more = other ? [" ", button("other", `Try ${other} on a branch`, tryOther)] : [];
  const gave = read?.ending === "returned" ? ` returned ${read.value}` : "";
  const reason = read && reasonOf(picked ? now.readings.get(now.view.picked.name).run : run, read);
  const refused = picked?.refusal ? picked
    : !picked && run.operations.find((it) => it.refusal && it.ended === place - 1);
  if (refused) return say(refusalReason(now.model.shape, refused), "why");
  const isAskable = picked && read.ended !== null && hasSearch();
  const values = isAskable ? [" ", button("values", "Which values could it give?", null,
    { "data-do": "values" })] : [];
  const story = read && storyOfRead(picked ? now.view.picked.name : name, read)?.words;
  const inside = story ? ` ${story}` : "";
  const words = read ? withWords(`${reason}${inside}`) : [];
  const said = read ? `p${read.process}'s read${gave}. ` : isChosen ? events.join("; ") : "";
  return say(said, "why", ...words, ...more, ...values);
}
function nextWords() {
  const { place, branch } = here();
  const { length } = branch;
  if (place >= length) return place ? "at the end" : "no steps yet: choose what a process does";
  const others = now.model.sharers(branch, place).map((it) => it.name).join(", ");
  return `steps go in before ${branch.step(place)}${others && `, on ${others} too`}`;
}
export function putDeck(gestures) {
  const { view, model, document: { lastGesture, undone } } = now;
  const { name, place, branch } = here(), found = processesHere();
  const held = document.activeElement?.dataset?.key;
  if (!found.some((it) => it.number === view.process))
    setView({ process: found[0]?.number || 0 });
  one("#at").textContent = `${name}, place ${place} of ${branch.length}`;
  Object.assign(one("#place"), { max: branch.length, value: place });
  one("#next").textContent = nextWords();
  if (!isSaying("message", "refusal", "awaits"))
    sayAboutPlace(found.filter((it) => it.isHit), gestures);
  // numbers that are being typed stay
  const inputs = [...one("#processes").querySelectorAll("input")];
  const typed = inputs.map((it) => [it.dataset.key, it.value]);
  one("#processes").replaceChildren(...found.map((it) => row(it, gestures)));
  for (const [key, value] of typed) (one(`[data-key="${key}"]`) || {}).value = value;
  one("#breaks").replaceChildren(...breakButtons(found, gestures));
  putSessions(gestures);
  one("#tower-line").textContent = model.tower;
  one("#undo").disabled = !lastGesture;
  one("#redo").disabled = !undone.length;
  const ofProcess = `[data-key="${held?.split(" ")[0]} process"]`;
  const instead = [`[data-key="${held}"]:enabled`, ofProcess, "#scroll"];
  if (held) instead.map(one).find(Boolean).focus({ preventScroll: true });
}
function menu(index, gestures) {
  const { branch } = here(), step = branch.step(index), events = runHere().eventsAt(index);
  const isChoice = step.startsWith("g"), isChosen = events.some((it) => it.includes(" chosen "));
  const others = now.model.sharers(branch, index).map((it) => it.name).join(", ");
  const said = (words) => element("small", {}, words);
  const input = element("input", { value: step, "aria-label": "another step", pattern: TYPED_STEP,
    oninvalid: ({ target }) => target.setCustomValidity(STEP_WORDS),
    oninput: ({ target }) => target.setCustomValidity("") });
  const done = (gesture) => () => { closeMenu(); gesture(); };
  const choose = (key, words, gesture) =>
    button(key, words, done(gesture), { "data-step-action": key });
  const replace = done(() => gestures.replace(index, input.value)), other = flipped(step);
  const choices = () => [
    choose("try", `Try the other choice, ${other}, on a branch`, () => gestures.tryOther(index)),
    choose("flip", `Flip the choice: ${other}`, () => gestures.replace(index, other))];
  return [element("b", {}, `Step ${index} of ${branch.name}: ${step}`),
    element("pre", {}, events.join("\n")),
    isChoice && !isChosen ? said("No hit read ends here, so its choice has no effect.") : "",
    others ? said(`Shared with ${others}: a change here changes them too.`) : "",
    ...(isChoice ? choices() : []),
    form({ "data-form": "replace" }, replace, input, element("button", {}, "Replace")),
    choose("remove", "Remove it", () => gestures.remove(index)),
    choose("before", "Insert before it", () => gestures.before(index)),
    choose("fork", "Fork before it\u2026", () => gestures.fork(index))];
}
const MENU_SIZE = { width: 350, height: 360 };
export function closeMenu() {
  if (one("#menu").hidden) return;
  one("#menu").hidden = true;
  one("#scroll").focus({ preventScroll: true });
}
export function openMenu(index, gestures) {
  const target = one("#menu"), chip = one(`.panel.focus .chip[data-step="${index}"]`);
  if (index >= here().branch.length) return;
  target.replaceChildren(...menu(index, gestures));
  const at = (chip || one("#line")).getBoundingClientRect();
  target.style.left = `${Math.max(8, Math.min(at.left, innerWidth - MENU_SIZE.width))}px`;
  target.style.top = `${Math.max(8, Math.min(at.bottom + 6, innerHeight - MENU_SIZE.height))}px`;
  target.hidden = false;
  target.querySelector("button").focus();
}
