// How gestures are done, one after the other, and what the page says of them; and dialogs.
import { one } from "./elements.js";

// `kind` is what the words are: message, why, asks, awaits or refusal
export function say(words, kind = "message", ...more) {
  one("#said").className = words ? kind : "";
  one("#said").replaceChildren(words || "", ...more);
}
export const isSaying = (...kinds) => kinds.includes(one("#said").className);
// gestures wait for one another, so that each begins at what the last one left
const SLOW = 400;
let lastGesture = Promise.resolve(), pending = 0, slow = 0;
function setBusy(by) {
  pending += by;
  document.documentElement.ariaBusy = String(pending > 0);
  clearTimeout(slow);
  if (pending) slow = setTimeout(() => { one("#busy").hidden = false; }, SLOW);
  else one("#busy").hidden = true;
}
export function act(gesture) {
  setBusy(1);
  lastGesture = lastGesture.then(gesture).catch((fault) => say(fault.message, "refusal"))
    .then(() => setBusy(-1));
  return lastGesture;
}
// opens a dialog, and returns what it is ended with
export function ask(dialog) {
  dialog.returnValue = "";
  dialog.showModal();
  return new Promise((done) => {
    dialog.onclose = () => {
      one("#scroll").focus({ preventScroll: true });
      done(dialog.returnValue);
    };
  });
}
