// Room for the picture: parts of the page that fold, and a presentation, the picture alone.
import { remember, remembered } from "./kept.js";
import { one } from "./elements.js";

const PARTS = ["deck", "aside", "task"];
const { classList } = document.body;
function setFolded(part, isFolded) {
  classList.toggle(`no-${part}`, isFolded);
  one(`[data-fold=${part}]`)?.setAttribute("aria-expanded", String(!isFolded));
}
// `redraw` draws the picture in its new room
export function watchFolds(redraw) {
  for (const part of PARTS) setFolded(part, remembered(`fold ${part}`) === "yes");
  addEventListener("click", ({ target }) => {
    const part = target.closest("[data-fold]")?.dataset.fold;
    if (!part) return;
    const isFolded = !classList.contains(`no-${part}`);
    setFolded(part, isFolded);
    remember(`fold ${part}`, isFolded ? "yes" : "");
    redraw();
  });
}
export function unfold(part) {
  if (classList.contains(`no-${part}`)) one(`[data-fold=${part}]`).click();
}
// the picture alone, with large letters, and the whole screen if the browser allows it
export function present(redraw) {
  const isOn = classList.toggle("presenting");
  one("#present").setAttribute("aria-pressed", String(isOn));
  if (isOn) document.documentElement.requestFullscreen?.().catch(() => null);
  else if (document.fullscreenElement) document.exitFullscreen();
  redraw();
}
export const isPresenting = () => classList.contains("presenting");
