// What a person does to see more or less: layers below operations, rows of bits, and the scale.
import { forgetScale, setEqual, setScale } from "./columns.js";
import { depthForAll, forgetDepths, isFoldOpen, openLayer, setDepth, setFold } from "./depths.js";
import { layersOf } from "./layers.js";
import { chooseSecond, forgetSecond } from "./second.js";
import { one } from "./elements.js";
import { now } from "./state.js";

// a document begins with the picture as it is at first
export function forgetViewing() {
  forgetDepths();
  forgetScale();
  forgetSecond();
}
// The gestures, of which each draws the picture again by `redraw`.
export function viewing(redraw) {
  const scale = (way) => { setScale(way); return redraw(true); };
  const equal = () => { setEqual(); return redraw(true); };
  const deepen = (by) => { setDepth(depthForAll() + by); return redraw(false); };
  one("#depth").addEventListener("change", ({ target }) => {
    setDepth(Number(target.value));
    redraw(false);
  });
  one("#second-tower").addEventListener("change", ({ target }) => {
    chooseSecond(target.value);
    redraw(false);
  });
  return {
    commands: { wider: () => scale(1), narrower: () => scale(-1), equal },
    keys: { "+": () => deepen(1), "-": () => deepen(-1), ">": () => scale(1), "<": () => scale(-1),
      "=": equal },
    // a click on an inner operation's bar, or on an operation's own
    open({ nest, process }) {
      const row = nest ? layersOf(now.model.shape).indexOf(nest) + 1 : 0;
      openLayer(Number(process), row);
      return redraw(false);
    },
    fold(key, isOpen) {
      if (isOpen === isFoldOpen(key)) return;
      setFold(key, isOpen);
      if (now.model) redraw(false);
    },
  };
}
