// The elements of which a picture is made, as data.

export const rounded = (value) => (typeof value === "number" ? Math.round(value * 10) / 10 : value);
// an element: its name, its attributes and what it holds, which are elements and texts
export function shape(name, given = {}, ...children) {
  const attributes = {};
  for (const [key, value] of Object.entries(given))
    if (value !== null && value !== undefined && value !== false) attributes[key] = rounded(value);
  return { name, attributes, children: children.flat().filter(Boolean) };
}
export const textAt = (words, x, y, kind, given) =>
  shape("text", { x, y, class: kind, ...given }, String(words));
export const titled = (words) => shape("title", {}, words);
// About how wide a letter is, as a part of its size; words on a bar may be a little tighter, and
// keep off its ends.
const LETTER = 0.62, TIGHT = 0.92, BAR_ENDS = 7;
export const widthOf = (words, size = 15) => words.length * size * LETTER;
// the first of several words that fits a width, in letters of a size
export const fitting = (all, width, size) =>
  all.find((it) => widthOf(it, size * TIGHT) + BAR_ENDS <= width);
// the first of several words that fits a width in the last of some sizes, which is the least one,
// and the first size in which it fits; words that say more are taken before larger letters
export function sized(all, width, sizes) {
  const words = fitting(all, width, sizes.at(-1));
  return words ? { words, size: sizes.find((it) => fitting([words], width, it)) } : null;
}
// one strip's content below another's, under the first one's name
export function stacked(above, below) {
  const under = (shapes) => shape("g", { transform: `translate(0 ${above.height})` }, shapes);
  return { ...above, label: [...above.label, under(below.label)],
    drawn: [...above.drawn, under(below.drawn)], height: above.height + below.height };
}
