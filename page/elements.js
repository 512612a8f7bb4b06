// The page's elements: found, made, and put into others if what they are made of changed.

export const one = (selector) => document.querySelector(selector);
export const all = (selector) => [...document.querySelectorAll(selector)];
// an element of the page; texts stay texts, whatever they have in them
export function element(name, given = {}, ...children) {
  const made = document.createElement(name);
  const isThere = (value) => value !== null && value !== undefined && value !== false;
  for (const [key, value] of Object.entries(given))
    if (key.startsWith("on")) made[key] = value;
    else if (isThere(value)) made.setAttribute(key, value);
  made.append(...joined(children.flat()));
  return made;
}
// without what isn't there, and neighbouring texts as one
function joined(parts) {
  const made = [];
  for (const it of parts.filter(Boolean))
    made.push(typeof it === "string" && typeof made.at(-1) === "string" ? made.pop() + it : it);
  return made;
}
const SVG = "http://www.w3.org/2000/svg";
// a shape as an element of the page
export function mounted({ name, attributes, children }) {
  const made = document.createElementNS(SVG, name);
  for (const [key, value] of Object.entries(attributes)) made.setAttribute(key, value);
  made.append(...children.map((it) => (typeof it === "string" ? it : mounted(it))));
  return made;
}
// Puts parts into an element; each has a key, what it is made of, as a text, and a way to make it
// if that changed.
export function putParts(target, parts) {
  const before = target.parts || new Map(), after = new Map();
  for (const { key, held, make } of parts) {
    const was = before.get(key);
    after.set(key, was && was.held === held ? was : { held, node: make() });
  }
  let index = 0;
  for (const { node } of after.values()) {
    const there = target.childNodes[index];
    if (there !== node) target.insertBefore(node, there || null);
    index++;
  }
  while (target.childNodes.length > index) target.lastChild.remove();
  target.parts = after;
}
// puts elements if what they are made of changed
export function putIfChanged(target, held, make) {
  if (target.held !== held) target.replaceChildren(...joined(make()));
  target.held = held;
}
