// What a word on the screen means, when it is pointed at, focused or touched; tools/page takes the
// meanings from the guide and the glossary.
import { packedContents } from "./engine.js";
import { element, one } from "./elements.js";

const { words: MEANINGS } = packedContents;
const HOVER_PAUSE = 450, WIDE = 340, GAP = 6;
const NAMED = new RegExp("\\b(fresh|overlap|stray|hit|place|stamp|tag|void|inversion|choice|" +
  "pending|refused|atomic)\\b", "gi");
// which words an element shows
const fixed = (...words) => () => words;
const RULES = [
  ["[data-word]", (it) => [it.dataset.word]],
  [".verdict[data-verdict]", (it) => [it.dataset.verdict]],
  [".tick", (it) => [it.dataset.action.split(" ")[0]]],
  [".chip", (it) => [(it.querySelector("text")?.textContent || "")[0]]],
  [".mark.chosen", fixed("chosen", "choice")], [".mark.void", fixed("void")],
  [".mark.refused, .refusal:not(#said)", fixed("refused")], [".mark.asked, .give", fixed("choice")],
  [".mark.stop", fixed("x")], [".hit", fixed("hit")], ["[data-do=detach]", fixed("detach")],
  ["[data-do=fork]", fixed("fork")], ["[data-do=drop]", fixed("drop")],
  ["#session, .flag", fixed("session")], ["[data-key=break]", fixed("break")],
  ["[data-key=seek]", fixed("seek", "break")], ["[data-key=back]", fixed("back", "break")],
  ["[data-page=bits]", fixed("bits", "cell")], ["[data-page=pending]", fixed("pending")],
  ["[data-page=state]", fixed("state", "words")], ["#at, #place", fixed("place")],
  ["#here h3", (it) => [it.textContent.split(" ")[0]]],
  [".fold .label, .words .label", (it) => (/words?\b/.test(it.textContent) ? ["words"] : [])],
];
let timer = 0;
function wordsOf(target) {
  for (const [selector, words] of RULES) {
    const at = target.closest?.(selector);
    if (at) return { at, words: words(at).filter((it) => Object.hasOwn(MEANINGS, it)) };
  }
  return { at: null, words: [] };
}
function hide() {
  clearTimeout(timer);
  one("#word").hidden = true;
}
function showWords({ at, words }) {
  const box = one("#word"), { left, bottom, top } = at.getBoundingClientRect();
  const said = (it) => element("div", {}, element("b", {}, it), `: ${MEANINGS[it]}`);
  box.replaceChildren(...words.map(said));
  box.hidden = false;
  box.style.left = `${Math.max(GAP, Math.min(left, innerWidth - WIDE - 2 * GAP))}px`;
  const { height } = box.getBoundingClientRect(), isBelow = bottom + height + GAP < innerHeight;
  box.style.top = `${isBelow ? bottom + GAP : Math.max(GAP, top - height - GAP)}px`;
}
function showAfter(pause) {
  return ({ target }) => {
    const found = wordsOf(target);
    hide();
    if (!found.words.length) return;
    timer = setTimeout(() => found.at.isConnected && showWords(found), pause);
  };
}
// a sentence with its known words marked, so that they can be pointed at
export function withWords(text) {
  const made = [];
  let at = 0;
  for (const match of text.matchAll(NAMED)) {
    const word = match[0].toLowerCase();
    if (!Object.hasOwn(MEANINGS, word)) continue;
    made.push(text.slice(at, match.index),
      element("span", { "data-word": word, tabindex: 0, class: "word" }, match[0]));
    at = match.index + match[0].length;
  }
  return [...made, text.slice(at)].filter(Boolean);
}
export function watchWords() {
  const hover = showAfter(HOVER_PAUSE), touch = showAfter(0);
  addEventListener("pointerover", (event) => event.pointerType === "mouse" && hover(event));
  addEventListener("focusin", (event) => event.target.matches(":focus-visible") && hover(event));
  addEventListener("pointerdown", (event) =>
    (event.pointerType === "touch" ? touch(event) : hide()));
  addEventListener("keydown", hide);
  addEventListener("scroll", hide, true);
  one("#all-words").replaceChildren(...Object.entries(MEANINGS).flatMap(([word, meaning]) =>
    [element("dt", {}, word), element("dd", {}, meaning)]));
}
