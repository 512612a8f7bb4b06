// Files that a person chooses or drops, and documents that were open before.
import { Document } from "./document.js";
import { forgetLeft } from "./back.js";
import { forget, keptDocuments } from "./kept.js";
import { taskOf, towerIn } from "./tasks.js";
import { say } from "./acting.js";
import { element, one } from "./elements.js";
import { now } from "./state.js";

const INSIDE = /<script type="application\/json" id="data">([^]*?)<\/script>/;
const isPage = ({ name }) => /\.html?$/i.test(name);
const isTower = ({ name, text }) => /^(tower|bench) /.test(text) || /\.(tower|bench)$/i.test(name);
export const textsOf = (files) =>
  Promise.all(files.map(async (it) => ({ name: it.name, text: await it.text() })));
// the document inside a page that was saved as one file; a fault is thrown
function insidePage({ name, text }) {
  const found = INSIDE.exec(text);
  let given = null;
  try { given = found && JSON.parse(found[1]).document; } catch { /* as if there were none */ }
  if (typeof given?.script !== "string")
    throw new Error(`${name} is no page with a document inside.`);
  return { name, tower: given.tower || "", script: given.script };
}
const stemOf = (name) => name.replace(/\.[a-z]+$/i, "");
function take(found, it) {
  const stem = stemOf(it.name), made = found.get(stem) || { name: stem };
  found.set(stem, made);
  if (!isPage(it)) made[isTower(it) ? "tower" : "script"] = it.text;
  else try {
    Object.assign(made, insidePage(it), { name: stem });
  } catch (fault) { made.fault = fault.message; }
}
// The documents of many files. A script goes with the tower file of its name, with the tower that
// it names itself, or with this page's; `isNamed` is false if it goes with this page's tower.
export function documentsOf(texts) {
  const found = new Map();
  for (const it of texts) take(found, it);
  return [...found.values()].map(({ name, tower = "", script = "", fault }) => {
    const given = tower || towerIn(taskOf(Document.of("", script).lines));
    return { name, tower: given || now.document.tower, script, fault, isNamed: Boolean(given) };
  });
}
// One document of a tower or bench file, a script, both, or a saved page. `said`: on which tower a
// script runs that doesn't say so.
export function documentOf(texts) {
  const page = texts.find(isPage), tower = texts.find(isTower);
  if (page) return insidePage(page);
  const script = texts.find((it) => it !== tower), text = script ? script.text : "0 join\n";
  const named = tower ? tower.text : towerIn(taskOf(Document.of("", text).lines));
  const said = named ? "" : `${script.name} doesn't say on which tower it runs: here it is `;
  return { name: script?.name || tower.name, tower: named || now.document.tower, script: text,
    isPlayed: Boolean(script), said };
}
// the list of what was open before, with a way to forget it
export function putKept(begin) {
  const kept = keptDocuments(), close = () => one("#open-dialog").close();
  const row = (it) => element("button",
    { "data-recent": "", onclick: () => begin(it.tower, it.script, null) },
    `${it.title}, ${new Date(it.when).toLocaleString()}`);
  one("#recent").replaceChildren(...kept.map(row));
  one("#recent-part").hidden = !kept.length;
  one("#forget").onclick = () => {
    forget();
    close();
    forgetLeft();
    say("What was kept here is forgotten: documents, names, predictions, what is solved.");
  };
}
