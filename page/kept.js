// What is kept: documents that another one replaced, and small notes. They are kept in memory, and
// in the browser if it lets a page keep them; `forget` removes all of them.
const DOCUMENTS = "towerbench.recent", NOTES = "towerbench.note ";
const MOST_DOCUMENTS = 12, MOST_TEXT = 100000;
const memory = new Map();
function stored(key) {
  try {
    return localStorage.getItem(key) ?? memory.get(key) ?? "";
  } catch { return memory.get(key) ?? ""; }
}
function store(key, text) {
  memory.set(key, text);
  try {
    localStorage.setItem(key, text);
  } catch { /* then it is kept until the page is closed */ }
}
export const remembered = (name) => stored(NOTES + name);
export const remember = (name, text) => store(NOTES + name, text);
const TEXTS = ["tower", "script", "title"];
const isDocument = (it) => TEXTS.every((key) => typeof it?.[key] === "string");
// the documents, the last one first; each is a tower file, a script, a title and when it was left
export function keptDocuments() {
  try {
    return JSON.parse(stored(DOCUMENTS) || "[]").filter(isDocument);
  } catch { return []; }
}
// an earlier version of a document that is still open is replaced
export function storeDocument({ tower, script, title, when }, isOpen = false) {
  if (tower.length + script.length > MOST_TEXT) return;
  const isOlder = (it) => it.script === script || (isOpen && script.startsWith(it.script));
  const others = keptDocuments().filter((it) => it.tower !== tower || !isOlder(it));
  const all = [{ tower, script, title, when }, ...others];
  store(DOCUMENTS, JSON.stringify(all.slice(0, MOST_DOCUMENTS)));
}
const isOurs = (key) => key === DOCUMENTS || key.startsWith(NOTES);
// forgets the documents, names, predictions and what is solved, on this computer
export function forget() {
  memory.clear();
  try {
    for (const key of Object.keys(localStorage).filter(isOurs)) localStorage.removeItem(key);
  } catch { /* a browser that keeps nothing has nothing to forget */ }
}
