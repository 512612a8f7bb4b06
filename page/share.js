// A question that travels: as a link, or as this page itself with the document inside.
import { packedData, pageSource } from "./engine.js";
import { openedLines } from "./back.js";
import { fileName, save } from "./files.js";
import { goalIn, isMet, looksFor } from "./goals.js";
import { inWords } from "./goalwords.js";
import { remember, remembered } from "./kept.js";
import { hashFor } from "./links.js";
import { headOf, isData, isUntouched, taskOf } from "./tasks.js";
import { element, one } from "./elements.js";
import { here, now } from "./state.js";

const field = (name) => one(`#share-${name}`), valueOf = (name) => field(name).value.trim();
const GOAL = /^(?:# ?)?goal(?: [0-9]+)?: (.*)$/;
const DATA = /^(?:# ?)?(?:goal|ask|option)(?: [0-9]{1,3})?: ./;
const isQuestionData = (it) => /^# (goal|ask|option)\b/.test(it);
const typedLines = (text) => text.split("\n").map((it) => it.trim()).filter(Boolean);
// the address of the page on the web, which is typed once
function baseAddress() {
  const own = location.protocol === "file:" ? "" : location.href.split("#")[0];
  return remembered("base") || packedData().base || own;
}
// the page with a document inside, which opens by a double click
function pageWith(document, base) {
  const data = JSON.stringify({ ...packedData(), document, base }).replace(/</g, "\\u003c");
  const place = /(<script type="application\/json" id="data">)[^]*?(<\/script>)/;
  return pageSource.replace(place, (_, begin, end) => begin + data + end);
}
// a script with this question; `isBare`: without what anybody did or answered
function scriptWith({ text, data, name }, lines, isBare) {
  const head = headOf(lines), begin = lines.slice(0, head), rest = lines.slice(head);
  const kept = (kind) => begin.filter((it) => it.startsWith(`# ${kind}`));
  const textLines = typedLines(text).map((it) => `# ${it}`);
  const dataLines = typedLines(data).map((it) => `# ${it.replace(/^# ?/, "")}`);
  const whose = name ? [`# student: ${name}`] : [];
  const answered = isBare ? [] : [...kept("start:"), ...kept("predicted"), ...whose];
  const done = isBare ? ["0 join"] : rest.filter((it) => !isData(it));
  return `${[...kept("exercise"), ...textLines, ...dataLines, ...answered, ...done].join("\n")}\n`;
}
const fields = () => ({ text: valueOf("text"), data: valueOf("data"), name: valueOf("name") });
const isBareChosen = () => one("[name=share-start]:checked").value === "bare";
function sharedDocument() {
  const { tower, lines } = now.document;
  return { tower, script: scriptWith(fields(), lines, isBareChosen()) };
}
// goals that the cursor's branch meets, each of which a click adds
async function suggestedGoals(model, name) {
  const { length } = model.branch(name);
  const looks = ["verdict", "history"].map((kind) => [kind, name, length]);
  await model.look(looks);
  const [verdicts, events] = looks.map((it) => model.page(...it)?.lines || []);
  const said = verdicts.map((it) => it.split(" ").slice(1).join(" "));
  const reads = said.filter((it) => / (fresh|overlap|stray)$/.test(it)).slice(-6);
  const has = (word) => events.some((it) => it.includes(` ${word} `));
  return [...[...new Set(reads)].map((it) => `verdict has "${it}"`),
    reads.length > 1 && `verdict has ${reads.map((it) => `"${it}"`).join(" then ")}`,
    `history has ${has("chosen") ? "" : "no "}"chosen"`, has("refused") && 'history has "refused"']
    .filter(Boolean).map((it) => `goal: some: ${it}`);
}
// what was typed and closed, as long as the document and its comments are the same
let draft = null;
const draftKey = () => JSON.stringify([openedLines(), now.document.tower,
  now.document.lines.filter((it) => it.startsWith("#"))]);
const keepDraft = () => { draft = { key: draftKey(), ...fields() }; };
// what is typed, judged at once
async function check() {
  const { model } = now, base = valueOf("base");
  const data = typedLines(valueOf("data"));
  const goals = data.map((it) => GOAL.exec(it)?.[1]).filter(Boolean).map(goalIn);
  await model.look(looksFor(goals, model));
  const metWords = (it) => (isMet(it, model) ? "\u2713 met now:" : "\u25cb not met now:");
  const signOf = (it) => (it.fault ? "!" : metWords(it));
  const unread = data.filter((it) => !DATA.test(it));
  field("goals").replaceChildren(...goals.map((it) => element("li",
    { class: it.fault ? "wrong" : isMet(it, model) && "met" }, `${signOf(it)} ${inWords(it)}`)),
  ...unread.map((it) => element("li", { class: "wrong" },
    `! ${it} can't be read: a line begins with goal:, ask: or option:`)));
  const link = base.split("#")[0] + await hashFor(sharedDocument());
  field("link").value = link;
  field("size").textContent = base ? `${link.length} characters`
    : "A link needs the address of this page on the web. Without one, save one file.";
  field("copy").disabled = !base;
}
async function copyLink() {
  const link = field("link");
  try {
    await navigator.clipboard.writeText(link.value);
    field("said").textContent = "The link is copied.";
  } catch {
    link.select();
    field("said").textContent = "Copy the selected link by Ctrl+C.";
  }
}
function saveFile() {
  const document = { name: "exercise", ...sharedDocument() };
  const page = pageWith(document, valueOf("base"));
  const name = fileName("html", taskOf(document.script.split("\n")));
  save(name, page, "text/html");
  const size = Math.round(page.length / 1000);
  field("said").textContent = `${name}, ${size} kB: it opens by a double click.`;
}
// `take` gives the page a script with what was typed
function watch(dialog, take) {
  const keep = () => {
    remember("base", valueOf("base"));
    remember("student", valueOf("name"));
    take(scriptWith(fields(), now.document.lines, false));
  };
  for (const it of dialog.querySelectorAll("input, textarea:not([readonly])"))
    it.oninput = () => { keepDraft(); check(); };
  field("copy").onclick = async () => { await copyLink(); keep(); };
  field("save").onclick = () => { saveFile(); keep(); };
  field("keep").onclick = () => { keep(); dialog.close(); };
}
function ideaButton(it) {
  const add = () => {
    field("data").value = [...typedLines(valueOf("data")), it].join("\n");
    keepDraft();
    check();
  };
  const given = { type: "button", class: "line", onclick: add };
  return element("button", given, it.replace("goal: some:", "+"));
}
export async function openShare(take) {
  const dialog = one("#share-dialog"), { lines } = now.document, found = taskOf(lines);
  const data = lines.filter(isQuestionData).map((it) => it.slice(2)).join("\n");
  const name = found.student || remembered("student"), isDraft = draft?.key === draftKey();
  const typed = isDraft ? draft : { text: found.text.join("\n"), data, name };
  for (const it of ["text", "data", "name"]) field(it).value = typed[it];
  field("base").value = baseAddress();
  const start = found.isTask && !isUntouched(lines) ? "mine" : "bare";
  one(`[name=share-start][value=${start}]`).checked = true;
  field("said").textContent = "";
  watch(dialog, take);
  const suggested = await suggestedGoals(now.model, here().name);
  field("ideas").replaceChildren("What holds now: ", ...suggested.map(ideaButton));
  await check();
  dialog.showModal();
}
