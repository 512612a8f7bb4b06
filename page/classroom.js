// A teacher's table: many files at once, each with its name, the goals that it meets and its
// verdicts.
import { inWords } from "./goalwords.js";
import { judgedFile, openJudge } from "./judging.js";
import { documentsOf } from "./opened.js";
import { SIGNS, counted } from "./labels.js";
import { say } from "./acting.js";
import { element, one } from "./elements.js";

export const FEW_FILES = 2;
const MOST_BRANCHES = 8, MOST_VERDICTS = 12, MET = "\u2713", UNMET = "\u25cb";
let rows = [];
function verdictsOf(model, { name, length }) {
  const lines = model.page("verdict", name, length)?.lines || [], said = lines.map((line) => {
    const [, , value, verdict] = line.split(" ");
    return SIGNS[verdict] ? `${value}${SIGNS[verdict]}` : line;
  });
  const left = said.length - MOST_VERDICTS;
  return `${name}: ${said.slice(0, MOST_VERDICTS).join(" ")}${left > 0 ? ` and ${left} more` : ""}`;
}
async function rowOf(it, open) {
  if (it.fault) throw new Error(it.fault);
  const judged = await judgedFile(it, open), { model } = judged;
  const branches = model.branches.slice(0, MOST_BRANCHES), refused = model.refusals.length;
  await model.look(branches.map(({ name, length }) => ["verdict", name, length]));
  return { ...judged, fault: "", line: model.tower, goals: judged.judge.goals, model: null,
    verdicts: branches.map((each) => verdictsOf(model, each)),
    refused: refused ? `${refused} lines refused` : "" };
}
async function judgedAll(texts) {
  const open = openJudge(), found = [];
  for (const it of documentsOf(texts)) found.push(await rowOf(it, open).catch((fault) =>
    ({ ...it, isDamaged: Boolean(it.fault), fault: fault.message, goals: [], met: [], verdicts: [],
      student: "", judge: open })));
  return found;
}
const isDone = ({ met }) => met.length > 0 && met.every(Boolean);
// a file on another tower meets no goal, whatever its own goals say
function towerCell({ isOn, line, judge }) {
  const [, other = ""] = judge.tower.split("\n");
  const said = line === other ? "not as the exercise begins" : `not the exercise's ${other}`;
  return isOn ? element("td", {}, line)
    : element("td", {}, line, element("b", { class: "wrong" }, ` ${said}`));
}
function predictedCell({ predicted }) {
  const sign = ({ isRight }) => (isRight === null ? "" : isRight ? ` ${MET}` : " \u2717");
  return element("td", {}, predicted.map((it) => `${it.words}${sign(it)}`).join("; "));
}
function cellsOf(it, columns, open) {
  const given = { "data-class": it.name }, words = it.student || it.name;
  // a damaged file has nothing to open
  const named = it.isDamaged ? element("span", given, words)
    : element("button", { ...given, onclick: open }, words);
  const name = element("td", {}, named, it.student && element("small", {}, ` ${it.name}`));
  if (it.fault) return [name, element("td", { class: "wrong", colspan: columns + 4 }, it.fault)];
  const met = it.met.filter(Boolean).length, { title } = it.judge;
  const of = title && element("small", {}, ` exercise ${title}`);
  const said = (...parts) => element("td", {}, ...parts);
  const goal = (_, at) => element("td", { class: it.met[at] && "met", title: it.goals[at]?.text },
    at < it.goals.length ? (it.met[at] ? MET : UNMET) : "");
  return [name, said(`${met} of ${it.goals.length}`, of), ...Array.from({ length: columns }, goal),
    predictedCell(it), towerCell(it),
    said([it.verdicts.join(", "), it.refused].filter(Boolean).join(", "))];
}
const tableText = () => [...one("#class-table").querySelectorAll("tr")].map((row) =>
  [...row.children].map((it) => it.textContent.trim().replace(/\s+/g, " ")).join("\t")).join("\n");
async function copyTable() {
  try {
    await navigator.clipboard.writeText(tableText());
    one("#class-said").textContent = "The table is copied; a spreadsheet takes it.";
  } catch { one("#class-said").textContent = "The browser doesn't let the page copy it."; }
}
function printTable() {
  document.body.classList.add("printing-table");
  print();
}
addEventListener("afterprint", () => document.body.classList.remove("printing-table"));
// what the files are judged by, in words
function saidOfJudges() {
  const by = (kind) => rows.filter(({ judge }) => judge?.by === kind).length, own = by("own");
  if (by("open")) return "Judged by the exercise that is open here.";
  const packed = by("packed") ? "Judged by the lesson's exercise that each file names. " : "";
  const whose = own === 1 ? "its" : "their";
  return packed + (own ? `${counted(own, "file")} judged by ${whose} own goals, which a student `
    + "can change: open the exercise, and choose the files again." : "");
}
function showTable(begin) {
  const dialog = one("#class-dialog"), judges = new Map(rows.filter((it) => it.judge)
    .map(({ judge }) => [judge.key, judge]));
  const columns = Math.max(0, ...rows.map((it) => it.goals.length));
  const goals = judges.size === 1 ? [...judges.values()][0].goals : [];
  const open = (it) => () => { dialog.close(); begin(it.tower, it.script, null); };
  const numbers = Array.from({ length: columns }, (_, at) => `goal ${at + 1}`);
  const heads = ["name", "met", ...numbers, "predicted", "tower", "verdicts"];
  one("#class-goals").replaceChildren(...goals.map((it) => element("li", {}, inWords(it))));
  one("#class-count").textContent =
    `${rows.length} files, ${rows.filter(isDone).length} meet all goals`;
  one("#class-judge").textContent = saidOfJudges();
  one("#class-said").textContent = "";
  one("#class-table").replaceChildren(
    element("thead", {}, element("tr", {}, heads.map((it) => element("th", { scope: "col" }, it)))),
    element("tbody", {}, rows.map((it) => element("tr", {}, cellsOf(it, columns, open(it))))));
  one("#class-copy").onclick = copyTable;
  one("#class-print").onclick = printTable;
  one("#table-again").hidden = !rows.length;
  dialog.showModal();
}
// shows the table of these files' texts, or again that of the last ones
export async function openClass(texts, begin) {
  if (texts) {
    say(`${texts.length} files are read.`);
    rows = await judgedAll(texts);
    say("");
  }
  showTable(begin);
}
