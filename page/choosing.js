// The dialogs that choose a tower, and what is opened.
import { packedContents } from "./engine.js";
import { counted } from "./labels.js";
import { MOST_BITS, TOWERS, sizeFault } from "./towers.js";
import { EMPTY_TOWER } from "./document.js";
import { lessonOf } from "./player.js";
import { putKept } from "./opened.js";
import { ask } from "./acting.js";
import { element, one } from "./elements.js";
import { now } from "./state.js";

// `begin` makes a document of a tower file, a script, and the lines of a lesson if it is one
export async function chooseTower(begin) {
  const dialog = one("#tower-dialog"), [kind, ...numbers] = now.model.tower.split(" ");
  const numberIn = ({ value }) => (value === "" ? NaN : Number(value));
  const given = () => [...one("#fields").querySelectorAll("input")].map(numberIn);
  const chosen = () => one("[name=kind]:checked").value;
  const check = () => {
    const fault = sizeFault(chosen(), given());
    const count = fault ? 0 : TOWERS[chosen()].bits(...given());
    one("#tower-fault").textContent = fault;
    one("#tower-size").textContent = fault ? ""
      : `${counted(count, "safe bit")} of at most ${MOST_BITS}`;
    dialog.querySelector("[value=begin]").disabled = Boolean(fault);
  };
  const limits = ({ name, least, most }) =>
    ({ type: "number", min: least, max: most, required: "", name, oninput: check });
  const row = (values) => (it, index) => element("label", {},
    element("b", {}, it.name), ` ${it.meaning}: `,
    element("input", { ...limits(it), value: values[index] ?? it.first }),
    ` ${it.least} to ${it.most}`);
  const choose = (name, values) => {
    one("#promise").textContent = TOWERS[name].promise;
    one("#fields").replaceChildren(...TOWERS[name].fields.map(row(values)));
    check();
  };
  const radio = (it) => element("input", { type: "radio", name: "kind", value: it,
    onchange: () => choose(it, []), checked: it === kind && "" });
  const kinds = Object.keys(TOWERS).map((it) => element("label", {}, radio(it), ` ${it}`));
  one("#kinds").replaceChildren(...kinds);
  choose(kind, numbers);
  if (await ask(dialog) !== "begin") return;
  begin(`tower 2\n${[chosen(), ...given()].join(" ")}\n`, "0 join\n");
}
// a document of the repository; a lesson begins before its first line
function openButton(it, title, begin, isLesson) {
  const words = `${title}${it.tower ? "" : ", no steps"}`, script = isLesson ? "" : it.script;
  const open = () => begin(it.tower || EMPTY_TOWER, script, lessonOf(title, it.script, isLesson));
  return element("button", { "data-open": it.name, onclick: open }, words);
}
function partButtons({ folder, title, parts }, begin) {
  const titleOf = ({ name }) =>
    (parts.length > 1 ? `${title} (${name.replace("-", " ")})` : title);
  return parts.map((it) => openButton({ ...it, name: `${folder}/${it.name}` }, titleOf(it), begin,
    it.script !== ""));
}
export function chooseOpen(begin, openFiles) {
  const { lessons, examples } = packedContents;
  one("#lessons").replaceChildren(...lessons.flatMap((it) => partButtons(it, begin)));
  one("#examples").replaceChildren(...examples.map((it) => openButton(it, it.name, begin, false)));
  putKept(begin);
  one("#files").value = "";
  one("#files").onchange = ({ target }) => {
    one("#open-dialog").close();
    openFiles([...target.files]);
  };
  ask(one("#open-dialog"));
}
export function watchDrops(openFiles) {
  addEventListener("dragover", (event) => event.preventDefault());
  addEventListener("drop", (event) => {
    event.preventDefault();
    openFiles([...event.dataTransfer.files]);
  });
}
