// The picture in the page: which branches and columns are in sight, the pages that these take, and
// what is drawn.
import { between, firstDifference, sharedCells } from "./pages.js";
import { axisLooks, findColumns, lengthOf, putScale } from "./columns.js";
import { depthKey, depthOf, isFoldOpen, putDepths } from "./depths.js";
import { Drawing } from "./drawing.js";
import { layersOf } from "./layers.js";
import { FEW_CELLS, LABEL, MARGIN, TREE_ROW } from "./measures.js";
import { Reading, overlappedWrites } from "./reading.js";
import { aboutBranch, hatch, looksOf, readInside } from "./still.js";
import { lookIntoRead, pickedRead, storyOfRead } from "./whys.js";
import { all, element, mounted, one, putIfChanged, putParts } from "./elements.js";
import { here, now, setNow, setView } from "./state.js";

// how far above and below what is in sight panels are drawn, how many branches' tree is unfolded at
// first, and how wide the picture is at least
const SIGHT = 300, MOST_TREE = 12, LEAST_ROOM = 300;
const scroll = one("#scroll"), heights = new Map();
one("#patterns").append(mounted(hatch()));
// the branches that are drawn one below the other, as the page's choice has them
export function shownBranches() {
  const { model, view } = now, [kind, ...names] = view.show.split(" ");
  const found = names.map((it) => model.branch(it));
  if (kind !== "all" && found.every(Boolean) && names.includes(here().name)) return found;
  setView({ show: "all" });
  return model.branches;
}
const isComparing = () => now.view.show.startsWith("compare ");
const roomOf = () => Math.max(LEAST_ROOM, scroll.clientWidth - LABEL);
// if there are many bits, their page is asked for only while some of a branch's are unfolded
const MANY_CELLS = 64;
function needsBits({ name }) {
  const { shape, codes: { registers } } = now.model;
  return !registers.length || shape.cells <= MANY_CELLS
    || registers.some((it) => isFoldOpen(`${name} ${it.name}`));
}
// whether the page of bits at the cursor's place is shown
const areBitsShown = () => now.model.shape.cells <= MANY_CELLS || one("#here details")?.open;
export const areBitsMissing = () => Boolean(now.model) && areBitsShown()
  && !now.model.page("bits", here().name, here().place);
function kindsOf(branch) {
  const hasLayers = layersOf(now.model.shape).length > 0;
  return ["state", hasLayers && "pending", needsBits(branch) && "bits"].filter(Boolean);
}
function findRange(branches, count, isFollowing) {
  const { cells } = now.model.shape, lines = branches.some(needsBits) ? cells : 8 + cells / 16;
  return findColumns(branches, { room: roomOf(), scrolled: scroll.scrollLeft, place: here().place,
    isFollowing, cells: count * lines });
}
// how high a branch's panel is, or about how high it will be
function heightOf(branch) {
  const { cells, processes } = now.model.shape;
  return heights.get(branch.name) || 90 + processes * 84 + 30 * Math.min(cells, FEW_CELLS);
}
function isInSight(top, bottom) {
  const { scrollTop, clientHeight } = scroll;
  return bottom > scrollTop - SIGHT && top < scrollTop + clientHeight + SIGHT;
}
// those whose panels are in sight, and that of the cursor
function panelsInSight(drawn) {
  let top = one("#panels").offsetTop;
  return drawn.filter((it) => {
    const from = top;
    top += heightOf(it);
    return it.name === here().name || isInSight(from, top);
  });
}
function branchesOfTree() {
  const { branches } = now.model, { open: isOpen, dataset } = one("#tree-fold");
  // the tree of many branches is folded at first
  if (branches.length < 2 || (branches.length > MOST_TREE && !(isOpen && dataset.many))) return [];
  return branches.filter((it) => isInSight(it.index * TREE_ROW, (it.index + 1) * TREE_ROW));
}
// the columns of a range that a branch has
const cut = ({ from, to }, branch) => [from, to].map((it) => Math.min(it, branch.length));
// finds which columns and panels are in sight, asks for the pages that these take, and reads them
export async function look(isFollowing) {
  const { model } = now, { name, place } = here(), tree = branchesOfTree();
  const ofAxis = axisLooks(shownBranches(), roomOf());
  await model.look(ofAxis);
  const branches = shownBranches(), panels = panelsInSight(branches);
  const range = findRange(branches, panels.length, isFollowing);
  const looks = panels.flatMap((it) => looksOf(it, ...cut(range, it), kindsOf(it)));
  for (const it of tree) {
    const [, to] = cut(range, it);
    looks.push(["history", it.name, to], ["verdict", it.name, to]);
  }
  for (const kind of ["state", "pending", ...(areBitsShown() ? ["bits"] : [])])
    looks.push([kind, name, place], [kind, name, Math.max(0, place - 1)]);
  await model.look(looks);
  // only the page of bits says whether a read is hit
  const isEnding = ({ action }) => action === "re";
  if (model.page("state", name, place)?.processes.some(isEnding))
    await model.look([["bits", name, place]]);
  model.sought = [...ofAxis, ...looks];
  readAll(tree, panels, range);
  await lookIntoRead();
  setNow({ range, inSight: new Set(panels) });
}
function readAll(tree, panels, range) {
  const { model, readings: before } = now, readings = new Map();
  setNow({ readings });
  for (const it of tree) {
    const [, to] = cut(range, it);
    readings.set(it.name, new Reading(it, to, to, (kind, at) => model.page(kind, it.name, at)));
  }
  for (const it of panels) {
    const [from, to] = cut(range, it), was = before.get(it.name), kinds = kindsOf(it).join(" ");
    const isSame = was && was.branch === it && was.from === from && was.to === to
      && was.kinds === kinds;
    const reading = isSame ? was : readInside(model, it, from, to);
    readings.set(it.name, Object.assign(reading, { kinds }));
  }
}
// whether something is in sight that isn't drawn yet
export function isMissing() {
  const { from, to, axis } = now.range, { scrollLeft, clientWidth } = scroll;
  const last = axis.place(scrollLeft + clientWidth - LABEL), end = lengthOf(now.model.branches);
  const isBeyond = axis.place(scrollLeft) < from || (last > to && to < end);
  if (isBeyond || panelsInSight(shownBranches()).some((it) => !now.inSight.has(it))) return true;
  return branchesOfTree().some((it) => !now.readings.has(it.name));
}
export function stripNode({ kind, label, drawn, height }, { x, width, whole }) {
  const svg = (given, children) =>
    mounted({ name: "svg", attributes: { height, ...given }, children });
  const picture = svg({ width, viewBox: `${x} 0 ${width} ${height}`, class: "drawn" }, drawn);
  picture.style.marginLeft = `${x}px`;
  const made = element("div", { class: `strip ${kind}` },
    element("span", { class: "label" }, svg({ width: LABEL }, label)), picture);
  made.style.width = `${whole}px`;
  return made;
}
const stripPart = (key, strip, frame) =>
  ({ key, held: JSON.stringify([strip, frame]), make: () => stripNode(strip, frame) });
// the part of a register's bits or of the words, if any are drawn; folded, if they have a fold
function partsOfRows(branch, { name, fold, rows }, frame) {
  const key = `${branch.name} ${name}`, isOpen = isFoldOpen(key);
  if (!rows.drawn.length && !fold?.drawn.length) return [];
  if (!fold) return [stripPart(name || "bits", rows, frame)];
  const make = () => element("details", { "data-open": key, open: isOpen && "" },
    element("summary", {}, stripNode(fold, frame)), isOpen && stripNode(rows, frame));
  return [{ key: `fold ${name}`, held: JSON.stringify([fold, frame, isOpen && rows]), make }];
}
const BRANCH_TITLES = { fork: "a new branch of the steps before the cursor (f)",
  detach: "give it steps of its own, which no other branch holds (d)",
  compare: "with the cursor's branch, or its own parent (m)", alone: "show this branch alone",
  own: "go to the first step that it doesn't share with its parent (j)", drop: "drop the branch" };
// what can be done with a branch: each button's name, and its words if it is there
function branchButtons(branch) {
  const { model, view } = now, isAlone = view.show === `only ${branch.name}`;
  const isMany = model.branches.length > 1, compare = isComparing() ? "stop comparing" : "compare";
  return [["fork", "fork\u2026"], ["detach", model.sharedSteps(branch) > 0 && "detach"],
    ["compare", isMany && compare],
    ["alone", isMany && !isComparing() && (isAlone ? "show all" : "alone")],
    ["own", branch.shared && "own steps \u25b8"], ["drop", isMany && "drop"]]
    .filter(([, words]) => words);
}
function headPart(branch) {
  const buttons = branchButtons(branch), about = aboutBranch(branch), { name } = branch;
  const button = ([what, words]) => element("button",
    { "data-do": what, "data-key": `${what} ${name}`, title: BRANCH_TITLES[what] }, words);
  const make = () => element("h2", {},
    element("span", { class: "select", "data-select": name }, name), " ",
    element("small", {}, about), buttons.map(button));
  return { key: "head", held: JSON.stringify([name, about, buttons]), make };
}
function putPanel(section, branch, drawing, frame, { asked, groups, above, differing }) {
  const reading = now.readings.get(branch.name), { model, who } = now, parts = [headPart(branch)];
  const isOther = (it) => it.name === branch.name && it.who !== who;
  const cursors = model.cursors.map((it, at) => ({ ...it, who: at })).filter(isOther);
  section.style.minHeight = now.inSight.has(branch) ? "" : `${heightOf(branch)}px`;
  // a panel made from equal things is left as it is
  const kept = [parts[0].held, frame, asked, above, differing, cursors, depthKey(), [...groups]];
  const made = [reading, JSON.stringify(kept), now.inSight.has(branch)];
  if (section.made && made.every((it, index) => it === section.made[index])) return;
  section.made = made;
  if (now.inSight.has(branch)) {
    const chips = drawing.chips(reading, { shared: model.sharedSteps(branch), differing });
    parts.push(stripPart("chips", chips, frame));
    if (cursors.length) parts.push(stripPart("flags", drawing.flags(cursors), frame));
    parts.push(stripPart("lanes", drawing.lanes(reading, { asked, shared: above }), frame));
    const rows = [...drawing.bits(reading, groups, above), drawing.words(reading, above)];
    parts.push(...rows.flatMap((it) => partsOfRows(branch, it, frame)));
  }
  putParts(section, parts);
}
// the steps that differ from the branch that this one is compared with
function differenceOf(branch, drawn) {
  const other = isComparing() && drawn.find((it) => it !== branch);
  const [from, to] = cut(now.range, branch);
  const differs = (it) => it >= other.length || other.step(it) !== branch.step(it);
  return other ? between(from, to).filter(differs) : [];
}
// `asked` are the processes at the cursor whose read is hit
export function putPicture(asked) {
  const { model, range } = now, { shape, codes } = model, { place } = here();
  const drawing = new Drawing(range, shape, { depthOf, codes }), frame = frameOf(drawing);
  one("#inner").style.width = `${frame.whole}px`;
  scroll.style.setProperty("--room", `${scroll.clientWidth}px`);
  Object.assign(one("#inner").dataset, { from: range.from, to: range.to });
  putParts(one("#ruler"), [stripPart("ruler", drawing.ruler(lengthOf(model.branches)), frame)]);
  putTree(drawing, frame);
  putPanels(drawing, frame, asked);
  one("#line").style.left = `${LABEL + range.axis.left(place)}px`;
  for (const it of all(".chip.next")) it.classList.remove("next");
  one(`.panel.focus .chip[data-step="${place}"]`)?.classList.add("next");
  putChoices();
  putDepths();
  putScale();
  light();
  scroll.scrollLeft = range.left;
}
// which part of the axis is drawn, and how wide all of it is
function frameOf(drawing) {
  const { model, range: { from, to, axis } } = now, x = drawing.left(from);
  const whole = axis.left(lengthOf(model.branches)) + MARGIN;
  const width = Math.min(whole, drawing.left(to) + MARGIN) - x;
  return { x, width, whole: whole + LABEL, axis: axis.key };
}
function putPanels(drawing, frame, asked) {
  const drawn = shownBranches(), { name, place } = here(), panels = one("#panels");
  const inSight = drawn.filter((it) => now.inSight.has(it));
  const groups = drawing.groups(inSight.map((it) => now.readings.get(it.name)));
  while (panels.children.length > drawn.length) panels.lastChild.remove();
  drawn.forEach((it, index) => {
    const section = panels.children[index]
      || panels.appendChild(element("section", { class: "panel" }));
    section.dataset.branch = it.name;
    section.classList.toggle("focus", it.name === name);
    const cells = drawn.slice(0, index).map((other) => sharedCells(other, it));
    const isAsked = it.name === name && place === it.length;
    putPanel(section, it, drawing, frame, { groups, asked: isAsked ? asked : [],
      above: isComparing() ? 0 : Math.max(0, ...cells), differing: differenceOf(it, drawn) });
  });
  // measured once all are drawn, so that the page is laid out once
  for (const it of inSight) heights.set(it.name, panels.children[drawn.indexOf(it)].offsetHeight);
}
// brings the panel of the cursor in sight, if it is another one than before
export function followFocus() {
  const { name } = here(), nearest = { block: "nearest", inline: "nearest" };
  if (now.followed !== name) one(".panel.focus").scrollIntoView(nearest);
  setNow({ followed: name });
}
function putTree(drawing, frame) {
  const { model: { branches }, readings } = now, fold = one("#tree-fold");
  const isMany = branches.length > MOST_TREE;
  fold.hidden = branches.length < 2;
  fold.querySelector("summary").hidden = !isMany;
  fold.querySelector("summary span").textContent = `${branches.length} branches`;
  if (!isMany) fold.open = true;
  else if (!fold.dataset.many) fold.open = false;
  fold.dataset.many = isMany ? "yes" : "";
  if (!fold.open || fold.hidden) return;
  putParts(one("#tree"), [stripPart("tree", drawing.tree(branches, readings), frame)]);
}
function putChoices() {
  const { view: { show }, model: { branches } } = now, choices = [["all", "all branches"]];
  for (const { name } of branches) choices.push([`only ${name}`, `${name} alone`]);
  if (isComparing()) choices.push([show, show.replace("compare ", "").replace(" ", " and ")]);
  putIfChanged(one("#show"), JSON.stringify(choices), () =>
    choices.map(([value, words]) => element("option", { value }, words)));
  Object.assign(one("#show"), { value: show, hidden: branches.length < 2 });
}
// what two branches that are compared share, in a sentence
export function comparison() {
  if (!isComparing()) return "";
  const [a, b] = shownBranches(), shared = sharedCells(a, b), at = firstDifference(a, b);
  const parts = shared ? `their first ${shared} steps` : "no step";
  const said = `${a.name} and ${b.name} share ${parts}`;
  const on = (it) => `${at < it.length ? it.step(at) : "none"} on ${it.name}`;
  if (at >= a.length && at >= b.length) return `${said}, and all their steps are equal.`;
  return `${said}; the first that differs is step ${at}: ${on(a)}, ${on(b)}.`;
}
// lights the picked read, the writes that it overlaps, and what its sentence names
const LIGHTS = ["lit", "dim", "picked", "lifted", "source"];
export function light() {
  const { picked } = now.view, read = pickedRead();
  for (const it of all(LIGHTS.map((name) => `.${name}`).join())) it.classList.remove(...LIGHTS);
  const section = read && all(".panel").find((it) => it.dataset.branch === picked.name);
  const lanes = section && section.querySelector(".lanes");
  one("#zone").hidden = !lanes;
  if (!lanes) return;
  section.classList.add("lifted");
  const { run, to } = now.readings.get(picked.name), { axis } = now.range;
  const overlapped = new Set(overlappedWrites(run, read).map((it) => String(it.begun)));
  section.querySelector(`.operation[data-at="${read.begun}"]`)?.classList.add("picked");
  for (const it of section.querySelectorAll(".operation.write"))
    it.classList.add(overlapped.has(it.dataset.at) ? "lit" : "dim");
  const left = axis.left(read.begun), width = axis.left((read.ended ?? to - 1) + 1) - left;
  Object.assign(one("#zone").style, { left: `${LABEL + left}px`, top: `${lanes.offsetTop}px`,
    width: `${width}px`, height: `${lanes.offsetHeight}px` });
  lightStory(section, read, storyOfRead(picked.name, read));
}
// the bars, rows and cells that a read's sentence names, and what gave the value
function lightStory(section, { process }, story) {
  if (!story) return;
  for (const it of story.parts) {
    const at = `[data-from="${it.from}"][data-process="${process}"]`;
    const bar = section.querySelector(`[data-nest="${it.layer}"]${at}`);
    bar?.classList.add("lit", ...(it === story.source ? ["source"] : []));
  }
  for (const { name, place, code } of story.rows) {
    const row = section.querySelector(`[data-row="${name}"]`), hasCode = Number.isInteger(code);
    const isThere = ({ dataset: { from, to } }) => from <= place && place <= to;
    const box = [...(row?.querySelectorAll(".box") || [])].find(isThere);
    row?.classList.add("lit");
    box?.classList.add("lit", ...(hasCode ? ["source"] : []));
    // a cell shows its number at the cursor's place, which may be another one
    if (hasCode) one(`[data-register="${name}"][data-code="${code}"]`)?.classList.add("lit");
  }
  authorOf(section, story)?.classList.add("source");
}
// the write of the tagged code that a matrix's read gives
function authorOf(section, { written }) {
  const isIt = ({ isWrite, process, last }) => isWrite && process === written.writer
    && last.phase === "write" && last.code === written.code;
  const { roots } = now.readings.get(now.view.picked.name).facts.layers;
  const root = written && roots.find(isIt);
  return root && section.querySelector(`.operation.write[data-at="${root.operation.begun}"]`);
}
