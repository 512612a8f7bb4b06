// The read of which the page says why it gave its value, and what it read inside.
import { Facts, Layers } from "./layers.js";
import { between } from "./pages.js";
import { Reading } from "./reading.js";
import { here, now } from "./state.js";
import { storyOf } from "./stories.js";

// at most this many lines of pages are asked for a read
const MOST_STORY_LINES = 3000000;
let lookedInto = null;
export function pickedRead() {
  const { picked } = now.view, reading = picked && now.readings.get(picked.name);
  return reading ? reading.operationAt(picked.begun) : undefined;
}
// the picked read, or the one that the step before the cursor ended
function readInQuestion() {
  const picked = pickedRead(), { name, place } = here();
  if (picked) return { name: now.view.picked.name, read: picked };
  const isEnded = (it) => it.kind === "read" && it.ended === place - 1;
  const read = now.readings.get(name)?.run.operations.find(isEnded);
  return read ? { name, read } : null;
}
// asks for the pages of all places of that read, and makes its story of them
export async function lookIntoRead() {
  const found = readInQuestion(), { model } = now;
  if (!found) return;
  const { name, read } = found, branch = model.branch(name), { to: end } = now.readings.get(name);
  const to = Math.min(end, (read.ended ?? end) + 1), key = `${name} ${read.begun} ${to}`;
  if (lookedInto?.key === key && lookedInto.bench === model.bench) return;
  if ((to - read.begun) * model.shape.cells > MOST_STORY_LINES) return;
  await model.look(between(read.begun, to + 1)
    .flatMap((place) => [["state", name, place], ["pending", name, place]]));
  // its events are on the history of the columns in sight
  const page = (kind, at) => model.page(kind, name, at);
  const reading = new Reading(branch, read.begun, to, page, end);
  const layers = new Layers(reading, page);
  const isIt = ({ operation: { begun, process } }) =>
    begun === read.begun && process === read.process;
  const story = storyOf(new Facts(layers, model.codes), layers.roots.find(isIt));
  lookedInto = { key, bench: model.bench, name, begun: read.begun, story };
}
// the story of a read of a branch, if it was looked into
export const storyOfRead = (name, read) =>
  (lookedInto?.name === name && lookedInto.begun === read.begun
    && lookedInto.bench === now.model.bench ? lookedInto.story : null);
