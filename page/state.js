// What the page holds: the document, what the program says of it, and what a person looks at.
// Others read `now`; they change it by `setNow` and `setView` alone.
export const now = {
  document: null, model: null,
  // the session that the page acts as, and the lesson that is played: its title and its lines
  who: 0, lesson: null,
  // the columns that are drawn, and how wide each is; the branches as they are read between these
  range: { from: 0, to: 0, column: 52 }, readings: new Map(), inSight: new Set(), followed: "",
  // which branches are shown, a read that is picked, the process that keys go to, a step that waits
  // for its number
  view: { show: "all", picked: null, process: 0, awaiting: "" },
};
export const setNow = (parts) => Object.assign(now, parts);
export const setView = (parts) => Object.assign(now.view, parts);
// where the page's session is: its branch and its place (`placeOf` of model.js)
export const here = () => now.model.placeOf(now.who);
// the run of the branch where the cursor is, as far as it is read
export const runHere = () => now.readings.get(here().name).run;
