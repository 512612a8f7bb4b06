// The grammar of scripts and of the program's lines, with its limits, which all modules take from
// here.

export const SESSIONS = 16, MOST_NAME = 16, MOST_BYTES = 255, MOST_DIGITS = 9;
export const NUMBER = `(?:0|[1-9][0-9]{0,${MOST_DIGITS - 1}})`;
export const NAME = `[a-z][a-z0-9]{0,${MOST_NAME - 1}}`;
export const STEP = `w [0-9] ${NUMBER}|r [0-9]|g [0-9] [01]|x [0-9]`;
// any number may be typed, as the program says what is wrong with it
export const TYPED_STEP = "w [0-9] [0-9]+|r [0-9]|g [0-9] [01]|x [0-9]";
export const whole = (pattern) => new RegExp(`^(?:${pattern})$`);
// what follows each command's name
export const COMMANDS = { join: "", leave: "",
  insert: "BRANCH PLACE STEP", remove: "BRANCH PLACE", replace: "BRANCH PLACE STEP",
  fork: "BRANCH PLACE NAME", detach: "BRANCH", drop: "BRANCH",
  go: "BRANCH PLACE", seek: "", back: "", break: "BREAK", clear: "BREAK",
  state: "BRANCH PLACE", process: "BRANCH PLACE PROCESS", bits: "BRANCH PLACE",
  pending: "BRANCH PLACE", history: "BRANCH PLACE", verdict: "BRANCH PLACE",
  branches: "", cursor: "", steps: "BRANCH", fill: "BRANCH" };
export const CHOICES = {
  STEP: { w: "PROCESS VALUE", r: "PROCESS", g: "PROCESS CHOICE", x: "PROCESS" },
  BREAK: { returns: "PROCESS", bit: "BIT VALUE", chosen: "", void: "", refused: "" } };
export const EDITS = ["insert", "remove", "replace", "fork", "detach"];
// what changes branches
export const CHANGES = [...EDITS, "drop"];
const LOOKS = ["state", "process", "bits", "pending", "history", "verdict", "steps"];
export const UNGUARDED = [...LOOKS, "branches", "cursor", "fill"];
// the commands after which the page is at the branch that they name
export const ABOUT = [...LOOKS, ...EDITS];
