// A goal in the words of a sentence. Forms that exercises often use have their own; of all others
// the sentence names the page and quotes the words.
const owned = (process, thing) => (process ? `${process}'s ${thing}` : `a ${thing}`);
const noneOf = (process, thing) => `no ${thing}${process ? ` of ${process}` : ""}`;
// a sentence, and that it isn't so
const pair = (is, isnt) => ({ is, isnt });
function verdictWords(process, value, verdict) {
  const says = value ? `gives ${value}${verdict ? `, ${verdict}` : ""}` : `is ${verdict}`;
  return pair(`${owned(process, "read")} ${says}`, `${noneOf(process, "read")} ${says}`);
}
function invokeWords(process = "a process", kind, value) {
  const what = value ? `${kind} of ${value}` : kind;
  const isnt = process === "a process" ? `no ${what} begins` : `${process} begins no ${what}`;
  return pair(`${process} begins a ${what}`, isnt);
}
const chosenWords = (process, bit, value) => (bit
  ? pair(`a hit read of bit ${bit} is given ${value || "a chosen value"}`,
    `no hit read of bit ${bit} is given ${value || "a chosen value"}`)
  : pair(process ? `a choice matters to ${process}` : "a choice matters",
    process ? `no choice matters to ${process}` : "no choice matters"));
function refusedWords(process, tower) {
  const why = tower ? `, as no ${tower === "matrix" ? "tag" : "stamp"} is left` : "";
  return pair(`an operation${process ? ` of ${process}` : ""} is refused${why}`,
    `${noneOf(process, "operation")} is refused${why}`);
}
// any process, or one that is named
const P = "(?:(p[0-9]) )?";
const FORMS = [
  ["verdict", `${P}([0-9]+)(?: (fresh|overlap|stray))?`, verdictWords],
  ["verdict", `${P}()(fresh|overlap|stray)`, verdictWords],
  ["history", `${P}invoke (read|write)(?: ([0-9]+))?`, invokeWords],
  ["history", `${P}chosen(?: bit ([0-9]+)(?: value ([01]))?)?`, chosenWords],
  ["history", `${P}refused(?: spent (\\w+))?`, refusedWords],
  ["history", `${P}return written`, (it) => pair(`${owned(it, "write")} returns`,
    `${noneOf(it, "write")} returns`)],
  ["history", `${P}return ([0-9]+)`, (it, value) => pair(`${owned(it, "read")} returns ${value}`,
    `${noneOf(it, "read")} returns ${value}`)],
  ["history", "(p[0-9]) stop", (it) => pair(`${it} stops`, `${it} doesn't stop`)],
  ["steps", "([0-9]+) ([wrgx] .*)", (step, it) => pair(`step ${step} is ${it}`,
    `step ${step} isn't ${it}`)],
  ["cursor", "([a-z]\\w*) ([0-9]+)", (name, place) => pair(
    `a session is at place ${place} of ${name}`, `no session is at place ${place} of ${name}`)],
  ["branches", "made ([0-9]+)", (many) => pair(`${many} steps were made`,
    `another number of steps than ${many} were made`)],
  ["branches", "([a-z]\\w*) ([0-9]+)", (name, many) => pair(`${name} has ${many} steps`,
    `${name} doesn't have ${many} steps`)],
].map(([page, pattern, said]) => ({ page, pattern: new RegExp(`^${pattern}$`), said }));
function saidOf(page, words) {
  const text = words.join(" "), is = (it) => it.page === page && it.pattern.test(text);
  const form = FORMS.find(is);
  if (form) return form.said(...form.pattern.exec(text).slice(1));
  const named = `\u201c${text}\u201d`;
  return pair(`the page ${page} has ${named}`, `the page ${page} doesn't have ${named}`);
}
function clauseInWords({ page, place, count, patterns }) {
  const said = patterns.map((it) => saidOf(page, it));
  const inOrder = said.map((it) => it.is).join(", and later ");
  const upTo = place === null ? "" : ` up to place ${place}`;
  if (count === null) return inOrder + upTo;
  if (count) return `${inOrder}, ${count === 1 ? "once" : `${count} times`}${upTo}`;
  return (said.length === 1 ? said[0].isnt : `it isn't so that ${inOrder}`) + upTo;
}
function groupInWords({ operation, clauses }) {
  const said = clauses.map(clauseInWords).join("; and ");
  return operation ? `during one and the same ${operation} ${said}` : said;
}
export function inWords({ scope, groups, fault, text }) {
  if (fault) return `This goal can't be read, as ${fault}: ${text.slice(0, 120)}`;
  const on = { some: "On one branch", every: "On every branch" }[scope] || `On ${scope}`;
  return `${on} ${groups.map(groupInWords).join("; and ")}.`;
}
