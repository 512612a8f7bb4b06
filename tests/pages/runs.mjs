// Runs the program's module once for each line of a file of JSON, and prints how it ended as a line
// of JSON.
// usage: node runs.mjs MACHINE MODULE RUNS     MACHINE is page/machine.js; bytes are in base64
import { readFileSync } from "node:fs";

const [machine, wasm, runs] = process.argv.slice(2);
const bytes = (text) => new Uint8Array(Buffer.from(text, "base64"));
const text = (given) => Buffer.from(given).toString("base64");
const mapped = (table, change) =>
  Object.fromEntries(Object.entries(table).map(([key, it]) => [key, change(it)]));

// by its text, so that no release of node takes it for anything but a module
const code = readFileSync(machine).toString("base64");
const { runModule } = await import(`data:text/javascript;base64,${code}`);
const module = await WebAssembly.compile(readFileSync(wasm));
for (const line of readFileSync(runs, "utf8").trim().split("\n")) {
  const { words, files, input, mostMemory } = JSON.parse(line);
  const given = mapped(files, (it) => (typeof it === "string" ? bytes(it) : it));
  const ran = runModule(module,
    { words: words.map(bytes), files: given, input: bytes(input), mostMemory });
  const { status, output, errors, written, memory, fault } = ran;
  console.log(JSON.stringify(fault ? { fault }
    : { status, output: text(output), errors: text(errors), written: mapped(written, text),
      memory }));
}
