// Starts the page: it unpacks the code and the texts that tools/page packed, and begins that code.
const TOO_OLD = "This browser is too old: it lacks WebAssembly or DecompressionStream.";
async function unpacked(id) {
  const text = document.getElementById(id).textContent;
  const bytes = Uint8Array.from(atob(text), (it) => it.charCodeAt(0));
  return new Response(new Blob([bytes]).stream().pipeThrough(new DecompressionStream("gzip")));
}
async function start() {
  if (typeof WebAssembly === "undefined" || typeof DecompressionStream === "undefined")
    throw new Error(TOO_OLD);
  const { code, ...contents } = await (await unpacked("contents")).json();
  // the page as it was opened, before anything was put into it
  const source = `<!DOCTYPE html>\n${document.documentElement.outerHTML}`;
  globalThis.towerbench = { source, contents, unpacked };
  const script = document.createElement("script");
  Object.assign(script, { type: "module", textContent: code });
  document.body.append(script);
}
start().catch(({ message }) => { document.querySelector("#said").textContent = message; });
