// A document as what follows an address: deflated JSON in base64url. Deflate has a checksum, so a
// link that lost or changed a letter is known.
// how a hash of a document begins, and how long it may be, and the document too
const MARK = "#z", MOST = 4000000;
const LESSON = /^#lesson-(\d+)$/;
const DAMAGED = "This link is damaged: a part of it is missing or changed, so its " +
  "document can't be opened. Ask for it again, or copy all of it.";
// read part by part, as Firefox reports on its console if all of a damaged stream is asked for
// what a stream makes of bytes
async function through(bytes, { writable, readable }) {
  const writer = writable.getWriter(), reader = readable.getReader(), parts = [];
  for (const done of [writer.write(bytes), writer.close()]) done.catch(() => null);
  let size = 0;
  for (let it = await reader.read(); !it.done; it = await reader.read()) {
    size += it.value.length;
    if (size > MOST) throw new RangeError("it is too long");
    parts.push(it.value);
  }
  return new Uint8Array(await new Blob(parts).arrayBuffer());
}
function base64(bytes) {
  const text = btoa(Array.from(bytes, (it) => String.fromCharCode(it)).join(""));
  return text.replace(/\+/g, "-").replace(/\//g, "_").replace(/=+$/, "");
}
function bytesIn(text) {
  const plain = atob(text.replace(/-/g, "+").replace(/_/g, "/"));
  return Uint8Array.from(plain, (it) => it.charCodeAt(0));
}
export async function hashFor({ tower, script }) {
  const bytes = new TextEncoder().encode(JSON.stringify([tower, script]));
  return MARK + base64(await through(bytes, new CompressionStream("deflate")));
}
async function textIn(hash) {
  if (!hash.startsWith(MARK)) return decodeURIComponent(hash.slice(1));
  const bytes = bytesIn(hash.slice(MARK.length));
  return new TextDecoder("utf-8", { fatal: true })
    .decode(await through(bytes, new DecompressionStream("deflate")));
}
// the number of the lesson that a hash names, as `#lesson-5`, or nothing
export const lessonNumberIn = (hash) => Number(LESSON.exec(hash)?.[1] || 0);
// the document of a hash; nothing if there is no hash, or it names a lesson; or `fault`, a sentence
export async function documentInHash(hash) {
  if (hash.length < 2 || LESSON.test(hash)) return null;
  try {
    const [tower, script] = JSON.parse(hash.length > MOST ? "" : await textIn(hash));
    if (typeof tower === "string" && typeof script === "string") return { tower, script };
  } catch { /* it is damaged, as below */ }
  return { fault: DAMAGED };
}
