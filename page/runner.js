// Runs a packed program in a worker of its own, which is ended when a run takes too long or is
// stopped, and then made again. start.js unpacks the worker's code and the modules.

const { contents, unpacked } = globalThis.towerbench;
const STOPPED = "The run was stopped.";
const failure = (fault) => ({ status: null, output: "", errors: "", bench: "", fault });
let workerAddress = null;
function addressOfWorker() {
  const code = new Blob([contents.worker], { type: "text/javascript" });
  return URL.createObjectURL(code);
}
export class Runner {
  // `program` is the element that has the packed module
  constructor(program) {
    Object.assign(this, { program, compiling: null, worker: null, end: null, stops: 0 });
    this.last = Promise.resolve();
  }
  get isHere() { return document.getElementById(this.program) !== null; }
  async compiled() {
    return WebAssembly.compile(await (await unpacked(this.program)).arrayBuffer());
  }
  begunWorker(module) {
    workerAddress ??= addressOfWorker();
    const begun = new Worker(workerAddress);
    begun.postMessage({ module });
    return begun;
  }
  run(module, request, seconds) {
    this.worker ??= this.begunWorker(module);
    return new Promise((done) => {
      const finish = (found) => {
        clearTimeout(timer);
        done(found);
      };
      this.end = (fault) => {
        this.worker?.terminate();
        this.worker = null;
        finish(failure(fault));
      };
      this.worker.onmessage = ({ data }) => finish(data);
      // for example if the browser has no memory left for the worker
      this.worker.onerror = (event) => {
        event.preventDefault();
        this.end("The program's worker failed.");
      };
      this.worker.postMessage({ request });
      const tooLong = `The program took longer than ${seconds} seconds and was stopped.`;
      const timer = setTimeout(() => this.end(tooLong), 1000 * seconds);
    });
  }
  // What a request yields in time, or `fault`, a sentence, if the program gave no status; never
  // rejects. Requests wait for one another.
  ask(request, seconds) {
    const before = this.stops;
    this.last = this.last.then(async () => {
      const module = await (this.compiling ??= this.compiled());
      return before === this.stops ? this.run(module, request, seconds) : failure(STOPPED);
    }).catch((error) => failure(`The program couldn't be begun: ${error.message}`));
    return this.last;
  }
  // drops the runs that wait too
  stop() {
    this.stops++;
    if (this.end) this.end(STOPPED);
  }
}
