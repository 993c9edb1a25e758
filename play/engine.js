// Calls of the module from the page, which never wait for it: a worker answers them in turn, and can be stopped.

/** A call was stopped. */
export class Stopped extends Error {}

/** What a call ended with where it gave no answer. */
export class NoAnswer extends Error {}

let compiled = null;

async function unpacked(id) {
  const packed = Uint8Array.from(atob(document.getElementById(id).textContent), letter => letter.charCodeAt(0));
  return new Uint8Array(await new Response(new Blob([packed]).stream().pipeThrough(new DecompressionStream('gzip'))).arrayBuffer());
}

/** The compiled module, which the page has packed in it. */
const moduleOf = () => compiled ??= unpacked('module').then(bytes => WebAssembly.compile(bytes));

/** The examples, the guide's pages and the viewer's template, which the page has packed in it. */
export const assets = async () => JSON.parse(new TextDecoder().decode(await unpacked('assets')));

/** A worker that answers one request after the other. */
export class Engine {
  #worker = null;
  #waiting = new Map();
  #last = 0;

  /** Asks for something; the answer is an object with its `code`. */
  async ask(request, given = {}) {
    const worker = await (this.#worker ??= this.#started()), id = ++this.#last;
    return new Promise((resolve, reject) => {
      this.#waiting.set(id, {resolve, reject});
      worker.postMessage({id, request, ...given});
    });
  }

  /** What a program answers: its exit code and its bytes. */
  async call(program, words, ...sources) { return this.ask('call', {program, words, sources}); }

  get isBusy() { return this.#waiting.size > 0; }

  /** Ends what runs; the next request begins with a new instance of the module. */
  stop() {
    const worker = this.#worker, waiting = [...this.#waiting.values()];
    [this.#worker, this.#waiting] = [null, new Map()];
    worker?.then(it => it.terminate(), () => {});
    for (const {reject} of waiting) reject(new Stopped());
  }

  async #started() {
    const address = URL.createObjectURL(new Blob([document.getElementById('workerSource').textContent], {type: 'text/javascript'}));
    const worker = new Worker(address);
    worker.onmessage = ({data}) => this.#take(data);
    worker.onerror = event => this.#fail(new NoAnswer(event.message || 'the worker failed'));
    worker.postMessage({module: await moduleOf()});
    return worker;
  }

  #take(data) {
    const {resolve, reject} = this.#waiting.get(data.id) ?? {};
    this.#waiting.delete(data.id);
    if (data.fault === undefined || data.code === 8) return resolve?.(data);
    reject?.(new NoAnswer(data.fault));
    this.#fail(new NoAnswer(data.fault));
  }

  #fail(fault) {
    const waiting = [...this.#waiting.values()];
    this.stop();
    for (const {reject} of waiting) reject(fault);
  }
}
