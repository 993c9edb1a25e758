// What stands between a caller's bytes and the module denovo.wasm: its programs as functions of bytes, and a machine that is stepped. It has no
// network, no files and no page, so Node and a browser use it alike. Pointers of the module are BigInt. Its memory is looked up anew after each
// call, since it may have grown.

/** How many sources each program reads. */
export const SOURCES = {denovo: 1, view: 1, outcomes: 1, referee: 1, sweep: 1, explain: 2};

/** The forms of events, as lines of a trace, by their kinds in include/denovo_step.h. */
const EVENTS = [/^i (?<actor>\d+)$/, /^e (?<actor>\d+) (?<number>\d+)$/, /^a (?<actor>\d+)$/, /^h c (?<actor>\d+) (?<number>\d+)$/,
  /^h b (?<actor>\d+) (?<number>\d+)$/, /^h k (?<number>\d+)$/];
const LINES = [(actor) => `i ${actor}`, (actor, number) => `e ${actor} ${number}`, (actor) => `a ${actor}`, (actor, number) => `h c ${actor} ${number}`,
  (actor, number) => `h b ${actor} ${number}`, (_, number) => `h k ${number}`];
const EVENT_BYTES = 12;

/** The exit code of want of memory. */
export const OUT_OF_MEMORY = 8;

export const bytesOf = text => typeof text === 'string' ? new TextEncoder().encode(text) : text;
export const textOf = bytes => new TextDecoder('utf-8', {ignoreBOM: true}).decode(bytes);

/** A number of 32 bits; the module would cut a larger one. */
function checkedNumber(name, number) {
  if (!Number.isInteger(number) || number < 0 || number > 0xffffffff) throw new RangeError(`${name} is ${number}, and isn't from 0 to 4294967295`);
  return number;
}

/** The command words, each ended by a zero byte. */
function wordBlock(words) {
  if (!Array.isArray(words)) throw new TypeError('the command words are a list');
  const all = words.map(String), bad = all.find(word => word.includes('\0'));
  if (bad !== undefined) throw new RangeError(`${JSON.stringify(bad)} has a zero byte, and no command word has one`);
  return bytesOf(all.map(word => word + '\0').join(''));
}

class NoMemory extends Error {}

/** One instance of the module. */
export class Library {
  #exports;

  constructor(instance) { this.#exports = instance.exports; }

  /** An instance of a compiled module. */
  static async of(module) { return new Library(await WebAssembly.instantiate(module, {})); }

  /** The programs that the module has. */
  get programs() { return Object.keys(SOURCES).filter(program => program + '_answer' in this.#exports); }

  /** What a program answers to command words and its sources: its exit code and its bytes. */
  call(program, words, ...sources) {
    if (!this.programs.includes(program)) throw new RangeError(`${JSON.stringify(program)} is no program of the library`);
    if (sources.length !== SOURCES[program]) throw new TypeError(`${program} reads ${SOURCES[program]} sources, and ${sources.length} are given`);
    return this.#within(take => {
      const given = [wordBlock(words), ...sources.map(bytesOf)].flatMap(bytes => [this.#put(take, bytes), BigInt(bytes.length)]);
      const written = take(8);
      for (let room = 65536; ;) {
        const out = take(room), code = this.#exports[program + '_answer'](...given, out, BigInt(room), written), length = this.#size(written);
        if (length <= room) return {code, bytes: this.#bytes(out, length)};
        room = length;
      }
    }, {code: OUT_OF_MEMORY, bytes: new Uint8Array(0)});
  }

  /** Bounds the memory of the module, in bytes; what it has already stays. */
  limitMemory(bytes) { this.#exports.memory_limit(BigInt(bytes)); }

  /** How far the memory of the module has grown, in bytes. */
  get memorySize() { return Number(this.#exports.memory_size()); }

  /** A machine that has none behind it yet. */
  machine() {
    const at = this.#exports.malloc(8n);
    if (at === 0n) throw new NoMemory('there is no memory');
    this.#view(at, 8).setBigUint64(0, 0n, true);
    return new Machine(this, at);
  }

  /** Calls a function of include/denovo_step.h. */
  step(name, ...given) { return this.#exports['denovo_' + name](...given); }

  /** Calls `use` with the bytes of a text in the module. */
  withBytes(bytes, use) { return this.#within(take => use(this.#put(take, bytes), BigInt(bytes.length)), OUT_OF_MEMORY); }

  /** The events that `list` shows in so much room: it gives its code, and says how many there are. */
  listed(room, list) {
    return this.#within(take => {
      const out = take(room * EVENT_BYTES), count = take(8), code = list(out, BigInt(room), count), there = this.#size(count);
      const view = this.#view(out, Math.min(room, there) * EVENT_BYTES), word = at => view.getUint32(at, true), lines = [];
      for (let at = 0; at < view.byteLength; at += EVENT_BYTES) lines.push(LINES[word(at)](word(at + 4), word(at + 8)));
      return {code, there, lines};
    }, {code: OUT_OF_MEMORY, there: 0, lines: []});
  }

  /** Calls `use` with the bytes of an event. */
  withEvent(kind, actor, number, use) {
    return this.#within(take => {
      const at = take(EVENT_BYTES), view = this.#view(at, EVENT_BYTES);
      [kind, actor, number].forEach((value, place) => view.setUint32(4 * place, value, true));
      return use(at);
    }, OUT_OF_MEMORY);
  }

  release(at) { this.#exports.free(at); }

  #view(at, length) { return new DataView(this.#exports.memory.buffer, Number(at), length); }
  #size(at) { return Number(this.#view(at, 8).getBigUint64(0, true)); }
  #bytes(at, length) { return new Uint8Array(this.#exports.memory.buffer, Number(at), length).slice(); }
  #put(take, bytes) {
    const at = take(bytes.length);
    new Uint8Array(this.#exports.memory.buffer, Number(at), bytes.length).set(bytes);
    return at;
  }

  /** What `use` gives with a function that takes memory, all of which is given back; `without` where there isn't enough. */
  #within(use, without) {
    const held = [];
    const take = size => {
      const at = this.#exports.malloc(BigInt(Math.max(1, size)));
      if (at === 0n) throw new NoMemory();
      held.push(at);
      return at;
    };
    try {
      return use(take);
    } catch (fault) {
      if (fault instanceof NoMemory) return without;
      throw fault;
    } finally {
      held.forEach(at => this.release(at));
    }
  }
}

/** The kind and the numbers of a line of a trace; null where it is none. */
export function eventOf(line) {
  for (const [kind, form] of EVENTS.entries()) {
    const found = form.exec(line);
    if (found) return {kind, actor: Number(found.groups.actor ?? 0), number: Number(found.groups.number ?? 0)};
  }
  return null;
}

/** A machine, stepped event by event; the results are those of include/denovo_step.h. */
export class Machine {
  #library;
  #at;

  constructor(library, at) { [this.#library, this.#at] = [library, at]; }

  /** Opens the machine of a text. */
  open(text, {banks = 4, sets = 64, ways = 4, fuel = 32768} = {}) {
    const sizes = Object.entries({banks, sets, ways, fuel}).map(([name, number]) => checkedNumber(name, number));
    return this.#library.withBytes(bytesOf(text), (at, length) => this.#call('open', at, length, ...sizes));
  }

  /** The code, and the enabled events as lines of a trace. */
  enabled() {
    for (let room = 64; ;) {
      const {code, there, lines} = this.#library.listed(room, (...given) => this.#call('enabled', ...given));
      if (there <= room) return {code, lines};
      room = there;
    }
  }

  step(line) {
    const event = eventOf(line);
    if (!event) throw new RangeError(`${JSON.stringify(line)} is no event`);
    for (const name of ['actor', 'number']) checkedNumber(`the ${name} of ${JSON.stringify(line)}`, event[name]);
    return this.#library.withEvent(event.kind, event.actor, event.number, at => this.#call('step', at));
  }

  /** The present value of a data word. */
  word(index) { return this.#call('word', checkedNumber("the word's index", index)) >>> 0; }

  get made() { return Number(this.#call('made')); }

  close() {
    if (this.#at === null) return;
    this.#call('close');
    this.#library.release(this.#at);
    this.#at = null;
  }

  #call(name, ...given) {
    if (this.#at === null) throw new Error('the machine is closed');
    return this.#library.step(name, this.#at, ...given);
  }
}
