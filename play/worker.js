// The worker: it has the module, answers calls, and keeps the machine of a walk by hand.
import {Library, OUT_OF_MEMORY, bytesOf, textOf} from '../javascript/machine.mjs';
import {stateOf, wordsShown} from './state.js';

// the module's instance, and the promise of it, for which the first requests wait
let library = null, opening = null, walk = null;

/* A walk by hand: a machine that is open, and the events that it has made; `lines` has them as a trace writes them. */
class Walk {
  constructor(text, sizes, seed) {
    [this.text, this.sizes, this.events, this.lines, this.chance] = [bytesOf(text), sizes, [], '', chanceOf(seed)];
    this.machine = library.machine();
    this.code = this.machine.open(this.text, sizes);
    this.firstValues = this.code === 0 ? this.readFirstValues() : [];
  }

  /* [word, value] of each first value that isn't 0. */
  readFirstValues() {
    const listing = textOf(library.call('denovo', ['--mode', 'list'], this.text).bytes), begins = new Map();
    let first = 0;
    for (const [, name, count] of listing.matchAll(/^\.region ([^ ,]+), (\d+)$/gm)) {
      begins.set(name, first);
      first += Number(count);
    }
    return [...listing.matchAll(/^\.word ([^ ,]+), (\d+), (\S+)$/gm)].map(([, name, index, value]) => [begins.get(name) + Number(index), Number(value) >>> 0]);
  }

  step(event) {
    const code = this.machine.step(event);
    if (code === 0) {
      this.events.push(event);
      this.lines += event + '\n';
    }
    return code;
  }

  /* Makes these events; it stops at one that isn't enabled. */
  walk(events) {
    for (const event of events) {
      const code = this.step(event);
      if (code !== 0) return code;
    }
    return 0;
  }

  /* Makes as many enabled events by chance, as long as there is one of those that are wanted, and until the core waits, if one is named. */
  byChance(count, {messages = false, untilWaits = null}) {
    for (let made = 0; made < count; made++) {
      const {code, lines} = this.machine.enabled();
      if (code !== 0) return code;
      if (untilWaits !== null && !lines.some(line => isOwnEvent(line, untilWaits))) return 0;
      const wanted = messages ? lines.filter(line => line.startsWith('h ')) : lines;
      if (!wanted.length) return 0;
      const stepped = this.step(wanted[Math.floor(this.chance() * wanted.length)]);
      if (stepped !== 0) return stepped;
    }
    return 0;
  }

  /* Takes events back: the machine is opened anew and makes the others. */
  backTo(count) {
    const events = this.events.slice(0, count);
    [this.events, this.lines] = [[], ''];
    const code = this.machine.open(this.text, this.sizes);
    return code === 0 ? this.walk(events) : code;
  }

  trace(more = []) {
    const {banks, sets, ways, fuel} = this.sizes, count = this.events.length + more.length;
    return joined([bytesOf(`denovo-trace 1\nbanks ${banks} sets ${sets} ways ${ways} fuel ${fuel}\nsource ${this.text.length}\n`), this.text,
      bytesOf(`\nevents ${count}\n${this.lines}${more.map(event => event + '\n').join('')}`)]);
  }

  /* The parts of the state, the words that are shown of it, and the enabled events. */
  shown() {
    const {code, lines} = this.machine.enabled();
    if (code !== 0) return {code};
    const viewed = library.call('view', ['--mode', 'state', '--event', String(this.events.length)], this.trace());
    const state = stateOf(textOf(viewed.bytes), this.firstValues), {cores, locks, mails, barrier} = state;
    return {code: viewed.code, made: this.events.length, tail: this.events.slice(-MOST_TAIL), enabled: lines, cores, locks, mails, barrier, words: wordsShown(state, MOST_WORDS),
      used: state.words.size};
  }

  /* Why an event isn't enabled; the empty text if it is. */
  whyNot(event) {
    const viewed = library.call('view', ['--mode', 'state', '--event', String(this.events.length)], this.trace([event]));
    return /^may not come: (.*)$/m.exec(textOf(viewed.bytes))?.[1] ?? '';
  }
}
const MOST_TAIL = 300, MOST_WORDS = 100;

/* An event that a core makes by itself. */
const isOwnEvent = (line, core) => line === `i ${core}` || line === `a ${core}` || line.startsWith(`e ${core} `);

function joined(parts) {
  const whole = new Uint8Array(parts.reduce((sum, part) => sum + part.length, 0));
  let at = 0;
  for (const part of parts) {
    whole.set(part, at);
    at += part.length;
  }
  return whole;
}

/* Numbers from 0 to below 1, the same for each seed: mulberry32. */
function chanceOf(seed) {
  let state = seed >>> 0;
  return () => {
    state = (state + 0x6D2B79F5) | 0;
    let mixed = Math.imul(state ^ state >>> 15, 1 | state);
    mixed = mixed + Math.imul(mixed ^ mixed >>> 7, 61 | mixed) ^ mixed;
    return ((mixed ^ mixed >>> 14) >>> 0) / 4294967296;
  };
}

const REQUESTS = {
  programs: () => ({code: 0, programs: library.programs}),
  call: ({program, words, sources}) => library.call(program, words, ...sources),
  open({text, sizes, seed, events}) {
    walk?.machine.close();
    walk = new Walk(text, sizes, seed);
    const code = walk.code || walk.walk(events);
    return code ? {code} : walk.shown();
  },
  step: ({event}) => shownAfter(walk.step(event)),
  chance: ({count, how}) => shownAfter(walk.byChance(count, how)),
  back: ({count}) => shownAfter(walk.backTo(count)),
  why: ({events}) => ({code: 0, reasons: events.map(event => [event, walk.whyNot(event)])}),
  trace: () => ({code: 0, bytes: walk.trace()}),
};
const shownAfter = code => code === 0 ? walk.shown() : {code};

self.onmessage = async ({data}) => {
  try {
    if (data.module) {
      opening = Library.of(data.module);
      return;
    }
    library = await opening;
    self.postMessage({id: data.id, ...REQUESTS[data.request](data)});
  } catch (fault) {
    // a trap of the module, such as a stack that is full: this instance isn't used again
    self.postMessage({id: data.id, code: fault instanceof RangeError && /memory|size/i.test(fault.message) ? OUT_OF_MEMORY : -1, fault: String(fault)});
  }
};
