// denovo from JavaScript, over the module denovo.wasm, without any other dependency; and all its programs as one command.
//
//     import * as denovo from './denovo.mjs';
//     const answer = denovo.run(text, {seed: 7, banks: 2});
//     answer.outcome                  // 'done', 'trapped', 'fuel' or 'stuck'
//     answer.region('seen')           // the final words of a region
//     denovo.outcomes(text).settled   // what every run of the text has in common
//     new denovo.Stepper(text)        // a machine that is stepped, event by event
//
//     node denovo.mjs denovo --seed 3 < TEXT
//
// Node finds denovo.wasm beside this file, or where the variable DENOVO_WASM names it; elsewhere `await load(bytes)` comes first. The module needs
// memories of 64 bits: Node has them from 24 on, and before that this file switches them on. What the module answers is proved of the bytes that
// go in and come out, up to Debian's compiler and the engine (docs/LIMITS.md); this file cuts them into lines, and is tested.
import {Library, OUT_OF_MEMORY, SOURCES, bytesOf, eventOf, textOf} from './machine.mjs';

const DATA = 0x10000000;

/** The words, the text, the document or the claim are refused. `line` is the refusal, and the message is the explained one. */
export class Refused extends Error {
  constructor(line, explained = '') {
    super(explained || line);
    this.name = 'Refused';
    this.line = line;
  }
}

/** There was no memory for the answer. */
export class OutOfMemory extends Error {
  constructor() {
    super('out of memory');
    this.name = 'OutOfMemory';
  }
}

// ---------------------------------------------------------------- the module

// a module with a memory of 64 bits and nothing else
const PROBE = Uint8Array.of(0, 97, 115, 109, 1, 0, 0, 0, 5, 3, 1, 4, 1);
const isNode = typeof process === 'object' && Boolean(process.versions?.node);
const files = isNode ? await import('node:fs') : null;
const addresses = isNode ? await import('node:url') : null;
let library = null;

/** Takes the module's bytes, or a compiled module. */
export async function load(source) {
  library = await Library.of(source instanceof WebAssembly.Module ? source : await WebAssembly.compile(source));
}

/** The places at which Node looks for the module. */
function placesOfModule() {
  const beside = name => addresses.fileURLToPath(new URL(name, import.meta.url));
  return [process.env.DENOVO_WASM, beside('denovo.wasm'), beside('../.quick/wasm/denovo.wasm')].filter(Boolean);
}

/** The library, which is opened once. */
function loaded() {
  if (library) return library;
  if (!isNode) throw new Error('the module isn’t there yet: await load(bytes) comes first');
  const place = placesOfModule().find(it => files.existsSync(it));
  if (!place) throw new Error('there is no denovo.wasm: tools/wasm makes it, and DENOVO_WASM may name it');
  library = new Library(new WebAssembly.Instance(new WebAssembly.Module(files.readFileSync(place)), {}));
  return library;
}
if (isNode && !WebAssembly.validate(PROBE)) (await import('node:v8')).setFlagsFromString('--experimental-wasm-memory64');

/** What a program (denovo, view, outcomes, referee, sweep or explain) answers to command words and its sources: `code` and `bytes`. */
export function call(program, words, ...sources) { return loaded().call(program, words, ...sources.map(checkedText)); }

function checkedText(text) {
  if (typeof text === 'string' || text instanceof Uint8Array) return text;
  throw new TypeError(`a text is a string or a Uint8Array, and not ${text === null ? 'null' : typeof text}`);
}

/** Options as command words: tickCore: 2 is --tick-core 2. */
const wordsOf = options => Object.entries(options).filter(([, value]) => value !== undefined && value !== null)
  .flatMap(([name, value]) => ['--' + name.replace(/[A-Z]/g, letter => '-' + letter.toLowerCase()), String(value)]);

/** The answer, or an exception where it is a refusal. */
function told(program, options, source, text) {
  const {code, bytes} = call(program, wordsOf(options), source);
  if (code === OUT_OF_MEMORY) throw new OutOfMemory();
  if (code === 1 || code === 2) {
    const isExplained = text !== undefined && code === 2;
    throw new Refused(textOf(bytes).trim(), isExplained ? textOf(call('explain', ['TEXT'], text, bytes).bytes).trim() : '');
  }
  return {code, bytes};
}
const answerOf = (program, options, source, text) => textOf(told(program, options, source, text).bytes);

// ---------------------------------------------------------------- answers

/** How a task ended: `phase`, `core`, `end` (finished, trap, fuel, waits or holds), `retired`, and for a trap `kind`, `pc` and `value`. */
export class Task {
  constructor(words) {
    const behind = name => words.includes(name) ? words[words.indexOf(name) + 1] : null;
    const asNumber = text => text === null ? null : Number(text);
    [this.phase, this.core, this.end] = [Number(words[1]), Number(words[2]), words[3]];
    this.retired = asNumber(behind('retired'));
    this.kind = this.end === 'trap' ? words[4] : null;
    this.pc = asNumber(behind('pc'));
    this.value = asNumber(behind('value'));
  }
}

/** The answer of a run: `outcome`, `tasks`, `grants` ([phase, core, lock]), `counts` by their names, and the final words. `lines` has all lines. */
export class Answer {
  constructor(text, answer) {
    this.text = text;
    this.lines = answer.split('\n').slice(0, -1);
    [this.outcome, this.tasks, this.grants, this.counts, this.words, this.size] = [null, [], [], {}, new Map(), 0];
    for (const line of this.lines) this.#take(line.split(' '));
  }

  #take(words) {
    switch (words[0]) {
      case 'outcome': this.outcome = words[1]; break;
      case 'task': this.tasks.push(new Task(words)); break;
      case 'words': this.size = Number(words[1]); break;
      case 'word': this.words.set(Number(words[1]), Number(words[2])); break;
      case 'grant': this.grants.push(words.slice(1, 4).map(Number)); break;
      case 'count': this.counts[words[1]] = Number(words[2]); break;
    }
  }

  /** The final value of a data word, from 0. */
  word(index) {
    if (!(index >= 0 && index < this.size)) throw new RangeError(`there is no word ${index}`);
    return this.words.get(DATA + 4 * index) ?? 0;
  }

  /** The final words of a region. */
  region(name) { return wordsOfRegion(this, this.text, name); }

  /** The answer with what is said of its lines. */
  explained() { return explain(this.text, this.lines.join('\n') + '\n'); }
}

/** What every run of a text has in common. Where it isn't `settled`, `open` says why: its kind is control, held or stuck. */
export class Outcomes extends Answer {
  constructor(text, answer) {
    super(text, answer);
    this.varies = this.lines.filter(line => line.startsWith('varies ')).map(line => Number(line.split(' ')[1]));
    this.open = whyOpen(this.lines[0].split(' '));
    this.settled = this.open === null;
  }

  /** The final value of a data word in every run, or null if it may vary. */
  word(index) {
    const value = super.word(index);
    return this.varies.includes(DATA + 4 * index) ? null : value;
  }

  explained() { throw new TypeError('explain takes the answer of a run'); }
}

/** Why the answer is open, by the words of its line; null if it is settled. */
function whyOpen([first, kind, phase, one, other]) {
  if (first !== 'open') return null;
  const open = {kind, phase: Number(phase), core: null, lock: null, pc: null};
  if (kind === 'stuck') return {...open, lock: Number(one)};
  return kind === 'control' ? {...open, core: Number(one), pc: Number(other)} : {...open, core: Number(one), lock: Number(other)};
}

function wordsOfRegion(source, text, name) {
  const region = regionsOf(text).get(name);
  if (!region) throw new RangeError(`there is no region ${name}`);
  return Array.from({length: region.count}, (_, at) => source.word(region.first + at));
}

/** The regions that a text declares, as the assembler reads it: by names the first word and the number of words. */
export function regionsOf(text) {
  const found = new Map();
  let first = 0;
  for (const [, name, count] of listing(text).matchAll(/^\.region ([^ ,]+), ([0-9]+)$/gm)) {
    found.set(name, {first, count: Number(count)});
    first += Number(count);
  }
  return found;
}

// ---------------------------------------------------------------- the programs

/** Runs a text. Options: seed, fuel, banks, sets, ways, and mode: 'flat' for one thread on one memory. */
export const run = (text, options = {}) => new Answer(text, answerOf('denovo', options, text, text));
/** The line of the mode check; `Refused` if the text has a fault or a conflict. */
export const check = text => answerOf('denovo', {mode: 'check'}, text, text).trim();
/** What every run of a text has in common, for every order in which the tasks get their locks. */
export const outcomes = (text, options = {}) => new Outcomes(text, answerOf('outcomes', options, text, text));
/** What `sweep` prints of the runs of a text by many seeds. Options: seeds, form, retired, banks, sets, ways, fuel. */
export const sweep = (text, options = {}) => answerOf('sweep', options, text, text);
/** The lines of the mode prove. */
export const prove = text => answerOf('denovo', {mode: 'prove'}, text, text);
/** The text's program in base mnemonics. */
export const listing = text => answerOf('denovo', {mode: 'list'}, text, text);
/** The document of a run, as bytes. */
export const trace = (text, options = {}) => told('denovo', {mode: 'trace', ...options}, text, text).bytes;
/** What a document's run answers, as text. */
export const replay = document => answerOf('denovo', {mode: 'replay'}, document);
/** The events of a document, in order, as its lines name them. */
export const events = document => textOf(document).split(/\nevents .*\n/).pop().split('\n').slice(0, -1);

const isDocument = source => textOf(bytesOf(source).slice(0, 12)) === 'denovo-trace';
/** What `view` shows of a document, or of the run of a text with these options. */
const viewed = (mode, source, shown, options) =>
  answerOf('view', {mode, ...shown}, isDocument(checkedText(source)) ? source : trace(source, options));

function numbers(mode, source, by, options) {
  const rows = viewed(mode, source, {by, form: 'csv'}, options).trim().split('\n').slice(1).map(row => row.split(',')), found = {};
  for (const [measure, ...rest] of rows) {
    const count = Number(rest.pop());
    if (by === 'run') found[measure] = count;
    else (found[measure] ??= {})[rest.join(',')] = count;
  }
  return found;
}
/** What a run cost and why: numbers by measure, and by group where `by` (phase, core or region) isn't 'run'. */
export const account = (source, by = 'run', options = {}) => numbers('account', source, by, options);
/** What the run's loads and stores would cost with lists of sharers, beside what they cost here. */
export const lists = (source, by = 'run', options = {}) => numbers('lists', source, by, options);
/** The data of a run, event by event, as docs/PAGE_DATA.md has them. */
export const data = (source, {first, rows, ...options} = {}) => JSON.parse(viewed('data', source, {first, rows}, options));
/** The state before an event, as text. */
export const state = (source, event = 0, options = {}) => viewed('state', source, {event}, options);
/** The message chart of a run, as SVG. */
export const chart = (source, {first, rows, columns, ...options} = {}) => viewed('chart', source, {first, rows, columns}, options);
/** The page that steps through a run, as HTML; outside of Node `template` is tools/page.html. */
export function page(source, {first, rows, template, ...options} = {}) {
  return pageOf(viewed('page', source, {first, rows}, options), template ?? readBeside('page.html', '../share/page.html', '../tools/page.html'));
}
const pageOf = (run, template) => template.replace('@@RUN@@', () => run);

/** What the referee says of a claim: whether it agrees, and the lines. */
export function referee(claim, mode = 'judge') {
  const {code, bytes} = told('referee', {mode}, claim);
  return {agrees: code === 0, text: textOf(bytes)};
}

/** An answer with what is said of its lines. */
export function explain(text, answer) {
  const {code, bytes} = call('explain', ['TEXT'], text, answer);
  if (code === OUT_OF_MEMORY) throw new OutOfMemory();
  if (code === 2) throw new Refused(textOf(bytes).trim());
  return textOf(bytes);
}

// ---------------------------------------------------------------- a machine that is stepped

/** A machine that runs a text. Its events are lines of a trace: 'i 0' is an instruction of core 0. */
export class Stepper {
  #machine;

  constructor(text, {events: first = [], banks = 4, sets = 64, ways = 4, fuel = 32768} = {}) {
    [this.text, this.sizes, this.events] = [checkedText(text), {banks, sets, ways, fuel}, []];
    this.#machine = loaded().machine();
    this.#open(first);
  }

  #open(first) {
    const code = this.#machine.open(this.text, this.sizes);
    if (code === 2) check(this.text);
    if (code === 1) throw new Refused('refused usage');
    held(code);
    this.events = [];
    for (const event of first) this.step(event);
  }

  /** The enabled events: of each core its instruction, its evictions and its arrival, then the handling of each message. */
  get enabled() {
    const {code, lines} = this.#machine.enabled();
    held(code);
    return lines;
  }

  /** Makes an enabled event; the error of another one says why it isn't enabled. */
  step(event) {
    const code = this.#machine.step(event);
    if (code === 3) throw new RangeError(this.whyNot(event));
    held(code);
    this.events.push(event);
  }

  /** Takes the last events back; it makes the others again. */
  undo(count = 1) {
    if (!(count >= 0 && count <= this.events.length)) throw new RangeError(`there aren't ${count} events`);
    this.#open(this.events.slice(0, this.events.length - count));
  }

  /** The present value of a data word. */
  word(index) { return this.#machine.word(index); }
  /** The present words of a region. */
  region(name) { return wordsOfRegion(this, this.text, name); }
  /** The trace of the events so far. */
  get trace() { return traceOf(this.text, this.sizes, this.events); }
  /** The present state, as text. */
  get state() { return state(this.trace, this.events.length); }

  /** Why an event isn't enabled; null if it is. */
  whyNot(event) {
    if (!eventOf(event)) throw new RangeError(`${JSON.stringify(event)} is no event`);
    const [, reason] = state(traceOf(this.text, this.sizes, [...this.events, event]), this.events.length).split('\n');
    return reason === 'may come' ? null : reason.replace(/^may not come: /, '');
  }

  /** The answer of the run, once no event is enabled. */
  answer() { return new Answer(this.text, replay(this.trace)); }

  /** Gives the machine's memory back. */
  close() { this.#machine.close(); }
}

/** Refuses a result that isn't 0. */
function held(code) {
  if (code === OUT_OF_MEMORY) throw new OutOfMemory();
  if (code !== 0) throw new RangeError(`the call ended with ${code}`);
}

/** The trace of a walk of these events. */
export function traceOf(text, {banks, sets, ways, fuel}, walked) {
  const source = bytesOf(text), lines = walked.map(event => event + '\n').join('');
  const head = bytesOf(`denovo-trace 1\nbanks ${banks} sets ${sets} ways ${ways} fuel ${fuel}\nsource ${source.length}\n`);
  const rest = bytesOf(`\nevents ${walked.length}\n${lines}`), whole = new Uint8Array(head.length + source.length + rest.length);
  whole.set(head);
  whole.set(source, head.length);
  whole.set(rest, head.length + source.length);
  return whole;
}

// ---------------------------------------------------------------- the command

/** The text of the first of these files beside this one that is there; the empty text where none is. */
function readBeside(...names) {
  const place = names.map(name => addresses.fileURLToPath(new URL(name, import.meta.url))).find(it => files.existsSync(it));
  if (!place) throw new Error(`there is no ${names[0]}`);
  return files.readFileSync(place, 'utf8');
}

/** The bytes of a file, or of standard input; null where it can't be read. */
function readBytes(place) {
  try {
    return files.readFileSync(place);
  } catch (fault) {
    return fault.code === 'EOF' ? new Uint8Array(0) : null;
  }
}

/** Writes all bytes to standard output, and says whether that could be done. */
function writeBytes(bytes) {
  try {
    for (let at = 0; at < bytes.length;) {
      try {
        at += files.writeSync(1, bytes, at);
      } catch (fault) {
        if (fault.code !== 'EAGAIN') throw fault;
      }
    }
    return true;
  } catch {
    return false;
  }
}

const asksForPage = words => words.some((word, at) => word === '--mode=page' || word === 'page' && words[at - 1] === '--mode');
const readsNothing = words => words.some((word, at) => word === '--mode=work' || word === 'work' && words[at - 1] === '--mode');

/** What a program says to words and to what it reads; the text of explain is a file. */
function answered(program, words) {
  const unread = {code: 6, bytes: new Uint8Array(0)}, mode = program === 'denovo' && readsNothing(words);
  const input = mode ? new Uint8Array(0) : readBytes(0);
  if (input === null) return unread;
  if (program !== 'explain') return call(program, words, input);
  const names = words.filter((word, at) => word !== '--' || words.indexOf('--') !== at);
  const probe = names.length === 1 ? readBytes(names[0]) : new Uint8Array(0);
  return probe === null ? unread : call('explain', words, probe, input);
}

/** Runs a program as its launcher does: standard input and output, help for refused words, and its exit code. */
export function command(program, words) {
  const say = text => process.stderr.write(`${program}: ${text}\n`);
  let {code, bytes} = answered(program, words);
  if (program === 'view' && code === 0 && asksForPage(words)) bytes = bytesOf(pageOf(textOf(bytes), readBeside('page.html', '../share/page.html', '../tools/page.html')));
  if (!writeBytes(bytes)) code = 7;
  if (code === 1) process.stderr.write(readBeside(`../share/help/${program}.txt`, `../tools/help/${program}.txt`));
  if (program === 'denovo' && code >= 2 && code <= 5) say(`to see where in the text, and what would be right:  node denovo.mjs denovo ${words.join(' ')} < TEXT | node denovo.mjs explain TEXT`);
  if (code === 6) say('an input can’t be read');
  if (code === 7) say('standard output failed');
  if (code === OUT_OF_MEMORY) say('out of memory');
  return code;
}

function main([program, ...words]) {
  if (Object.hasOwn(SOURCES, program ?? '')) return command(program, words);
  process.stderr.write(`usage: node denovo.mjs PROGRAM [OPTIONS] < INPUT\nThe programs are ${Object.keys(SOURCES).join(', ')}.\n`);
  return 1;
}
if (isNode && process.argv[1] && files.existsSync(process.argv[1]) && files.realpathSync(process.argv[1]) === addresses.fileURLToPath(import.meta.url)) {
  process.exitCode = main(process.argv.slice(2));
}
