/** denovo from JavaScript: the types of denovo.mjs. */

/** A text, a document, a claim or an answer. */
export type Source = string | Uint8Array;
export type Program = 'denovo' | 'view' | 'outcomes' | 'referee' | 'sweep' | 'explain';
export type OutcomeName = 'done' | 'trapped' | 'fuel' | 'stuck';
export type Group = 'run' | 'phase' | 'core' | 'region';

/** The shape of the machine, and how many instructions a task may retire. */
export interface Sizes {
  /** 1 to 16 (4) */
  banks?: number;
  /** 1 to 256 (64) */
  sets?: number;
  /** 1 to 16 (4) */
  ways?: number;
  /** 1 to 32768 (32768) */
  fuel?: number;
}

/** Options of a run; `mode: 'flat'` is one thread on one memory. */
export interface RunOptions extends Sizes {
  /** 0 to 4294967295 (1) */
  seed?: number;
  mode?: string;
  order?: 'seed' | 'time';
  tickCore?: number;
  tickBank?: number;
  tickMail?: number;
}

/** The words, the text, the document or the claim are refused. The message is the explained refusal. */
export class Refused extends Error {
  readonly line: string;
}

/** There was no memory for the answer. */
export class OutOfMemory extends Error {}

/** How a task ended. */
export class Task {
  readonly phase: number;
  readonly core: number;
  readonly end: 'finished' | 'trap' | 'fuel' | 'waits' | 'holds';
  readonly retired: number | null;
  /** of a trap */
  readonly kind: string | null;
  readonly pc: number | null;
  readonly value: number | null;
}

/** The answer of a run. */
export class Answer {
  readonly text: Source;
  readonly lines: string[];
  readonly outcome: OutcomeName | null;
  readonly tasks: Task[];
  /** phase, core and lock of each grant, in order */
  readonly grants: [number, number, number][];
  readonly counts: Record<string, number>;
  /** the final words that aren't 0, by address */
  readonly words: Map<number, number>;
  /** how many data words there are */
  readonly size: number;
  /** The final value of a data word, from 0. */
  word(index: number): number | null;
  /** The final words of a region. */
  region(name: string): (number | null)[];
  explained(): string;
}

/** Why the answer for all runs is open. */
export interface Open {
  kind: 'control' | 'held' | 'stuck';
  phase: number;
  core: number | null;
  lock: number | null;
  pc: number | null;
}

/** What every run of a text has in common; a word that the order of grants may decide is null. */
export class Outcomes extends Answer {
  readonly settled: boolean;
  readonly open: Open | null;
  /** addresses of words that may vary */
  readonly varies: number[];
}

/** A machine that is stepped. Its events are lines of a trace: 'i 0' is an instruction of core 0. It belongs to the thread that made it. */
export class Stepper {
  constructor(text: Source, options?: Sizes & {events?: string[]});
  readonly text: Source;
  readonly sizes: Required<Sizes>;
  readonly events: string[];
  readonly enabled: string[];
  readonly trace: Uint8Array;
  readonly state: string;
  /** Makes an enabled event; a RangeError says why another one isn't enabled. */
  step(event: string): void;
  undo(count?: number): void;
  word(index: number): number;
  region(name: string): number[];
  whyNot(event: string): string | null;
  answer(): Answer;
  close(): void;
}

/** Takes the module's bytes, or a compiled module. Node needs it only for another module than the one beside this file. */
export function load(source: BufferSource | WebAssembly.Module): Promise<void>;
/** A call as it is. */
export function call(program: Program, words: string[], ...sources: Source[]): {code: number; bytes: Uint8Array};
export function run(text: Source, options?: RunOptions): Answer;
export function check(text: Source): string;
export function outcomes(text: Source, options?: {fuel?: number}): Outcomes;
export function sweep(text: Source, options?: Sizes & {seeds?: string; form?: 'summary' | 'answers' | 'csv'; retired?: 'on' | 'off'}): string;
export function prove(text: Source): string;
export function listing(text: Source): string;
export function trace(text: Source, options?: RunOptions): Uint8Array;
export function replay(document: Source): string;
export function events(document: Source): string[];
export function regionsOf(text: Source): Map<string, {first: number; count: number}>;
/** Numbers by measure, and by group where `by` isn't 'run'. */
export function account(source: Source, by?: Group, options?: RunOptions): Record<string, number | Record<string, number>>;
export function lists(source: Source, by?: Group, options?: RunOptions): Record<string, number | Record<string, number>>;
/** The data of a run, as docs/PAGE_DATA.md has them. */
export function data(source: Source, options?: RunOptions & {first?: number; rows?: number}): unknown;
export function state(source: Source, event?: number, options?: RunOptions): string;
export function chart(source: Source, options?: RunOptions & {first?: number; rows?: number; columns?: 'all' | 'used'}): string;
export function page(source: Source, options?: RunOptions & {first?: number; rows?: number; template?: string}): string;
export function referee(claim: Source, mode?: 'judge' | 'diagnose' | 'settled' | 'answer' | 'least'): {agrees: boolean; text: string};
export function explain(text: Source, answer: Source): string;
/** The trace of a walk of these events. */
export function traceOf(text: Source, sizes: Required<Sizes>, walked: string[]): Uint8Array;
/** Runs a program on standard input, as its launcher does; gives its exit code. In Node alone. */
export function command(program: Program, words: string[]): number;
