// An exercise: a text with lines that are locked, a task in words, and goals that the machine checks.
import {textOf} from '../javascript/machine.mjs';
import {element, withCode} from './editor.js';

const GOALS = [
  [/^at the end of each run (\S+) is (-?\d+|0x[0-9a-fA-F]+)$/, (found, at) => wordGoal(at, found[1], Number(found[2]))],
  [/^no run is stuck$/, (_, at) => outcomeGoal(at, outcome => outcome !== 'stuck')],
  [/^each run is (done|trapped|fuel|stuck)$/, (found, at) => outcomeGoal(at, outcome => outcome === found[1])],
  [/^every run ends alike$/, async (_, at) => verdict(await at.outcomes(), 'the order of grants may decide more')],
  [/^(at most|at least|exactly) (\d+) ([a-z-]+)$/, (found, at) => measureGoal(at, found[1], Number(found[2]), found[3])],
];

/** What goals may be, in words. */
export const FORMS = ['at the end of each run NAME[0] is 3', 'no run is stuck', 'each run is done', 'every run ends alike', 'at most 4 misses (a line of the account)'];
export const isGoal = line => GOALS.some(([form]) => form.test(line));

const verdict = ({code, text}, why) => code === 0 ? {reached: true} : {reached: false, why: code === 3 ? why : text.split('\n')[0]};

/* The index of a word, as name[index], in the listing's regions; -1 where there is none. */
function wordIndex(listing, name) {
  const asked = /^(.+)\[(\d+)\]$/.exec(name) ?? [null, name, '0'];
  let first = 0;
  for (const [, region, count] of listing.matchAll(/^\.region ([^ ,]+), ([0-9]+)$/gm)) {
    if (region === asked[1]) return Number(asked[2]) < Number(count) ? first + Number(asked[2]) : -1;
    first += Number(count);
  }
  return -1;
}

async function wordGoal(at, name, wanted) {
  const outcomes = await at.outcomes(), word = wordIndex(await at.listing(), name), address = '0x' + (0x10000000 + 4 * word).toString(16);
  if (outcomes.code !== 0) return verdict(outcomes, 'the order of grants may decide how runs go on');
  if (word < 0) return {reached: false, why: `there is no word ${name}`};
  if (outcomes.text.includes(`varies ${address}\n`)) return {reached: false, why: 'the order of grants may decide it'};
  const value = Number(new RegExp(`^word ${address} (\\S+)$`, 'm').exec(outcomes.text)?.[1] ?? 0);
  return value === (wanted >>> 0) ? {reached: true} : {reached: false, why: `it is ${value}`};
}

async function outcomeGoal(at, test) {
  const outcomes = await at.outcomes(), outcome = /^outcome (\w+)$/m.exec(outcomes.text)?.[1];
  if (outcomes.code !== 0) return verdict(outcomes, /^open stuck/.test(outcomes.text) ? 'runs may be stuck' : 'the order of grants may decide how runs go on');
  return test(outcome) ? {reached: true} : {reached: false, why: `each run is ${outcome}`};
}

async function measureGoal(at, bound, wanted, measure) {
  const rows = await at.account(), found = new RegExp(`^${measure},run,(\\d+)$`, 'm').exec(rows);
  if (!found) return {reached: false, why: rows ? `the account has no line ${measure}` : 'there is no run'};
  const count = Number(found[1]), holds = {'at most': count <= wanted, 'at least': count >= wanted, exactly: count === wanted}[bound];
  return holds ? {reached: true} : {reached: false, why: `this run has ${count}`};
}

/** Whether a goal is reached by a text with these settings. */
export async function checkedGoal(goal, at) {
  for (const [form, check] of GOALS) {
    const found = form.exec(goal);
    if (found) return check(found, at);
  }
  return {reached: false, why: 'this is no goal that the machine can check'};
}

/** What the machine says of a text, each asked once. */
export function asked(engine, text, settings) {
  const once = make => {
    let made = null;
    return () => made ??= make();
  };
  const {seed, ...sizes} = settings;
  const told = async (program, words, source) => {
    const {code, bytes} = await engine.call(program, words, source);
    return {code, text: textOf(bytes), bytes};
  };
  return {
    outcomes: once(() => told('outcomes', ['--fuel', String(sizes.fuel)], text)),
    listing: once(async () => (await told('denovo', ['--mode', 'list'], text)).text),
    account: once(async () => {
      const words = Object.entries(settings).flatMap(([name, value]) => [`--${name}`, String(value)]), trace = await told('denovo', ['--mode', 'trace', ...words], text);
      return trace.text.startsWith('denovo-trace') ? (await told('view', ['--mode', 'account', '--form', 'csv'], trace.bytes)).text : '';
    }),
  };
}

/** The panel of an exercise, with what is known of each goal. */
export function exercisePanel({title, task, goals}, results, {check, close}) {
  const mark = result => result === undefined ? '○' : result.reached ? '✓' : '✗';
  const rows = goals.map((goal, at) => element('li', {class: results[at] ? (results[at].reached ? 'reached' : 'open') : ''},
    `${mark(results[at])} ${goal}`, results[at] && !results[at].reached ? element('small', {}, ` – ${results[at].why}`) : null));
  return [element('h2', {}, title || 'Exercise', element('button', {type: 'button', class: 'close', 'aria-label': 'Close the exercise', onclick: close}, '×')),
    ...task.split('\n\n').filter(Boolean).map(part => element('p', {}, withCode(part))), element('ul', {class: 'goals'}, rows),
    goals.length ? element('button', {type: 'button', id: 'checkGoals', onclick: check}, 'Check the goals') : null].filter(Boolean);
}

/** Lines as they are written in a field, `1-4, 9`, as pairs. */
export function linesIn(field) {
  return field.split(',').map(part => /^\s*(\d+)\s*(?:-\s*(\d+)\s*)?$/.exec(part)).filter(Boolean).map(found => [Number(found[1]), Number(found[2] ?? found[1])]);
}
