// What `explain` says of an answer, cut into blocks: the line of the answer, the lines of the text that it names, its sentences, and the fixes
// that can be made by a button.

/** The blocks of an explained answer that say something. */
export function blocksOf(explained) {
  const blocks = [];
  for (const line of explained.split('\n')) {
    if (line.startsWith('  ') && blocks.length) blocks[blocks.length - 1].said.push(line.slice(2));
    else if (line) blocks.push({head: line, said: []});
  }
  return blocks.filter(block => block.said.length).map(block => ({...block, ...partsOf(block.said)}));
}

/** Whether a block of an answer says what went wrong. */
export const isFault = ({head}) => head.startsWith('refused ') || /^task \d+ \d+ (trap|fuel|waits|holds) /.test(head) || head.startsWith('open ');

/* The lines that are quoted, with the marked part of each, and the sentences. */
function partsOf(said) {
  const places = [], sentences = [];
  for (const line of said) {
    const quoted = /^(\d+) \| (.*)$/.exec(line), mark = /^ *\| ( *)(\^+)$/.exec(line), last = places[places.length - 1];
    if (quoted) places.push({line: Number(quoted[1]), from: null, to: null});
    else if (mark && last) [last.from, last.to] = [mark[1].length, mark[1].length + mark[2].length];
    else sentences.push(line);
  }
  return {places, sentences};
}

/** How far two names are from each other: how many letters are put in, left out or changed. */
function distance(one, other) {
  let row = Array.from({length: other.length + 1}, (_, at) => at);
  for (let at = 1; at <= one.length; at++) {
    const next = [at];
    for (let to = 1; to <= other.length; to++) {
      next.push(Math.min(row[to] + 1, next[to - 1] + 1, row[to - 1] + (one[at - 1] === other[to - 1] ? 0 : 1)));
    }
    row = next;
  }
  return row[other.length];
}

const insertion = (label, before, lines) => ({label, edit: {kind: 'insert', before, lines}});
const replacement = (label, {line, from, to}, by) => ({label, edit: {kind: 'replace', line, from, to, by}});
const removal = line => ({label: `Leave line ${line} out`, edit: {kind: 'remove', line}});

/* The line of the task that a block is about, and the place that it marks or quotes last. */
const taskLine = text => Number(/which line (\d+) declares/.exec(text)?.[1] ?? 0);

const RULES = [
  [/Declare it behind the task's line by `([^`]+)`/, (found, {text}) => {
    const line = taskLine(text);
    return line ? [insertion(`Add ${found[1]} behind line ${line}`, line + 1, [found[1]])] : [];
  }],
  [/[Ww]rite `\.phase` before it/, (_, {place}) => place ? [insertion(`Write .phase before line ${place.line}`, place.line, ['.phase'])] : []],
  [/Acquire the lock first, by `(li a0, \d+)`, `li a7, 1` and `ecall`/, (found, {place}) =>
    place ? [insertion(`Acquire it before line ${place.line}`, place.line, [` ${found[1]}`, ' li a7, 1', ' ecall'])] : []],
  [/Release it first, by `li a7, 2` and `ecall`/, (_, {place, text}) => {
    const lock = /\(lock (\d+)\)/.exec(text);
    return place && lock
      ? [insertion(`Release it before line ${place.line}`, place.line, [` li a0, ${lock[1]}`, ' li a7, 2', ' ecall', ' li a7, 0'])] : [];
  }],
  [/[Ee]nd the task by `li a7, 0` and `ecall`/, (_, {place, text}) => {
    if (/ended where there is no code/.test(text)) return [insertion('End the task at the end of the text', Infinity, [' li a7, 0', ' ecall'])];
    return place ? [insertion(`End the task before line ${place.line}`, place.line, [' li a7, 0', ' ecall'])] : [];
  }],
  [/^Leave the byte out/m, (_, {place}) => place?.from !== null && place ? [replacement('Leave it out', place, '')] : []],
  [/^Leave the line out/m, (_, {place}) => place ? [removal(place.line)] : []],
  [/^Leave it out, or end the task/m, (_, {place}) => place ? [removal(place.line)] : []],
  [/^Declared as such: (.*)$/m, (found, {place, text}) => {
    const wrong = /^`([^`]+)` is wanted as/m.exec(text)?.[1];
    if (!wrong || !place || place.from === null) return [];
    const near = [...found[1].matchAll(/`([^`]+)`/g)].map(([, name]) => name)
      .map(name => ({name, far: distance(name.toLowerCase(), wrong.toLowerCase())})).filter(({far, name}) => far <= Math.max(2, name.length / 2));
    return near.sort((one, other) => one.far - other.far).slice(0, 3).map(({name}) => replacement(`Write ${name}`, place, name));
  }],
  [/the option `--fuel` gives it more/, () => [{label: 'Run with the fuel 32768', edit: {kind: 'fuel', fuel: 32768}}]],
];

/** The fixes of a block that can be made by a button. */
export function fixesOf({places, sentences}) {
  const text = sentences.join('\n'), place = places[places.length - 1] ?? null;
  return RULES.flatMap(([form, make]) => {
    const found = form.exec(text);
    return found ? make(found, {text, place}) : [];
  });
}

/** A text with an edit made in it; lines are numbered from 1. */
export function edited(text, edit) {
  const lines = text.split('\n');
  switch (edit.kind) {
    case 'insert': {
      const end = text.endsWith('\n') ? lines.length - 1 : lines.length;
      lines.splice(Math.min(edit.before - 1, end), 0, ...edit.lines);
      break;
    }
    case 'replace': {
      const line = lines[edit.line - 1];
      lines[edit.line - 1] = line.slice(0, edit.from) + edit.by + line.slice(edit.to);
      break;
    }
    case 'remove': lines.splice(edit.line - 1, 1); break;
  }
  return lines.join('\n');
}
