// The text of a state (docs/VIEWS.md, "The state") as parts, and what follows from it of copies and owners.

const CORE = /^core (\d+) (.*)$/;
const WORD = '(.*) \\(word (\\d+)\\)';
const ENTRY = new RegExp(`^entry ${WORD}: (valid|registered|leaving) (0x[0-9a-f]{8})(, pending|, marked)?$`);
const HOME = new RegExp(`^home ${WORD}: (?:registrant core (\\d+)|value (0x[0-9a-f]{8}))$`);
const LOCK = /^lock (.*) \(lock (\d+)\): (.*)$/;
// the letters of docs/VIEWS.md
const KINDS = {valid: 'V', 'valid, marked': 'T', 'registered, pending': 'P', registered: 'R', leaving: 'L'};
const MAIL = /^mail (c \d+|b \d+|k) (\d+) to (core \d+|bank \d+|keeper): (.*)$/;

/** The parts of a state: cores, words in use, locks, messages in flight and the controller. `firstValues` has [word, value] of each first value
    that isn't 0. */
export function stateOf(text, firstValues = []) {
  const state = {cores: [], words: new Map(), locks: [], mails: [], barrier: [], first: new Map(firstValues)};
  for (const line of text.split('\n')) TAKEN[line.slice(0, line.indexOf(' '))]?.(state, line);
  return state;
}

// what each kind of line says, by its first word
const TAKEN = {
  core(state, line) {
    const core = CORE.exec(line);
    takeCore(state, Number(core[1]), core[2]);
  },
  home(state, line) {
    const home = HOME.exec(line);
    if (home) Object.assign(wordIn(state, home[1], home[2]), home[3] === undefined ? {home: Number(home[4])} : {owner: Number(home[3])});
  },
  lock(state, line) {
    const lock = LOCK.exec(line);
    if (lock) takeLock(state, lock[1], Number(lock[2]), lock[3]);
  },
  mail(state, line) {
    const mail = MAIL.exec(line), more = /^mail .*?: (may hold .*)$/.exec(line);
    if (mail) state.mails.push({event: `h ${mail[1]} ${mail[2]}`, from: senderName(mail[1]), to: mail[3], message: mail[4], notes: []});
    else if (more && state.mails.length) state.mails[state.mails.length - 1].notes.push(more[1]);
  },
  keeper(state, line) { state.barrier.push(line.slice('keeper '.length)); },
};
const senderName = id => id === 'k' ? 'keeper' : id.replace('c ', 'core ').replace('b ', 'bank ');

function wordIn(state, name, number) {
  const index = Number(number);
  if (!state.words.has(index)) state.words.set(index, {index, name, home: null, owner: null, entries: new Map()});
  return state.words.get(index);
}

function takeCore(state, number, said) {
  const core = state.cores[number] ??= {number, phase: null, line: null, next: '', stands: []};
  if (said.startsWith('entry ')) {
    const entry = ENTRY.exec(said);
    if (entry) wordIn(state, entry[1], entry[2]).entries.set(number, {kind: KINDS[entry[3] + (entry[5] ?? '')], value: Number(entry[4])});
  } else if (said.startsWith('at ')) {
    const at = /^at (0x[0-9a-f]+)(?:, line (\d+)(?: \(second word\))?: (.*))?$/.exec(said);
    if (at) [core.line, core.next] = [at[2] ? Number(at[2]) : null, at[3] ?? at[1]];
  } else if (said.startsWith('phase ')) {
    core.phase = Number(said.slice('phase '.length));
  } else {
    core.stands.push(said);
  }
}

function takeLock(state, name, number, said) {
  const lock = state.locks[number] ??= {number, name, said: []};
  lock.said.push(said);
}

/** What is so of a word in a state: its present value, its home's, its owner, whether a store of it is pending, and who has copies, stale ones
    apart. Its value is that of the pending entry, or else of the owner's entry, or else the home's, which is the first value where none is named. */
export function standing(state, word) {
  const home = word.owner === null ? word.home ?? state.first.get(word.index) ?? 0 : null, entries = [...word.entries];
  const pending = entries.find(([, {kind}]) => kind === 'P'), value = pending?.[1].value ?? word.entries.get(word.owner)?.value ?? home ?? 0;
  const cores = test => entries.filter(([, entry]) => test(entry)).map(([core]) => core), isCopy = ({kind}) => kind === 'V' || kind === 'T';
  return {value, home, owner: word.owner, pending: cores(({kind}) => kind === 'P'), leaving: cores(({kind}) => kind === 'L'),
    copies: cores(entry => isCopy(entry) && entry.value === value), stale: cores(entry => isCopy(entry) && entry.value !== value)};
}

/* Whether something is going on with a word: a store that is pending, an entry that leaves, or a stale copy. */
function isBusy(state, word) {
  let pending = null, owned = null, isLeaving = false;
  for (const [core, {kind, value}] of word.entries) {
    if (kind === 'P') pending = value;
    if (kind === 'L') isLeaving = true;
    if (core === word.owner) owned = value;
  }
  if (pending !== null || isLeaving) return true;
  const value = owned ?? word.home ?? state.first.get(word.index) ?? 0;
  for (const {kind, value: held} of word.entries.values()) if ((kind === 'V' || kind === 'T') && held !== value) return true;
  return false;
}

/** The words that are shown, in their order: all in use, or where these are more than `most`, first of all those that something is going on with:
    a message about them, a core that waits for them, or what `isBusy` says. Each has what is so of it. */
export function wordsShown(state, most) {
  const told = [...state.mails.map(({message}) => message), ...state.cores.flatMap(({stands}) => stands)].join('\n');
  const near = new Set([...told.matchAll(/\(word (\d+)\)/g)].map(found => Number(found[1])));
  const all = [...state.words.values()].sort((one, other) => one.index - other.index), first = all.filter(word => near.has(word.index) || isBusy(state, word)).slice(0, most);
  const chosen = all.length <= most ? all : [...new Set([...first, ...all])].slice(0, most).sort((one, other) => one.index - other.index);
  return chosen.map(word => ({word, stands: standing(state, word)}));
}
