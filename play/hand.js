// By hand: a machine that the reader steps. What may come is shown where it is: an instruction and an arrival at their core, an eviction at its
// entry, a message on its way. What may not come says why.
import {element} from './editor.js';

const LETTERS = {V: 'valid', T: 'valid and touched', P: 'registered, pending', R: 'registered', L: 'leaving'};
const SLICE = 500, MOST_MAILS = 200, EAGER = 3000;
const coresOf = numbers => numbers.map(core => `core ${core}`).join(', ');

export class Hand {
  #engine;
  #panel;
  #shown = null;
  #parts = null;
  #lines = [];
  #busy = false;
  #halt = false;

  constructor(engine, {message, running, showCores, finish}) {
    this.#engine = engine;
    this.message = message;
    this.running = running;
    this.showCores = showCores;
    this.finish = finish;
  }

  get isOpen() { return this.#shown !== null; }
  get isOver() { return this.isOpen && !this.#shown.enabled.length; }
  get made() { return this.#shown?.made ?? 0; }
  get enabled() { return this.#shown?.enabled ?? []; }
  get events() { return this.#shown?.tail ?? []; }

  /** Opens the machine of a text, with these events made. */
  async open(text, settings, events = []) {
    const {seed, ...sizes} = settings;
    this.#shown = null;
    this.#lines = text.split('\n');
    const shown = await this.#engine.ask('open', {text, sizes, seed, events});
    if (shown.code === 0) this.#shown = shown;
    return shown.code;
  }

  /** Shows the machine in a panel. */
  showIn(panel) {
    this.#panel = panel;
    this.#parts = null;
    if (this.isOpen) this.#show();
  }

  /** Stops what goes on by chance. */
  stop() { this.#halt = true; }
  close() {
    this.#shown = null;
    this.#panel = null;
    this.showCores([]);
  }

  async step(event) { return this.#take('step', {event}); }
  async back(count) { return this.#take('back', {count: Math.max(0, Math.min(count, this.made))}); }

  /** Goes on by chance, in slices, so that it can be stopped and seen. */
  async chance(count, how = {}) {
    this.#halt = false;
    this.running(true);
    try {
      for (let left = count; left > 0 && !this.#halt; left -= SLICE) {
        const before = this.made, wanted = Math.min(SLICE, left);
        if (!await this.#take('chance', {count: wanted, how}) || this.made - before < wanted) break;
        this.message(`${this.made} events`);
      }
    } finally {
      this.running(false);
    }
  }

  async trace() { return (await this.#engine.ask('trace')).bytes; }

  async #take(request, given) {
    if (this.#busy || !this.isOpen) return false;
    this.#busy = true;
    try {
      const shown = await this.#engine.ask(request, given);
      if (shown.code !== 0) {
        this.message({3: 'that event isn’t enabled', 8: 'there is no memory'}[shown.code] ?? `the call ended with ${shown.code}`);
        return false;
      }
      this.#shown = shown;
      this.#show();
      return true;
    } finally {
      this.#busy = false;
    }
  }

  /** Says why an event may not come. */
  async why(event) {
    const {reasons} = await this.#engine.ask('why', {events: [event]});
    this.message(reasons[0][1] ? `${this.nameOf(event)} may not come: ${reasons[0][1]}` : `${this.nameOf(event)} may come`);
  }

  /** An event in words. */
  nameOf(event) {
    const words = event.split(' ');
    if (words[0] === 'i') return `core ${words[1]}’s instruction`;
    if (words[0] === 'a') return `core ${words[1]}’s arrival`;
    if (words[0] === 'e') return `core ${words[1]}’s eviction of ${this.#shown?.words.find(({word}) => word.index === Number(words[2]))?.word.name ?? 'word ' + words[2]}`;
    return `the handling of message ${words[words.length - 1]} of ${{c: 'core ', b: 'bank ', k: 'the barrier controller'}[words[1]]}${words.length > 3 ? words[2] : ''}`;
  }

  // ---------------------------------------------------------------- what is shown

  #show() {
    const {enabled, made} = this.#shown;
    this.showCores(this.#linesOfCores());
    if (!this.#panel) return;
    const focused = document.activeElement?.closest?.('#panel [data-event]')?.dataset.event, may = new Set(enabled);
    if (!this.#parts) this.#build();
    this.#parts.count.textContent = `${made} ${made === 1 ? 'event' : 'events'}, ${enabled.length} may come`;
    this.#parts.at.value = made;
    this.#parts.cores.replaceChildren(...this.#shown.cores.map(core => this.#coreCard(core, may)));
    this.#parts.mails.replaceChildren(...this.#mailRows(may));
    this.#parts.words.replaceChildren(this.#wordTable(may));
    this.#parts.rest.replaceChildren(...this.#lockRows(), element('p', {}, 'Barrier: ' + this.#shown.barrier.join('; ')));
    this.#parts.walk.replaceChildren(...this.#walkRows());
    this.#parts.over.hidden = enabled.length > 0;
    this.#focusOn(focused);
    if (made * this.#shown.cores.length < EAGER) this.#showReasons(may);
  }

  #linesOfCores() {
    const lines = new Map();
    for (const {line, number, stands} of this.#shown.cores) {
      if (line === null || !stands.includes('task goes on')) continue;
      lines.set(line, [...lines.get(line) ?? [], number]);
    }
    return [...lines];
  }

  /** A button that makes an event; where it isn't enabled, it says why. */
  #eventButton(event, label, may) {
    const can = may.has(event);
    return element('button', {type: 'button', class: can ? 'event' : 'event off', 'data-event': event, 'aria-disabled': String(!can),
      title: can ? `make ${this.nameOf(event)}` : `${this.nameOf(event)} isn’t enabled: press to see why`,
      'aria-label': `${this.nameOf(event)}${can ? '' : ', not enabled'}`, onclick: () => can ? this.step(event) : this.why(event)}, label);
  }

  #coreCard(core, may) {
    const own = core.stands.filter(it => !/^(task goes on|retired \d+)$/.test(it)), retired = core.stands.find(it => it.startsWith('retired'));
    const hasTask = core.stands.includes('task goes on');
    return element('section', {class: 'core', 'aria-label': `core ${core.number}`},
      element('h3', {}, `core ${core.number}`, element('small', {}, ` phase ${core.phase ?? '–'}${retired ? ', ' + retired : ''}`)),
      hasTask ? element('p', {}, element('code', {}, this.#lines[core.line - 1]?.replace(/#.*/, '').trim() || core.next), element('small', {}, core.line ? ` line ${core.line}` : '')) : null,
      own.map(it => element('p', {}, it)),
      element('p', {class: 'why', 'data-why': core.number}),
      element('p', {}, this.#eventButton(`i ${core.number}`, '▶ step', may), ' ', this.#eventButton(`a ${core.number}`, 'arrive', may)));
  }

  #mailRows(may) {
    const {mails} = this.#shown;
    if (!mails.length) return [element('p', {class: 'dim'}, 'No message is on its way.')];
    const rows = mails.slice(0, MOST_MAILS).map(({event, from, to, message, notes}) => element('li', {},
      element('span', {class: 'way'}, element('b', {}, from), element('span', {class: 'arrow', 'aria-hidden': 'true'}, ' ──'),
        element('code', {}, message), element('span', {class: 'arrow', 'aria-hidden': 'true'}, '─▶ '), element('b', {}, to)), ' ',
      this.#eventButton(event, 'deliver', may), notes.map(it => element('small', {}, ' ' + it))));
    return [element('ul', {}, rows), mails.length > MOST_MAILS ? element('p', {class: 'dim'}, `The first ${MOST_MAILS} of ${mails.length} messages.`) : null]
      .filter(Boolean);
  }

  #wordTable(may) {
    const {words, used, cores} = this.#shown;
    if (!words.length) return element('p', {class: 'dim'}, 'No word has been used yet.');
    const head = element('tr', {}, ['word', 'value', 'home', 'who has it', ...cores.map(core => `core ${core.number}`)].map(it => element('th', {scope: 'col'}, it)));
    const more = used > words.length
      ? element('p', {class: 'dim'}, `${words.length} of ${used} words in use: first of all those with a message, a pending store or a stale copy.`) : null;
    return element('div', {}, more, element('table', {}, element('thead', {}, head), element('tbody', {}, words.map(it => this.#wordRow(it, cores, may)))));
  }

  #wordRow({word, stands}, cores, may) {
    const home = stands.owner !== null ? element('span', {class: 'c G'}, `→ core ${stands.owner}`) : element('span', {class: 'c H'}, String(stands.home));
    const cells = cores.map(({number}) => element('td', {}, this.#entry(word, number, stands, may)));
    const who = [stands.owner !== null ? `owner core ${stands.owner}` : 'no owner', stands.pending.length ? `pending at ${coresOf(stands.pending)}` : null,
      stands.stale.length ? element('b', {class: 'stale'}, `stale at ${coresOf(stands.stale)}`) : null].filter(Boolean);
    return element('tr', {}, element('th', {scope: 'row'}, word.name), element('td', {}, String(stands.value)), element('td', {}, home),
      element('td', {}, who.flatMap((it, at) => at ? ['; ', it] : [it])), cells);
  }

  #entry(word, core, stands, may) {
    const entry = word.entries.get(core);
    if (!entry) return '·';
    const isStale = stands.stale.includes(core), event = `e ${core} ${word.index}`;
    const chip = element('span', {class: `c ${isStale ? 'S' : entry.kind}`, title: LETTERS[entry.kind]}, element('b', {}, entry.kind), ` ${entry.value}`,
      isStale ? element('i', {}, ' stale') : null);
    return [chip, may.has(event) ? [' ', this.#eventButton(event, 'evict', may)] : null].flat();
  }

  #lockRows() {
    return this.#shown.locks.filter(Boolean).map(lock => element('p', {}, element('b', {}, `${lock.name} (lock ${lock.number})`), ': ' + lock.said.join('; ')));
  }

  #walkRows() {
    const {tail, made} = this.#shown, first = made - tail.length;
    return tail.map((event, at) => element('li', {}, element('button', {type: 'button', class: 'walked', title: 'go back to before this event',
      'aria-label': `go back to before event ${first + at}, ${this.nameOf(event)}`, onclick: () => this.back(first + at)}, `${first + at} ${event}`))).reverse();
  }

  /** The reasons at the cores whose instruction isn't enabled, while the walk is short enough to ask for all at once. */
  async #showReasons(may) {
    const shown = this.#shown, events = this.#shown.cores.map(core => `i ${core.number}`).filter(event => !may.has(event));
    if (!events.length) return;
    const {reasons} = await this.#engine.ask('why', {events});
    if (shown !== this.#shown || !this.#panel) return;
    for (const [event, reason] of reasons) {
      const place = this.#panel.querySelector(`[data-why="${event.slice(2)}"]`);
      // what the card says already isn't said twice
      const core = this.#shown.cores[Number(event.slice(2))], said = core.stands.some(it => reason === `core ${core.number} ${it}`);
      if (place && reason && !said) place.textContent = 'no step: ' + reason;
    }
  }

  #focusOn(event) {
    if (event === undefined) return;
    const same = this.#panel.querySelector(`[data-event="${event}"]`);
    (same ?? this.#panel.querySelector('.event:not(.off)') ?? this.#parts.at).focus();
  }

  // ---------------------------------------------------------------- what stays from event to event

  #build() {
    const parts = {count: element('span', {class: 'dim', role: 'status'})};
    for (const name of ['cores', 'mails', 'words', 'rest']) parts[name] = element('div', {class: name});
    parts.walk = element('ol', {class: 'walk', 'aria-label': 'Events so far, the last first'});
    parts.at = element('input', {type: 'number', min: 0, 'aria-label': 'Go back to before event', onchange: () => this.back(Number(parts.at.value))});
    const button = (label, act, title) => element('button', {type: 'button', title, onclick: act}, label);
    const core = element('select', {'aria-label': 'Core'}, this.#shown.cores.map(({number}) => element('option', {value: number}, `core ${number}`)));
    parts.over = element('span', {class: 'over', hidden: true}, 'No event may come: the run is over. ', button('See the run', () => this.finish('page'), 'the page of this walk'));
    const bar = element('div', {class: 'bar'}, button('◀ Back', () => this.back(this.made - 1), 'take the last event back (Backspace)'),
      element('label', {}, 'at ', parts.at), button('By chance', () => this.chance(1), 'one enabled event (n)'), button('× 100', () => this.chance(100), 'a hundred of them'),
      button('to the end', () => this.chance(Infinity), 'until no event may come'), button('only messages', () => this.chance(Infinity, {messages: true}), 'until none is on its way (m)'),
      element('span', {}, button('until it waits:', () => this.chance(Infinity, {untilWaits: Number(core.value)}), 'until this core can do nothing by itself'), core),
      parts.count);
    const walk = element('div', {class: 'bar'}, button('Save the walk', () => this.finish('save'), 'as a trace'), button('Replay', () => this.finish('replay'), 'what the walk’s run answers'),
      button('Page', () => this.finish('page'), 'the walk in the viewer; by chance to its end, if it isn’t over'), button('Judge', () => this.finish('judge'), 'by the referee'), parts.over);
    const heading = text => element('h2', {}, text);
    this.#parts = parts;
    this.#panel.replaceChildren(element('div', {class: 'hand'}, bar, walk, element('div', {class: 'columns'},
      element('div', {}, heading('Cores'), parts.cores, heading('On their way'), parts.mails, heading('Words'), parts.words, heading('Locks and barrier'), parts.rest),
      element('div', {}, heading('Events'), parts.walk))));
  }

  /** What a key does; whether it does something. */
  press(key) {
    const acts = {n: () => this.chance(1), m: () => this.chance(Infinity, {messages: true}), Backspace: () => this.back(this.made - 1)};
    const number = /^[1-9]$/.test(key) ? this.enabled[Number(key) - 1] : undefined;
    const act = number ? () => this.step(number) : acts[key];
    act?.();
    return Boolean(act);
  }
}
