// A run and what is shown of it: the answer, the page, the chart, numbers, outcomes and the listing. Each is made when its tab is first opened.
import {bytesOf, textOf} from '../javascript/machine.mjs';
import {element, withCode} from './editor.js';
import {blocksOf} from './faults.js';

export const TABS = [['answer', 'Answer'], ['page', 'Page'], ['chart', 'Chart'], ['account', 'Account'], ['lists', 'Lists'], ['outcomes', 'Outcomes'],
  ['seeds', 'Seeds'], ['listing', 'Listing'], ['hand', 'By hand']];
const OUTCOMES = {0: ['done', '✓ done'], 3: ['bad', '✗ trapped'], 4: ['bad', '✗ out of fuel'], 5: ['bad', '✗ stuck']};
// a run with more events shows the first of them on its page
const PAGE_ROWS = 4096, CHART_ROWS = 400;

const wordsOf = options => Object.entries(options).flatMap(([name, value]) => [`--${name}`, String(value)]);
const preformatted = text => element('pre', {tabindex: '0'}, text);
const isRefusal = code => code === 1 || code === 2;

/** A run that was made: its text, its settings, and the document of its events. */
export class Run {
  #engine;
  #kept = new Map();

  constructor(engine, {text, settings, document = null, title = ''}) {
    Object.assign(this, {text, settings, document, title, code: null, refusal: null});
    this.#engine = engine;
  }

  get sizes() {
    const {seed, ...sizes} = this.settings;
    return sizes;
  }

  /** Makes the run, and replays its document for the answer. */
  async make() {
    if (!this.document) {
      const made = await this.#engine.call('denovo', ['--mode', 'trace', ...wordsOf(this.settings)], this.text);
      // the exit code is that of the run, so that of a stuck one isn't 0
      if (isRefusal(made.code) || made.code === 8) return this.#refuse(made);
      this.document = made.bytes;
    }
    const replayed = await this.#engine.call('denovo', ['--mode', 'replay'], this.document);
    if (isRefusal(replayed.code) || replayed.code === 8) return this.#refuse(replayed);
    [this.code, this.answer] = [replayed.code, textOf(replayed.bytes)];
  }

  async #refuse({code, bytes}) {
    [this.code, this.refusal] = [code, textOf(bytes).trim()];
    if (code === 8) this.refusal = 'out of memory';
  }

  /** What was answered, with what explain says of it. */
  async explained() {
    const answer = this.refusal === null ? this.answer : this.refusal + '\n';
    return this.#keep('explained', async () => textOf((await this.#engine.call('explain', ['TEXT'], this.text, answer)).bytes));
  }

  get events() { return Number(/^count events (\d+)$/m.exec(this.answer ?? '')?.[1] ?? 0); }

  async view(mode, more = []) {
    return this.#keep([mode, ...more].join(' '), async () => textOf((await this.#engine.call('view', ['--mode', mode, ...more], this.document)).bytes));
  }
  async denovo(words) { return this.#keep(words.join(' '), async () => this.#engine.call('denovo', words, this.text)); }
  async outcomes() { return this.#keep('outcomes', async () => this.#engine.call('outcomes', wordsOf({fuel: this.settings.fuel}), this.text)); }
  async seeds(range) { return this.#keep('seeds ' + range, async () => this.#engine.call('sweep', wordsOf({seeds: range, ...this.sizes}), this.text)); }
  async explainedOutcomes(answer) { return this.#keep('why', async () => textOf((await this.#engine.call('explain', ['TEXT'], this.text, answer)).bytes)); }

  /** The page of the run, in the viewer's template. */
  async page(template, first = 0) {
    const data = await this.view('page', ['--first', String(first), '--rows', String(PAGE_ROWS)]), name = JSON.stringify(this.title).replaceAll('<', '\\u003c');
    return template.replace('@@RUN@@', () => data.replace('"name":""', () => `"name":${name}`));
  }

  /** The claim of the run (docs/COMPARING.md): its grants and its loads, task by task, and its answer. */
  async claim() {
    const data = JSON.parse(await this.view('data')), lines = this.answer.split('\n'), loads = new Map();
    const started = data.ends.map(([phase, core]) => [phase, core]);
    for (const [phase, core] of started) loads.set(`${phase} ${core}`, []);
    const phases = Array(data.cores).fill(0);
    for (const [, actor, , changes] of data.events) {
      for (const [tag, one, other] of changes) {
        if (tag === 'b') phases[actor] = one;
        if (tag === 'ld') loads.get(`${phases[actor]} ${actor}`)?.push(`${one} 0x${other.toString(16).padStart(8, '0')}`);
      }
    }
    const grants = lines.filter(line => line.startsWith('grant ')), told = lines.filter(line => line && !/^(grant|count) /.test(line));
    const tasks = started.sort((p, q) => p[0] - q[0] || p[1] - q[1]).flatMap(([phase, core]) => {
      const own = loads.get(`${phase} ${core}`);
      return [`task ${phase} ${core} ${own.length}`, ...own];
    });
    const source = bytesOf(this.text);
    return [`denovo-claim 1\nfuel ${this.settings.fuel}\nsource ${source.length}\n`, source,
      `\ngrants ${grants.length}\n${grants.map(line => line + '\n').join('')}loads ${started.length}\n${tasks.map(line => line + '\n').join('')}${told.join('\n')}\n`];
  }

  async #keep(key, make) {
    if (!this.#kept.has(key)) this.#kept.set(key, await make());
    return this.#kept.get(key);
  }
}

/** The badge of how a run ended. */
export function badge(run) {
  if (run.refusal !== null) return element('span', {class: 'out bad'}, '✗ refused');
  const [kind, label] = OUTCOMES[run.code] ?? ['bad', `exit code ${run.code}`];
  return element('span', {class: `out ${kind}`}, label);
}

/** What each tab shows of a run. */
export const PANELS = {
  async answer(run) {
    if (run.refusal !== null) return [element('p', {}, badge(run)), ...await explanation(run)];
    const lines = [element('p', {}, badge(run), ` ${run.events} events`)];
    if (run.code !== 0) lines.push(...await explanation(run));
    const printed = element('details', {}, element('summary', {}, 'The answer as it is printed'), preformatted(run.answer));
    const explained = element('details', {}, element('summary', {}, 'The same, explained'), preformatted(await run.explained()));
    return [...lines, preformatted(await run.view('answer')), printed, explained];
  },

  async page(run, {template, first = 0, at = null}) {
    const page = await run.page(template, first), address = URL.createObjectURL(new Blob([page], {type: 'text/html'}));
    const frame = element('iframe', {title: 'The page of the run', sandbox: 'allow-scripts allow-modals', src: address + (at === null ? '' : `#event=${at}`)});
    const more = run.events > PAGE_ROWS
      ? element('p', {class: 'bar'}, element('label', {}, `Of ${run.events} events ${PAGE_ROWS} are shown, from `,
        element('input', {type: 'number', min: 0, max: run.events - 1, value: first, 'data-first': 'page'}))) : null;
    return [more, frame];
  },

  async chart(run) {
    const svg = await run.view('chart', ['--rows', String(CHART_ROWS), '--columns', 'used']);
    const address = URL.createObjectURL(new Blob([svg], {type: 'image/svg+xml'}));
    const more = run.events > CHART_ROWS ? element('p', {class: 'dim'}, `The first ${CHART_ROWS} of ${run.events} events.`) : null;
    return [more, element('div', {class: 'chart', tabindex: '0'}, element('img', {src: address, alt: 'Message chart of the run: the page and the answer say the same in words'}))];
  },

  account: run => numbersOf(run, 'account'),
  lists: run => numbersOf(run, 'lists'),

  async outcomes(run) {
    const {code, bytes} = await run.outcomes(), text = textOf(bytes);
    const head = {0: 'Every run has this in common, for every order of grants:', 3: 'The order of grants may decide how a run goes on, and this is where:',
      2: 'The text is refused:'}[code] ?? `exit code ${code}`;
    return [element('p', {}, head), preformatted(code === 0 ? text : await run.explainedOutcomes(text))];
  },

  async seeds(run, {range = '1..1000'} = {}) {
    const {code, bytes} = await run.seeds(range);
    const asked = element('p', {class: 'bar'}, element('label', {}, 'Seeds ', element('input', {value: range, 'data-seeds': true, size: 14})));
    return [asked, preformatted(code === 1 ? 'The seeds are written as 1..1000, at most a million of them.' : textOf(bytes))];
  },

  async listing(run) {
    const {bytes} = await run.denovo(['--mode', 'list', '--addresses', 'on']);
    return [preformatted(textOf(bytes))];
  },
};

async function numbersOf(run, mode) {
  const groups = ['run', 'phase', 'core', 'region'], shown = element('pre', {tabindex: '0'}), choice = element('select', {'aria-label': 'Numbers by'},
    groups.map(it => element('option', {}, it)));
  const show = async () => { shown.textContent = await run.view(mode, ['--by', choice.value]); };
  choice.addEventListener('change', show);
  await show();
  return [element('p', {class: 'bar'}, element('label', {}, 'by ', choice)), shown];
}

async function explanation(run) {
  const blocks = blocksOf(await run.explained());
  if (!blocks.length) return [preformatted(run.refusal ?? run.answer)];
  return blocks.filter(({head}) => !/^(word|grant|count|words) /.test(head)).map(block => element('div', {class: 'explained'}, element('b', {}, block.head),
    ...block.said.map(line => /^(\d+ \||  *\|)/.test(line) ? preformatted(line) : element('p', {}, withCode(line)))));
}
