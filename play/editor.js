// The editor: CodeMirror with the language's colours, marks and explanations at faults, lines that are locked, and marks where cores are.
import {blocksOf, edited, fixesOf, isFault} from './faults.js';
import {defineLanguage} from './language.js';

/** An element with attributes, and with texts and elements in it; no text becomes markup. */
export function element(name, attributes = {}, ...inside) {
  const made = document.createElement(name);
  for (const [key, value] of Object.entries(attributes)) {
    if (key.startsWith('on')) made.addEventListener(key.slice(2), value);
    else if (value === true) made.setAttribute(key, '');
    else if (value !== false && value !== null && value !== undefined) made.setAttribute(key, value);
  }
  made.append(...inside.flat().filter(part => part !== null && part !== undefined && part !== false));
  return made;
}

/** What stands between backquotes in a sentence is shown as code. */
export const withCode = sentence => sentence.split('`').map((part, at) => at % 2 ? element('code', {}, part) : part);

export class Editor {
  #editor;
  #widgets = [];
  #locked = [];
  #coreMarks = [];

  constructor(place, {changed, applyFix}) {
    defineLanguage(globalThis.CodeMirror);
    this.applyFix = applyFix;
    this.#editor = globalThis.CodeMirror(place, {
      mode: 'denovo', lineNumbers: true, gutters: ['cores', 'CodeMirror-linenumbers', 'faults'], indentUnit: 1, smartIndent: false,
      screenReaderLabel: 'Program text', maxHighlightLength: 1100, extraKeys: {Tab: false, 'Shift-Tab': false},
    });
    this.#editor.getInputField().setAttribute('aria-label', 'Program text');
    this.#editor.on('change', () => changed());
  }

  get text() { return this.#editor.getValue(); }

  /** Puts another text in, which begins a history of its own. */
  open(text) {
    this.lock([]);
    this.#editor.setValue(text);
    this.#editor.clearHistory();
    this.showFaults([]);
  }

  /** Changes the text by an edit of a fix, where it differs, so that undo takes it back. */
  edit(edit) {
    const old = this.text, now = edited(old, edit), least = Math.min(old.length, now.length);
    let from = 0, tail = 0;
    while (from < least && old[from] === now[from]) from++;
    while (tail < least - from && old[old.length - 1 - tail] === now[now.length - 1 - tail]) tail++;
    const place = at => this.#editor.posFromIndex(at);
    this.#editor.replaceRange(now.slice(from, now.length - tail), place(from), place(old.length - tail));
    this.#editor.focus();
  }

  focus() { this.#editor.focus(); }
  refresh() { this.#editor.refresh(); }
  goTo(line) {
    this.#editor.setCursor({line: line - 1, ch: 0});
    this.#editor.scrollIntoView({line: line - 1, ch: 0}, 80);
  }

  /** Lines, as pairs of the first and the last from 1 on, that can't be changed. */
  lock(pairs) {
    for (const mark of this.#locked) mark.clear();
    this.#locked = [];
    for (let line = 0; line <= this.#editor.lastLine(); line++) this.#editor.removeLineClass(line, 'background', 'locked');
    for (const [first, last] of pairs) {
      const to = Math.min(last, this.#editor.lastLine() + 1);
      if (first < 1 || first > to) continue;
      const end = to - 1 < this.#editor.lastLine() ? {line: to, ch: 0} : {line: to - 1, ch: this.#editor.getLine(to - 1).length};
      this.#locked.push(this.#editor.markText({line: first - 1, ch: 0}, end,
        {readOnly: true, inclusiveLeft: first === 1, inclusiveRight: to - 1 === this.#editor.lastLine()}));
      for (let line = first; line <= to; line++) this.#editor.addLineClass(line - 1, 'background', 'locked');
    }
  }

  /** Shows the blocks of an explained answer that tell faults: a mark beside each line, and what is said below the last of them. */
  showFaults(blocks) {
    this.#editor.operation(() => {
      for (const widget of this.#widgets) widget();
      this.#widgets = [];
      this.#editor.clearGutter('faults');
      blocks.slice(0, MOST_BLOCKS).forEach(block => this.#showBlock(block));
    });
  }

  #showBlock(block) {
    const last = this.#editor.lastLine(), places = block.places.filter(({line}) => line >= 1 && line - 1 <= last);
    for (const {line, from, to} of places) {
      const mark = element('span', {class: 'fault', title: block.sentences.join(' ')}, '●');
      this.#editor.setGutterMarker(line - 1, 'faults', mark);
      this.#editor.addLineClass(line - 1, 'background', 'faulty');
      const marked = from === null ? null : this.#editor.markText({line: line - 1, ch: from}, {line: line - 1, ch: to}, {className: 'wrong'});
      const handle = this.#editor.getLineHandle(line - 1);
      this.#widgets.push(() => {
        this.#editor.removeLineClass(handle, 'background', 'faulty');
        marked?.clear();
      });
    }
    const below = places.length ? places[places.length - 1].line - 1 : last;
    const widget = this.#editor.addLineWidget(below, this.explanation(block), {coverGutter: false, noHScroll: true});
    this.#widgets.push(() => widget.clear());
  }

  /** What is said of a fault, with a button for each fix. */
  explanation(block) {
    const fixes = fixesOf(block).map(fix => element('button', {type: 'button', class: 'fix', onclick: () => this.applyFix(fix.edit)}, fix.label));
    return element('div', {class: 'explained'}, element('b', {}, block.head), block.sentences.map(it => element('p', {}, withCode(it))), fixes);
  }

  /** Marks the lines at which cores are: [line, cores] pairs. */
  showCores(lines) {
    this.#editor.operation(() => {
      this.#editor.clearGutter('cores');
      for (const handle of this.#coreMarks) this.#editor.removeLineClass(handle, 'background', 'running');
      this.#coreMarks = [];
      for (const [line, cores] of lines) {
        if (line > this.#editor.lastLine() + 1) continue;
        this.#editor.setGutterMarker(line - 1, 'cores', element('span', {class: 'here', title: `core ${cores.join(', ')}`}, cores.join(',')));
        this.#coreMarks.push(this.#editor.addLineClass(line - 1, 'background', 'running'));
      }
    });
  }
}
const MOST_BLOCKS = 16;

/** The faults of an explained answer. */
export const faultsIn = explained => blocksOf(explained).filter(isFault);
