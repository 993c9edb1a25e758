// The guide: the tutorial and the lab of docs/, with a button at each command that can be done here.
import {element} from './editor.js';

/** Shows a page of the guide; its buttons call `act` with what their command asks for. */
export function showGuide(place, page, act) {
  // the page was made of this repository's own documents by tools/play
  place.innerHTML = page;
  for (const command of place.querySelectorAll('[data-command]')) {
    const asked = commandOf(command.dataset.command);
    if (asked) command.after(element('button', {type: 'button', class: 'do', onclick: () => act(asked)}, asked.label));
  }
  place.scrollTop = 0;
}

const NUMBERS = ['seed', 'banks', 'sets', 'ways', 'fuel'];

/** What a command of the documents asks for: the text, the settings, and the tab that shows it; null where it can't be done here. */
export function commandOf(command) {
  const text = /(?:< |[ ])(examples\/[\w/-]+\.s)/.exec(command)?.[1];
  if (!text) return null;
  const settings = {}, words = command.split(/\s+/);
  words.forEach((word, at) => { if (NUMBERS.includes(word.slice(2)) && word.startsWith('--') && /^\d+$/.test(words[at + 1] ?? '')) settings[word.slice(2)] = Number(words[at + 1]); });
  return {text, settings, tab: tabOf(command), label: 'Do this here'};
}

function tabOf(command) {
  if (command.includes('./outcomes')) return 'outcomes';
  if (command.includes('./sweep')) return 'seeds';
  const mode = [...command.matchAll(/--mode (\w+)/g)].map(found => found[1]).filter(it => it !== 'trace').pop();
  if (['account', 'lists', 'page'].includes(mode)) return mode;
  if (mode === 'list') return 'listing';
  return command.includes('| ./view') ? 'chart' : 'answer';
}
