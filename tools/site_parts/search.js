'use strict';
// The search: each section that has all words, those first that have them in their heading.
const field = document.getElementById('search'), hits = document.getElementById('hits'), root = document.body.dataset.root;
const MOST = 20, AROUND = 70;

function scoreOf(words, heading, text) {
  let score = 0;
  for (const word of words) {
    const inHeading = heading.includes(word), inText = text.includes(word);
    if (!inHeading && !inText) return 0;
    score += (inHeading ? 5 : 0) + (inText ? 1 : 0);
  }
  return score;
}

function found(query) {
  const words = query.toLowerCase().split(/\s+/).filter(Boolean), all = [];
  if (!words.length) return [];
  for (const [page, title, sections] of INDEX) {
    for (const [name, heading, text] of sections) {
      const score = scoreOf(words, `${title} ${heading}`.toLowerCase(), text.toLowerCase());
      if (score) all.push({score, address: `${root}/${page}#${name}`, head: heading === title ? title : `${title}: ${heading}`, said: around(text, words[0])});
    }
  }
  return all.sort((one, other) => other.score - one.score).slice(0, MOST);
}

function around(text, word) {
  const at = Math.max(0, text.toLowerCase().indexOf(word) - AROUND);
  return (at ? '… ' : '') + text.slice(at, at + 2 * AROUND) + (text.length > at + 2 * AROUND ? ' …' : '');
}

function show() {
  const all = found(field.value);
  hits.hidden = !field.value.trim();
  hits.replaceChildren(...all.map(({address, head, said}) => {
    const item = document.createElement('li'), link = document.createElement('a'), small = document.createElement('small');
    [link.href, link.textContent, small.textContent] = [address, head, said];
    link.append(small);
    link.onclick = () => { hits.hidden = true; };
    item.append(link);
    return item;
  }));
  if (!all.length) hits.textContent = 'Nothing has all of these words.';
}
field.addEventListener('input', show);
addEventListener('keydown', event => {
  if (event.key === 'Escape') hits.hidden = true;
  if (event.key === '/' && !/INPUT|TEXTAREA/.test(event.target.tagName)) {
    event.preventDefault();
    field.focus();
  }
});
