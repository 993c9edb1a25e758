/* What tools/check_page.py runs in a page of a run: it steps the page by its buttons and keys and compares with what `expected` and `marks`
   have, which tools/reference.py made. */
'use strict';

function checkPage({expected, marks}) {
  const bad = [], all = Array.from({length: COUNT}, (_, at) => at);
  const fault = text => { bad.push(text); };
  const text = id => document.getElementById(id).textContent;
  const isSame = (one, other) => JSON.stringify(one) === JSON.stringify(other);
  const inOrder = pairs => pairs.map(([core, word]) => word * 16 + core).sort((p, q) => p - q);
  const press = id => document.getElementById(id).click();
  const type = key => document.body.dispatchEvent(new KeyboardEvent('keydown', {key, bubbles: true, cancelable: true}));
  const plural = (count, name) => count + ' ' + name + (count === 1 ? '' : name === 'miss' ? 'es' : 's');

  /* The copies that are marked in the table's rows, and those of the reference that have a row. */
  function markedCopies() {
    const pairs = [];
    for (const row of document.querySelectorAll('#wt tbody tr:not(.gap)')) {
      [...row.querySelectorAll('td')].forEach((cell, at) => {
        if (cell.querySelector('.S') && /stale/.test(cell.textContent)) pairs.push([at - 1, +row.querySelector('button').dataset.w]);
      });
    }
    return pairs;
  }
  function withRows(pairs) {
    const words = [...document.querySelectorAll('#wt button')].map(button => +button.dataset.w);
    return pairs.filter(([, word]) => words.includes(word));
  }
  function seeMarks(k, how) {
    const {stale, lists} = k ? marks.said[k - 1] : {stale: '', lists: ''}, say = text('say'), pairs = marks.states[k];
    if (!isSame(inOrder(markedCopies()), inOrder(withRows(pairs)))) fault('marks ' + how + ' ' + k);
    if (!isSame(inOrder(staleCopies(state)), inOrder(pairs))) fault('copies ' + how + ' ' + k);
    if (stale ? !say.includes(stale) : /stale cop/.test(say)) fault('stale ' + how + ' ' + k);
    if (lists ? !say.endsWith(lists) : /With a list/.test(say)) fault('lists ' + how + ' ' + k);
  }
  function seeCounts(k, how) {
    const [ofPhase, ofRun] = marks.counts[k].map(([messages, misses, grants, listMessages, invalidations]) => {
      const parts = [plural(messages, 'message'), plural(misses, 'miss')];
      if (RUN.locks.length) parts.push(plural(grants, 'grant'));
      return ': ' + parts.join(', ') +
        (listMessages === undefined ? '' : '; with a list ' + plural(listMessages, 'message') + ', ' + plural(invalidations, 'invalidation'));
    });
    const wanted = ofPhase + '. ' + (FIRST ? 'Since event ' + FIRST : 'Run') + ofRun;
    if (!text('tally').endsWith(wanted)) fault('counts ' + how + ' ' + k + ': ' + text('tally') + ' isn’t ' + wanted);
  }
  function see(k, how) {
    if (present !== k || canonical(state) !== expected[k]) fault(how + ' ' + k);
    if (k && !document.getElementById('r' + (k - 1))) fault('no row ' + k);
    if (/undefined|NaN/.test(text('side') + text('say') + text('tally'))) fault('undefined ' + k);
    seeMarks(k, how);
    seeCounts(k, how);
  }

  function stepThroughAll() {
    go(0);
    see(0, 'begin');
    for (let k = 1; k <= COUNT; k++) { press('bNext'); see(k, 'next'); }
    for (let k = COUNT - 1; k >= 0; k--) { press('bBack'); see(k, 'back'); }
    for (let turn = 0; turn < 50; turn++) {
      const k = turn * 7919 % (COUNT + 1);
      go(k);
      see(k, 'jump');
    }
  }

  /* The events that come when something is done over and over, from the beginning or from the end. */
  function visited(act, from) {
    const events = [];
    go(from);
    for (let last = present; events.length <= COUNT; last = present) {
      act();
      if (present === last || present === 0) break;
      events.push(present - 1);
    }
    return events;
  }
  function compareVisits(name, wanted, on, back) {
    const onward = visited(on, 0), backward = visited(back, COUNT), behind = wanted.filter(at => at < COUNT - 1).reverse();
    if (!isSame(onward, wanted)) fault(`${name} on: ${onward.slice(0, 9)} isn’t ${wanted.slice(0, 9)}`);
    if (!isSame(backward, behind)) fault(`${name} back: ${backward.slice(0, 9)} isn’t ${behind.slice(0, 9)}`);
  }
  function checkJumps(name, wanted, key, letter) {
    compareVisits(name + ' by buttons', wanted, () => press(key + 'Next'), () => press(key + 'Back'));
    compareVisits(name + ' by keys', wanted, () => type(letter), () => type(letter.toUpperCase()));
  }
  function checkAllJumps() {
    checkJumps('messages', marks.messages, 'm', 'm');
    checkJumps('phases', marks.phases, 'e', 'e');
    checkJumps('grants', marks.grants, 'g', 'g');
    for (const [name, events] of Object.entries(marks.words)) {
      followWord(wordNamed(name));
      if (followed < 0 || wordName(followed) !== name) fault('no word ' + name);
      checkJumps(name, events, 'd', 'w');
    }
    followWord(-1);
  }

  /* What is shown, with and without plain instructions, and for a word alone: Next, Back and Play go over just that. */
  function checkShown(name, wanted) {
    compareVisits(name, wanted, () => press('bNext'), () => press('bBack'));
    compareVisits(name + ' by arrows', wanted, () => type('ArrowRight'), () => type('ArrowLeft'));
    const played = playAll();
    if (!isSame(played, wanted)) fault(`${name} played: ${played.slice(0, 9)} isn’t ${wanted.slice(0, 9)}`);
  }
  function playAll() {
    const make = window.setInterval, events = [];
    let tick = null;
    for (const rate of ['0.5', '2', '20']) {
      go(0);
      document.getElementById('speed').value = rate;
      window.setInterval = (act, wait) => {
        if (wait !== 1000 / rate) fault('plays every ' + wait);
        tick = act;
        return 1;
      };
      press('bPlay');
      window.setInterval = make;
      if (rate !== '20') { press('bPlay'); continue; }
      while (timer && events.length <= COUNT) { tick(); events.push(present - 1); }
    }
    return events;
  }
  function checkFilters() {
    const plain = new Set(marks.plain), box = document.getElementById('plain'), only = document.getElementById('only');
    checkShown('all', all);
    box.click();
    checkShown('without plain ones', all.filter(at => !plain.has(at)));
    const [name, events] = Object.entries(marks.words)[0] || [];
    if (name) {
      followWord(wordNamed(name));
      only.value = 'word';
      only.dispatchEvent(new Event('change'));
      const chosen = new Set([...events, ...marks.phases]);
      checkShown('only ' + name, all.filter(at => chosen.has(at)));
      followWord(-1);
      if (only.value) fault('still only the word');
    }
    box.click();
  }

  function checkStrip() {
    const strip = document.getElementById('strip'), begun = strip.getBoundingClientRect();
    for (let part = 0; part <= 10; part++) {
      // a mouse is at a whole number of pixels
      const {left, width, top} = strip.getBoundingClientRect(), x = Math.round(left + width * part / 10);
      if (left !== begun.left || width !== begun.width) fault(`the strip moves: ${left} ${width}`);
      strip.dispatchEvent(new MouseEvent('click', {clientX: x, clientY: top + 2, bubbles: true}));
      see(Math.max(0, Math.min(COUNT, Math.round((x - left) / width * COUNT))), 'strip');
      if (+strip.getAttribute('aria-valuenow') !== present) fault('strip tells ' + strip.getAttribute('aria-valuenow'));
    }
  }
  function checkAddress() {
    const at = Math.min(COUNT - 1, 5), [name] = Object.keys(marks.words), said = 'look: <b>here</b> & now';
    const hash = '#event=' + (FIRST + at) + (name ? '&word=' + name : '') + '&plain=0&present=1&say=' + encodeURIComponent(said);
    history.replaceState(null, '', hash);
    readAddress();
    see(at + 1, 'address');
    if (!text('say').startsWith(said)) fault('the link’s words');
    if (name && wordName(followed) !== name) fault('the link’s word');
    if (document.getElementById('plain').checked || zoom === 1) fault('the link’s choices');
    writeAddress();
    if (location.hash !== hash) fault('address ' + location.hash);
    const before = present;
    step(1);
    writeAddress();
    if (present !== before && (text('say').includes('look:') || location.hash.includes('say='))) fault('the link’s words stay');
    history.replaceState(null, '', '#event=' + FIRST);
    readAddress();
  }
  /* In the presenter's view the heading is one line, the table of words is in sight, and the sentence is above both. */
  function checkPresenter() {
    type('P');
    const box = id => document.getElementById(id).getBoundingClientRect(), size = id => parseFloat(getComputedStyle(document.getElementById(id)).fontSize);
    if (zoom !== 1.5 || size('say') < 21 || size('wt') < 21) fault('the type isn’t larger');
    if (box('top').height > 56) fault('the heading isn’t one line: ' + box('top').height);
    for (let turn = 0; turn <= 10; turn++) {
      go(Math.round(COUNT * turn / 10));
      see(present, 'presenter');
      if (box('say').top < box('top').bottom - 1 || box('say').bottom > Math.min(box('chart').top, box('words').top)) fault('the sentence isn’t first');
      if (box('words').top < 0 || box('words').top + 80 > innerHeight) fault('the words aren’t in sight');
      if (box('chart').height < 80 || box('chart').bottom > innerHeight + 1) fault('the chart isn’t in sight');
    }
    press('bPresent');
    if (zoom !== 1) fault('the type stays large');
  }

  /* Whatever can be pressed has a name, and can be reached by the keyboard. */
  function checkNames() {
    for (const one of document.querySelectorAll('button, select, input, [tabindex]')) {
      const name = one.getAttribute('aria-label') || one.textContent.trim() || (one.labels && one.labels.length ? one.labels[0].textContent : '');
      if (!name.trim()) fault('no name: ' + one.outerHTML.slice(0, 60));
      if (one.tabIndex < 0) fault('no key leads to ' + one.outerHTML.slice(0, 60));
    }
  }

  stepThroughAll();
  checkAllJumps();
  checkFilters();
  checkStrip();
  checkAddress();
  checkPresenter();
  checkNames();
  go(0);
  return {events: COUNT, bad: bad.slice(0, 20), count: bad.length};
}

/* The texts whose contrast with their ground is below 4.5, by the formula of WCAG. */
function lowContrast() {
  const part = value => (value /= 255) <= .04045 ? value / 12.92 : ((value + .055) / 1.055) ** 2.4;
  const light = ([red, green, blue]) => .2126 * part(red) + .7152 * part(green) + .0722 * part(blue);
  const colour = text => (/rgba?\(([^)]*)\)/.exec(text) || [, '0,0,0,0'])[1].split(',').map(Number);
  const groundOf = one => {
    for (let at = one; at; at = at.parentElement) {
      const ground = colour(getComputedStyle(at).backgroundColor);
      if (ground.length < 4 || ground[3] === 1) return ground;
    }
    return [255, 255, 255];
  };
  const low = new Set();
  for (const one of document.querySelectorAll('body *')) {
    const hasText = [...one.childNodes].some(node => node.nodeType === 3 && node.textContent.trim());
    if (!hasText || one.disabled || /SCRIPT|STYLE|NOSCRIPT|OPTION/.test(one.tagName) || !one.getClientRects().length) continue;
    const style = getComputedStyle(one), isDrawn = one.namespaceURI.endsWith('svg');
    const ground = isDrawn ? colour(style.stroke) : groundOf(one), [p, q] = [light(colour(isDrawn ? style.fill : style.color)), light(ground)];
    const ratio = (Math.max(p, q) + .05) / (Math.min(p, q) + .05);
    if (ratio < 4.5) low.add(`${one.tagName}.${one.getAttribute('class') || one.id} ${ratio.toFixed(2)} “${one.textContent.trim().slice(0, 20)}”`);
  }
  return [...low];
}

/* How many milliseconds steps take, with what the browser lays out: the longest and the middle one of so many. */
function stepTimes(count) {
  const times = [];
  for (let turn = 0; turn < count; turn++) {
    const from = turn * 7919 % Math.max(1, COUNT - 1);
    go(from);
    document.body.getBoundingClientRect();
    const begin = performance.now();
    go(from + 1);
    document.body.getBoundingClientRect();
    times.push(performance.now() - begin);
  }
  times.sort((p, q) => p - q);
  return {longest: times[times.length - 1], middle: times[times.length >> 1]};
}
