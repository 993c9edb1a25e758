// The page: what its parts do with each other.
import {bytesOf, textOf} from '../javascript/machine.mjs';
import {Editor, element, faultsIn} from './editor.js';
import {Engine, NoAnswer, Stopped, assets} from './engine.js';
import {FORMS, asked, checkedGoal, exercisePanel, isGoal, linesIn} from './exercise.js';
import {showGuide} from './guide.js';
import {Hand} from './hand.js';
import {packed, unpackedLink} from './link.js';
import {PANELS, Run, TABS, badge} from './run.js';

const $ = id => document.getElementById(id);
const DEFAULTS = {seed: 1, banks: 4, sets: 64, ways: 4, fuel: 32768};
const CHECK_WAIT = 250, MOST_FILE = 64 << 20, MOST_LINK = 60000;
const WHY_NOT = 'This browser doesn’t run the module: it needs WebAssembly with memories of 64 bits (Chrome and Edge from 133, Firefox from 134 on).';

// one worker checks while the text is typed, one runs, and one has the machine by hand
const checker = new Engine(), runner = new Engine(), walker = new Engine();
let kit = {template: '', texts: [], guides: []}, editor = null, run = null, exercise = null, goals = [], tab = 'answer', clock = 0, checked = 0, madeText = null;
const hand = new Hand(walker, {message: say, running: isOn => { $('stop').hidden = !isOn; }, showCores: lines => editor?.showCores(lines), finish: finishWalk});

// ---------------------------------------------------------------- words, settings, sides

function say(message) { $('status').textContent = message; }

function settings() {
  return Object.fromEntries(Object.entries(DEFAULTS).map(([name, usual]) => {
    const field = $(name), value = field.value === '' || !field.checkValidity() ? usual : Number(field.value);
    return [name, Math.trunc(value)];
  }));
}
function set(values) { for (const [name, usual] of Object.entries(DEFAULTS)) $(name).value = values[name] ?? usual; }

function showSide(side) {
  document.body.dataset.side = side;
  if (side === 'guide') $('guide').hidden = false;
  for (const button of document.querySelectorAll('.sides button')) button.setAttribute('aria-pressed', String(button.dataset.side === side));
  editor?.refresh();
}

// ---------------------------------------------------------------- the text, checked while it is typed

let wait = 0;
function textChanged() {
  clearTimeout(wait);
  wait = setTimeout(checkText, CHECK_WAIT);
}

async function checkText() {
  const turn = ++checked, {text} = editor;
  if (checker.isBusy) checker.stop();
  try {
    const {code, bytes} = await checker.call('denovo', ['--mode', 'check'], text);
    const explained = code === 2 ? textOf((await checker.call('explain', ['TEXT'], text, bytes)).bytes) : '';
    if (turn === checked) showFaults(explained ? faultsIn(explained) : [], code === 0 ? 'no fault' : code === 8 ? 'out of memory' : textOf(bytes).trim());
  } catch (fault) {
    if (!(fault instanceof Stopped)) failed(fault);
  }
}

function showFaults(blocks, head) {
  editor.showFaults(blocks);
  const spoken = blocks.flatMap(({places, sentences}) => [`${places.length ? `Line ${places.map(it => it.line).join(', ')}: ` : ''}${sentences[0] ?? ''}`]);
  $('faults').textContent = blocks.length ? spoken.join(' ') : head;
  $('faults').classList.toggle('bad', blocks.length > 0 || /^refused/.test(head));
}

function applyFix(edit) {
  if (edit.kind === 'fuel') {
    $('fuel').value = edit.fuel;
    startRun();
  } else {
    editor.edit(edit);
    checkText();
  }
}

function openText({text, settings: given = {}, exercise: task = null, tab: shown = null}) {
  hand.close();
  [run, goals] = [null, []];
  editor.open(text);
  set(given);
  setExercise(task);
  showTab(shown ?? 'answer');
  checkText();
}

// ---------------------------------------------------------------- exercises

function setExercise(task) {
  exercise = task;
  goals = [];
  $('exercise').hidden = !task;
  if (task) editor.lock(task.locked);
  showExercise();
}
function showExercise() {
  if (exercise) $('exercise').replaceChildren(...exercisePanel(exercise, goals, {check: checkGoals, close: () => setExercise(null)}));
  editor.refresh();
}
async function checkGoals() {
  await busy(async () => {
    const at = asked(runner, editor.text, settings());
    goals = [];
    for (const goal of exercise.goals) goals.push(await checkedGoal(goal, at));
    showExercise();
    say(`${goals.filter(it => it.reached).length} of ${goals.length} goals are reached`);
  });
}

// ---------------------------------------------------------------- what runs, its time, and how it is stopped

async function busy(work) {
  const begun = performance.now(), tick = () => say(`running, ${((performance.now() - begun) / 1000).toFixed(1)} s`);
  clearInterval(clock);
  clock = setInterval(tick, 200);
  $('stop').hidden = false;
  try {
    await work();
    return true;
  } catch (fault) {
    failed(fault);
    return false;
  } finally {
    clearInterval(clock);
    $('stop').hidden = true;
  }
}
function failed(fault) {
  if (fault instanceof Stopped) say('stopped');
  else if (fault instanceof WebAssembly.CompileError || fault instanceof WebAssembly.LinkError) say(WHY_NOT);
  else if (fault instanceof NoAnswer) say(`no answer: ${fault.message}`);
  else {
    say(String(fault));
    throw fault;
  }
}
function stop() {
  hand.stop();
  if (runner.isBusy) runner.stop();
}

async function startRun(given = {}) {
  hand.close();
  const next = new Run(runner, {text: editor.text, settings: settings(), title: titleOf(), ...given});
  const isMade = await busy(async () => {
    await next.make();
    [run, madeText] = [next, next.text];
    await showRunFaults();
  });
  if (!isMade) return false;
  say(`run by seed ${run.settings.seed}`);
  if (tab === 'hand') tab = 'answer';
  await showTab(tab);
  if (matchMedia('(max-width: 820px)').matches) showSide('result');
  if (exercise?.goals.length) await checkGoals();
  return true;
}
/* A trap or a deadlock is explained beside its line as a fault is. */
async function showRunFaults() {
  if (run.code === 0 || run.code === 8) return;
  const blocks = faultsIn(await run.explained());
  if (blocks.length && editor.text === textFrom(run.text)) showFaults(blocks, '');
}
const textFrom = text => typeof text === 'string' ? text : textOf(text);
const titleOf = () => $('texts').selectedOptions[0]?.textContent ?? '';

// ---------------------------------------------------------------- tabs

let tabs = TABS;

/* A tab for each that the module's programs can fill. */
function makeTabs(programs) {
  tabs = TABS.filter(([name]) => name !== 'seeds' || programs.includes('sweep'));
  $('tabs').replaceChildren(...tabs.map(([name, label]) => element('button', {type: 'button', role: 'tab', id: `tab-${name}`, 'aria-controls': 'panel',
    onclick: () => showTab(name)}, label)));
  $('tabs').addEventListener('keydown', event => {
    const at = tabs.findIndex(([name]) => name === tab), step = {ArrowRight: 1, ArrowLeft: -1}[event.key];
    if (!step) return;
    event.preventDefault();
    showTab(tabs[(at + step + tabs.length) % tabs.length][0]);
    $(`tab-${tab}`).focus();
  });
}

let shownTurn = 0;
async function showTab(name, how = {}) {
  tab = tabs.some(([other]) => other === name) ? name : 'answer';
  name = tab;
  const turn = ++shownTurn;
  for (const [other] of tabs) {
    $(`tab-${other}`).setAttribute('aria-selected', String(other === name));
    $(`tab-${other}`).tabIndex = other === name ? 0 : -1;
  }
  $('panel').setAttribute('aria-labelledby', `tab-${name}`);
  $('panel').className = name;
  hand.showIn(null);
  if (name === 'hand') return showHand();
  if (!run) return void $('panel').replaceChildren(element('p', {class: 'dim'}, 'Run the text (Ctrl+Enter), or go by hand (Alt+H).'));
  const needsRun = !['outcomes', 'seeds', 'listing', 'answer'].includes(name);
  if (needsRun && run.refusal !== null) return void $('panel').replaceChildren(element('p', {}, badge(run), ' ', run.refusal));
  await busy(async () => {
    const parts = await PANELS[name](run, {template: kit.template, ...how});
    if (turn === shownTurn) $('panel').replaceChildren(...staleNote(), ...parts.filter(Boolean));
    say('');
  });
}
function staleNote() {
  return run && editor.text !== textFrom(madeText) ? [element('p', {class: 'note'}, 'The text has changed since this run.')] : [];
}

// ---------------------------------------------------------------- by hand

async function startHand(events = [], text = editor.text, sizes = settings()) {
  await busy(async () => {
    const code = await hand.open(text, sizes, events);
    if (code === 0) say('');
    else say({2: 'the text is refused: its faults are marked', 3: 'an event of the walk isn’t enabled', 8: 'out of memory'}[code] ?? `the call ended with ${code}`);
  });
  await showTab('hand');
  if (matchMedia('(max-width: 820px)').matches) showSide('result');
}
async function showHand() {
  if (hand.isOpen) return hand.showIn($('panel'));
  $('panel').replaceChildren(element('p', {class: 'dim'}, 'Open the machine of this text, and make its events one by one. ',
    element('button', {type: 'button', onclick: () => startHand()}, 'Begin')));
}

/* What is done with a walk: it is saved, replayed, shown as a page or judged. One that isn't over is led to its end by chance first. */
async function finishWalk(how) {
  if (how === 'save') return save(await hand.trace(), 'walk.trace', 'text/plain');
  const at = hand.made;
  if (!hand.isOver) await hand.chance(Infinity);
  const document = await hand.trace(), walked = hand.events;
  const next = new Run(runner, {text: editor.text, settings: settings(), document, title: 'a walk by hand'});
  await busy(async () => {
    await next.make();
    [run, madeText] = [next, next.text];
    if (how === 'judge') await judge();
    else say(at < hand.made ? `the walk has gone on by chance from event ${at}` : '');
  });
  if (how !== 'judge') await showTab(how === 'page' ? 'page' : 'answer', {at: Math.max(0, Math.min(at, walked.length ? hand.made : 0) - 1)});
}
async function judge() {
  const parts = (await run.claim()).map(bytesOf), claim = new Uint8Array(await new Blob(parts).arrayBuffer());
  const {bytes} = await runner.call('referee', ['--mode', 'diagnose'], claim);
  say(`the referee: ${textOf(bytes).trim().split('\n')[0]}`);
}

// ---------------------------------------------------------------- files and links

function save(content, name, type) {
  const link = element('a', {href: URL.createObjectURL(new Blob([content], {type})), download: name});
  document.body.append(link);
  link.click();
  link.remove();
}
async function saved(make, name, type) {
  if (!run || run.refusal !== null) await startRun();
  if (run && run.refusal === null) await busy(async () => { save(await make(), name, type); say(`saved ${name}`); });
}

async function openFile(file) {
  if (file.size > MOST_FILE) return say(`the file has more than ${MOST_FILE >> 20} MiB`);
  await openDocument(new Uint8Array(await file.arrayBuffer()));
}

/* Opens a text, or a trace as a walk by hand: as far as its event `at`, or to its end. */
async function openDocument(bytes, at = Infinity) {
  const text = textOf(bytes), trace = /^denovo-trace 1\nbanks (\d+) sets (\d+) ways (\d+) fuel (\d+)\nsource (\d+)\n/.exec(text);
  if (!trace) return openText({text});
  const [banks, sets, ways, fuel, length] = trace.slice(1).map(Number), from = bytesOf(trace[0]).length;
  const events = textOf(bytes.subarray(from + length)).split('\n').slice(2).filter(Boolean);
  openText({text: textOf(bytes.subarray(from, from + length)), settings: {banks, sets, ways, fuel}});
  await startHand(events.slice(0, at));
}

async function copyLink(more = {}) {
  const hash = await packed({text: editor.text, settings: settings(), tab, exercise, ...more}), address = location.href.split('#')[0] + '#' + hash;
  history.replaceState(null, '', '#' + hash);
  const field = element('textarea', {readonly: true, rows: 5, 'aria-label': 'Link'});
  field.value = address;
  const note = address.length > MOST_LINK ? `The link has ${address.length} letters; some programs cut so long a one.` : '';
  dialog('Link', [element('p', {}, 'This link has the text and the settings in it. ' + note), field,
    element('button', {value: 'close', onclick: () => navigator.clipboard?.writeText(address)}, 'Copy'), element('button', {value: 'close'}, 'Close')]);
  field.select();
}

async function readLink() {
  const given = await unpackedLink(location.hash);
  if (given) {
    $('texts').value = '';
    openText({...given, tab: given.tab === 'hand' ? null : given.tab});
    if (given.events.length) await startHand(given.events);
  }
  return Boolean(given);
}

function dialog(title, parts) {
  $('dialogTitle').textContent = title;
  $('dialogBody').replaceChildren(...parts);
  $('dialog').showModal();
}

function makeExercise() {
  const field = (label, name, more = {}) => element('label', {}, label, element(more.rows ? 'textarea' : 'input', {name, ...more}));
  const title = field('Title', 'title'), task = field('Task', 'task', {rows: 4}), locked = field('Locked lines, as 1-4, 9', 'locked');
  const wanted = field('Goals, one a line', 'goals', {rows: 4}), value = label => label.querySelector('input, textarea').value;
  const wrong = element('p', {class: 'bad', role: 'alert'});
  const make = event => {
    const lines = value(wanted).split('\n').map(it => it.trim()).filter(Boolean), bad = lines.find(it => !isGoal(it));
    if (bad) {
      event.preventDefault();
      wrong.textContent = `“${bad}” is no goal that the machine can check.`;
      return;
    }
    setExercise({title: value(title), task: value(task), locked: linesIn(value(locked)), goals: lines});
    copyLink();
  };
  if (exercise) for (const [label, text] of [[title, exercise.title], [task, exercise.task], [locked, exercise.locked.map(pair => pair.join('-')).join(', ')],
    [wanted, exercise.goals.join('\n')]]) label.querySelector('input, textarea').value = text;
  dialog('Make an exercise', [title, task, locked, wanted, element('p', {class: 'dim'}, 'Goals: ' + FORMS.join('; ') + '.'), wrong,
    element('button', {value: 'make', onclick: make}, 'Make it, with its link'), element('button', {value: 'close'}, 'Close')]);
}

const KEYS = [['Ctrl+Enter', 'run the text'], ['Alt+H', 'by hand'], ['Alt+1 .. Alt+9', 'a tab'], ['Alt+P', 'presenter: larger type'], ['Alt+G', 'the guide'],
  ['Escape', 'stop what runs; leave the editor'], ['By hand: 1 .. 9', 'the first events that may come, in the order of the machine'], ['n', 'one by chance'], ['m', 'only messages'],
  ['Backspace', 'take the last event back'], ['Ctrl+Z, Ctrl+Y', 'undo and redo in the text']];
const showKeys = () => dialog('Keys', [element('table', {}, KEYS.map(([key, what]) => element('tr', {}, element('th', {scope: 'row'}, key), element('td', {}, what)))),
  element('button', {value: 'close'}, 'Close')]);

// ---------------------------------------------------------------- guide and choice of texts

function textNamed(path) { return kit.texts.find(({name}) => name === path); }

async function chooseText(path) {
  const found = textNamed(path);
  if (!found) return;
  $('texts').value = path;
  await openDocument(bytesOf(found.text), found.at);
}
async function actOf({text, settings: given, tab: shown}) {
  if ($('texts').value !== text) chooseText(text);
  set(given);
  tab = shown;
  await startRun();
}
const toggleGuide = () => $('guide').hidden ? openGuide($('guides').value || 0) : closeGuide();
function openGuide(at) {
  $('guide').hidden = false;
  $('openGuide').setAttribute('aria-pressed', 'true');
  document.body.classList.add('guided');
  $('guides').value = at;
  showGuide($('guidePage'), kit.guides[at].page, actOf);
  if (matchMedia('(max-width: 820px)').matches) showSide('guide');
  editor.refresh();
}
function closeGuide() {
  $('guide').hidden = true;
  $('openGuide').setAttribute('aria-pressed', 'false');
  document.body.classList.remove('guided');
  if (document.body.dataset.side === 'guide') showSide('text');
  editor.refresh();
}
function fillChoices() {
  const groups = [...new Set(kit.texts.map(({group}) => group))], texts = group => kit.texts.filter(text => text.group === group);
  $('texts').replaceChildren(element('option', {value: '', hidden: true}, 'own text'), ...groups.map(group => element('optgroup', {label: group},
    texts(group).map(({name}) => element('option', {value: name}, name.split('/').pop())))));
  $('guides').replaceChildren(...kit.guides.map(({title}, at) => element('option', {value: at}, title)));
}

function togglePresenter() {
  const isOn = document.body.classList.toggle('present');
  $('presenter').setAttribute('aria-pressed', String(isOn));
  editor.refresh();
}

// ---------------------------------------------------------------- hands

function listen() {
  $('run').onclick = () => startRun();
  $('byHand').onclick = () => startHand();
  $('stop').onclick = stop;
  $('texts').onchange = () => chooseText($('texts').value);
  $('defaults').onclick = () => set(DEFAULTS);
  $('settings').onsubmit = event => {
    event.preventDefault();
    startRun();
  };
  $('presenter').onclick = togglePresenter;
  $('openGuide').onclick = toggleGuide;
  $('closeGuide').onclick = closeGuide;
  $('guides').onchange = () => openGuide($('guides').value);
  for (const button of document.querySelectorAll('.sides button')) button.onclick = () => button.dataset.side === 'guide' ? openGuide($('guides').value || 0) : showSide(button.dataset.side);
  const menu = {openFile: () => $('file').click(), saveText: () => save(editor.text, 'text.s', 'text/plain'), makeLink: () => copyLink(), makeExercise, keys: showKeys,
    saveTrace: () => saved(async () => run.document, 'run.trace', 'text/plain'), savePage: () => saved(() => run.page(kit.template), 'run.html', 'text/html'),
    saveChart: () => saved(() => run.view('chart', ['--columns', 'used']), 'run.svg', 'image/svg+xml')};
  for (const [id, act] of Object.entries(menu)) $(id).onclick = () => { $('more').open = false; act(); };
  $('file').onchange = () => { if ($('file').files[0]) openFile($('file').files[0]); $('file').value = ''; };
  $('panel').addEventListener('change', ({target}) => {
    if (target.dataset.seeds !== undefined) showTab('seeds', {range: target.value});
    if (target.dataset.first !== undefined) showTab(target.dataset.first, {first: Number(target.value)});
  });
  addEventListener('hashchange', readLink);
  addEventListener('keydown', pressKey);
}
function pressKey(event) {
  const {key, target} = event, isTyping = /INPUT|SELECT|TEXTAREA/.test(target.tagName);
  const alt = {h: () => startHand(), p: togglePresenter, g: toggleGuide};
  let act = null;
  if (key === 'Enter' && (event.ctrlKey || event.metaKey)) act = () => startRun();
  else if (key === 'Escape' && !$('stop').hidden) act = stop;
  else if (key === 'Escape' && target.closest('#editor')) act = () => $('run').focus();
  else if (event.altKey && /^[1-9]$/.test(key)) act = () => { if (tabs[Number(key) - 1]) showTab(tabs[Number(key) - 1][0]); };
  else if (event.altKey && alt[key.toLowerCase()]) act = alt[key.toLowerCase()];
  else if (tab === 'hand' && !isTyping && !event.ctrlKey && !event.metaKey && !event.altKey && !$('dialog').open && hand.press(key)) act = () => {};
  if (!act) return;
  event.preventDefault();
  act();
}

async function start() {
  editor = new Editor($('editor'), {changed: textChanged, applyFix});
  const {programs} = await checker.ask('programs');
  makeTabs(programs);
  listen();
  kit = await assets();
  fillChoices();
  if (!await readLink()) chooseText('examples/stale-copy.s');
  document.body.dataset.ready = 'yes';
}
start().catch(fault => {
  say(fault instanceof WebAssembly.CompileError ? WHY_NOT : String(fault));
  throw fault;
});
