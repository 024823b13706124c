// The page: the workspace, the counts, and the four views beside it.
import {ask, listen} from './asking.mjs';
import {VIEWS, go, here} from './places.mjs';
import {show} from './transcript.mjs';
import * as classes from './classes.mjs';
import * as display from './display.mjs';
import * as debuggerView from './debugger.mjs';
import * as objects from './objects.mjs';

const views = {classes, display, debugger: debuggerView, objects};
const at = (id) => document.getElementById(id);
const DRAFT = `st80 ${location.pathname}`;
const WITHOUT_END = 1000000000000;
let state = {}, typed = [], back = 0;

// Says why something wasn't done.
export function notice(reason) {
  at('notice').textContent = reason ? reason.message : '';
  at('notice').hidden = !reason;
  if (reason && reason.name !== 'Error') console.error(reason);
}

// Does something, and says why where it is refused.
export async function attempt(deed) {
  try {
    notice();
    return await deed();
  } catch (reason) {
    notice(reason);
    return undefined;
  }
}

// The workspace

async function doIt(event) {
  event.preventDefault();
  const text = at('text').value;
  if (!text.trim()) return;
  await attempt(async () => {
    const told = await send(text);
    if (told.refused) return;
    typed.push(text);
    back = typed.length;
    at('text').value = '';
    keepDraft();
  });
}

const send = (text) => text.startsWith('!') ? ask('follow', {text}) : text.startsWith(':') ? ask('follow', {text: text.slice(1)}) : ask('evaluate', {text});

function keepDraft() {
  sessionStorage.setItem(DRAFT, JSON.stringify({text: at('text').value, typed: typed.slice(-100)}));
}

function bringBackDraft() {
  const draft = JSON.parse(sessionStorage.getItem(DRAFT) || '{}');
  at('text').value = draft.text || '';
  typed = draft.typed || [];
  back = typed.length;
}

// Brings back what was typed before, or after.
function bringBack(step) {
  const next = back + step;
  if (next < 0 || next > typed.length) return;
  back = next;
  at('text').value = typed[back] ?? '';
}

function promptKey(event) {
  if (!event.ctrlKey && !event.metaKey) return;
  if (event.key === 'Enter') at('prompt').requestSubmit();
  else if (event.key === 'ArrowUp') bringBack(-1);
  else if (event.key === 'ArrowDown') bringBack(1);
  else return;
  event.preventDefault();
}

function runSome(event) {
  event.preventDefault();
  attempt(() => ask('run', {cycles: at('bytecodes-to-run').valueAsNumber}));
}

// The state

function standing() {
  if (!state.open) return 'not open';
  if (state.dead) return `dead: ${state.dead}`;
  if (state.going) return 'running';
  return state.unfinished ? 'stopped in an evaluation' : 'ready';
}

const counted = (number) => number === undefined ? '' : number.toLocaleString('en');

function showState() {
  at('store').textContent = state.store;
  at('standing').textContent = standing();
  at('cycles').textContent = counted(state.cycles);
  at('free-objects').textContent = state.used && counted(state.room[0] - state.used[0]);
  at('free-words').textContent = state.used && counted(state.room[1] - state.used[1]);
  at('ended').hidden = !state.ended && !state.dead;
  at('ended-why').textContent = state.ended || (state.dead ? `the machine is dead: ${state.dead}; the store is as it was kept last` : '');
}

function told(message) {
  const before = state;
  state = message.state;
  at('notice').hidden = at('notice').hidden || at('notice').dataset.lost === 'yes';
  at('notice').dataset.lost = '';
  show(at('transcript'), message.entries);
  showState();
  if (state.cycles !== before.cycles || state.changes !== before.changes) views[here().view].changed(state);
}

function lost(isForGood) {
  notice(new Error(isForGood ? 'The server is gone, or too many windows look: reload, or begin it again with tools/page, and open the address that it prints.' : 'The server does not answer; the page asks again.'));
  at('notice').dataset.lost = 'yes';
}

// The views

function showView() {
  const {view} = here();
  for (const name of VIEWS) {
    at(name).hidden = name !== view;
    at(`tab-${name}`).setAttribute('aria-selected', name === view);
    at(`tab-${name}`).tabIndex = name === view ? 0 : -1;
  }
  attempt(() => views[view].enter(here()));
}

function tabKey(event) {
  const step = {ArrowRight: 1, ArrowLeft: -1}[event.key];
  if (!step) return;
  const view = VIEWS[(VIEWS.indexOf(here().view) + step + VIEWS.length) % VIEWS.length];
  go({view});
  at(`tab-${view}`).focus();
}

function begin() {
  bringBackDraft();
  at('prompt').onsubmit = doIt;
  at('text').onkeydown = promptKey;
  at('text').oninput = keepDraft;
  at('running').onsubmit = runSome;
  at('run-on').onclick = () => attempt(() => ask('run', {cycles: WITHOUT_END}));
  for (const [id, what] of [['stop', 'stop'], ['interrupt', 'interrupt'], ['snapshot', 'snapshot'], ['open-again', 'open']]) {
    at(id).onclick = () => attempt(() => ask(what));
  }
  for (const view of VIEWS) {
    at(`tab-${view}`).onclick = () => go({view});
    at(`tab-${view}`).onkeydown = tabKey;
    views[view].begin(attempt);
  }
  window.onhashchange = showView;
  listen(told, lost);
  showView();
}

begin();
