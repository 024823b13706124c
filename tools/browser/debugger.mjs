// The contexts, the registers, and the machine one bytecode at a time.
import {ask} from './asking.mjs';
import {objectLink, row, valueOf} from './classes.mjs';
import {element} from './transcript.mjs';
import {go} from './places.mjs';

const at = (id) => document.getElementById(id);
const SHOWN = 300; // rows of the trace
let attempt, key, waiting;

function fill(id, rows) {
  at(id).tBodies[0].replaceChildren(...rows);
}

async function showStack() {
  const {frames, registers, first} = await ask('stack');
  const options = frames.map(({context, name}) => element('option', `${name} @${context}`, {value: context}));
  at('frames').replaceChildren(...options);
  fill('registers', registers.map((it) => row([it.name, valueOf(it)])));
  at('frames').selectedIndex = options.length ? 0 : -1;
  if (first) fillFrame(first);
}

const showFrame = async () => fillFrame(await ask('frame', {id: Number(at('frames').value)}));

function fillFrame(told) {
  key = told.key;
  at('frame').caption.textContent = `${told.name}, next place ${told.place}`;
  fill('frame', told.fields.map((it) => row([it.name, valueOf(it)])));
}

const stepRow = (it) => row([objectLink(it.context, `@${it.context}`), it.name, it.place, it.bytes.join(' '), it.meaning, it.rule]);

async function step(steps) {
  const {rows, end} = await ask('trace', {steps});
  at('trace').tBodies[0].prepend(...rows.reverse().map(stepRow));
  while (at('trace').tBodies[0].rows.length > SHOWN) at('trace').tBodies[0].deleteRow(-1);
  at('trace-end').textContent = end;
  await showStack();
}

export const enter = showStack;

export function changed(state) {
  clearTimeout(waiting);
  if (!state.going) waiting = setTimeout(() => !document.hidden && showStack().catch(() => {}), 300);
}

export function begin(attempts) {
  attempt = attempts;
  at('look').onclick = () => attempt(showStack);
  at('frames').onchange = () => attempt(showFrame);
  at('show-method').onclick = () => key && go({view: 'classes', class: key.class, side: key.meta ? 'class' : undefined, method: key.selector});
  for (const button of document.querySelectorAll('.step')) {
    button.onclick = () => attempt(() => step(Number(button.dataset.steps)));
  }
}

