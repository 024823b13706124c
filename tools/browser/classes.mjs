// Classes, methods, the text of each, its bytecodes, and who sends it.
import {ask} from './asking.mjs';
import {go, here, settle} from './places.mjs';
import {element, marked} from './transcript.mjs';

const at = (id) => document.getElementById(id);
const UNTIL = 1000000;
const TEMPLATE = 'selector\n\t"What it does."\n\t^self';
let attempt, shown = '', edited = false, waiting;

const keyOf = (place) => ({class: place.class, meta: place.side === 'class', selector: place.method});
const pathOf = (place) => JSON.stringify([place.class, place.side, place.method]);

// A button that goes to a method.
export function methodLink({class: name, meta, selector}, text) {
  const made = element('button', text ?? `${name}${meta ? ' class' : ''} ${selector}`, {type: 'button', class: 'link'});
  made.onclick = () => go({view: 'classes', class: name, side: meta ? 'class' : undefined, method: selector});
  return made;
}

function option(value, isChosen) {
  const made = element('option', value, {value});
  made.selected = isChosen;
  return made;
}

async function showClasses(place) {
  const {classes} = await ask('classes');
  const list = at('class-list');
  // (a list that is the same keeps its place)
  if (classes.join() === [...list.options].map((it) => it.value).join()) return;
  list.replaceChildren(...classes.map((name) => option(name, name === place.class)));
}

async function showLists(place) {
  await showClasses(place);
  await showMethods(place);
}

async function showMethods(place) {
  if (!place.class) return;
  const {groups, above, pointer, variables} = await ask('methods', keyOf(place));
  if (here().class !== place.class || here().side !== place.side) return;
  at('method-list').replaceChildren(...groups.map((group) => methodGroup(group, place)));
  at('class-line').replaceChildren(objectLink(pointer, `${place.class}${place.side ? ' class' : ''}`), ` below ${above.join(', ') || 'nil'}`);
  if (variables.length) at('class-line').append(`; variables ${variables.join(' ')}`);
}

function methodGroup({category, selectors}, place) {
  const made = element('optgroup', undefined, {label: category || 'without a category'});
  made.append(...selectors.map((selector) => option(selector, selector === place.method)));
  return made;
}

// A button that goes to an object.
export function objectLink(pointer, text) {
  const made = element('button', text, {type: 'button', class: 'link', title: `object ${pointer}`});
  made.onclick = () => go({view: 'objects', object: pointer});
  return made;
}

// A value: a number, or a link to the object.
export const valueOf = ({id, text}) => id === undefined ? text : objectLink(id, `@${id} ${text}`);

async function showMethod(place) {
  const [text, code] = await Promise.all([ask('source', keyOf(place)), ask('bytecodes', keyOf(place))]);
  if (shown !== pathOf(place)) return;
  at('method-text').value = text.text ?? '';
  at('category').value = text.category || 'as yet unclassified';
  at('origin').textContent = text.versions ? `${text.origin}, ${text.versions} time${text.versions > 1 ? 's' : ''}` : text.origin;
  at('sent').value = place.method;
  edited = false;
  refuse();
  showCodes(code, place);
}

function showCodes({codes, pointer}, place) {
  const table = at('codes');
  table.caption.replaceChildren(`${place.class}${place.side ? ' class' : ''}>>${place.method} `, pointer ? objectLink(pointer, `@${pointer}`) : '');
  table.tBodies[0].replaceChildren(...codes.map((it) => row([it.place, it.bytes.join(' '), it.meaning, it.rule])));
}

export function row(cells) {
  const made = element('tr');
  for (const cell of cells) {
    const place = element('td');
    place.append(cell);
    made.append(place);
  }
  return made;
}

function clearMethod() {
  at('method-text').value = '';
  at('origin').textContent = '';
  at('codes').tBodies[0].replaceChildren();
  at('codes').caption.replaceChildren();
  shown = '';
}

// Shows what the address names, of which the text stays where it was edited.
async function showAll(place) {
  await showMethods(place);
  if (!place.method) return clearMethod();
  if (edited && shown === pathOf(place)) return undefined;
  shown = pathOf(place);
  return showMethod(place);
}

function refuse(refused) {
  at('edit-refused').hidden = !refused;
  if (!refused) return;
  at('edit-refused').replaceChildren(`${refused.line}: ${refused.meaning}`);
  if (!refused.place) return;
  at('edit-refused').append(marked(refused.source, refused.place));
  select(refused.source, refused.place);
}

// Marks the place in the text as it was typed, which may have blanks before what was sent.
function select(source, place) {
  const text = at('method-text');
  const first = Math.max(text.value.indexOf(source.split('\n')[0]), 0) + place - 1;
  text.focus();
  text.setSelectionRange(first, first + 1);
}

async function define(event) {
  event.preventDefault();
  const place = here();
  await attempt(async () => {
    const told = await ask('define', {...keyOf(place), category: at('category').value, text: at('method-text').value});
    refuse(told.refused);
    if (!told.accepted) return;
    edited = false;
    settle({method: told.accepted.split(' ').pop()});
    await showAll(here());
  });
}

function newMethod() {
  settle({method: undefined});
  clearMethod();
  at('method-text').value = TEMPLATE;
  at('method-text').focus();
  edited = true;
}

async function undo() {
  await attempt(async () => {
    const told = await ask('undo', keyOf(here()));
    edited = false;
    refuse(told.refused);
    await showAll(here());
  });
}

function runUntil() {
  attempt(async () => {
    await ask('until', {...keyOf(here()), cycles: UNTIL});
    go({view: 'debugger'});
  });
}

async function showSenders(event) {
  event.preventDefault();
  await attempt(async () => {
    const {senders} = await ask('senders', {selector: at('sent').value});
    const lines = senders.map((key) => element('li')).map((line, k) => (line.append(methodLink(senders[k])), line));
    at('senders').replaceChildren(...(lines.length ? lines : [element('li', 'no method sends it')]));
  });
}

export async function enter(place) {
  await showClasses(place);
  at('class-list').value = place.class ?? '';
  at(place.side === 'class' ? 'class-side' : 'instance-side').checked = true;
  await showAll(place);
}

// Something was done: classes and methods may be others.
export function changed() {
  clearTimeout(waiting);
  waiting = setTimeout(() => here().view === 'classes' && !document.hidden && showLists(here()).catch(() => {}), 500);
}

export function begin(attempts) {
  attempt = attempts;
  at('class-list').onchange = () => go({class: at('class-list').value, method: undefined});
  at('instance-side').onchange = () => go({side: undefined, method: undefined});
  at('class-side').onchange = () => go({side: 'class', method: undefined});
  at('method-list').onchange = () => go({method: at('method-list').value});
  at('method-text').oninput = () => { edited = true; };
  at('method-text').onkeydown = (event) => {
    if (event.key !== 's' || !(event.ctrlKey || event.metaKey)) return;
    event.preventDefault();
    at('editor').requestSubmit();
  };
  at('editor').onsubmit = define;
  at('new-method').onclick = newMethod;
  at('undo').onclick = undo;
  at('until').onclick = runUntil;
  at('senders-form').onsubmit = showSenders;
}
