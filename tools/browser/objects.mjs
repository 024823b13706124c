// Objects by their pointers, with links to the class and to what the fields name.
import {ask} from './asking.mjs';
import {objectLink, row, valueOf} from './classes.mjs';
import {go, here} from './places.mjs';

const at = (id) => document.getElementById(id);
let attempt, next = 0;

function showHead(told) {
  at('object-name').textContent = `@${told.id} ${told.text}`;
  const counts = [told.fieldCount && `${told.fieldCount} fields`, told.unitCount && `${told.unitCount} ${told.kind === 'Words' ? 'words' : 'bytes'}`];
  at('object-line').replaceChildren('of class ', objectLink(told.class.id, `@${told.class.id} ${told.class.text}`), `, kind ${told.kind}, `,
    counts.filter(Boolean).join(', ') || 'empty');
  at('object-bytes').textContent = '';
  at('fields').tBodies[0].replaceChildren();
}

async function showFrom(pointer, from) {
  at('more-fields').hidden = true;
  const told = await ask('object', {id: pointer, from});
  if (from === 0) showHead(told);
  at('object-bytes').textContent += told.kind === 'Bytes' ? told.bytes : told.units.length ? `${told.units.join(' ')} ` : '';
  const rows = told.fields.map((it, k) => row([told.from + k, valueOf(it)]));
  at('fields').tBodies[0].append(...rows);
  next = from + Math.max(told.fields.length, told.units.length);
  at('more-fields').hidden = next >= Math.max(told.fieldCount, told.unitCount);
}

async function showObject(place) {
  if (place.object === undefined) return;
  at('pointer').value = place.object;
  await showFrom(Number(place.object), 0);
}

export const enter = showObject;

// An object stays as it was shown: `Show` looks again.
export function changed() {}

export function begin(attempts) {
  attempt = attempts;
  at('object-form').onsubmit = (event) => {
    event.preventDefault();
    const pointer = at('pointer').value;
    if (here().object === pointer) attempt(() => showObject(here()));
    else go({object: pointer});
  };
  at('more-fields').onclick = () => attempt(() => showFrom(Number(here().object), next));
}
