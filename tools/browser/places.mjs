// Where one is in the page, as it stands behind the `#` of the address: so a reload, a bookmark and the browser's way back know it.

export const VIEWS = ['classes', 'display', 'debugger', 'objects'];
const NAMES = ['class', 'side', 'method', 'object'];

export function placeOf(hash) {
  const found = new URLSearchParams(hash.replace(/^#/, ''));
  const place = {view: VIEWS.includes(found.get('view')) ? found.get('view') : VIEWS[0]};
  for (const name of NAMES) {
    if (found.has(name)) place[name] = found.get(name);
  }
  return place;
}

export function hashOf(place) {
  const words = new URLSearchParams();
  for (const name of ['view', ...NAMES]) {
    if (place[name] !== undefined && place[name] !== '') words.set(name, place[name]);
  }
  return '#' + words.toString();
}

export const here = () => placeOf(location.hash);

// Goes to a place that differs from the one where one is in what is given.
export function go(change) {
  location.hash = hashOf({...here(), ...change});
}

// Does the same, without a step for the browser's way back.
export function settle(change) {
  const hash = hashOf({...here(), ...change});
  if (hash !== location.hash) history.replaceState(null, '', hash);
}
