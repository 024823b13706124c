// The display, drawn from the machine's Form, and mouse and keys in it, where one switches that on.
import {ask} from './asking.mjs';
import {buttonOf, characterOf, pixelAt, pixelsOf, wordOf} from './drawing.mjs';

const at = (id) => document.getElementById(id);
const BETWEEN = 100, MOVES = 50; // milliseconds between two pictures, and between two places of the mouse
let attempt, form = {width: 0, height: 0}, isDrawing = false, place, waiting, telling = Promise.resolve();

const scale = () => Number(at('scale').value);
const devices = () => at('devices').value;

function paint(told) {
  const begun = performance.now();
  const screen = at('screen');
  screen.width = Math.max(told.width, 1);
  screen.height = Math.max(told.height, 1);
  if (told.width && told.height) {
    const image = new ImageData(told.width, told.height);
    new Uint32Array(image.data.buffer).set(pixelsOf(told));
    screen.getContext('2d').putImageData(image, 0, 0);
  }
  form = told;
  zoom();
  screen.dataset.milliseconds = (performance.now() - begun).toFixed(1);
}

function zoom() {
  at('screen').style.width = `${Math.max(form.width, 1) * scale()}px`;
  at('screen').style.height = `${Math.max(form.height, 1) * scale()}px`;
}

async function draw() {
  if (isDrawing) return;
  isDrawing = true;
  try {
    paint(await ask('display'));
    at('display-line').textContent = form.none ?? `${form.width} by ${form.height} pixels`;
  } catch (reason) {
    at('display-line').textContent = reason.message;
  } finally {
    setTimeout(() => { isDrawing = false; }, BETWEEN);
  }
}

export const enter = draw;

export function changed() {
  clearTimeout(waiting);
  if (at('follow-display').checked) isDrawing ? waiting = setTimeout(changed, BETWEEN) : draw();
}

// Tells the machine something, behind all that it is to be told before.
function tell(what, given) {
  telling = telling.then(() => attempt(() => ask(what, given)));
}

function tellPlace() {
  if (place) tell('mouse', place);
  place = undefined;
}

const placeOf = (event) => pixelAt({x: event.offsetX, y: event.offsetY}, scale(), form);

function move(event) {
  if (devices() === 'off') return;
  if (place === undefined) setTimeout(tellPlace, MOVES);
  place = placeOf(event);
}

function press(event, isDown) {
  const screen = at('screen');
  if (isDown) screen.focus();
  const button = buttonOf(event.button);
  if (devices() !== 'book' || button === undefined) return;
  event.preventDefault();
  if (isDown) screen.setPointerCapture(event.pointerId); // so that it is told here where the button goes up
  place = placeOf(event);
  tellPlace();
  tell('input', {word: wordOf(button, isDown)});
}

function key(event, isDown) {
  if (event.key === 'Escape') return at('screen').blur();
  const code = characterOf(event);
  if (devices() === 'off' || code === undefined) return undefined;
  event.preventDefault();
  if (devices() === 'book') tell('input', {word: wordOf(code, isDown)});
  else if (isDown) tell('input', {word: code});
  return undefined;
}

export function begin(attempts) {
  attempt = attempts;
  const screen = at('screen');
  at('draw').onclick = draw;
  at('scale').onchange = zoom;
  screen.onpointermove = move;
  screen.onpointerdown = (event) => press(event, true);
  screen.onpointerup = (event) => press(event, false);
  screen.oncontextmenu = (event) => devices() === 'book' && event.preventDefault();
  screen.onkeydown = (event) => key(event, true);
  screen.onkeyup = (event) => key(event, false);
}
