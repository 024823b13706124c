// A display's pixels: rows of words as hexadecimal digits, the highest bit the leftmost pixel, and 1 is black.

const BLACK = 0xff000000, WHITE = 0xffffffff;

// The pixels, row by row, each as 32 bits of a canvas.
export function pixelsOf({width, height, rows}) {
  const digits = 4 * Math.ceil(width / 16);
  const pixels = new Uint32Array(width * height);
  for (let y = 0; y < height; y++) fillRow(pixels, y * width, width, rows, y * digits);
  return pixels;
}

// The value of a hexadecimal digit, by its code: 0 to 9, or a to f.
const digitOf = (code) => code < 58 ? code - 48 : code - 87;

function fillRow(pixels, at, width, rows, from) {
  for (let x = 0; x < width; x += 4) {
    const four = digitOf(rows.charCodeAt(from + x / 4));
    for (let k = 0; k < 4 && x + k < width; k++) pixels[at + x + k] = (four >> (3 - k)) & 1 ? BLACK : WHITE;
  }
}

// The pixel of a display that a place in its picture is, where each is `scale` wide.
export function pixelAt({x, y}, scale, {width, height}) {
  const within = (place, size) => Math.min(Math.max(Math.floor(place / scale), 0), Math.max(size - 1, 0));
  return {x: within(x, width), y: within(y, height)};
}

const CODES = {Enter: 13, Backspace: 8, Delete: 127};

// The code of the character that a key is, or none. Ctrl with a letter is a control character, as Ctrl-C is 3.
export function characterOf({key, ctrlKey}) {
  if (key in CODES) return CODES[key];
  if (key.length !== 1 || key.charCodeAt(0) > 255) return undefined;
  const code = key.charCodeAt(0);
  return ctrlKey && /[a-z]/i.test(key) ? code & 31 : code;
}

// The words of the book for a key or a button that goes down or up: the kind in the upper 4 bits, the code below.
export const wordOf = (code, isDown) => (isDown ? 3 : 4) * 4096 + code;

// The book's codes of the mouse's buttons: red, yellow and blue, from left to right.
export const buttonOf = (button) => [130, 129, 128][button];
