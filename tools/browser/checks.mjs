// What of the page's script is no page, checked in Node: says a line for each thing that is wrong.
import {buttonOf, characterOf, pixelAt, pixelsOf, wordOf} from './drawing.mjs';
import {hashOf, placeOf} from './places.mjs';
import {around} from './transcript.mjs';

let isWrong = false;

function wanted(got, expected) {
  if (JSON.stringify(got) === JSON.stringify(expected)) return;
  isWrong = true;
  console.log(`${JSON.stringify(got)}, wanted ${JSON.stringify(expected)}`);
}

const bits = (display) => [...pixelsOf(display)].map((it) => it === 0xff000000 ? 1 : it === 0xffffffff ? 0 : 2).join('');

wanted(bits({width: 5, height: 2, rows: 'a8007000'}), '1010101110');
wanted(bits({width: 17, height: 1, rows: '80018000'}), '10000000000000011');
wanted(bits({width: 0, height: 3, rows: ''}), '');
wanted(pixelAt({x: 7.9, y: 8}, 4, {width: 32, height: 5}), {x: 1, y: 2});
wanted(pixelAt({x: -3, y: 500}, 2, {width: 32, height: 5}), {x: 0, y: 4});
wanted(characterOf({key: 'a', ctrlKey: false}), 97);
wanted(characterOf({key: 'C', ctrlKey: true}), 3);
wanted(characterOf({key: 'Enter', ctrlKey: false}), 13);
wanted([characterOf({key: 'Shift'}), characterOf({key: 'F1'}), characterOf({key: '€'})], [undefined, undefined, undefined]);
wanted([wordOf(97, true), wordOf(97, false), buttonOf(0), buttonOf(5)], [12385, 16481, 130, undefined]);
wanted(placeOf('#view=objects&object=62'), {view: 'objects', object: '62'});
wanted(placeOf(''), {view: 'classes'});
wanted(placeOf('#view=zork&x=1&method=gcd%3A'), {view: 'classes', method: 'gcd:'});
for (const method of ['gcd:', '&', '+', '=', '#', '//', '\\\\', '%41']) {
  wanted(placeOf(hashOf({view: 'classes', class: 'Integer', side: 'class', method})), {view: 'classes', class: 'Integer', side: 'class', method});
}
wanted(around('doIt\n\t^foo bar', 8), ['\t^', 'f', 'oo bar']);
wanted(around('x', 2), ['x', '', '']);
wanted(around('a\nb\nc', 2), ['a', '', '']);
wanted(around('a\nb\nc', 3), ['', 'b', '']);
process.exitCode = isWrong ? 1 : 0;
