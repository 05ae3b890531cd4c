/**
 * One message, word by word and bit by bit.
 */
import { el, rowOf, tableOf } from './dom.js';
import { endingOf, placeOf, toneOf } from './rows.js';
import { fieldsOf } from './words.js';

/** @param {HTMLElement} place @param {import('./rows.js').Row|null} row */
export function showDetails(place, row) {
  const empty = el('p', { class: 'empty' }, 'Choose a message to see its words bit by bit. Arrow keys move along the list.');
  place.replaceChildren(...(row ? partsOf(row) : [empty]));
}

/** @param {import('./rows.js').Row} row */
function* partsOf(row) {
  const told = `Message ${row.number}, bus ${row.bus}: ${row.kind} ${row.address} ${placeOf(row)} ${row.words}`.trimEnd();
  const head = el('h3', {}, told, el('small', {}, ` line ${row.line}`));
  yield el('div', { class: 'title' }, head, el('p', { class: `remark ${toneOf(row)}` }, endingOf(row)));
  yield wordOf('Command', row.command, 'command', '');
  if (row.transmitter) yield wordOf('Command to the transmitter', row.transmitter, 'command', '');
  yield* replyOf(row, '');
  if (!row.other) return;
  yield el('h4', {}, `Terminal 2: ${row.other.ended ? endingOf(row.other) : 'no message'}`);
  yield* replyOf(row.other, ', terminal 2');
}

/** @param {import('./rows.js').Message} it @param {string} whose */
function* replyOf(it, whose) {
  if (it.status) yield wordOf(`Status${whose}`, it.status, 'status', it.bits);
  if (it.data) yield wordsOf(`Data words${whose}`, it.data);
  if (it.handed) yield el('p', { class: 'handed' }, el('b', {}, `Handed over${whose}: `), it.handed);
}

/** @param {string} name @param {string} word four hexadecimal digits @param {'command'|'status'} kind @param {string} told */
function wordOf(name, word, kind, told) {
  const bits = parseInt(word, 16), fields = fieldsOf(bits, kind), label = fields.map((it) => `${it.name} ${it.value}`).join(', ');
  const strip = el('div', { class: 'bits', role: 'img', 'aria-label': label }, ...fields.map((it) => fieldOf(it, bits, kind)));
  return el('section', { class: 'word' }, el('h4', {}, name, ' ', el('code', {}, word), el('small', {}, ` ${told}`)), strip);
}

/** @param {import('./words.js').Field} it @param {number} bits @param {'command'|'status'} kind */
function fieldOf(it, bits, kind) {
  const size = it.from - it.to + 1, isSingle = size === 1, isUpright = isSingle && kind === 'status';
  const digits = Array.from({ length: size }, (_, n) => {
    const at = it.from - n, bit = (bits >> at) & 1;
    return el('span', { class: bit ? 'one' : '', title: `bit ${at}` }, String(bit));
  });
  const tone = ['field', it.isOn ? 'on' : '', isSingle ? 'single' : '', isUpright ? 'upright' : ''].join(' ');
  return el('div', { class: tone, style: `flex:${size} 0 auto`, title: `${it.name}: ${it.value}` },
    el('div', { class: 'digits' }, ...digits), el('div', { class: 'name' }, it.name),
    isUpright ? null : el('div', { class: 'value' }, it.value));
}

/** @param {string} name @param {string} data words with a space between two, and how many are left out */
function wordsOf(name, data) {
  const [, digits, more] = /^((?: ?[0-9a-f]{4})*)(.*)$/.exec(data) ?? [];
  const rows = digits.split(' ').map((word, n) => {
    const bits = parseInt(word, 16), binary = bits.toString(2).padStart(16, '0').replace(/(.{4})(?=.)/g, '$1 ');
    return rowOf('td', [String(n + 1), el('code', {}, word), el('code', {}, binary), String(bits), String((bits << 16) >> 16)]);
  });
  return el('section', { class: 'word' }, el('h4', {}, `${name} (${rows.length}${more})`),
    tableOf(['No', 'hex', 'binary', 'unsigned', 'signed'], rows, 'datas'));
}
