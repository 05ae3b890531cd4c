/**
 * The same for paper: the terminal, the messages, and the script with its answers.
 */
import { SUBADDRESSES } from './canon.js';
import { el, rowOf, tableOf } from './dom.js';
import { HEADS, cellsOf, statusOf } from './list.js';
import { writeRanges } from './ranges.js';
import { endingOf, toneOf } from './rows.js';
import { MODES, has, hex4, hexWords } from './words.js';

const PRINTED = 2000; // messages and lines at most

/** @param {import('./canon.js').Terminal} t @param {string} name */
function printedTerminal(t, name) {
  const codes = (/** @type {number} */ mask) =>
    MODES.filter(([code]) => has(mask, code)).map((row) => `${row[0]} ${row[2]}`).join(', ') || 'none';
  const facts = {
    address: String(t.address), broadcast: t.broadcast ? 'heard' : 'not heard', wraparound: t.wrap ? String(t.wrap) : 'none',
    'vector word': hex4(t.vector), 'BIT word': hex4(t.bit), 'bus control': t.accept ? 'accepted' : 'not accepted',
  };
  const rows = SUBADDRESSES.flatMap((sa) => {
    const counts = [t.receive[sa], t.transmit[sa], t.broadcast ? t.heard[sa] : 0].map((it) => writeRanges(it, 1));
    return counts.join('') ? [rowOf('td', [String(sa), ...counts.map((it) => it || '–'), hexWords(t.initial[sa])], 'm')] : [];
  });
  return [
    el('h2', {}, name), el('dl', {}, ...Object.entries(facts).flatMap(([key, value]) => [el('dt', {}, key), el('dd', {}, value)])),
    el('p', {}, `Mode codes: ${codes(t.ownMode)}${t.broadcast ? `. By broadcast: ${codes(t.allMode)}` : ''}.`),
    tableOf(['SA', 'receive', 'transmit', 'broadcast receive', 'words at power-up'], rows),
    rows.length ? '' : el('p', {}, 'No subaddress is in use.'),
  ];
}

/** @param {import('./rows.js').Row} row */
function printedMessage(row) {
  const told = (/** @type {(it: import('./rows.js').Message) => string} */ of) =>
    of(row) + (row.other && of(row.other) !== of(row) ? ` ≠ ${of(row.other) || 'none'}` : '');
  return rowOf('td', [...cellsOf(row), told(endingOf), told((it) => it.data), told(statusOf), told((it) => it.handed)], toneOf(row));
}

/** @param {HTMLElement} place @param {import('./canon.js').Terminal[]} terminals @param {string} verdict
 * @param {import('./rows.js').Row[]} rows @param {string[]} lines @param {string[]} answers @param {string[]} others */
export function drawPaper(place, terminals, verdict, rows, lines, answers, others) {
  const more = (/** @type {number} */ count) => (count > PRINTED ? [el('p', {}, `… and ${count - PRINTED} more`)] : []);
  const line = (/** @type {string} */ text, /** @type {number} */ n) => {
    const one = answers[n] ?? '', other = others[n] ?? '', apart = other === one ? '' : ` ≠ ${other || 'nothing'}`;
    return el('div', {}, el('i', {}, String(n + 1)), el('span', {}, text), el('b', {}, one + apart));
  };
  place.replaceChildren(
    ...terminals.flatMap((t, n) => printedTerminal(t, terminals.length > 1 ? `Terminal ${n + 1}` : 'Terminal')),
    el('p', {}, verdict),
    el('h2', {}, `Messages (${rows.length})`), tableOf(HEADS, rows.slice(0, PRINTED).map(printedMessage)), ...more(rows.length),
    el('h2', {}, `Script (${lines.length} lines) with its answers`),
    el('div', { class: 'cols' }, ...lines.slice(0, PRINTED).map(line)), ...more(lines.length),
  );
}
