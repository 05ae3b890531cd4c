/**
 * A terminal as a form has it, and its canonical text.
 * @typedef {{address: number, broadcast: boolean, wrap: number, accept: boolean, vector: number, bit: number,
 *   receive: number[], transmit: number[], heard: number[], ownMode: number, allMode: number, initial: number[][]}} Terminal
 * The masks of receive, transmit and heard (broadcast) are at the subaddress, 1 to 30; entry 0 is not used.
 */
import { readWords } from './ranges.js';
import { has, hex4, hexWords } from './words.js';

/** Mode codes that Notice 2 requires, and those that can be legal by broadcast. */
export const MUST_OWN = 0x00000134;
export const MAY_ALL = 0x000201fa;
export const SUBADDRESSES = Array.from({ length: 30 }, (_, n) => n + 1);

/** @returns {Terminal} */
export function newTerminal() {
  const none = () => new Array(31).fill(0);
  return { address: 5, broadcast: false, wrap: 0, accept: false, vector: 0, bit: 0, receive: none(), transmit: none(), heard: none(),
    ownMode: MUST_OWN, allMode: 0, initial: Array.from({ length: 31 }, () => []) };
}

/** @param {number} mask legal counts @returns {number} the largest of them, 0 for none */
export const longest = (mask) => 32 - Math.clz32(mask);

/** @param {Terminal} t @param {number} sa @returns {boolean} can words wrap around at this subaddress? */
export const canWrap = (t, sa) => t.transmit[sa] !== 0 && (t.receive[sa] !== 0 || (t.broadcast && t.heard[sa] !== 0));

/** @param {number} n */
const two = (n) => String(n).padStart(2, '0');
/** @param {number} mask */
const hex8 = (mask) => (mask >>> 0).toString(16).padStart(8, '0');

/** @param {Terminal} t @returns {Generator<[string, string]>} the lines of canonical text, version 2, each with its field of the form */
function* canonLines(t) {
  yield ['text', 'rt1553 2'];
  yield ['address', `address ${two(t.address)}`];
  yield ['broadcast', `broadcast ${Number(t.broadcast)}`];
  for (const sa of SUBADDRESSES) yield [`receive-${sa}`, `own-receive ${two(sa)} ${hex8(t.receive[sa])}`];
  for (const sa of SUBADDRESSES) yield [`transmit-${sa}`, `own-transmit ${two(sa)} ${hex8(t.transmit[sa])}`];
  if (t.broadcast) for (const sa of SUBADDRESSES) yield [`heard-${sa}`, `broadcast-receive ${two(sa)} ${hex8(t.heard[sa])}`];
  yield ['own-mode', `own-mode ${hex8(t.ownMode)}`];
  if (t.broadcast) yield ['all-mode', `broadcast-mode ${hex8(t.allMode)}`];
  if (has(t.ownMode, 0)) yield ['accept', `accept ${Number(t.accept)}`];
  if (has(t.ownMode, 16)) yield ['vector', `vector ${hex4(t.vector)}`];
  if (has(t.ownMode, 19)) yield ['bit', `bit ${hex4(t.bit)}`];
  if (SUBADDRESSES.some((sa) => canWrap(t, sa))) yield ['wrap', `wraparound ${two(t.wrap)}`];
  for (const sa of SUBADDRESSES.filter((it) => t.transmit[it])) {
    const words = Array.from({ length: longest(t.transmit[sa]) }, (_, n) => t.initial[sa][n] ?? 0);
    yield [`initial-${sa}`, `initial ${two(sa)} ${hexWords(words)}`];
  }
}

/** @param {Terminal} t @returns {{text: string, fields: string[]}} its canonical text, and the field of each line */
export function writeCanon(t) {
  const lines = [...canonLines(t)];
  return { text: lines.map(([, line]) => `${line}\n`).join(''), fields: lines.map(([field]) => field) };
}

/** @type {Record<string, 'receive'|'transmit'|'heard'>} lines that have a mask for a subaddress */
const MASKS = { 'own-receive': 'receive', 'own-transmit': 'transmit', 'broadcast-receive': 'heard' };
/** @type {Record<string, 'ownMode'|'allMode'|'vector'|'bit'>} lines that have a hexadecimal number */
const NUMBERS = { 'own-mode': 'ownMode', 'broadcast-mode': 'allMode', vector: 'vector', bit: 'bit' };

/** Reads a canonical text that the module has accepted, of either version.
 * @param {string} text @returns {Terminal} */
export function readCanon(text) {
  const t = newTerminal();
  for (const line of text.split('\n')) {
    const [name, first, second] = line.split(' '), n = Number(first);
    if (name in MASKS) t[MASKS[name]][n] = parseInt(second, 16);
    else if (name in NUMBERS) t[NUMBERS[name]] = parseInt(first, 16);
    else if (name === 'address') t.address = n;
    else if (name === 'broadcast' || name === 'accept') t[name] = n === 1;
    // in version 1 it is whether words wrap around at subaddress 30
    else if (name === 'wraparound') t.wrap = text.startsWith('rt1553 1') ? n * 30 : n;
    else if (name === 'initial') t.initial[n] = readWords(line.slice(10).replace(/( 0000)+$/, '')).words;
  }
  return t;
}
