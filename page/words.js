/**
 * Words of the bus: their fields and names.
 * @typedef {{address: number, transmit: boolean, subaddress: number, low: number, mode: boolean}} Command
 * @typedef {{from: number, to: number, name: string, value: string, isOn: boolean}} Field the bits from and to, of which 15 comes first
 */

/** @type {[number, boolean, string][]} mode codes: code, T/R is 1, name */
export const MODES = [
  [0, true, 'dynamic bus control'],
  [1, true, 'synchronize'],
  [2, true, 'transmit status word'],
  [3, true, 'initiate self test'],
  [4, true, 'transmitter shutdown'],
  [5, true, 'override transmitter shutdown'],
  [6, true, 'inhibit terminal flag'],
  [7, true, 'override inhibit terminal flag'],
  [8, true, 'reset remote terminal'],
  [16, true, 'transmit vector word'],
  [17, false, 'synchronize with data word'],
  [18, true, 'transmit last command'],
  [19, true, 'transmit BIT word'],
];

/** @type {[number, string, string][]} bits of the status word: mask, name in messages, name for people */
export const STATUS_BITS = [
  [0x0400, 'error', 'message error'],
  [0x0200, 'instrumentation', 'instrumentation'],
  [0x0100, 'service', 'service request'],
  [0x0080, 'reserved1', 'reserved'],
  [0x0040, 'reserved2', 'reserved'],
  [0x0020, 'reserved3', 'reserved'],
  [0x0010, 'broadcast', 'broadcast'],
  [0x0008, 'busy', 'busy'],
  [0x0004, 'subsystem', 'subsystem flag'],
  [0x0002, 'accept', 'bus control'],
  [0x0001, 'terminal', 'terminal flag'],
];

/** @param {number} mask @param {number} bit */
export const has = (mask, bit) => ((mask >>> bit) & 1) === 1;
/** @param {number} n */
export const hex4 = (n) => n.toString(16).padStart(4, '0');
/** @param {number[]} words */
export const hexWords = (words) => words.map(hex4).join(' ');

/** @param {number} word @returns {Command} */
export function commandOf(word) {
  const subaddress = (word >> 5) & 31;
  return { address: word >> 11, transmit: (word & 0x400) !== 0, subaddress, low: word & 31, mode: subaddress === 0 || subaddress === 31 };
}

/** @param {Command} c @returns {number} how many words a command names */
export const countOf = (c) => c.low || 32;
/** @param {number} code */
export const modeName = (code) => MODES.find((row) => row[0] === code)?.[2] ?? 'reserved mode code';

/** @param {Command} c */
const dataWords = (c) => (c.mode ? Number(c.low >= 16) : countOf(c));
/** @param {Command} c @returns {number} how many data words follow a command from the controller */
export const expectedWords = (c) => (c.transmit ? 0 : dataWords(c));
/** @param {Command} c @returns {number} how many data words a reply has */
export const repliedWords = (c) => (c.transmit ? dataWords(c) : 0);

/** @param {number} bits @param {'command'|'status'} kind @returns {Field[]} the fields of a word, from bit 15 on */
export function fieldsOf(bits, kind) {
  const c = commandOf(bits), to = kind === 'command' && c.address === 31 ? '31, broadcast' : String(c.address);
  const address = { from: 15, to: 11, name: 'terminal', value: to, isOn: true };
  if (kind === 'status') {
    return [address, ...STATUS_BITS.map(([mask, , name]) => {
      const at = Math.log2(mask), isOn = (bits & mask) !== 0;
      return { from: at, to: at, name, value: isOn ? 'set' : '–', isOn };
    })];
  }
  return [
    address,
    { from: 10, to: 10, name: 'T/R', value: c.transmit ? 'transmit' : 'receive', isOn: c.transmit },
    { from: 9, to: 5, name: 'subaddress', value: c.mode ? `${c.subaddress}, mode` : String(c.subaddress), isOn: true },
    c.mode ? { from: 4, to: 0, name: 'mode code', value: `${c.low}, ${modeName(c.low)}`, isOn: true }
      : { from: 4, to: 0, name: 'count', value: String(countOf(c)), isOn: true },
  ];
}
