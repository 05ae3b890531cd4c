/**
 * The language of messages: a line is a line of a script, which stays as it is, or a message such as `A rx 5 3 2: 0011 0022`.
 * `from` has for each line of the script the line of the messages, from 0, that it comes from.
 * @typedef {{lines: string[], from: number[], faults: {line: number, column: number, text: string}[]}} Expansion
 */
import { longest } from './canon.js';
import { MODES, STATUS_BITS, commandOf, expectedWords, hex4, hexWords, repliedWords } from './words.js';

/** Is this a line of a script? What the module says counts; this is for colours and for messages. */
export const SCRIPT_LINE = new RegExp(['|#.*|slot', '[AB] (?:[cd] [0-9a-fA-F]{4}(?: [01])?|noise|gap)',
  'flag (?:service|busy|subsystem|terminal) [01]', '(?:vector|bit) [0-9a-fA-F]{4}',
  'write (?:0[1-9]|[12]\\d|30) (?:0[1-9]|[12]\\d|3[0-2]) [0-9a-fA-F]{4}'].map((it) => `^(?:${it})$`).join('|'));

class Refused extends Error {
  /** @param {number} column from 1 @param {string} text */
  constructor(column, text) { super(text); this.column = column; }
}

/** @param {string} text @param {number} own the address of this terminal @returns {Expansion} */
export function expand(text, own) {
  /** @type {Expansion} */ const out = { lines: [], from: [], faults: [] };
  const put = (/** @type {string[]} */ lines, /** @type {number} */ n) => {
    out.lines.push(...lines);
    out.from.push(...lines.map(() => n));
  };
  /** The events of the last message that are not put yet, its line, and whether nothing came behind it.
   * @type {string[]} */ let left = [];
  let source = 0, isFresh = false;
  text.replace(/\n$/, '').split('\n').forEach((line, n) => {
    try {
      const events = eventsOf(line, own);
      put(left.splice(0, dueBefore(line, left, isFresh)), source);
      isFresh = events !== null;
      if (events) [left, source] = [events, n]; else put([line], n);
    } catch (fault) {
      if (!(fault instanceof Refused)) throw fault;
      out.faults.push({ line: n, column: fault.column, text: fault.message });
    }
  });
  put(left, source);
  return out;
}

/** How many of the events that are left of a message come before a line. Answers that are stated right behind it go to its events in
 * their order: a hand-over to the last gap, any other to the next slot.
 * @param {string} line @param {string[]} left @param {boolean} isFresh */
function dueBefore(line, left, isFresh) {
  if (!/^#[>~+] /.test(line)) return left.length;
  if (line[1] === '+' && !isFresh) return 0;
  const isHand = /^#[>~] hand(?: |$)/.test(line);
  const at = left.findIndex((it, n) => (isHand ? it.endsWith(' gap') && !/^. [cd] /.test(left[n + 1] ?? '') : it === 'slot'));
  return at < 0 ? left.length : at + 1;
}

const NO_COLON = 'a colon is missing before the data words, as in A rx 5 3 1: 0001';

/** The parts of what says a word, between blanks. */
class Parts {
  /** @param {string} text what stands behind the letter of the bus and its space @param {boolean} hasColon whether a colon comes after it */
  constructor(text, hasColon) {
    this.text = text;
    this.much = !hasColon && text.startsWith('rx ') ? NO_COLON : 'nothing may follow the last field';
    this.found = [...text.matchAll(/[^ \t\f]+/g)];
    this.words = this.found.map((it) => it[0]);
  }

  /** @param {number} n @param {string} text @returns {never} */
  refuse(n, text) { throw new Refused(3 + (this.found[n]?.index ?? this.text.length), text); }

  /** @param {number} n @param {number} low @param {number} high @param {string} what */
  number(n, low, high, what) {
    const word = this.words[n] ?? '';
    if (!/^\d{1,2}$/.test(word) || Number(word) < low || Number(word) > high) this.refuse(n, what);
    return Number(word);
  }

  address() { return this.words[1] === 'all' ? 31 : this.number(1, 0, 30, 'an address is 0 to 30, or all for a command'); }

  /** @param {number} n how many parts there are at most */
  end(n) { if (this.words.length > n) this.refuse(n, this.much); }
}

/** @param {Parts} parts @param {number} transmit the T/R bit */
function transfer(parts, transmit) {
  const to = parts.address(), sub = parts.number(2, 1, 30, 'a subaddress is 1 to 30'), count = parts.number(3, 1, 32, 'a count is 1 to 32');
  parts.end(4);
  return (to << 11) | transmit | (sub << 5) | (count & 31);
}

/** @type {Map<string, (parts: Parts) => number>} the bits of the word that a message begins with, by its first part */
const KINDS = new Map(Object.entries({
  rx: (parts) => transfer(parts, 0),
  tx: (parts) => transfer(parts, 0x400),
  mode: (parts) => {
    const to = parts.address(), code = parts.number(2, 0, 31, 'a mode code is 0 to 31'), [, , , direction, sub = '0'] = parts.words;
    const listed = MODES.find((row) => row[0] === code), transmit = direction ? direction === 'tx' : listed?.[1];
    if (direction ? !/^[tr]x$/.test(direction) : !listed) parts.refuse(3, 'after a mode code comes tx or rx; a reserved code needs it');
    if (sub !== '0' && sub !== '31') parts.refuse(4, 'the subaddress of a mode code is 0 or 31');
    parts.end(5);
    return (to << 11) | (transmit ? 0x400 : 0) | (Number(sub) << 5) | code;
  },
  status: (parts) => parts.words.slice(2).reduce((status, word, n) => {
    const bit = STATUS_BITS.find((row) => row[1] === word);
    return status | (bit ? bit[0] : parts.refuse(n + 2, `a status has ${STATUS_BITS.map((row) => row[1]).join(', ')}`));
  }, parts.number(1, 0, 30, 'an address is 0 to 30, or all for a command') << 11),
  data: (parts) => {
    if (!/^[0-9a-fA-F]{4}$/.test(parts.words[1] ?? '')) parts.refuse(1, 'a word is four hexadecimal digits');
    parts.end(2);
    return parseInt(parts.words[1], 16);
  },
}));

/** @param {import('./words.js').Command} c @returns {string[]} what comes behind a command and its data words */
const endOf = (c) => ['gap', ...new Array(c.address === 31 ? 0 : 1 + repliedWords(c)).fill('slot')];

/** @param {string} line @param {number} own @returns {string[]|null} the events of a message, null for a line of a script */
function eventsOf(line, own) {
  const size = new TextEncoder().encode(line).length;
  if (size > 256) throw new Refused(257, 'over 256 bytes before the line feed');
  if (SCRIPT_LINE.test(line)) {
    if (size > 64) throw new Refused(65, 'a comment of over 64 bytes: a script has none that long');
    return null;
  }
  const [, bus, text, from, data] = /^([AB]) ([^:]*?)(?: from ([^:]*))?(?::([^]*))?$/.exec(line) ?? [];
  if (!bus) throw new Refused(1, 'neither a line of a script nor a message, which begins with A or B and a space');
  if (line.includes('#')) throw new Refused(line.indexOf('#') + 1, 'a comment after a message: a comment is a line of its own');
  const parts = new Parts(text, data !== undefined), name = parts.words[0], read = KINDS.get(name);
  if (!read || text.length > 128) return parts.refuse(0, 'rx, tx, mode, status or data is expected, in at most 128 bytes');
  const bits = read(parts), c = commandOf(bits), first = `${name === 'data' ? 'd' : 'c'} ${hex4(bits)}`;
  const isCommand = name !== 'status' && name !== 'data', sender = from === undefined ? -1 : senderOf(from, name, bits, 3 + text.length);
  const count = isCommand ? expectedWords(c) : 0;
  if (data === undefined && count > 0) throw new Refused(line.length + 1, NO_COLON);
  const words = dataOf(line, data === undefined ? line.length : line.indexOf(':') + 1, count);
  const heard = sender < 0 ? [] : [`c ${hex4(sender)}`, 'gap', `c ${hex4(sender & 0xf800)}`];
  const events = !isCommand ? [first]
    // this terminal sends words of its own, whatever the message says
    : sender >> 11 === own ? [first, `c ${hex4(sender)}`, ...endOf(commandOf(sender))] : [first, ...heard, ...words, ...endOf(c)];
  return events.map((it) => (it === 'slot' ? it : `${bus} ${it}`));
}

/** @param {string} from what stands behind `from` @param {string} name @param {number} bits the command before it @param {number} column
 * @returns {number} the command to the terminal that sends */
function senderOf(from, name, bits, column) {
  if (name !== 'rx') throw new Refused(column, 'from follows rx alone: the terminal of rx receives what another sends');
  const [other, sub, ...more] = from.split(/[ \t\f]+/).filter(Boolean), isNumber = [other, sub].every((it) => /^\d{1,2}$/.test(it ?? ''));
  if (!isNumber || more.length || Number(other) > 30 || Number(other) === bits >> 11 || Number(sub) < 1 || Number(sub) > 30) {
    throw new Refused(column + 6, 'after from, the address of another terminal, 0 to 30, and its subaddress, 1 to 30, are expected');
  }
  return (Number(other) << 11) | 0x400 | (Number(sub) << 5) | (bits & 31);
}

/** @param {string} line @param {number} start where its data words are to stand @param {number} count @returns {string[]} */
function dataOf(line, start, count) {
  /** @type {string[]} */ const words = [];
  let at = start;
  for (; words.length < count; at += 5) {
    const found = /^ ([0-9a-fA-F]{4})/.exec(line.slice(at));
    if (!found) throw new Refused(at + 1, 'a data word is wanted: one space and four hexadecimal digits');
    words.push(`d ${found[1].toLowerCase()}`);
  }
  if (at < line.length) throw new Refused(at + 1, 'nothing more is wanted: the message has all its data words');
  return words;
}

/** @param {import('./canon.js').Terminal} t @returns {string} messages for it, to begin with */
export function sampleMessages(t) {
  /** @param {number[]} masks @returns {number[]} the first subaddress in use and its least count */
  const least = (masks) => {
    const sa = masks.findIndex((mask) => mask !== 0);
    return sa < 0 ? [1, 2] : [sa, longest(masks[sa] & -masks[sa])];
  };
  const own = t.address, [to, count] = least(t.receive), [from, many] = least(t.transmit);
  const words = Array.from({ length: count }, (_, n) => n + 1);
  return `# Messages are expanded to events. This terminal has address ${own}.
A tx ${own} ${from} ${many}
A rx ${own} ${to} ${count}: ${hexWords(words)}
A mode ${own} 2

# The other bus, and an illegal mode code:
B mode ${own} 0

# The subsystem is busy:
flag busy 1
A tx ${own} ${from} ${many}
`;
}
