/**
 * The calls of the module: the proved terminal, over canonical texts.
 * What a call tells: its status, the text that it wrote, of a fault its line and its text, and where the text ended behind each line of a
 * script, from the first event on.
 * @typedef {{status: number, text: string, line: number, fault: string, ends: number[]}} Told
 */
import { bytesOf, through } from './state.js';

const NO_ROOM = 5;
/** Where things stand in the module's memory, from its heap on: behind the number of bytes that are filled that of ends; a fault, with the
 * length of its text, its line and its text, as `PlainFault` of `rt1553_live` lays them out; ends and texts. */
const NOTED = 8, FAULT = 16, LENGTH = 18, LINE = 24, TEXT = 32, TEXTS = 168;
const LARGEST_ROOM = 1 << 28;

const encoder = new TextEncoder();
const decoder = new TextDecoder();

export class Engine {
  /** @param {WebAssembly.Instance} instance */
  constructor(instance) {
    this.calls = /** @type {any} */ (instance.exports);
    this.base = Math.ceil(Number(this.calls.__heap_base.value) / 16) * 16;
  }

  /** @param {string} packed the module, compressed, in base64 */
  static async load(packed) {
    const made = await WebAssembly.instantiate(await through(bytesOf(packed), new DecompressionStream('gzip')), {});
    return new Engine(made.instance);
  }

  /** @param {number} size how large the module's memory is to be at least */
  grow(size) {
    const { memory } = this.calls, pages = Math.ceil((size - memory.buffer.byteLength) / 65536);
    if (pages <= 0) return;
    // what the standard came to, and what browsers had before it
    try { memory.grow(BigInt(pages)); } catch { memory.grow(pages); }
  }

  /** Calls the module with these texts, a room of this size if there is one, and places for so many ends if there are any.
   * @param {string} name @param {string[]} texts @param {number} room @param {number} ends @returns {Told} */
  call(name, texts, room, ends) {
    const bytes = texts.map((it) => encoder.encode(it)), { base } = this, to = base + TEXTS + ends * 8;
    this.grow(bytes.reduce((sum, it) => sum + it.length, to + room));
    const memory = new Uint8Array(this.calls.memory.buffer), view = new DataView(memory.buffer, base);
    memory.fill(0, base, base + TEXTS);
    /** @type {number[]} */ const words = [];
    let at = to;
    for (const it of bytes) {
      memory.set(it, at);
      words.push(at, it.length);
      at += it.length;
    }
    if (room) words.push(at, room, base);
    if (ends) words.push(base + TEXTS, ends, base + NOTED);
    const status = Number(this.calls[name](...[...words, base + FAULT].map(BigInt)));
    if (status === NO_ROOM && room < LARGEST_ROOM) return this.call(name, texts, room * 4, ends);
    const numberAt = (/** @type {number} */ place) => Number(view.getBigUint64(place, true));
    const textAt = (/** @type {number} */ place, /** @type {number} */ length) => decoder.decode(memory.subarray(place, place + length));
    return {
      status, text: textAt(at, numberAt(0)), line: numberAt(LINE), fault: textAt(base + TEXT, view.getUint8(LENGTH)).trimEnd(),
      ends: Array.from({ length: numberAt(NOTED) }, (_, n) => numberAt(TEXTS + n * 8)),
    };
  }

  /** @param {string} text @returns {Told} status 0: this is a canonical text */
  check(text) { return this.call('page_check', [text], 0, 0); }

  /** @param {string} first @param {string} second @returns {Told} 0: the same terminal; 1: not, and the text is a script that shows it */
  compare(first, second) { return this.call('page_compare', [first, second], 4608, 0); }

  /** @param {string} text @param {string} script @returns {Told} the text has a row for each message */
  messages(text, script) { return this.call('page_messages', [text, script], 4096 + script.length * 4, 0); }

  /** @param {string} text @param {string} script @returns {Told} the text is its transcript */
  run(text, script) { return this.call('page_run', [text, script], 4096 + script.length * 2, script.split('\n').length + 1); }
}
