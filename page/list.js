/**
 * The list of messages. Only the rows in sight are drawn.
 * @typedef {import('./rows.js').Row} Row
 */
import { el } from './dom.js';
import { endingOf, placeOf, toneOf } from './rows.js';

const ROW_HIGH = 26;
export const HEADS = ['No', 'Line', 'Bus', 'Kind', 'RT', 'SA / code', 'Words', 'Ended', 'Data', 'Status', 'Handed over'];

/** @param {import('./rows.js').Message} it @returns {string[]} the first cells of a row */
export const cellsOf = (it) => [it.number, it.line, it.bus, it.kind, it.address, placeOf(it), it.words];

export class MessageList {
  /** @param {HTMLElement} place @param {(row: Row|null) => void} chosen */
  constructor(place, chosen) {
    /** @type {Row[]} */ this.rows = [];
    /** @type {Row[]} */ this.seen = [];
    this.filter = '';
    this.at = -1; // the row that is chosen, among those that are seen
    this.chosen = chosen;
    this.space = el('div', { class: 'space', role: 'rowgroup' });
    this.box = el('div', { class: 'rows', role: 'grid', tabindex: '0', 'aria-label': 'messages' },
      el('div', { class: 'row head', role: 'row' }, ...HEADS.map((name) => el('span', { role: 'columnheader' }, name))), this.space);
    place.append(this.box);
    this.box.addEventListener('scroll', () => this.draw());
    this.box.addEventListener('click', (/** @type {MouseEvent} */ event) => {
      const row = /** @type {HTMLElement|null} */ (/** @type {HTMLElement} */ (event.target).closest('[data-at]'));
      if (row) this.choose(Number(row.dataset.at));
    });
    this.box.addEventListener('keydown', (/** @type {KeyboardEvent} */ event) => this.move(event));
    new ResizeObserver(() => { this.reveal(); this.draw(); }).observe(this.box);
  }

  /** @param {KeyboardEvent} event */
  move(event) {
    const page = Math.max(1, Math.floor(this.box.clientHeight / ROW_HIGH) - 2), end = this.seen.length - 1, { at } = this;
    const to = { ArrowDown: at + 1, ArrowUp: at - 1, PageDown: at + page, PageUp: at - page, Home: 0, End: end }[event.key];
    if (event.key === 'Escape') this.choose(-1);
    else if (to !== undefined && end >= 0) this.choose(Math.min(end, Math.max(0, to)));
    else return;
    event.preventDefault();
  }

  /** Shows the messages that fit a filter. The one that was chosen stays chosen.
   * @param {Row[]} rows @param {string} filter */
  set(rows, filter = this.filter) {
    const chosen = this.seen[this.at]?.n, wanted = filter.toLowerCase().split(/\s+/).filter(Boolean);
    this.rows = rows;
    this.filter = filter;
    this.seen = wanted.length ? rows.filter((row) => wanted.every((it) => fits(row, it))) : rows;
    this.at = this.seen.findIndex((row) => row.n === chosen);
    this.space.style.height = `${this.seen.length * ROW_HIGH}px`;
    this.box.setAttribute('aria-rowcount', String(this.seen.length + 1));
    this.draw();
    this.chosen(this.seen[this.at] ?? null);
  }

  /** @param {number} at */
  choose(at) {
    this.at = at;
    this.reveal();
    this.draw();
    this.chosen(this.seen[at] ?? null);
  }

  /** Scrolls to the chosen message. */
  reveal() {
    if (this.at < 0) return;
    const top = this.at * ROW_HIGH, high = this.box.clientHeight - ROW_HIGH;
    if (top < this.box.scrollTop) this.box.scrollTop = top;
    if (top + ROW_HIGH > this.box.scrollTop + high) this.box.scrollTop = top + ROW_HIGH - high;
  }

  draw() {
    const first = Math.max(0, Math.floor(this.box.scrollTop / ROW_HIGH) - 2);
    const last = first + Math.ceil(this.box.clientHeight / ROW_HIGH) + 4;
    this.space.replaceChildren(...this.seen.slice(first, last).map((row, n) => this.row(row, first + n)));
    if (this.at >= 0) this.box.setAttribute('aria-activedescendant', `message-${this.at}`);
    else this.box.removeAttribute('aria-activedescendant');
    const none = this.rows.length ? 'No message fits the filter.' : 'No messages yet: write a script, or choose an example.';
    if (!this.seen.length) this.space.append(el('p', { class: 'empty' }, none));
  }

  /** @param {Row} row @param {number} n */
  row(row, n) {
    const cell = (/** @type {string} */ title, /** @type {any[]} */ ...inside) => el('span', { role: 'gridcell', title }, ...inside);
    // what terminal 2 has in the place of it
    const told = (/** @type {(it: import('./rows.js').Message) => string} */ of, draw = (/** @type {string} */ text) => [text]) => {
      const one = of(row), other = row.other ? of(row.other) : one;
      return cell(one, ...draw(one), one === other ? null : el('em', { class: 'apart', title: 'terminal 2 answers otherwise' }, ' ≠ ', ...draw(other || 'none')));
    };
    return el('div', {
      id: `message-${n}`, class: `row ${toneOf(row)}${n === this.at ? ' chosen' : ''}`, role: 'row',
      'aria-rowindex': n + 2, 'aria-selected': String(n === this.at), 'data-at': String(n), style: `top:${n * ROW_HIGH}px`,
    },
    ...cellsOf(row).map((it) => cell('', it)), told(endingOf), told((it) => it.data), told(statusOf, badged), told((it) => it.handed));
  }
}

/** @param {import('./rows.js').Message} it @returns {string} the status word, and the names of its bits */
export const statusOf = (it) => `${it.status} ${it.bits}`.trimEnd();

/** @param {string} status @returns {any[]} */
function badged(status) {
  const [word, ...bits] = status.split(' ');
  return [word, ...bits.map((it) => el('b', {}, it))];
}

/** Does a message fit a word of the filter: `rt:5`, `sa:3`, `bus:b`, `no:7`, `error`, `-busy`?
 * @param {Row} row @param {string} word @returns {boolean} */
function fits(row, word) {
  if (word[0] === '-' && word.length > 1) return !fits(row, word.slice(1));
  const [, field, wanted] = /^(rt|sa|bus|no):(.+)$/.exec(word) ?? [];
  if (field) {
    const value = { rt: row.address, sa: row.code ? `m${row.code}` : row.subaddress, bus: row.bus, no: row.number }[field] ?? '';
    return value.toLowerCase() === wanted;
  }
  const told = [row.kind, endingOf(row), row.data, statusOf(row), row.handed, row.differs ? 'differs' : ''];
  return told.join(' ').toLowerCase().includes(word);
}
