/**
 * A text editor with line numbers, colours and answers beside the lines. Only the lines in sight are drawn.
 */
import { el, shown } from './dom.js';
import { SCRIPT_LINE } from './messages.js';

const LINE_HIGH = 20;
/** A text with more lines is edited page by page: a field with 100,000 lines takes a browser seconds. */
const MOST = 4000;
const PAGE = 2000;
const PASTED = 100_000; // texts of this length are pasted into the lines, and not into the field
const DRAWN = 400; // what is drawn of a line

/** @param {string} text */
const linesOf = (text) => text.replace(/\r\n?/g, '\n').split('\n');

export class Editor {
  /** @param {HTMLElement} place @param {string} label @param {() => void} changed */
  constructor(place, label, changed) {
    this.changed = changed;
    this.lines = [''];
    this.start = 0; // the first line of the page in the field
    this.count = 1; // and how many lines that has
    /** @type {string[]} */ this.answers = []; // beside the lines
    /** @type {string[]|null} */ this.second = null; // those of a second terminal
    this.differs = -1; // the first line where they differ
    /** @type {Map<number, string>} */ this.marks = new Map(); // what is wrong with a line
    this.isStale = false; // are the answers those of an earlier text?
    this.from = this.to = -1; // the lines of the message that is chosen
    this.build(place, label);
    this.area.addEventListener('paste', (/** @type {ClipboardEvent} */ event) => this.paste(event));
    this.area.addEventListener('input', () => this.read());
    this.area.addEventListener('scroll', () => this.draw());
    this.beside.addEventListener('wheel', (/** @type {WheelEvent} */ event) => { this.area.scrollTop += event.deltaY; }, { passive: true });
    new ResizeObserver(() => this.draw()).observe(this.box);
  }

  /** @param {HTMLElement} place @param {string} label */
  build(place, label) {
    this.area = el('textarea', { spellcheck: false, wrap: 'off', autocomplete: 'off', autocapitalize: 'off', 'aria-label': label });
    this.numbers = el('div', { class: 'numbers', 'aria-hidden': 'true' });
    this.colours = el('div', { class: 'colours', 'aria-hidden': 'true' });
    this.beside = el('div', { class: 'beside', role: 'region', 'aria-label': `answers to the lines of ${label}`, tabindex: '-1' });
    this.box = el('div', { class: 'code' }, this.numbers, el('div', { class: 'typing' }, this.colours, this.area), this.beside);
    this.told = el('output');
    const onchange = () => this.show(Number(line.value) - 1, Number(line.value) - 1);
    const line = el('input', { inputmode: 'numeric', 'aria-label': `line of ${label} to go to`, placeholder: 'line', onchange });
    const turn = (/** @type {string} */ name, /** @type {string} */ sign, /** @type {number} */ by) =>
      el('button', { type: 'button', 'aria-label': name, onclick: () => this.page(this.start + by) }, sign);
    this.pager = el('div', { class: 'pager', hidden: true }, turn('page before', '◂', -PAGE), this.told, turn('next page', '▸', PAGE),
      el('label', {}, 'go to ', line));
    place.append(el('div', { class: 'paged' }, this.box, this.pager));
  }

  get value() { return this.lines.join('\n'); }

  set value(text) {
    this.lines = linesOf(text);
    this.from = this.to = -1;
    this.page(0);
  }

  /** @param {Partial<Editor>} what is shown beside the lines */
  set(what) {
    Object.assign(this, what);
    this.draw();
  }

  read() {
    this.replace(this.area.value.split('\n'));
    if (this.count > 2 * MOST) this.fill(this.start);
    this.draw();
    this.changed();
  }

  /** @param {string[]} typed lines that take the place of those of the field */
  replace(typed) {
    const behind = this.lines.slice(this.start + this.count);
    this.lines = this.start || behind.length ? [...this.lines.slice(0, this.start), ...typed, ...behind] : typed;
    this.count = typed.length;
    this.from = this.to = -1;
  }

  /** @param {ClipboardEvent} event */
  paste(event) {
    const text = event.clipboardData?.getData('text/plain') ?? '', { selectionStart, selectionEnd, value } = this.area;
    if (text.length < PASTED) return;
    event.preventDefault();
    this.replace(linesOf(value.slice(0, selectionStart) + text + value.slice(selectionEnd)));
    this.page(this.start);
    this.changed();
  }

  /** @param {number} line from which on the field gets a page */
  fill(line) {
    const isWhole = this.lines.length <= MOST;
    this.start = isWhole ? 0 : Math.max(0, Math.min(this.lines.length - PAGE, line));
    const part = isWhole ? this.lines : this.lines.slice(this.start, this.start + PAGE);
    this.count = part.length;
    this.area.value = part.join('\n');
  }

  /** @param {number} line from which on a page is shown */
  page(line) {
    this.fill(line);
    this.area.scrollTop = 0;
    this.draw();
  }

  /** @param {number} from @param {number} to which lines are shown, marked; none, if they are not there */
  show(from, to) {
    const isThere = from in this.lines;
    this.from = isThere ? from : -1;
    this.to = isThere ? to : -1;
    if (isThere && (from < this.start || to >= this.start + this.count)) this.fill(from - PAGE / 4);
    const top = this.area.scrollTop, high = this.area.clientHeight, at = (from - this.start) * LINE_HIGH;
    if (isThere && (at < top || (to + 1 - this.start) * LINE_HIGH > top + high)) this.area.scrollTop = Math.max(0, at - high / 3);
    this.draw();
  }

  draw() {
    const top = this.area.scrollTop, above = Math.floor(top / LINE_HIGH), first = this.start + above, all = this.lines.length;
    const last = Math.min(this.start + this.count, first + Math.ceil(this.area.clientHeight / LINE_HIGH) + 2);
    const rows = Array.from({ length: Math.max(0, last - first) }, (_, n) => first + n), down = above * LINE_HIGH - top;
    const put = (/** @type {HTMLElement} */ place, /** @type {number} */ left, /** @type {(n: number) => HTMLElement} */ make) =>
      place.replaceChildren(el('div', { style: `transform:translate(${left}px,${down}px)` }, ...rows.map(make)));
    put(this.numbers, 0, (n) => el('div', { class: this.tone(n) }, String(n + 1)));
    put(this.colours, -this.area.scrollLeft, (n) => el('div', { class: this.tone(n) }, ...coloured(this.lines[n])));
    put(this.beside, 0, (n) => el('div', { class: `answer ${this.tone(n)}` }, ...this.answer(n)));
    this.numbers.style.minWidth = `${String(all).length + 2}ch`;
    this.box.classList.toggle('two', this.second !== null);
    this.box.classList.toggle('stale', this.isStale);
    this.pager.hidden = this.count === all;
    const [from, to, count] = [this.start + 1, this.start + this.count, all].map((it) => it.toLocaleString('en'));
    this.told.textContent = `lines ${from} to ${to} of ${count}`;
  }

  /** @param {number} n */
  tone(n) {
    return [n >= this.from && n <= this.to ? 'marked' : '', this.marks.has(n) ? 'wrong' : '', n === this.differs ? 'differs' : ''].join(' ');
  }

  /** @param {number} n */
  answer(n) {
    const fault = this.marks.get(n), one = this.answers[n] ?? '', other = this.second?.[n] ?? '';
    if (fault) return [el('span', { class: 'fault', title: fault }, fault)];
    return this.second ? [toned(one), el('span', { class: one === other ? 'second' : 'second apart' }, toned(other))] : [toned(one)];
  }
}

/** @type {[RegExp, string][]} what the fields of a script's line are drawn as */
const FIELDS = [[/^gap$/, 'c-gap'], [/^slot$/, 'c-slot'], [/^[AB]$/, 'c-bus'], [/^[0-9a-fA-F]{4}$/, 'c-word'],
  [/^(write|vector|bit|flag|noise)$/, 'c-key']];

/** @param {string} line @returns {any[]} */
function coloured(line) {
  const text = shown(line.length > DRAWN ? `${line.slice(0, DRAWN)}…` : line);
  if (text === '') return ['\u00a0'];
  if (text[0] === '#') return [el('i', { class: 'c-note' }, text)];
  if (line.length <= 64 && SCRIPT_LINE.test(line)) {
    return text.split(/( )/).map((part) => {
      const kind = FIELDS.find(([form]) => form.test(part));
      return kind ? el('b', { class: kind[1] }, part) : part;
    });
  }
  if (!/^[AB] +(rx|tx|mode|status|data)\b/.test(line)) return [text];
  const [head, ...data] = text.split(/(?=:)/);
  return [el('b', { class: 'c-key' }, head), el('b', { class: 'c-word' }, data.join(''))];
}

/** @param {string} answer */
function toned(answer) {
  const isBad = (parseInt(answer.slice(4, 8), 16) & 0x400) !== 0;
  const kind = !answer ? '' : answer.startsWith('hand') ? 'hand' : answer[2] !== 's' ? 'word' : isBad ? 'status bad' : 'status';
  return el('span', { class: kind, title: answer }, answer);
}
