/**
 * A terminal as a form. What is typed becomes canonical text; the module judges that text, and what is wrong stands at its field.
 * @typedef {import('./canon.js').Terminal} Terminal
 * Of a field: what it shows of a terminal, and what puts its value into one, which gives what is wrong with it, or nothing.
 * @typedef {(t: Terminal) => any} Show
 * @typedef {(t: Terminal, value: any) => string|void} Take
 * @typedef {{input: any, note: HTMLElement|null, show: Show, take: Take}} Field
 */
import { MAY_ALL, MUST_OWN, SUBADDRESSES, canWrap, longest, newTerminal, writeCanon } from './canon.js';
import { el, rowOf, tableOf } from './dom.js';
import { readRanges, readWords, writeRanges } from './ranges.js';
import { MODES, has, hex4, hexWords } from './words.js';

/** @type {[('receive'|'transmit'|'heard'), string][]} the columns of the grid, each with what it is called */
const COLUMNS = [['receive', 'receive'], ['transmit', 'transmit'], ['heard', 'broadcast receive']];
/** @type {[string, number, string][]} fields that a mode code asks for, with what they are for */
const ASKED = [['accept', 0, 'accepts it'], ['vector', 16, 'at power-up'], ['bit', 19, 'at power-up']];

export class TerminalForm {
  /** @param {HTMLElement} place @param {(text: string) => {status: number, line: number}} check
   * @param {(text: string) => void} accepted takes a text that was accepted
   * @param {(faults: number) => void} judged takes how many fields are wrong, if any */
  constructor(place, check, accepted, judged) {
    this.check = check;
    this.accepted = accepted;
    this.judged = judged;
    /** @type {Map<string, Field>} */ this.fields = new Map();
    this.terminal = newTerminal();
    this.gridNote = el('p', { class: 'note wrong', role: 'alert' });
    this.modeNote = el('p', { class: 'note wrong', role: 'alert' });
    this.nothing = hint('Nothing can be transmitted yet.');
    this.form = el('form', { class: 'terminal', autocomplete: 'off' }, this.basics(), this.grid(), this.modes(),
      section('Words at power-up', hint('Four hexadecimal digits each, from word 1 on. Words that are left out are 0000.'),
        el('div', { class: 'initials' }, ...SUBADDRESSES.map((sa) => this.initialField(sa))), this.nothing));
    place.append(this.form);
    this.form.addEventListener('submit', (/** @type {Event} */ event) => event.preventDefault());
    this.form.addEventListener('input', () => this.read());
    this.form.addEventListener('keydown', (/** @type {KeyboardEvent} */ event) => this.move(event));
  }

  /** @param {string} name @param {any} input @param {Show} show @param {Take} take @param {HTMLElement|null} note */
  add(name, input, show, take, note = null) {
    input.dataset.field = name;
    this.fields.set(name, { input, note, show, take });
    return input;
  }

  /** A field with its label, and a note that says what it is for, or what is wrong.
   * @param {string} name @param {string} label @param {string} told @param {any} input @param {Show} show @param {Take} take */
  labelled(name, label, told, input, show, take) {
    const note = el('small', { class: 'note', id: `t-${name}-note`, 'data-hint': told }, told);
    input.id = `t-${name}`;
    input.setAttribute('aria-describedby', note.id);
    return el('div', { class: 'labelled' }, el('label', { for: input.id }, label), this.add(name, input, show, take, note), note);
  }

  basics() {
    const text = (/** @type {any} */ more) => el('input', { type: 'text', spellcheck: false, maxlength: '12', ...more });
    const box = () => el('input', { type: 'checkbox' });
    const word = (/** @type {'vector'|'bit'} */ name, /** @type {string} */ label) =>
      this.labelled(name, label, '', text({ class: 'hex' }), (t) => hex4(t[name]), (t, value) => {
        if (!/^[0-9a-fA-F]{4}$/.test(value)) return 'four hexadecimal digits';
        t[name] = parseInt(value, 16);
      });
    const made = section('Terminal',
      this.labelled('address', 'Address', '0 to 30', text({ inputmode: 'numeric' }), (t) => t.address, (t, value) => {
        if (!/^\d{1,2}$/.test(value)) return 'a number, 0 to 30';
        t.address = Number(value);
      }),
      this.labelled('broadcast', 'Broadcast', 'hears address 31', box(), (t) => t.broadcast, (t, on) => { t.broadcast = on; }),
      this.labelled('wrap', 'Wraparound', 'subaddress', el('select'), (t) => t.wrap, (t, sa) => { t.wrap = Number(sa); }),
      this.labelled('accept', 'Bus control', '', box(), (t) => t.accept, (t, on) => { t.accept = on; }),
      word('vector', 'Vector word'), word('bit', 'BIT word'));
    made.className = 'basics';
    return made;
  }

  grid() {
    const rows = SUBADDRESSES.map((sa) => el('tr', {}, el('th', {}, String(sa)), ...COLUMNS.map(([name, told]) => {
      const label = `subaddress ${sa}, ${told}: word counts`;
      const input = el('input', { type: 'text', spellcheck: false, placeholder: '–', maxlength: '120', 'aria-label': label });
      return el('td', {}, this.add(`${name}-${sa}`, input, (t) => writeRanges(t[name][sa], 1), (t, value) => {
        const { mask, fault } = readRanges(value);
        if (!fault) t[name][sa] = mask;
        return fault;
      }));
    })));
    return section('Legal word counts', hint('Counts 1 to 32 as numbers and ranges, “1-4, 8”, or “all”.'), this.gridNote,
      el('div', { class: 'grid' }, tableOf(['SA', ...COLUMNS.map((it) => it[1])], rows)));
  }

  modes() {
    const rows = MODES.map(([code, , name]) => {
      const box = (/** @type {string} */ of, /** @type {'ownMode'|'allMode'} */ masks, /** @type {string} */ told) => {
        const input = el('input', { type: 'checkbox', 'aria-label': `mode code ${code}, ${name}, ${told}` });
        return this.add(`${of}-code-${code}`, input, (t) => has(t[masks], code), (t, on) => {
          t[masks] = (on ? t[masks] | (1 << code) : t[masks] & ~(1 << code)) >>> 0;
        });
      };
      const never = el('span', { class: 'never', title: 'never legal by broadcast' }, '·');
      const star = has(MUST_OWN, code) ? el('abbr', { title: 'Notice 2 requires it' }, ' *') : '';
      return rowOf('td', [String(code), el('span', {}, name, star), box('own', 'ownMode', 'own address'),
        has(MAY_ALL, code) ? box('all', 'allMode', 'broadcast') : never]);
    });
    return section('Mode codes', this.modeNote, tableOf(['code', 'name', 'own', 'broadcast'], rows, 'modes'), hint('* required by Notice 2'));
  }

  /** @param {Terminal} t that the form shows */
  set(t) {
    this.terminal = t;
    for (const field of this.fields.values()) put(field, t);
    this.dependents();
    this.wrong(new Map());
  }

  /** Fields that depend on others: what can wrap around, what is asked for, words that can be sent. */
  dependents() {
    const t = this.terminal, wrap = this.field('wrap'), can = SUBADDRESSES.filter((sa) => canWrap(t, sa));
    wrap.input.replaceChildren(...[0, ...can].map((sa) => el('option', { value: String(sa) }, sa ? String(sa) : 'none')));
    wrap.input.disabled = !can.length;
    put(wrap, t);
    for (const [name, code, told] of ASKED) {
      const field = this.field(name), isOn = has(t.ownMode, code);
      field.input.disabled = !isOn;
      setHint(field, isOn ? told : `needs mode code ${code}`);
    }
    this.form.classList.toggle('no-broadcast', !t.broadcast);
    for (const [name, { input }] of this.fields) if (/^(heard|all-code)-/.test(name)) input.disabled = !t.broadcast;
    for (const sa of SUBADDRESSES) {
      const field = this.field(`initial-${sa}`), count = longest(t.transmit[sa]);
      field.input.disabled = field.input.parentElement.hidden = !count;
      field.input.rows = Math.max(1, Math.ceil(Math.min(count, t.initial[sa].length) / 8));
      if (!field.input.matches(':focus, [aria-invalid=true]')) put(field, t);
      setHint(field, `${count} word${count === 1 ? '' : 's'}`);
    }
    this.nothing.hidden = t.transmit.some(Boolean);
  }

  /** @param {number} sa */
  initialField(sa) {
    const name = `words of subaddress ${sa} at power-up`;
    const input = el('textarea', { rows: '1', spellcheck: false, class: 'hex', 'aria-label': name, placeholder: '0000 …' });
    const show = (/** @type {Terminal} */ t) => hexWords(t.initial[sa].slice(0, longest(t.transmit[sa])));
    return this.labelled(`initial-${sa}`, String(sa), '', input, show, (t, value) => {
      const { words, fault } = readWords(value), most = longest(t.transmit[sa]);
      if (fault) return fault;
      // where fewer words are sent since, those behind them are left out
      if (words.length > most && document.activeElement === input) return `at most ${most} words are ever sent`;
      t.initial[sa] = words;
    });
  }

  read() {
    const t = this.terminal;
    /** @type {Map<string, string>} */ const faults = new Map();
    for (const [name, { input, take }] of this.fields) {
      const fault = take(t, input.type === 'checkbox' ? input.checked : input.value.trim());
      if (fault) faults.set(name, fault);
    }
    if (!canWrap(t, t.wrap)) t.wrap = 0;
    this.dependents();
    for (const name of faults.keys()) if (this.field(name).input.disabled) faults.delete(name);
    const { text, fields } = writeCanon(t), { status, line } = this.check(text);
    if (status !== 0) {
      const at = fields[line - 1] ?? 'own-mode';
      faults.set(at, { 'own-mode': 'Codes 2, 4, 5 and 8 are required.', address: '0 to 30 only' }[at] ?? `line ${line} of the canonical text`);
    }
    this.wrong(faults);
    if (!faults.size) this.accepted(text);
  }

  /** @param {string} name */
  field(name) { return /** @type {Field} */ (this.fields.get(name)); }

  /** @param {Map<string, string>} faults shown at their fields */
  wrong(faults) {
    const inGrid = [];
    for (const [name, { input, note }] of this.fields) {
      const fault = faults.get(name) ?? '', [kind, sa] = name.split('-');
      input.setAttribute('aria-invalid', String(fault !== ''));
      input.title = fault;
      if (note) {
        note.textContent = fault || (note.dataset.hint ?? '');
        note.classList.toggle('wrong', fault !== '');
      } else if (fault) inGrid.push(`Subaddress ${sa}, ${kind === 'heard' ? 'broadcast receive' : kind}: ${fault}.`);
    }
    this.gridNote.textContent = inGrid[0] ?? '';
    this.modeNote.textContent = faults.get('own-mode') ?? faults.get('all-mode') ?? '';
    if (faults.size) this.judged(faults.size);
  }

  /** @param {KeyboardEvent} event an arrow key moves in the grid as in a spreadsheet */
  move(event) {
    const [, name, sa] = /^(receive|transmit|heard)-(\d+)$/.exec(/** @type {HTMLElement} */ (event.target).dataset.field ?? '') ?? [];
    const to = this.fields.get(`${name}-${Number(sa) + ({ ArrowUp: -1, ArrowDown: 1, Enter: 1 }[event.key] ?? NaN)}`);
    if (!to) return;
    to.input.focus();
    to.input.select();
    event.preventDefault();
  }
}

/** @param {string} name @param {...any} inside */
const section = (name, ...inside) => el('fieldset', {}, el('legend', {}, name), ...inside);

/** @param {string} text */
const hint = (text) => el('p', { class: 'hint' }, text);

/** @param {Field} field @param {Terminal} t */
function put({ input, show }, t) {
  if (input.type === 'checkbox') input.checked = show(t); else input.value = show(t);
}

/** @param {Field} field @param {string} text */
function setHint({ note }, text) {
  if (note) note.textContent = note.dataset.hint = text;
}
