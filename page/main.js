/**
 * The page: what is typed goes to the module, and what it answers is shown.
 * A terminal of the page: the text that is played, which the module has accepted, and the text in the editor.
 * @typedef {{text: string, typed: string}} Held
 * @typedef {{name: string, text: string, script: string}} Example
 */
import { readCanon } from './canon.js';
import { showDetails } from './details.js';
import { byId, el, save, tabs } from './dom.js';
import { Editor } from './editor.js';
import { Engine } from './engine.js';
import { TerminalForm } from './form.js';
import { MessageList } from './list.js';
import { expand, sampleMessages } from './messages.js';
import { drawPaper } from './paper.js';
import { Player, isLong, serve } from './play.js';
import { writeRanges } from './ranges.js';
import { LONGEST, pack, unpack } from './state.js';

const LARGEST_FILE = 1 << 26;
const REST = 400; // milliseconds without a key after which the link is written

/** Starts the page; in a worker, which has the same script, the worker.
 * @param {string} packed the module, compressed, in base64 @param {Example[]} examples */
export async function start(packed, examples) {
  if (typeof document === 'undefined') { serve(packed); return; }
  const source = document.currentScript?.textContent ?? '';
  try {
    const page = new Page(await Engine.load(packed), source, examples);
    // for tests: what is behind the page
    /** @type {any} */ (window).rt1553 = Object.assign(page, { pack, unpack });
    await page.begin();
    document.documentElement.dataset.ready = 'yes';
  } catch (fault) {
    alarm(`This browser can't run the terminal, which needs WebAssembly with 64-bit memory: Chrome or Edge from 133, Firefox from 134. (${fault})`);
  }
}

class Page {
  /** @param {Engine} engine @param {string} source of the worker @param {Example[]} examples */
  constructor(engine, source, examples) {
    this.engine = engine;
    this.examples = examples;
    /** @type {Held[]} */ this.terminals = [];
    this.which = 0; // which of them is shown
    /** @type {'script'|'messages'} */ this.mode = 'script';
    /** @type {import('./play.js').Result|null} */ this.result = null;
    /** @type {import('./messages.js').Expansion|null} */ this.expansion = null;
    this.script = ''; // the one that is played
    this.verdict = ''; // what was said of both terminals
    this.isFresh = true; // does the first difference of the next play get chosen in the list?
    this.timers = { play: 0, link: 0 };
    this.written = ''; // the link that this page wrote last
    /** @type {import('./state.js').Shared[]} */ this.before = []; // what can be brought back
    this.player = new Player(engine, source, (result) => this.show(result), alarm);
    this.form = new TerminalForm(byId('form'), (text) => engine.check(text), (text) => this.take(text, true), (faults) =>
      tell('judged', `✗ ${amount(faults, 'field')} ${faults === 1 ? 'is' : 'are'} wrong: the last accepted terminal is played`, 'bad'));
    this.textEditor = new Editor(byId('text-editor'), 'canonical text', () => this.take(this.textEditor.value, false));
    this.scriptEditor = new Editor(byId('script-editor'), 'script', () => this.play());
    this.messageEditor = new Editor(byId('message-editor'), 'messages', () => this.playSoon());
    this.list = new MessageList(byId('rows'), (row) => this.showMessage(row));
    // of the parts of the page, a phone shows one
    this.view = tabs(byId('views'), (name) => { byId('main').dataset.view = name; });
    this.showAs = tabs(byId('as'), (name) => {
      byId('form').hidden = name !== 'form';
      byId('text').hidden = name !== 'text';
      this.textEditor.draw();
    });
    this.turnTo = tabs(byId('which'), (name) => {
      const isTwo = this.terminals.length > 1;
      this.which = Number(name) - 1;
      byId('tab-2').hidden = !isTwo;
      byId('second').textContent = isTwo ? '− remove terminal 2' : '+ second terminal';
      this.showTerminal(true);
    });
    this.setMode = tabs(byId('mode'), (name) => {
      this.mode = name === 'messages' ? 'messages' : 'script';
      byId('script-editor').hidden = this.mode !== 'script';
      byId('message-editor').hidden = byId('expand').hidden = this.mode !== 'messages';
    });
    byId('mode').onclick = () => this.play();
    this.bindClicks();
    this.bindFilter();
    this.bindWindow();
  }

  get editor() { return this.mode === 'script' ? this.scriptEditor : this.messageEditor; }

  /** Shows what the link carries, or the first example. */
  async begin() {
    this.showAs('form');
    this.view('editor');
    const link = location.hash.slice(1), linked = link ? await unpack(link) : null;
    if (linked && this.restore(linked)) return;
    this.showExample(this.examples.find((it) => it.name.startsWith('poll')) ?? this.examples[0]);
    if (link) alarm('This link is damaged: the first example is shown instead.');
  }

  /** @param {Example} example */
  showExample({ text, script }) {
    this.restore({ first: text, second: null, script, messages: sampleMessages(readCanon(text)), mode: 'script' });
  }

  /** @param {string} typed for the terminal that is shown: if the module accepts it, it is played @param {boolean} isOfForm */
  take(typed, isOfForm) {
    const held = this.terminals[this.which], isNew = typed !== held.text && this.engine.check(typed).status === 0;
    held.typed = typed;
    if (isNew) held.text = typed;
    this.showTerminal(isNew && !isOfForm);
    if (isNew) this.play();
  }

  /** @param {boolean} fills does the form get its fields from the terminal that is shown? */
  showTerminal(fills) {
    const { text, typed } = this.terminals[this.which], { status, line, fault } = this.engine.check(typed), isAccepted = status === 0;
    if (fills) this.form.set(readCanon(text));
    if (this.textEditor.value !== typed) this.textEditor.value = typed;
    byId('text-fault').hidden = byId('restore').hidden = isAccepted;
    byId('text-fault').textContent = `${fault}. The last accepted text is played.`;
    tell('judged', isAccepted ? '✓ accepted' : '✗ refused', isAccepted ? 'good' : 'bad');
    this.textEditor.set({ marks: marksOf(line, fault), answers: this.textEditor.lines.map(meaning) });
    this.compare();
  }

  compare() {
    const place = byId('verdict'), [one, other] = this.terminals;
    place.hidden = !other;
    this.verdict = '';
    if (!other) return;
    const { status, text } = this.engine.compare(one.text, other.text), isSame = status === 0;
    this.verdict = isSame ? 'The same terminal: from power-up both answer alike, whatever comes.'
      : `Different terminals: a script of ${text.split('\n').length - 1} lines tells them apart.`;
    place.className = isSame ? 'same' : 'apart';
    place.replaceChildren(el('span', {}, this.verdict));
    if (!isSame) place.append(el('button', { type: 'button', id: 'tell', onclick: () => this.tellApart(text) }, 'Play it'));
  }

  /** @param {string} script that tells both terminals apart */
  tellApart(script) {
    this.view('editor');
    this.isFresh = true;
    byId('filter').value = '';
    byId('filter').oninput();
    this.replace('script', script);
  }

  toggleSecond() {
    this.keep();
    if (this.terminals.length > 1) this.terminals.pop(); else this.terminals.push({ ...this.terminals[0] });
    this.turnTo(String(this.terminals.length));
    this.play();
  }

  play() {
    const [{ text: first }, other] = this.terminals, { messageEditor } = this;
    this.expansion = this.mode === 'script' ? null : expand(messageEditor.value, readCanon(first).address);
    this.script = this.scriptEditor.value;
    if (this.expansion) {
      this.script = this.expansion.lines.map((it) => `${it}\n`).join('');
      messageEditor.marks = new Map(this.expansion.faults.map((it) => [it.line, `column ${it.column}: ${it.text}`]));
    }
    clearTimeout(this.timers.link);
    this.timers.link = window.setTimeout(() => this.writeLink(), REST);
    if (this.player.play({ first, second: other?.text ?? null, script: this.script })) return;
    this.editor.set({ isStale: true });
    tell('played', 'playing…', '');
  }

  /** Plays messages: many of them only once the keys rest. */
  playSoon() {
    clearTimeout(this.timers.play);
    if (isLong(this.messageEditor.value)) this.timers.play = window.setTimeout(() => this.play(), REST); else this.play();
  }

  /** @param {import('./play.js').Result} result */
  show(result) {
    const { editor, expansion } = this, { answers, second, differs, fault, faultLine } = result, isTwo = second !== null;
    this.result = result;
    if (expansion) {
      const { from } = expansion, gathered = (/** @type {string[]} */ it) => gather(it, from, editor.lines.length);
      editor.set({ answers: gathered(answers), second: second && gathered(second), differs: from[differs] ?? -1, isStale: false });
    } else editor.set({ answers, second, differs, marks: marksOf(faultLine, fault), isStale: false });
    for (const it of [byId('editor'), this.list.box]) it.classList.toggle('two', isTwo);
    byId('answer-head').textContent = isTwo ? 'answers of terminals 1 and 2' : 'answers';
    byId('alert').hidden = true;
    this.tellPlayed(result);
    byId('differing').hidden = !isTwo;
    this.sift();
    const at = this.isFresh && differs >= 0 ? this.list.seen.findIndex((row) => row.differs) : -1;
    if (at >= 0) this.list.choose(at);
    this.isFresh = false;
  }

  /** @param {import('./play.js').Result} result */
  tellPlayed({ fault, answers, second, differs, ms }) {
    const refused = this.expansion?.faults.length ?? 0;
    const alike = !second ? '' : differs < 0 ? '; both answer alike' : `; first difference in line ${differs + 1}`;
    const lines = `${amount(answers.length, 'line')} in ${ms < 1 ? 'under 1' : Math.round(ms)} ms${alike}`;
    tell('played', fault || (refused ? `${amount(refused, 'line')} refused` : lines), fault || refused ? 'bad' : '');
  }

  /** @param {import('./rows.js').Row|null} row */
  showMessage(row) {
    const line = row ? Number(row.line) - 1 : -1, shown = this.expansion?.from[line] ?? line;
    showDetails(byId('details'), row);
    this.editor.show(shown, shown);
  }

  /** Lists the messages that fit the filter, and says how many they are. */
  sift() {
    const { list, result } = this;
    list.set(result?.rows ?? [], byId('filter').value);
    const all = list.rows.length, seen = list.seen.length;
    byId('counted').textContent = seen === all ? amount(all, 'message') : `${seen.toLocaleString('en')} of ${amount(all, 'message')}`;
  }

  /** @returns {import('./state.js').Shared} what a link carries */
  shared() {
    const [one, other] = this.terminals;
    return { first: one.text, second: other?.text ?? null, script: this.scriptEditor.value, messages: this.messageEditor.value, mode: this.mode };
  }

  /** Keeps what is typed, which is replaced next: "Undo" brings it back. */
  keep() {
    this.before.push(this.shared());
    byId('undo').hidden = false;
  }

  undo() {
    const before = this.before.pop();
    byId('undo').hidden = !this.before.length;
    if (before) this.restore(before);
  }

  /** @param {'script'|'messages'} mode @param {string} text that takes the place of what is typed */
  replace(mode, text) {
    this.keep();
    this.setMode(mode);
    this.editor.value = text;
    this.play();
  }

  /** @param {import('./state.js').Shared} state shown from now on @returns {boolean} is its terminal accepted? */
  restore({ first, second, script, messages, mode }) {
    const [one, ...others] = [first, second ?? ''].filter((text) => this.engine.check(text).status === 0);
    if (one !== first) return false;
    this.terminals = [one, ...others].map((text) => ({ text, typed: text }));
    this.isFresh = true;
    this.setMode(mode);
    this.scriptEditor.value = script;
    this.messageEditor.value = messages;
    this.turnTo('1');
    this.play();
    return true;
  }

  /** Writes the link into the address of the page, and says whether it is short enough. */
  async writeLink() {
    const shared = this.shared(), isShort = shared.script.length + shared.messages.length <= 64 * LONGEST;
    const packed = isShort ? await pack(shared) : '';
    this.written = packed.length <= LONGEST ? packed : '';
    history.replaceState(null, '', this.written ? `#${this.written}` : location.pathname + location.search);
    return this.written !== '';
  }

  async readLink() {
    const link = location.hash.slice(1);
    if (link === this.written) return;
    const state = await unpack(link);
    if (!state || !this.restore(state)) alarm('This link is damaged: nothing was taken from it.');
  }

  async copyLink() {
    if (!await this.writeLink()) { alarm('This script is too long for a link. Save it as a file instead.'); return; }
    try { await navigator.clipboard.writeText(location.href); } catch { prompt('The link:', location.href); return; }
    byId('link').textContent = 'Copied';
    setTimeout(() => { byId('link').textContent = 'Copy link'; }, 1500);
  }

  /** @param {File|undefined} file */
  async open(file) {
    if (!file) return;
    if (file.size > LARGEST_FILE) { alarm('This file is too large.'); return; }
    const text = await file.text(), isMessages = /\.messages$/.test(file.name) || /^[AB] (?:rx|tx|mode|status|data) /m.test(text);
    if (!/^rt1553 /.test(text)) { this.replace(isMessages ? 'messages' : 'script', text); return; }
    const { status, fault } = this.engine.check(text);
    if (status !== 0) { alarm(`This text is refused: ${fault}.`); return; }
    this.keep();
    this.take(text, false);
  }

  bindClicks() {
    const file = byId('file'), pick = byId('example'), root = document.documentElement;
    const clicks = {
      open: () => file.click(),
      undo: () => this.undo(),
      'save-text': () => save('terminal.rt1553', this.terminals[this.which].text),
      'save-script': () => save('bus.script', this.script),
      'save-transcript': () => save('bus.transcript', this.result?.transcript ?? ''),
      second: () => this.toggleSecond(),
      expand: () => this.replace('script', this.script),
      restore: () => this.take(this.terminals[this.which].text, false),
      link: () => this.copyLink(),
      print: () => print(),
      theme: () => {
        const prefers = matchMedia('(prefers-color-scheme: dark)').matches ? 'dark' : 'light';
        root.dataset.theme = (root.dataset.theme ?? prefers) === 'dark' ? 'light' : 'dark';
      },
    };
    for (const [id, click] of Object.entries(clicks)) byId(id).onclick = click;
    file.onchange = () => { this.open(file.files[0]); file.value = ''; };
    this.examples.forEach((it, n) => pick.append(el('option', { value: String(n) }, it.name)));
    pick.onchange = () => {
      if (pick.value === '') return;
      this.keep();
      this.showExample(this.examples[Number(pick.value)]);
    };
  }

  bindFilter() {
    const field = byId('filter'), keys = /** @type {any[]} */ ([...document.querySelectorAll('[data-filter]')]);
    const words = () => /** @type {string[]} */ (field.value.split(/\s+/).filter(Boolean));
    field.oninput = () => {
      this.sift();
      for (const key of keys) key.setAttribute('aria-pressed', String(words().includes(key.dataset.filter)));
    };
    for (const key of keys) {
      key.onclick = () => {
        const others = words().filter((it) => it !== key.dataset.filter);
        field.value = (others.length < words().length ? others : [...others, key.dataset.filter]).join(' ');
        field.oninput();
      };
    }
  }

  bindWindow() {
    const menus = () => /** @type {HTMLDetailsElement[]} */ ([...document.querySelectorAll('details.menu[open]')]);
    window.addEventListener('hashchange', () => this.readLink());
    window.addEventListener('beforeprint', () => this.drawPaper());
    document.addEventListener('dragover', (event) => event.preventDefault());
    document.addEventListener('drop', (event) => { event.preventDefault(); this.open(event.dataTransfer?.files[0]); });
    document.addEventListener('click', ({ target }) => {
      const at = /** @type {HTMLElement} */ (target);
      for (const menu of menus()) if (!menu.contains(at) || at.closest('.menu button')) menu.open = false;
    });
    document.addEventListener('keydown', (event) => {
      if (event.key === 'Escape') for (const menu of menus()) menu.open = false;
      const isTyping = /^(INPUT|TEXTAREA|SELECT)$/.test(document.activeElement?.tagName ?? '');
      if (event.key === '/' && !isTyping) { byId('filter').focus(); event.preventDefault(); }
      const to = event.altKey ? { 1: 'left', 2: 'editor', 3: 'list' }[event.key] : undefined;
      if (!to) return;
      event.preventDefault();
      this.view(to);
      (to === 'left' ? byId('form').querySelector('input') : to === 'editor' ? this.editor.area : this.list.box).focus();
    });
  }

  drawPaper() {
    const { result, script, verdict } = this, lines = script.replace(/\n$/, '').split('\n'), answers = result?.answers ?? [];
    drawPaper(byId('paper'), this.terminals.map((it) => readCanon(it.text)), verdict, this.list.seen, lines, answers, result?.second ?? answers);
  }
}

/** @param {string[]} answers to the lines of a script @param {number[]} from @param {number} lines of the messages that they come from */
function gather(answers, from, lines) {
  const gathered = new Array(lines).fill('');
  answers.forEach((answer, n) => { if (answer) gathered[from[n]] += gathered[from[n]] ? `  ${answer.replace(/^[AB] /, '')}` : answer; });
  return gathered;
}

/** @param {string} line of a canonical text @returns {string} what it says, where that isn't seen at once */
function meaning(line) {
  const [, counts, codes] = /^(?:(?:own-receive|own-transmit|broadcast-receive) \d\d ([0-9a-f]{8})|(?:own|broadcast)-mode ([0-9a-f]{8}))$/.exec(line) ?? [];
  if (codes) return `codes ${writeRanges(parseInt(codes, 16), 0)}`;
  return counts && counts !== '00000000' ? `counts ${writeRanges(parseInt(counts, 16), 1)}` : '';
}

/** @param {number} line from 1, 0 for none @param {string} fault @returns {Map<number, string>} what is wrong, at its line */
const marksOf = (line, fault) => new Map(line ? [[line - 1, fault]] : []);

/** @param {number} count @param {string} what */
const amount = (count, what) => `${count.toLocaleString('en')} ${what}${count === 1 ? '' : 's'}`;

/** @param {string} id of a line of the page @param {string} text @param {string} tone */
function tell(id, text, tone) {
  byId(id).textContent = text;
  byId(id).className = `judged ${tone}`;
}

/** @param {string} text */
function alarm(text) {
  byId('alert').textContent = text;
  byId('alert').hidden = false;
}
