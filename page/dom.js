/**
 * Small helpers of the page.
 */

/** Makes an element. Texts become text nodes: nothing that was typed is ever read as HTML.
 * @param {string} tag @param {Record<string, any>} [attributes] @param {...(Node|string|null)} inside @returns {any} */
export function el(tag, attributes = {}, ...inside) {
  const made = document.createElement(tag);
  for (const [name, value] of Object.entries(attributes)) {
    if (name.startsWith('on')) made.addEventListener(name.slice(2), value);
    else if (name in made && typeof value !== 'string') /** @type {any} */ (made)[name] = value;
    else made.setAttribute(name, String(value));
  }
  made.append(...inside.map((it) => it ?? ''));
  return made;
}

/** @param {string} tag of its cells @param {any[]} cells @param {string} [tone] @returns {HTMLElement} a row of a table */
export const rowOf = (tag, cells, tone = '') => el('tr', { class: tone }, ...cells.map((it) => el(tag, {}, it)));

/** @param {any[]} heads @param {HTMLElement[]} rows @param {string} [kind] @returns {HTMLElement} */
export const tableOf = (heads, rows, kind = '') =>
  el('table', { class: kind }, el('thead', {}, rowOf('th', heads)), el('tbody', {}, ...rows));

/** @param {string} id @returns {any} */
export const byId = (id) => document.getElementById(id);

/** @param {string} text @returns {string} control characters, and those that change the direction of writing, as marks */
export const shown = (text) => text.replace(/[\u0000-\u0008\u000b-\u001f\u007f-\u009f\u200e\u200f\u202a-\u202e\u2066-\u2069\ufeff]/g,
  (it) => (it < ' ' ? String.fromCharCode(0x2400 + it.charCodeAt(0)) : '\ufffd'));

/** @param {string} name @param {string} text saved as a file of this name */
export function save(name, text) {
  const link = el('a', { href: URL.createObjectURL(new Blob([text], { type: 'text/plain' })), download: name });
  document.body.append(link);
  link.click();
  link.remove();
  setTimeout(() => URL.revokeObjectURL(link.href), 10_000);
}

/** Tabs that clicks and arrow keys choose.
 * @param {HTMLElement} list @param {(name: string) => void} chosen @returns {(name: string) => void} chooses one */
export function tabs(list, chosen) {
  const all = /** @type {HTMLElement[]} */ ([...list.querySelectorAll('[role=tab]')]);
  const choose = (/** @type {string} */ name) => {
    for (const tab of all) {
      tab.setAttribute('aria-selected', String(tab.dataset.tab === name));
      tab.tabIndex = tab.dataset.tab === name ? 0 : -1;
    }
    chosen(name);
  };
  for (const tab of all) tab.onclick = () => choose(tab.dataset.tab ?? '');
  list.onkeydown = (event) => {
    const seen = all.filter((it) => !it.hidden), at = seen.indexOf(/** @type {any} */ (document.activeElement));
    const to = { ArrowRight: seen[at + 1] ?? seen[0], ArrowLeft: seen.at(at - 1) }[event.key];
    if (!to) return;
    to.focus();
    to.click();
    event.preventDefault();
  };
  return choose;
}
