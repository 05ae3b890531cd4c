/**
 * The messages of a script, as the module tells them: a line each, with the fields of `rt1553-tool messages --format csv`.
 * @typedef {{number: string, line: string, bus: string, kind: string, address: string, subaddress: string, code: string, words: string,
 *   command: string, transmitter: string, ended: string, why: string, data: string, status: string, bits: string, handed: string}} Message
 * A row of the list: what is told for the terminal, or else for the second one, and what is told for the second one where both differ.
 * @typedef {Message & {n: number, differs: boolean, other: Message|null}} Row
 */
const TOLD = ['number', 'line', 'bus', 'kind', 'address', 'subaddress', 'code', 'words', 'command', 'transmitter', 'ended', 'why', 'data', 'status',
  'bits', 'handed'];

/** Where nothing is told.
 * @type {Message} */
const NOTHING = /** @type {any} */ (Object.fromEntries(TOLD.map((name) => [name, ''])));

/** @param {string} text @returns {Map<string, Message>} what is told, by the line with which a message begins */
function toldIn(text) {
  const told = text.split('\n').slice(0, -1).map((line) => /** @type {any} */ (Object.fromEntries(line.split(',').map((it, n) => [TOLD[n], it]))));
  return new Map(told.map((it) => [it.line, it]));
}

/** @param {any} it what is told for the second terminal alone @returns {Message} what the first one has in its place */
const unanswered = (it) => ({ ...it, number: '', ended: '', why: '', data: '', status: '', bits: '', handed: '' });

/** @param {string} text of one terminal @param {string|null} second that of a second one @returns {Row[]} in the order in which messages begin */
export function rowsOf(text, second) {
  const ones = toldIn(text), others = second === null ? ones : toldIn(second);
  const lines = [...new Set([...ones.keys(), ...others.keys()])].sort((p, q) => Number(p) - Number(q));
  return lines.map((line, n) => {
    const one = ones.get(line), other = others.get(line), isSame = TOLD.slice(1).every((name) => one?.[name] === other?.[name]);
    return { ...(one ?? unanswered(other)), n, differs: !isSame, other: isSame ? null : other ?? NOTHING };
  });
}

/** @param {Message} it @returns {string} the subaddress, or the mode code */
export const placeOf = (it) => (it.code ? `mode ${it.code}` : it.subaddress);
/** @param {Message} it @returns {string} how it ended, and why */
export const endingOf = (it) => it.ended + (it.why && `: ${it.why}`);
/** @param {Row} row @returns {string} the classes that colour it */
export const toneOf = (row) => `${row.ended.replace(' ', '-')}${row.ended === 'done' && row.why ? ' cut' : ''}${row.differs ? ' differs' : ''}`;
