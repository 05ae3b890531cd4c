/**
 * Plays scripts: short ones at once, long ones in a worker, which the next one ends.
 * `differs` is the first line that the two terminals answer differently, or -1.
 * @typedef {{first: string, second: string|null, script: string}} Job
 * @typedef {{fault: string, faultLine: number, transcript: string, answers: string[], second: string[]|null,
 *   rows: import('./rows.js').Row[], differs: number, ms: number}} Result
 */
import { Engine } from './engine.js';
import { rowsOf } from './rows.js';

const AT_ONCE = 3000; // scripts with more lines are played in the worker
const PART = 1000; // how many messages the worker gives at a time: other work of the page comes in between

/** @param {string} text @returns {boolean} has it more lines than are played at once? */
export const isLong = (text) => text.split('\n', AT_ONCE + 2).length > AT_ONCE + 1;

/** @param {Engine} engine @param {Job} job @returns {Result} */
function playAll(engine, { first, second, script }) {
  const start = performance.now(), lines = script.replace(/\n$/, '').split('\n');
  const from = lines.findIndex((line) => line !== '' && line[0] !== '#');
  const play = (/** @type {string} */ text) => {
    // a last line without its line feed would be played behind the read that tells that nothing follows
    const whole = `${lines.join('\n')}\n`, { fault, line, text: transcript, ends } = engine.run(text, whole);
    const answers = lines.map((_, at) => transcript.slice(ends[at - from - 1] ?? 0, ends[at - from] ?? 0).trimEnd());
    return { fault, line, transcript, answers, messages: engine.messages(text, whole).text };
  };
  const one = play(first), other = second === null ? one : play(second);
  return {
    fault: one.fault, faultLine: one.line, transcript: one.transcript, answers: one.answers, second: second === null ? null : other.answers,
    rows: rowsOf(one.messages, second === null ? null : other.messages),
    differs: one.answers.findIndex((answer, n) => answer !== other.answers[n]), ms: performance.now() - start,
  };
}

/** @param {string} packed the module, which the worker plays with */
export function serve(packed) {
  const engine = Engine.load(packed), scope = /** @type {any} */ (self);
  scope.onmessage = async (/** @type {MessageEvent<Job>} */ { data }) => {
    try {
      const { rows, ...result } = playAll(await engine, data);
      for (let n = 0; n < rows.length; n += PART) scope.postMessage({ rows: rows.slice(n, n + PART) });
      scope.postMessage({ result });
    } catch (fault) { scope.postMessage({ failed: String(fault) }); }
  };
}

export class Player {
  /** @param {Engine} engine @param {string} source of the worker @param {(result: Result) => void} played
   * @param {(fault: string) => void} failed */
  constructor(engine, source, played, failed) {
    this.engine = engine;
    this.source = URL.createObjectURL(new Blob([source], { type: 'text/javascript' }));
    this.played = played;
    this.failed = failed;
    /** @type {Worker|null} */ this.worker = null;
  }

  /** @param {Job} job @returns {boolean} is it played already? */
  play(job) {
    this.worker?.terminate();
    this.worker = null;
    if (!isLong(job.script)) { this.played(playAll(this.engine, job)); return true; }
    /** @type {any[]} */ const rows = [];
    const worker = this.worker = new Worker(this.source);
    worker.onerror = (event) => this.failed(`The worker failed: ${event.message}`);
    worker.onmessage = ({ data }) => {
      if (worker !== this.worker) return;
      if (data.rows) rows.push(...data.rows);
      else if (data.failed) this.failed(data.failed);
      else this.played({ ...data.result, rows });
    };
    worker.postMessage(job);
    return false;
  }
}
