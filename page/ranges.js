/**
 * Sets of counts and lists of words as people write them: "1-4, 8" and "0011 0022".
 */
import { has } from './words.js';

/** Reads counts into a mask: bit n - 1 for the count n. "-" and nothing are the empty set.
 * @param {string} text @returns {{mask: number, fault: string}} */
export function readRanges(text) {
  const ranges = text.trim();
  let mask = 0;
  if (/^[-–]?$/.test(ranges)) return { mask, fault: '' };
  for (const part of ranges.replace(/^all$/i, '1-32').split(',')) {
    const found = /^\s*(\d{1,2})\s*(?:[-–]\s*(\d{1,2})\s*)?$/.exec(part);
    if (!found) return { mask, fault: `“${part.trim().slice(0, 12)}” is no number or range` };
    const from = Number(found[1]), to = Number(found[2] ?? from);
    if (from < 1 || to > 32) return { mask, fault: '1 to 32 only' };
    if (from > to) return { mask, fault: `${from}-${to} runs backwards` };
    for (let n = from; n <= to; n++) mask |= 1 << (n - 1);
  }
  return { mask: mask >>> 0, fault: '' };
}

/** @param {number} mask @param {number} low the number of bit 0 @returns {string} its numbers as ranges */
export function writeRanges(mask, low) {
  /** @type {string[]} */ const parts = [];
  for (let n = 0; n < 32; n++) {
    if (!has(mask, n)) continue;
    const from = n;
    while (n < 31 && has(mask, n + 1)) n++;
    parts.push(n === from ? `${n + low}` : `${from + low}-${n + low}`);
  }
  return parts.join(', ');
}

/** @param {string} text words of four hexadecimal digits @returns {{words: number[], fault: string}} */
export function readWords(text) {
  const parts = text.split(/[\s,]+/).filter(Boolean), wrong = parts.find((it) => !/^[0-9a-fA-F]{4}$/.test(it));
  if (wrong) return { words: [], fault: `“${wrong.slice(0, 12)}” is not four hexadecimal digits` };
  return { words: parts.map((it) => parseInt(it, 16)), fault: parts.length > 32 ? 'at most 32 words' : '' };
}
