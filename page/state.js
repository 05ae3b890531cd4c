/**
 * What a link carries: everything that was typed, packed into the fragment of the address.
 * @typedef {{first: string, second: string|null, script: string, messages: string, mode: 'script'|'messages'}} Shared
 */

export const LONGEST = 30_000; // of the fragments that are written: longer links break in mail
const MOST_UNPACKED = 1 << 24; // bytes that a fragment unpacks to: a small link must not fill memory

/** @param {string} base64 */
export const bytesOf = (base64) => Uint8Array.from(atob(base64), (it) => it.charCodeAt(0));

/** @param {Uint8Array} bytes @param {any} stream @param {number} [most] @returns {Promise<Uint8Array>} what the stream makes of them */
export async function through(bytes, stream, most = Infinity) {
  const reader = new Blob([bytes]).stream().pipeThrough(stream).getReader();
  /** @type {Uint8Array[]} */ const parts = [];
  let size = 0;
  for (let it = await reader.read(); !it.done; it = await reader.read()) {
    size += it.value.length;
    if (size > most) throw new RangeError(`over ${most} bytes`);
    parts.push(it.value);
  }
  return new Uint8Array(await new Blob(parts).arrayBuffer());
}

/** @param {Shared} state @returns {Promise<string>} */
export async function pack(state) {
  const bytes = await through(new TextEncoder().encode(JSON.stringify(state)), new CompressionStream('deflate-raw'));
  const text = btoa(Array.from(bytes, (it) => String.fromCharCode(it)).join(''));
  return `1.${text.replace(/\+/g, '-').replace(/\//g, '_').replace(/=+$/, '')}`;
}

/** @param {string} fragment @returns {Promise<Shared|null>} what it carries, null where that is nothing */
export async function unpack(fragment) {
  try {
    if (!/^1\.[\w-]+$/.test(fragment)) return null;
    const packed = bytesOf(fragment.slice(2).replace(/-/g, '+').replace(/_/g, '/'));
    const state = JSON.parse(new TextDecoder().decode(await through(packed, new DecompressionStream('deflate-raw'), MOST_UNPACKED)));
    const textOf = (/** @type {string} */ name) => (typeof state[name] === 'string' ? state[name] : null);
    const first = textOf('first'), script = textOf('script');
    if (first === null || script === null) return null;
    return { first, second: textOf('second'), script, messages: textOf('messages') ?? '', mode: state.mode === 'messages' ? 'messages' : 'script' };
  } catch { return null; }
}
