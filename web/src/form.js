// The bytes of a request and of its answer, and the call of the module that answers it. A part of
// an answer is its length in eight bytes, the lowest first, and its bytes. An answer is the status,
// one byte; the log, whose entries are parts of a part; and two parts for each file that the words
// name: its name and its bytes.

/** @typedef {Record<string, Uint8Array>} Files */
/** @typedef {{words: string[], input?: string | Uint8Array, files?: Files}} Request what a program
 * is run on: words, the first of which names it; what its console reads; files by their names */
/** @typedef {{sign: string, bytes: Uint8Array}} Entry an entry of a log: `<` and what was printed,
 * `>` and a line that was read, `!` and the beginning of a line that is too long, `.` at the end */
/** @typedef {{status: number, log: Entry[], files: Map<string, Uint8Array>}} Answer */
/** @typedef {{memory: WebAssembly.Memory, host_alloc: (size: bigint) => bigint,
 *   pg_web: (...numbers: bigint[]) => bigint}} Exports what a module exports */

/** The statuses of a run for which memory is too small, and of a program that isn't there. */
export const NO_MEMORY = 7, NO_PROGRAM = 70;
// How many bytes an answer may have at first, and how many the shortest has.
const ROOM = 1 << 25, SHORTEST = 17;

const encoder = new TextEncoder();
const decoder = new TextDecoder();

/** @type {(text: string) => Uint8Array} Returns the bytes of a text. */
export const bytesOf = text => encoder.encode(text);

/** @type {(bytes: Uint8Array) => string} Returns the text of bytes. */
export const textOf = bytes => decoder.decode(bytes);

/** @type {(parts: Uint8Array[]) => Uint8Array} Returns the bytes of all parts. */
export function join(parts) {
  const all = new Uint8Array(parts.reduce((size, part) => size + part.length, 0));
  let at = 0;
  for (const part of parts) {
    all.set(part, at);
    at += part.length;
  }
  return all;
}

/** @type {(bytes: Uint8Array) => Uint8Array[]} Returns the parts, each after its length. */
export function cut(bytes) {
  const view = new DataView(bytes.buffer, bytes.byteOffset, bytes.length);
  const parts = [];
  for (let at = 0; at < bytes.length;) {
    const end = at + 8 + Number(view.getBigUint64(at, true));
    parts.push(bytes.subarray(at + 8, end));
    at = end;
  }
  return parts;
}

/** @type {(request: Request) => Uint8Array[]} Returns the parts of a request, its words first. */
export const partsOf = ({ words, input = '', files = {} }) => [
  ...words.map(bytesOf), typeof input === 'string' ? bytesOf(input) : input,
  ...Object.entries(files).flatMap(([name, bytes]) => [bytesOf(name), bytes])];

/** @type {(bytes: Uint8Array) => Answer} Reads an answer. */
export function readAnswer(bytes) {
  const [status, log, ...named] = cut(bytes);
  const entries = cut(log).map(it => ({ sign: textOf(it.subarray(0, 1)), bytes: it.subarray(1) }));
  const files = new Map();
  for (let at = 0; at + 1 < named.length; at += 2) {
    files.set(textOf(named[at]), named[at + 1]);
  }
  return { status: status[0], log: entries, files };
}

/** @type {(answer: Answer) => string} Returns all that was printed. */
export const saidIn = answer =>
  textOf(join(answer.log.filter(it => it.sign === '<').map(it => it.bytes)));

/** @type {(exports: Exports, bytes: Uint8Array, room?: number) => bigint} Copies bytes into the
 * memory of a module, with room for more, and returns their address, or 0. */
function put(exports, bytes, room = 0) {
  const address = exports.host_alloc(BigInt(Math.max(bytes.length, room, 8)));
  if (address) {
    new Uint8Array(exports.memory.buffer).set(bytes, Number(address));
  }
  return address;
}

/** @type {(exports: Exports, request: Request, room?: number) => Answer} Runs a request by a fresh
 * instance of a module, and once more if the answer is longer than `room`. */
export function call(exports, request, room = ROOM) {
  const parts = partsOf(request);
  const lengths = new BigUint64Array(parts.map(part => BigInt(part.length)));
  const bytes = join(parts);
  const numbers = put(exports, new Uint8Array(lengths.buffer));
  const text = put(exports, bytes);
  const answer = put(exports, new Uint8Array(), room);
  const size = numbers && text && answer && exports.pg_web(BigInt(request.words.length), numbers,
    BigInt(parts.length), text, BigInt(bytes.length), answer, BigInt(room));
  if (size < SHORTEST) {
    return { status: size === 1n ? NO_PROGRAM : NO_MEMORY, log: [], files: new Map() };
  }
  const from = Number(answer), count = Number(size);
  return count > room ? call(exports, request, count)
    : readAnswer(new Uint8Array(exports.memory.buffer).slice(from, from + count));
}
