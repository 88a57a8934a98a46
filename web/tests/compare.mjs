// Has the module answer the runs that `native.py` printed, and compares to the byte:
//
//     node [--experimental-wasm-memory64] web/tests/compare.mjs [--library PROGRAM] MODULE FILE..
//
// - of a run that is real, with the native program: the status, the output, and the files that the
//   words name;
// - of a row, with what it says of the run: the status, the log, and those files;
// - with --library, the whole answer with that of the native library to the same request: PROGRAM
//   is `answer.c` with the library.
//
// It prints what differs, and how many runs agree. The status is 1 if one differs. Unproved.
import { spawnSync } from 'node:child_process';
import { createReadStream, readFileSync } from 'node:fs';
import { createInterface } from 'node:readline';
import { NO_MEMORY, NO_PROGRAM, call, join, partsOf, saidIn, textOf } from '../src/form.js';

const [first, ...others] = process.argv.slice(2);
const [library, path, ...lists] = first === '--library' ? others : ['', first, ...others];
const module = new WebAssembly.Module(readFileSync(path));
/** The statuses of the native library's program where there is no answer. */
const STATUSES = { [NO_MEMORY]: 20, [NO_PROGRAM]: 21 };
const LONGEST = 1 << 30;
const unpacked = text => new Uint8Array(Buffer.from(text, 'base64'));
const packed = bytes => bytes && Buffer.from(bytes).toString('base64');

/** Returns the request of a run. */
const requestOf = run => ({ words: run.words, input: unpacked(run.input),
  files: Object.fromEntries(Object.entries(run.before).map(([name, it]) =>
    [name, unpacked(it)])) });

/** Returns the module's answer, and its bytes, by the page's own call. */
function answered(request) {
  const { exports } = new WebAssembly.Instance(module, {});
  let bytes = new Uint8Array();
  const pg_web = (...numbers) => {
    const size = exports.pg_web(...numbers);
    bytes = new Uint8Array(exports.memory.buffer, Number(numbers[5]),
      Math.min(Number(size), Number(numbers[6])));
    return size;
  };
  return { answer: call({ ...exports, pg_web }, request), bytes: Buffer.from(bytes) };
}

/** Returns what differs from what the program left: the names, what came and what is due. */
function fromProgram(run, answer) {
  const named = [...new Set(run.words.slice(1))];
  const shown = [['status', answer.status, run.status], ['output', saidIn(answer), run.output],
    ...named.map(it => [it, packed(answer.files.get(it)), run.after[it]])];
  return shown.filter(([, came, due]) => came !== due);
}

/** Tells whether an entry is as it is told, `[text, whole]`. */
const isEntry = (came, [text, whole]) => whole ? came === text : came?.startsWith(text);

/** Tells whether a file is as it is told: that it holds a text, starts so, or is lacking. */
const isFile = (came, [word, text]) => word === 'lacks' ? came === undefined
  : word === 'holds' ? packed(came) === text
    : textOf(came ?? new Uint8Array()).startsWith(textOf(unpacked(text)));

/** Returns what differs from what the row says. */
function fromRow({ words, told }, answer) {
  const log = answer.log.map(it => it.sign + textOf(it.bytes));
  const most = Math.max(log.length, told.log.length);
  const wrong = Array.from({ length: most }, (_, at) => at).filter(at =>
    !told.log[at] || !isEntry(log[at], told.log[at])).map(at => ['log', log[at], told.log[at]]);
  const files = Object.entries(told.files).filter(([name, due]) =>
    words.includes(name) && !isFile(answer.files.get(name), due)).map(([name, due]) =>
    [name, packed(answer.files.get(name)), due]);
  return [...answer.status === told.status ? [] : [['status', answer.status, told.status]],
    ...wrong, ...files];
}

/** Returns what differs from the answer of the native library. */
function fromLibrary(request, { answer, bytes }) {
  const parts = partsOf(request);
  const numbers = [request.words.length, parts.length, ...parts.map(it => it.length)];
  const head = new Uint8Array(new BigUint64Array(numbers.map(BigInt)).buffer);
  const done = spawnSync(library, { input: join([head, ...parts]), maxBuffer: LONGEST });
  const same = done.status === 0 ? done.stdout.equals(bytes)
    : done.status === STATUSES[answer.status] && !answer.log.length;
  return same ? [] : [['answer', `${bytes.length} bytes`,
    `${done.stdout.length} bytes, status ${done.status}`]];
}

for (const list of lists) {
  const counts = {};
  const since = performance.now();
  for await (const line of createInterface({ input: createReadStream(list) })) {
    const run = JSON.parse(line);
    const request = requestOf(run), found = answered(request);
    const judged = { ...run.is_real && { program: fromProgram(run, found.answer) },
      ...run.told && { row: fromRow(run, found.answer) },
      ...library && { library: fromLibrary(request, found) } };
    for (const [by, wrong] of Object.entries(judged)) {
      counts[by] ??= { agree: 0, differ: 0 };
      counts[by][wrong.length ? 'differ' : 'agree'] += 1;
      for (const [what, came, due] of wrong) {
        console.log(`differs from the ${by}: ${run.name}: ${run.words.join(' ').slice(0, 200)}: `
          + `${what}: ${String(came).slice(0, 300)}, not ${String(due).slice(0, 300)}`);
        process.exitCode = 1;
      }
    }
  }
  const seconds = Math.round((performance.now() - since) / 1000);
  console.log(`${list}, ${seconds} s: ${Object.entries(counts).map(([by, { agree, differ }]) =>
    `with the ${by} ${agree} runs agree, ${differ} differ`).join('; ')}`);
}
