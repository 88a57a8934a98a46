// Tests of the page's own functions, without a browser and without the module:
// `node --test web/tests`. What is expected was worked out by hand.
import assert from 'node:assert/strict';
import { readFileSync, readdirSync } from 'node:fs';
import test from 'node:test';
import { bytesOf, call, cut, join, partsOf, readAnswer, saidIn, textOf } from '../src/form.js';
import { below, gameText, newGame, placeOf, pointsIn, pointsOf, readGame, resized, shapeText,
  withEdges, withoutVertex } from '../src/game.js';
import { otherSide, playIn, sidesIn } from '../src/play.js';
import { aimOf, claimsIn, faultIn, pointName, resultIn, reviewIn, setName, textsIn, whyNot,
  winnerIn } from '../src/words.js';

const top = new URL('../../', import.meta.url);
const read = name => readFileSync(new URL(name, top), 'utf8');
const texts = textsIn(read('launch/codes.txt') + read('web/src/texts.txt'));
const GRAPH = 'posgame 1\nkind switching\nvertices 4\nterminals 0 1\nedge 0 2\nedge 2 1\nedge 3 1\n'
  + 'edge 0 3\nx 1\nturn y\n';

/** A part of an answer. */
const part = bytes => join([new Uint8Array(new BigUint64Array([BigInt(bytes.length)]).buffer), bytes]);
/** The bytes of an answer. */
const answerOf = (status, log, ...named) => join([part(Uint8Array.of(status)),
  part(join(log.map(it => part(bytesOf(it))))), ...named.map(it => part(bytesOf(it)))]);
const answered = (status, ...log) => readAnswer(answerOf(status, log));

test('parts are cut at their lengths', () => {
  const bytes = join([part(bytesOf('ab')), part(bytesOf('')), part(bytesOf('c'))]);
  assert.deepEqual(cut(bytes).map(textOf), ['ab', '', 'c']);
  assert.deepEqual(cut(bytes.subarray(10)).map(textOf), ['', 'c']);
  assert.deepEqual([...part(bytesOf('ab'))], [2, 0, 0, 0, 0, 0, 0, 0, 97, 98]);
});

test('a request is its words, its input and its files', () => {
  const request = { words: ['posgame', 'ä'], input: '4\n', files: { G: bytesOf('g') } };
  assert.deepEqual(partsOf(request).map(textOf), ['posgame', 'ä', '4\n', 'G', 'g']);
  assert.deepEqual(partsOf({ words: ['posgame'] }).map(textOf), ['posgame', '']);
});

test('an answer has its status, its log and its files', () => {
  const bytes = answerOf(8, ['<claim x win\n', '>4', '!77', '.', '<move 1\n'], 'C', 'proof');
  const answer = readAnswer(bytes);
  assert.equal(answer.status, 8);
  assert.equal(answer.log.map(it => it.sign).join(''), '<>!.<');
  assert.equal(saidIn(answer), 'claim x win\nmove 1\n');
  assert.deepEqual([...answer.files.keys()], ['C']);
  assert.equal(textOf(answer.files.get('C')), 'proof');
});

/** A module in JavaScript that answers what its memory has, and how often it was called. */
function stand(answer, most = 1 << 20) {
  const memory = { buffer: new ArrayBuffer(most) };
  const seen = { calls: 0, at: 16 };
  const host_alloc = size => {
    const from = seen.at;
    seen.at += Math.ceil(Number(size) / 16) * 16;
    return seen.at > most ? 0n : BigInt(from);
  };
  const pg_web = (count, lengths, parts, bytes, size, room, most) => {
    seen.calls += 1;
    const numbers = new BigUint64Array(memory.buffer, Number(lengths), Number(parts));
    seen.words = Number(count);
    seen.lengths = [...numbers].map(Number);
    seen.text = textOf(new Uint8Array(memory.buffer, Number(bytes), Number(size)));
    if (answer.length <= Number(most)) {
      new Uint8Array(memory.buffer).set(answer, Number(room));
    }
    return BigInt(answer.length);
  };
  return { exports: { memory, host_alloc, pg_web }, seen };
}

test('a call passes the parts on, and reads the answer', () => {
  const { exports, seen } = stand(answerOf(0, ['<hello\n']));
  const answer = call(exports, { words: ['posgame', 'check'], input: 'i' }, 100);
  assert.equal(saidIn(answer), 'hello\n');
  assert.deepEqual([seen.words, seen.lengths, seen.text, seen.calls], [2, [7, 5, 1], 'posgamechecki', 1]);
});

test('a long answer is asked for again, and no room is status 7', () => {
  const { exports, seen } = stand(answerOf(0, [`<${'a'.repeat(500)}`]));
  assert.equal(saidIn(call(exports, { words: [] }, 100)).length, 500);
  assert.equal(seen.calls, 2);
  assert.equal(call(exports, { words: [] }, 1 << 21).status, 7);
  assert.equal(call(stand(new Uint8Array()).exports, { words: [] }, 100).status, 7);
  assert.equal(call(stand(new Uint8Array(1)).exports, { words: [] }, 100).status, 70);
});

test('game files of the examples are read as they are printed', () => {
  const names = readdirSync(new URL('examples', top)).filter(it => it.endsWith('.game'));
  const found = names.map(it => read(`examples/${it}`)).filter(it => /^posgame 1$/m.test(it));
  assert.ok(found.length > 20);
  for (const text of found) {
    const plain = text.split('\n').filter(it => !it.startsWith('#')).join('\n');
    assert.equal(gameText(readGame(text)), plain);
  }
});

test('the games to begin with are read as they are printed', () => {
  const games = textsIn(read('web/src/games.txt'));
  assert.ok(games.size >= 9);
  for (const text of games.values()) {
    const [first, kind, ...rest] = text.split(';');
    assert.equal(gameText(readGame(text.replaceAll(';', '\n'))),
      [first, kind, ...rest, ''].join('\n'));
  }
});

test('points, places and sizes', () => {
  const graph = readGame(`# at 2 7 9\n${GRAPH}`);
  assert.deepEqual([pointsOf(graph), pointsOf(newGame())], [4, 9]);
  assert.deepEqual([placeOf(graph, 2), placeOf(graph, 0)], [[7, 9], [10, 50]]);
  for (const bad of ['0 5', '', '0', '0 1 2 3', '0 1e1 5', '0 -5 5', '0 5 101', 'x 1 2']) {
    assert.deepEqual(readGame(`# at ${bad}\n${GRAPH}`).places, [], bad);
  }
  assert.deepEqual(below(3), [0, 1, 2]);
  const game = { ...newGame(), sets: ['shape 11', 'line 0 1'], marks: ['x'] };
  const wider = resized(game, { width: 4 });
  assert.deepEqual([wider.sets, wider.marks, wider.width], [['shape 11'], [], 4]);
  assert.deepEqual(resized(game, { field: 'points' }).sets, []);
  assert.deepEqual([pointsIn('line 3 4'), pointsIn('shape 11')], [[3, 4], []]);
});

test('a shape is cut out of its board', () => {
  assert.equal(shapeText([6, 7, 12], 5), 'shape 11/01');
  assert.equal(shapeText([0], 5), 'shape 1');
  assert.equal(shapeText([4, 8, 9], 5), 'shape 01/11');
});

test('edges and vertices are erased with their marks and numbers', () => {
  const graph = readGame(GRAPH);
  const less = withEdges(graph, edge => edge !== 0);
  assert.deepEqual([less.edges, less.marks], [[[2, 1], [3, 1], [0, 3]], ['x', undefined, undefined]]);
  const left = withoutVertex(graph, 2);
  assert.deepEqual([left.edges, left.width, left.terminals], [[[2, 1], [0, 2]], 3, [0, 1]]);
  assert.equal(left.places.length, 3);
  assert.match(gameText(left), /vertices 3\nterminals 0 1\nedge 2 1\nedge 0 2\nturn y\n$/);
});

test('a play is read from its log', () => {
  const log = answered(8, '<claim y win\n', '>4', '<move 1', '<2\n', '>0', '.');
  const found = playIn(newGame(), 'y', log);
  assert.deepEqual(found.moves, [{ side: 'x', point: 4 }, { side: 'y', point: 12 },
    { side: 'x', point: 0 }]);
  assert.deepEqual([found.game.marks[4], found.game.marks[12], found.result], ['x', 'y', undefined]);
  assert.equal(playIn(newGame(), 'x', answered(0, '<move 1\nresult maker\n')).result, 'maker');
  assert.equal(otherSide('x'), 'y');
  const said = 'accepted x x win\naccepted y y win\n';
  assert.deepEqual([sidesIn(said, 'x'), sidesIn(said, 'y')], [['x'], ['y']]);
});

test('what is said of results, claims and sets', () => {
  const game = readGame('posgame 1\nkind maker-breaker\ngrid 3 2\nbias 2\nshape 110/011\nturn x\n');
  assert.equal(resultIn(game, 'result breaker\n', texts),
    'If X (Maker) moves first, O (Breaker) wins.');
  assert.match(resultIn({ ...game, kind: 'maker-maker' }, 'result draw\n', texts), /a draw/);
  assert.equal(resultIn(readGame(GRAPH), 'class short\n', texts),
    'If either side moves first, X (Short) wins.');
  assert.equal(resultIn(readGame(GRAPH), 'class first-mover\n', texts), 'Whoever moves first wins.');
  assert.deepEqual(claimsIn('maker-maker', 'accepted x y draw\naccepted x x win\n'),
    ['If X moves first, O gets at least a draw.', 'If X moves first, X wins.']);
  assert.equal(winnerIn('avoider-enforcer', 'enforcer', texts), 'O (Enforcer) wins.');
  assert.equal(setName(game, 'shape 110/011'), 'every copy of ■■□ / □■■');
  assert.equal(setName(game, 'line 0 5'), 'row 1, column 1; row 2, column 3');
  assert.equal(pointName(readGame(GRAPH), 2), 'edge 2 from 3 to 1');
  assert.match(aimOf(game, texts), /O claims 2 points a turn/);
});

test('what is said of faults', () => {
  const files = letter => ({ G: 'posgame 1\nkind hex\n', C: '', F: '' })[letter];
  assert.equal(faultIn('game G4 line 2\n', texts, files), "The game has a fault in line 2: the key "
    + "isn't known, or the first argument of `kind` or `turn` isn't one of its words (G4). The line is "
    + '“kind hex”.');
  assert.match(faultIn('game G12 line 0\n', texts, files), /^The game has a fault: the file ends/);
  assert.match(faultIn('rejected J10 claim 1 node 3\n', texts, files), /claim 1, node 3: .*\(J10\)/);
  assert.equal(faultIn('accepted x x win\n', texts, files), '');
  assert.match(whyNot(answered(1, '<unknown after 390 positions\n'), texts, files), /390 positions/);
  assert.match(whyNot(answered(1, '<unknown at 3 after 9 positions\n'), texts, files), /3 moves/);
  for (const status of [2, 5, 6, 7, 8, 9, 11, 70]) {
    assert.equal(whyNot(answered(status), texts, files), texts.get(String(status)));
  }
  for (const code of read('launch/codes.txt').match(/^[GCF]\d+/mg)) {
    const name = { G: 'game', C: 'certificate', F: 'record' }[code[0]];
    assert.match(faultIn(`${name} ${code} line 1\n`, texts, files), new RegExp(`\\(${code}\\)`));
  }
});

test('what is said of reviews', () => {
  const said = 'lost 2 4 draw x\nreviewed 5\n';
  const game = { ...newGame(), kind: 'maker-maker' };
  const [lost, count] = reviewIn(game, said, texts);
  assert.match(lost, /^Move 3 \(row 2, column 2\) lost value\. Before it: .*draw.* After it: X wins\.$/);
  assert.equal(count, '5 moves were reviewed, 1 of them lost value.');
});
