// A play against a proof: all replies so far are given to the program, which answers with the play
// up to the next reply. So a reply is taken back by leaving it out.
import { textOf } from './form.js';

/** @typedef {import('./game.js').Side} Side */
/** @type {Record<string, string>} What is put before entries of a log. */
const SIGNS = { '<': '', '>': 'reply ' };

/** @type {(side: Side) => Side} Returns the other side. */
export const otherSide = side => side === 'x' ? 'y' : 'x';

/** @param {import('./game.js').Game} game @param {Side} side which the program plays
 * @param {import('./form.js').Answer} answer @returns the moves of the play, the game after them,
 * and the word of the result, if it is over */
export function playIn(game, side, answer) {
  const text = answer.log.filter(it => it.sign in SIGNS).map(({ sign, bytes }) =>
    SIGNS[sign] + textOf(bytes) + (sign === '>' ? '\n' : '')).join('');
  const moves = [...text.matchAll(/^(move|reply) (\d+)$/mg)].map(([, word, point]) =>
    ({ side: word === 'move' ? side : otherSide(side), point: Number(point) }));
  const marks = [...game.marks];
  moves.forEach(it => { marks[it.point] = it.side; });
  return { moves, game: { ...game, marks }, result: /^result (\S+)$/m.exec(text)?.[1] };
}

/** @type {(said: string, turn: Side) => string[]} Returns the sides that a proof can play: those of
 * the accepted claims with the game's turn. */
export const sidesIn = (said, turn) =>
  ['x', 'y'].filter(side => new RegExp(`^accepted ${turn} ${side} `, 'm').test(said));
