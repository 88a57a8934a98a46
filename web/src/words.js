// What the page says: the programs' answers in words of people.
import { saidIn } from './form.js';
import { pointsIn } from './game.js';

/** @typedef {import('./game.js').Game} Game */
/** @typedef {Map<string, string>} Texts what keys and codes mean */

/** @type {Record<string, string[]>} The names of X and O in each kind of game. */
const NAMES = {
  'maker-breaker': ['X (Maker)', 'O (Breaker)'], 'maker-maker': ['X', 'O'],
  'avoider-enforcer': ['X (Avoider)', 'O (Enforcer)'], switching: ['X (Short)', 'O (Cut)'],
};
/** @type {Record<string, string>} Which file the letter of a code belongs to. */
const FILES = { G: 'game', C: 'certificate', F: 'record' };

/** @type {(lines: string) => Texts} Reads texts: a line each, a key, a tab and what it means. */
export const textsIn = lines => new Map(lines.split('\n').filter(it => it.includes('\t'))
  .map(line => /** @type {[string, string]} */ (line.trim().split('\t'))));

/** @type {(game: Game, texts: Texts) => string} Returns what the sides want. */
export const aimOf = (game, texts) =>
  texts.get(game.kind) + (game.bias > 1 ? ` O claims ${game.bias} points a turn.` : '');

/** @type {(side: string) => string} Returns the letter that marks a side's points. */
export const letterOf = side => side === 'x' ? 'X' : 'O';

/** @type {(kind: string, side: string) => string} Returns how a side is called. */
export const nameOf = (kind, side) => NAMES[kind][side === 'x' ? 0 : 1];

/** @type {(game: Game, point: number) => string} Returns the name of a point. */
export function pointName(game, point) {
  if (game.field === 'grid') {
    return `row ${Math.floor(point / game.width) + 1}, column ${point % game.width + 1}`;
  }
  const ends = game.edges[point];
  return ends ? `edge ${point} from ${ends[0]} to ${ends[1]}` : `point ${point}`;
}

/** @type {(game: Game, set: string) => string} Returns what a winning set is. */
export const setName = (game, set) => set.startsWith('shape')
  ? `every copy of ${set.slice(6).replace(/[01/]/g, it => ({ 0: '□', 1: '■' })[it] ?? ' / ')}`
  : pointsIn(set).map(it => pointName(game, it)).join('; ');

/** @type {(kind: string, word: string, texts: Texts) => string} Returns who wins, by the word of a
 * result or class. */
export function winnerIn(kind, word, texts) {
  const side = ['x', 'maker', 'avoider', 'short'].includes(word) ? 'x' : 'y';
  return texts.get(word) ?? `${nameOf(kind, side)} wins.`;
}

/** @type {(game: Game, said: string, texts: Texts) => string} Returns what was printed of a game
 * that was decided. */
export function resultIn(game, said, texts) {
  const [, what, word = ''] = /^(result|class) (\S+)$/m.exec(said) ?? [];
  const first = what === 'result' ? nameOf(game.kind, game.turn) : 'either side';
  return texts.get(word) ?? `If ${first} moves first, ${winnerIn(game.kind, word, texts)}`;
}

/** @type {(kind: string, said: string) => string[]} Returns what accepted claims say. */
export const claimsIn = (kind, said) => [...said.matchAll(/^accepted (.) (.) (\w+)$/mg)].map(
  ([, turn, side, goal]) => `If ${nameOf(kind, turn)} moves first, ${nameOf(kind, side)} ${
    goal === 'win' || kind !== 'maker-maker' ? 'wins' : 'gets at least a draw'}.`);

/** @type {(said: string, texts: Texts, fileOf: (letter: string) => string) => string} Returns what
 * a fault is, with the line of the file; nothing if none was printed. */
export function faultIn(said, texts, fileOf) {
  const [, code, letter, line] = /^\w+ (([GCF])\d+) line (\d+)$/m.exec(said) ?? [];
  const [, fault, claim, node] = /^rejected ([JI]\d+) claim (\d+) node (\d+)$/m.exec(said) ?? [];
  if (code) {
    const shown = fileOf(letter).split('\n')[Number(line) - 1]?.slice(0, 80);
    return `The ${FILES[letter]} has a fault${line === '0' ? '' : ` in line ${line}`}: ${
      texts.get(code)} (${code}).${shown ? ` The line is “${shown}”.` : ''}`;
  }
  return fault ? `The certificate proves nothing of this game. In claim ${claim}, node ${node}: ${
    texts.get(fault)} (${fault}).` : '';
}

/** @type {(answer: import('./form.js').Answer, texts: Texts, fileOf: (letter: string) => string) =>
 * string} Returns why a run wasn't done; `fileOf` returns the file of a letter. */
export function whyNot(answer, texts, fileOf) {
  const said = saidIn(answer);
  const [, at, count] = /^unknown(?: at (\d+))? after (\d+) positions$/m.exec(said) ?? [];
  const where = at ? ` of the position after ${at} moves` : '';
  const open = `No answer${where} was found by looking at ${count} positions. ${texts.get('open')}`;
  return count ? open : faultIn(said, texts, fileOf) || texts.get(`${answer.status}`)
    || `The program ended with status ${answer.status}.`;
}

/** @type {(game: Game, said: string, texts: Texts) => string[]} Returns what a review printed. */
export function reviewIn(game, said, texts) {
  const lost = [...said.matchAll(/^lost (\d+) (\d+) (\S+) (\S+)$/mg)].map(([, at, v, from, to]) =>
    `Move ${Number(at) + 1} (${pointName(game, Number(v))}) lost value. Before it: ${
      winnerIn(game.kind, from, texts)} After it: ${winnerIn(game.kind, to, texts)}`);
  const [, count] = /^reviewed (\d+)$/m.exec(said) ?? [];
  return [...lost, `${count} moves were reviewed, ${lost.length} of them lost value.`];
}
