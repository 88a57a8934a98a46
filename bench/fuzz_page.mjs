// Calls the page's own functions (web/src) on games and on answers of programs, for
// bench/fuzz_readers.py: a line of JSON for each request, a line with what they return. Unproved.
import { readFileSync } from 'node:fs';
import { createInterface } from 'node:readline';
import { bytesOf } from '../web/src/form.js';
import { below, gameText, placeOf, pointsOf, readGame, resized, withEdges, withoutVertex }
  from '../web/src/game.js';
import { playIn, sidesIn } from '../web/src/play.js';
import { aimOf, claimsIn, faultIn, pointName, resultIn, reviewIn, setName, textsIn, whyNot }
  from '../web/src/words.js';

const top = new URL('../', import.meta.url);
const read = name => readFileSync(new URL(name, top), 'utf8');
const texts = textsIn(read('launch/codes.txt') + read('web/src/texts.txt'));

/** Returns all that the page shows of a game. */
function ofGame(text) {
  const game = readGame(text);
  const places = game.field === 'graph' ? below(game.width).map(it => placeOf(game, it)) : [];
  const right = places.every(it => it.length === 2 && it.every(Number.isFinite));
  const edge = withEdges(game, it => it !== 0), wider = resized(game, { width: game.width + 1 });
  const less = game.field === 'graph' && game.width > 2 ? withoutVertex(game, game.width - 1) : game;
  return { game, text: gameText(game), places: right ? '' : `undefined: ${JSON.stringify(places)}`,
    names: [...below(pointsOf(game)).map(it => pointName(game, it)),
      ...game.sets.map(it => setName(game, it)), aimOf(game, texts)],
    others: [edge, wider, less].map(gameText) };
}

/** Returns all that the page says of an answer. */
function ofAnswer({ status, said, certificate, record }, text, game) {
  const answer = { status, log: [{ sign: '<', bytes: bytesOf(said) }], files: new Map() };
  const fileOf = letter => ({ G: text, C: certificate, F: record })[letter];
  const play = game && playIn(game, 'x', answer);
  return { fault: faultIn(said, texts, fileOf), whyNot: whyNot(answer, texts, fileOf) ?? '',
    ...game && { claims: claimsIn(game.kind, said), sides: sidesIn(said, game.turn),
      result: /^(result|class) /m.test(said) ? resultIn(game, said, texts) : '',
      review: /^reviewed/m.test(said) ? reviewIn(game, said, texts) : [],
      moves: play.moves.length, after: gameText(play.game) } };
}

for await (const line of createInterface({ input: process.stdin })) {
  const request = JSON.parse(line);
  try {
    const { game, ...shown } = request.valid ? ofGame(request.game) : { text: '' };
    console.log(JSON.stringify({ ...shown, ...ofAnswer(request, request.game, game) }));
  } catch (error) {
    console.log(JSON.stringify({ error: String(error.stack ?? error).slice(0, 500) }));
  }
}
