// The page: what is pressed, what is run, and what is shown.
import { boardIn, make } from './board.js';
import { bytesOf, saidIn, textOf } from './form.js';
import { below, gameText, newGame, placeOf, readGame, resized, shapeText, withEdges, withoutVertex }
  from './game.js';
import { otherSide, playIn, sidesIn } from './play.js';
import { Stopped, runnerOf } from './runner.js';
import { aimOf, claimsIn, nameOf, pointName, resultIn, reviewIn, setName, textsIn, whyNot,
  winnerIn } from './words.js';

/** @typedef {import('./game.js').Game} Game */
/** @typedef {import('./board.js').Pressed} Pressed */

/** How many winning sets are listed, and how many cells a grid may have. */
const LISTED = 60, CELLS = 256;
/** @type {Record<string, 'x' | 'y' | ''>} What a press makes of a mark. */
const NEXT = { '': 'x', x: 'y', y: '' };
/** The fields of the form. */
const FIELDS = /** @type {const} */ (['kind', 'field', 'width', 'height', 'bias', 'turn']);

/** @type {(id: string) => any} Returns an element of the page. */
const $ = id => document.getElementById(id);
const texts = textsIn($('texts').textContent);
const games = textsIn($('games').textContent);
const runner = runnerOf($('worker').textContent, $('module').textContent);

let game = newGame();
/** @type {Set<number>} The points that are chosen for a winning set. */
const chosen = new Set();
/** @type {number | undefined} The vertex that was pressed before. */
let before;
/** The certificate that was accepted. */
let proof = new Uint8Array();
/** @type {{replies: number[], moves: number[], game: Game}} The play. */
let play = { replies: [], moves: [], game };

/** @type {(id: string, ...said: (string | undefined)[]) => void} Says something in an element. */
const say = (id, ...said) => $(id).replaceChildren(...said.map(it => make('p', {}, it ?? '')));

/** Runs a program on the game, `G`, a certificate, `C`, or a record, `F`, and shows that it runs.
 * If it fails, or was stopped, it says so at a place of the page and returns nothing.
 * @param {string} words @param {string} place @param {import('./form.js').Files} files
 * @param {string} input @param {number[]} accepted the statuses that are no failure */
async function run(words, place, files = {}, input = '', accepted = [0]) {
  const since = Date.now();
  const all = /** @type {import('./form.js').Files} */ ({ G: bytesOf(gameText(game)), ...files });
  const timer = setInterval(() => {
    $('running').textContent ||= 'Running';
    $('seconds').textContent = ` for ${Math.round((Date.now() - since) / 1000)} s`;
  }, 500);
  $('stop').disabled = false;
  try {
    const answer = await runner.run({ words: words.split(' '), input, files: all });
    if (accepted.includes(answer.status)) {
      return answer;
    }
    say(place, whyNot(answer, texts, it => textOf(all[it] ?? bytesOf(''))));
  } catch (fault) {
    say(place, fault instanceof Stopped ? texts.get('stopped') : String(fault));
  } finally {
    clearInterval(timer);
    $('running').textContent = $('seconds').textContent = '';
    $('stop').disabled = runner.isIdle();
  }
  return null;
}

/** @type {(name: string, content: string | Uint8Array, type?: string) => void} Saves a file. */
function save(name, content, type = 'text/plain') {
  const href = URL.createObjectURL(new Blob([content], { type }));
  make('a', { href, download: name }).click();
  setTimeout(() => URL.revokeObjectURL(href), 60_000);
}

/** Shows the game, its sizes and its winning sets. */
function show() {
  document.body.dataset.field = game.field;
  FIELDS.forEach(it => { $(it).value = game[it]; });
  $('bias').disabled = game.kind === 'maker-maker';
  $('aim').textContent = aimOf(game, texts);
  $('text').value = gameText(game);
  $('tools').querySelector(':checked').offsetParent || $('tools').elements[0].click();
  showBoard(game, { chosen, hasVertices: true });
  $('sets').replaceChildren(...game.sets.slice(0, LISTED).map((set, at) => {
    const remove = make('button', { 'aria-label': `Remove: ${setName(game, set)}` }, '×');
    remove.onclick = () => {
      change({ sets: game.sets.filter((_, it) => it !== at) });
      ($('sets').querySelectorAll('button')[at] ?? $('no-marks')).focus();
    };
    return make('li', {}, `${setName(game, set)} `, remove);
  }), ...game.sets.length > LISTED ? [`and ${game.sets.length - LISTED} more`] : []);
}

/** @param {Partial<Game>} by what changes; what runs is stopped, and what was said goes */
function change(by) {
  game = { ...game, ...by };
  runner.stop();
  $('proof').hidden = $('picture').hidden = $('save-certificate').disabled = true;
  $('no-proof').hidden = false;
  setTimeout(() => ['result', 'hint', 'picture-said'].forEach(it => say(it)));
  chosen.clear();
  show();
}

/** @type {(tool: string, pressed: Pressed) => void} Presses a part of a graph by a tool. */
function pressGraph(tool, { point, vertex, place }) {
  const ends = [before ?? -1, vertex ?? -1];
  before = undefined;
  if (tool === 'erase' && point !== undefined) {
    change(withEdges(game, it => it !== point));
  } else if (tool === 'erase' && vertex !== undefined && !game.terminals.includes(vertex)) {
    change(withoutVertex(game, vertex));
  } else if (tool === 'draw' && place) {
    const places = below(game.width).map(it => placeOf(game, it));
    change({ width: game.width + 1, places: [...places, place] });
  } else if (!ends.includes(-1)) {
    change(tool === 'draw' ? { edges: [...game.edges, ends] } : { terminals: ends });
  } else if (vertex !== undefined && tool !== 'erase') {
    before = vertex;
    say('hint', `Vertex ${vertex} is chosen. Choose the other one.`);
  }
}

/** @type {(pressed: Pressed) => void} Presses a part of the board. */
function press(pressed) {
  const tool = $('tools').querySelector(':checked').value;
  const { point = -1 } = pressed;
  if (tool === 'mark' && point >= 0) {
    change({ marks: Object.assign([...game.marks], { [point]: NEXT[game.marks[point] ?? ''] }) });
  } else if (tool === 'choose' && point >= 0) {
    chosen.delete(point) || chosen.add(point);
    show();
  } else if (game.field === 'graph' && tool !== 'mark') {
    pressGraph(tool, pressed);
  }
}

/** @param {Uint8Array} bytes a game file, which is taken if it has no fault */
async function take(bytes) {
  const answer = await run('posgame check G C', 'hint', { G: bytes, C: bytesOf('') }, '', [4]);
  return answer && change(readGame(textOf(bytes)));
}

/** @param {string} name a field of the form, by which the game is changed */
function changeBy(name) {
  const { value, min, max } = $(name);
  const by = { [name]: max ? Math.max(min, Math.min(max, Math.round(value))) : value };
  const rows = Math.min(game.height, Math.floor(CELLS / (by.width ?? game.width)));
  if (name === 'kind' && (value === 'switching') !== (game.field === 'graph')) {
    const graph = /** @type {Partial<Game>} */ ({ field: 'graph', width: 4 });
    change({ ...newGame(), ...value === 'switching' ? graph : {}, ...by });
  } else if (['bias', 'turn', 'kind'].includes(name)) {
    change({ ...by, ...value === 'maker-maker' ? { bias: 1 } : {} });
  } else {
    const most = Math.floor(CELLS / game.width);
    change(resized(game, { height: rows, ...by, ...by.height > most ? { height: most } : {} }));
  }
}

/** @param {Uint8Array} certificate which is checked, and then shown @param {string[]} first what is
 * said before */
async function accept(certificate, ...first) {
  const answer = await run('posgame check G C', 'result', { C: certificate });
  if (answer) {
    const said = saidIn(answer), sides = sidesIn(said, game.turn);
    const count = textOf(certificate).split('\n').filter(it => it.includes('|')).length;
    proof = certificate;
    say('result', ...new Set([...first, ...claimsIn(game.kind, said)]),
      `The proof was checked in this page. It has ${count} position${count === 1 ? '' : 's'}.`);
    $('side').replaceChildren(...sides.map(it =>
      make('option', { value: it }, nameOf(game.kind, it))));
    $('proof').hidden = $('save-certificate').disabled = false;
    $('no-proof').hidden = $('book').hidden = true;
    say('book-said');
    await (sides.length ? goOn([]) : say('play-said', texts.get('no-claim')));
  }
}

/** @param {string} words a program that decides the game */
async function decide(words) {
  say('result');
  const answer = await run(words, 'result');
  return answer && accept(answer.files.get('C') ?? proof, resultIn(game, saidIn(answer), texts));
}

/** @param {number[]} replies with which the proof is played */
async function goOn(replies) {
  const side = $('side').value;
  const input = replies.map(it => `${it}\n`).join('');
  const words = `posgame play G C --side ${side}`;
  const answer = await run(words, 'play-said', { C: proof }, input, [0, 8]);
  if (answer) {
    const found = playIn(game, side, answer), last = found.moves.at(-1);
    play = { replies, moves: found.moves.map(it => it.point), game: found.game };
    showPlay(play.game, { last: last?.point });
    $('undo').disabled = !replies.length;
    $('save-record').disabled = $('review').disabled = !play.moves.length;
    say('play-said', last && last.side === side
      ? `The proof takes ${pointName(game, last.point)}.` : '',
      found.result ? `The play is over. ${winnerIn(game.kind, found.result, texts)}`
        : `${nameOf(game.kind, otherSide(side))}: choose a free point.`);
  }
}

/** @param {(record: Uint8Array) => void} then gets the record of the play */
async function record(then) {
  const input = [...play.moves, 'end', ''].join('\n');
  const answer = await run('posgame record G F', 'play-said', {}, input);
  then(answer?.files.get('F') ?? bytesOf(''));
}

/** @param {string} place where it is said which moves lost value @param {Uint8Array} F a record */
async function review(place, F) {
  const answer = await run('posgame review G F', place, { F });
  say(place, ...answer ? reviewIn(game, saidIn(answer), texts) : [$(place).textContent]);
}

/** @param {string} words what is drawn @param {string} place where it is said why it can't be
 * @param {(drawn: string) => any} then gets it, and returns what is said then */
async function draw(words, place, then) {
  const answer = await run(`posgame-draw ${words}`, place, { C: proof });
  return answer && say(place, then(saidIn(answer)));
}

/** @type {(id: string, how: object) => any} Shows the book or the picture, and says where. */
function unveil(id, how) {
  Object.assign($(id), how, { hidden: false });
  return texts.get(id);
}

/** @param {File | undefined} file which is opened by what it begins with */
async function open(file) {
  const bytes = new Uint8Array(await file?.arrayBuffer() ?? []);
  const [, kind] = /^posgame-(cert|record) /.exec(textOf(bytes.subarray(0, 20))) ?? [];
  await (kind === 'cert' ? accept(bytes) : kind ? review('result', bytes) : take(bytes));
}

const showBoard = boardIn($('board'), press);
const showPlay = boardIn($('table'), ({ point = -1 }) =>
  play.game.marks[point] ? undefined : goOn([...play.replies, point]));
/** @param {(points: number[]) => string} set returns a winning set of what is chosen */
const add = set => chosen.size && change({
  sets: [...game.sets, set([...chosen].sort((a, b) => a - b))] });
const drawn = () => $('proof').hidden ? 'G' : 'G C';
/** @type {Record<string, () => unknown>} What each button does. */
const ACTIONS = {
  open: () => $('file').click(),
  'open-proof': () => $('file').click(),
  'save-game': () => save('posgame.game', gameText(game)),
  'save-certificate': () => save('posgame.cert', proof),
  'save-record': () => record(it => save('posgame.record', it)),
  'add-line': () => add(points => `line ${points.join(' ')}`),
  'add-shape': () => add(cells => shapeText(cells, game.width)),
  'add-vertex': () => change({ width: game.width + 1 }),
  'no-marks': () => change({ marks: [] }),
  'use-text': () => take(bytesOf($('text').value)),
  solve: () => decide('posgame solve G C'),
  settle: () => decide(`posgame-settle G C --positions=${$('positions').value}`),
  stop: () => runner.stop(),
  begin: () => goOn([]),
  undo: () => goOn(play.replies.slice(0, -1)),
  review: () => record(it => review('play-said', it)),
  'show-book': () => draw('--book G C', 'book-said', html => unveil('book', {
    srcdoc: html.replace('<style>', '<base href="about:srcdoc">$&') })),
  'save-book': () => draw('--book G C', 'book-said', it => save('posgame.html', it, 'text/html')),
  'show-picture': () => draw(drawn(), 'picture-said', it => unveil('picture', {
    src: `data:image/svg+xml,${encodeURIComponent(it)}`, alt: texts.get(drawn()) })),
  'save-picture': () => draw(drawn(), 'picture-said', it =>
    save('posgame.svg', it, 'image/svg+xml')),
};
Object.entries(ACTIONS).forEach(([id, act]) => { $(id).onclick = act; });
FIELDS.forEach(it => { $(it).onchange = () => changeBy(it); });
$('example').append(...[...games.keys()].map(it => make('option', {}, it)));
$('example').onchange = () =>
  take(bytesOf((games.get($('example').value) ?? '').replaceAll(';', '\n')));
$('side').onchange = () => goOn([]);
$('file').onchange = () => open($('file').files[0]).finally(() => { $('file').value = ''; });
document.ondragover = event => event.preventDefault();
document.ondrop = event => {
  event.preventDefault();
  open(event.dataTransfer?.files[0]);
};
show();
