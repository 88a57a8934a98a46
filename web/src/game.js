// A game as the page has it, and its file. A file is read here only if the program found no fault
// in it, so nothing is judged again.

/** @typedef {'x' | 'y'} Side */
/** @typedef {{kind: string, field: 'grid' | 'points' | 'graph', width: number, height: number,
 *   bias: number, terminals: number[], sets: string[], edges: number[][], marks: (Side | '')[],
 *   turn: Side, places: number[][]}} Game a game: `width` is how many columns, points or vertices
 * there are; winning sets are lines of the file, `line 0 1 2` or `shape 11/10`; `places` says where
 * vertices are drawn, 0 to 100 across and down */

/** @type {() => Game} Returns an empty board of three rows. */
export const newGame = () => ({
  kind: 'maker-breaker', field: 'grid', width: 3, height: 3, bias: 1, terminals: [0, 1], sets: [],
  edges: [], marks: [], turn: 'x', places: [],
});

/** @type {(count: number) => number[]} Returns the numbers below a count. */
export const below = count => [...Array(count).keys()];

/** @type {(game: Game) => number} Returns how many points a game has. */
export const pointsOf = game =>
  ({ grid: game.width * game.height, points: game.width, graph: game.edges.length })[game.field];

/** @type {(game: Game, vertex: number) => number[]} Returns where a vertex is drawn: on a circle if
 * it has no place of its own. */
export function placeOf(game, vertex) {
  const turned = 2 * Math.PI * vertex / game.width;
  return game.places[vertex]
    ?? [50 - 40 * Math.cos(turned), 50 - 40 * Math.sin(turned)].map(Math.round);
}

/** @type {(game: Game) => string} Returns the file of a game. */
export function gameText(game) {
  const marks = ['x', 'y'].map(side => [side,
    ...below(pointsOf(game)).filter(it => game.marks[it] === side)]).filter(it => it.length > 1);
  const rest = [...game.bias > 1 ? [['bias', game.bias]] : [], ...game.sets.map(it => [it])];
  const lines = {
    grid: [['grid', game.width, game.height], ...rest],
    points: [['points', game.width], ...rest],
    graph: [...below(game.width).filter(it => game.places[it]).map(it =>
      ['# at', it, ...game.places[it]]), ['vertices', game.width],
      ['terminals', ...game.terminals], ...game.edges.map(ends => ['edge', ...ends])],
  }[game.field];
  return [['posgame 1'], ['kind', game.kind], ...lines, ...marks, ['turn', game.turn], []]
    .map(words => words.join(' ')).join('\n');
}

/** @type {(text: string) => Game} Reads a game file without a fault. Comments `# at V A D` say
 * where vertices are drawn, with A and D up to 100; others of the kind aren't used. */
export function readGame(text) {
  const game = newGame();
  for (const line of text.split('\n')) {
    const [key, ...words] = line.split(' ').filter(it => it);
    const numbers = words.map(Number);
    if (key === '#' && /^at \d{1,3}( \d\d?| 100){2}$/.test(words.join(' '))) {
      game.places[numbers[1]] = numbers.slice(2);
    } else if (key === 'line' || key === 'shape') {
      game.sets.push([key, ...words].join(' '));
    } else if (key === 'edge') {
      game.edges.push(numbers);
    } else if (key === 'x' || key === 'y') {
      numbers.forEach(it => { game.marks[it] = key; });
    } else if (key === 'grid' || key === 'points' || key === 'vertices') {
      const field = key === 'vertices' ? 'graph' : key;
      Object.assign(game, { field, width: numbers[0], height: numbers[1] ?? 1 });
    } else if (key === 'kind' || key === 'turn') {
      Object.assign(game, { [key]: words[0] });
    } else if (key === 'terminals' || key === 'bias') {
      Object.assign(game, { [key]: key === 'bias' ? numbers[0] : numbers });
    }
  }
  return game;
}

/** @type {(set: string) => number[]} Returns the points of a line of a file; none of a shape. */
export const pointsIn = set => set.startsWith('line') ? set.split(' ').slice(1).map(Number) : [];

/** @type {(cells: number[], width: number) => string} Returns cells as a shape of a file, without
 * the empty rows and columns around it. */
export function shapeText(cells, width) {
  const rows = cells.map(it => Math.floor(it / width)), columns = cells.map(it => it % width);
  const [top, left] = [Math.min(...rows), Math.min(...columns)];
  const lines = below(Math.max(...rows) - top + 1).map(row =>
    below(Math.max(...columns) - left + 1).map(column =>
      cells.includes((top + row) * width + left + column) ? 1 : 0).join(''));
  return `shape ${lines.join('/')}`;
}

/** @type {(game: Game, by: Partial<Game>) => Game} Returns a game on a board of another size,
 * without marks and lines, whose points may have other numbers there. */
export function resized(game, by) {
  const next = { ...game, ...by, marks: [] };
  return { ...next, sets: next.sets.filter(it => next.field === 'grid' && it.startsWith('shape')) };
}

/** @type {(game: Game, keeps: (edge: number) => boolean) => Game} Returns a graph without the edges
 * that aren't kept. */
export function withEdges(game, keeps) {
  const kept = below(game.edges.length).filter(keeps);
  return { ...game, edges: kept.map(it => game.edges[it]), marks: kept.map(it => game.marks[it]) };
}

/** @type {(game: Game, vertex: number) => Game} Returns a graph without a vertex and its edges. */
export function withoutVertex(game, vertex) {
  const next = (/** @type {number} */ it) => it > vertex ? it - 1 : it;
  const places = below(game.width).filter(it => it !== vertex).map(it => placeOf(game, it));
  const left = withEdges(game, edge => !game.edges[edge].includes(vertex));
  return { ...left, width: game.width - 1, places, terminals: game.terminals.map(next),
    edges: left.edges.map(ends => ends.map(next)) };
}
