// The board: cells and points are buttons, a graph is a picture whose parts act as buttons. Tab
// leads to the board, and arrow keys lead from part to part.
import { below, placeOf, pointsOf } from './game.js';
import { letterOf, pointName } from './words.js';

/** @typedef {import('./game.js').Game} Game */
/** @typedef {{point?: number, vertex?: number, place?: number[]}} Pressed what was pressed: a point
 * or a vertex by its number, or a free place of the picture */
/** @typedef {{chosen?: Set<number>, last?: number, hasVertices?: boolean}} Look which points are
 * chosen, which was claimed last, and whether vertices can be pressed */

const SVG = 'http://www.w3.org/2000/svg';
const PARTS = '[data-point],[data-vertex]';

/** @type {(tag: string, attributes?: object, ...inner: (string | Element)[]) => any} Makes an
 * element with attributes and what it contains. */
export function make(tag, attributes = {}, ...inner) {
  const made = /^(svg|g|path|circle|text)$/.test(tag) ? document.createElementNS(SVG, tag)
    : document.createElement(tag);
  Object.entries(attributes).forEach(([name, value]) => made.setAttribute(name, String(value)));
  made.append(...inner);
  return made;
}

/** @type {(from: number[], to: number[], before: number) => string} Returns the path of an edge,
 * bent by how many edges with the same ends come before it. */
export function edgePath([x, y], [u, v], before) {
  if (x === u && y === v) {
    const wide = 9 + 4 * before;
    return `M${x} ${y}c${-wide} ${-wide - 5} ${wide} ${-wide - 5} 0 0`;
  }
  const bend = 12 * (before % 2 ? -before - 1 : before) / Math.hypot(u - x, v - y) / 2;
  const [across, down] = [(x + u) / 2 + bend * (v - y), (y + v) / 2 - bend * (u - x)];
  return `M${x} ${y}Q${Math.round(across)} ${Math.round(down)} ${u} ${v}`;
}

/** @type {(game: Game, point: number, look: Look) => object} Returns the attributes of a point. */
function attributesOf(game, point, { chosen, last }) {
  const mark = game.marks[point];
  const looks = [...point === last ? ['last'] : [], ...chosen?.has(point) ? ['chosen'] : []];
  const said = [mark ? letterOf(mark) : 'free', ...looks].join(', ');
  return { 'data-point': point, class: [mark ?? '', ...looks].join(' '),
    'aria-label': `${pointName(game, point)}: ${said}` };
}

/** @type {(game: Game, look: Look) => Element[]} Returns the cells or points as buttons. */
const cellsOf = (game, look) => below(pointsOf(game)).map(point => {
  const mark = game.marks[point];
  const shown = mark ? letterOf(mark) : game.field === 'points' ? String(point) : '';
  return make('button', { type: 'button', ...attributesOf(game, point, look) }, shown);
});

/** @type {(game: Game, look: Look) => Element} Returns the picture of a graph. */
function graphOf(game, look) {
  const edges = game.edges.map((ends, edge) => {
    const before = game.edges.slice(0, edge).filter(it =>
      it.every(v => ends.includes(v)) && ends.every(v => it.includes(v))).length;
    const [from, to] = [...ends].sort((a, b) => a - b).map(it => placeOf(game, it));
    const d = edgePath(from, to, before);
    return make('g', { role: 'button', ...attributesOf(game, edge, look) },
      make('path', { d, class: 'hit' }), make('path', { d, class: 'edge' }));
  });
  const vertices = below(game.width).map(vertex => {
    const [x, y] = placeOf(game, vertex);
    const kind = game.terminals.includes(vertex) ? 'terminal' : 'vertex';
    const pressed = look.hasVertices ? { role: 'button', 'data-vertex': vertex,
      'aria-label': `${kind} ${vertex}` } : {};
    return make('g', { class: kind, ...pressed }, make('circle', { cx: x, cy: y, r: 3.4 }),
      make('text', { x, y: y + 1.3 }, String(vertex)));
  });
  return make('svg', { viewBox: '0 0 100 100' }, ...edges, ...vertices);
}

/** @param {HTMLElement} root an element of the page, which becomes a board
 * @param {(pressed: Pressed) => void} press @returns what shows a game on it */
export function boardIn(root, press) {
  let columns = 1, at = 0;
  const parts = () => /** @type {HTMLElement[]} */ ([...root.querySelectorAll(PARTS)]);
  const lead = (/** @type {number} */ next) => {
    at = next;
    parts().forEach((it, number) => it.setAttribute('tabindex', number === at ? '0' : '-1'));
  };
  root.addEventListener('focusin', event =>
    lead(parts().indexOf(/** @type {HTMLElement} */ (event.target))));
  root.onclick = event => {
    const target = /** @type {Element} */ (event.target);
    const part = /** @type {HTMLElement | null} */ (target.closest(PARTS));
    const box = target.closest('svg')?.getBoundingClientRect();
    if (part) {
      press(Object.fromEntries(Object.entries(part.dataset).map(([key, it]) => [key, Number(it)])));
    } else if (box) {
      press({ place: [(event.clientX - box.x) / box.width, (event.clientY - box.y) / box.height]
        .map(it => Math.round(100 * it)) });
    }
  };
  root.onkeydown = event => {
    const step = new Map([['ArrowRight', 1], ['ArrowLeft', -1], ['ArrowDown', columns],
      ['ArrowUp', -columns]]).get(event.key);
    if (step) {
      parts()[at + step]?.focus();
    } else if (parts()[at]?.tagName === 'g' && [' ', 'Enter'].includes(event.key)) {
      parts()[at].dispatchEvent(new MouseEvent('click', { bubbles: true }));
    } else {
      return;
    }
    event.preventDefault();
  };
  return (/** @type {Game} */ game, /** @type {Look} */ look = {}) => {
    const hadFocus = root.contains(document.activeElement);
    columns = { grid: game.width, points: Math.min(12, Math.ceil(Math.sqrt(game.width))),
      graph: 1 }[game.field];
    root.style.setProperty('--columns', String(columns));
    root.replaceChildren(...game.field === 'graph' ? [graphOf(game, look)] : cellsOf(game, look));
    lead(Math.min(at, Math.max(0, parts().length - 1)));
    if (hadFocus) {
      parts()[at]?.focus();
    }
  };
}
