// A board in a document: draws a position, and turns mouse, touch and keys into a pair of squares. Which moves there are, it is told.
import { dragged, followed } from './drag.js';
import { man, named } from './men.js';
import { FILES, placed } from './placement.js';

const SVG = 'http://www.w3.org/2000/svg';
// The colours of arrows and circles, by their letters in PGN.
const COLOURS = { G: 'green', R: 'red', Y: 'yellow', B: 'blue' };

export class Board {
  /**
   * `wants` is called with a move and the squares, `asks` with the promotions among which to choose, `draws` with an arrow or a circle, as `Ge2e4` or `Rd5`. Arrow keys
   * go over the squares with Shift, and alone if nothing else has them (`hasArrows`).
   */
  constructor(place, { wants, asks, draws, hasArrows = false }) {
    this.place = place;
    this.root = place.getRootNode();
    this.hasArrows = hasArrows;
    this.wants = wants;
    this.asks = asks;
    this.draws = draws;
    this.turned = false;
    this.chosen = '';
    this.at = 'e2';
    this.squares = {};
    this.shown = { men: {}, moves: [], castlings: [], heat: null, checks: [], last: '' };
    this.dropped = '';
    this.pointed = '';
    this.marked = [];
    this.arrowFrom = '';
    this.lay();
    place.addEventListener('pointerdown', (event) => this.down(event));
    place.addEventListener('keydown', (event) => this.key(event));
    place.addEventListener('contextmenu', (event) => this.draws && event.preventDefault());
    place.addEventListener('focusin', ({ target }) => { this.at = target.dataset.square ?? this.at; });
  }

  // The 64 squares in the order that they are seen.
  lay() {
    this.place.replaceChildren();
    this.drawn = {};
    for (let row = 0; row < 8; row++) {
      const rank = document.createElement('div');
      rank.className = 'rank';
      rank.setAttribute('role', 'row');
      for (let column = 0; column < 8; column++) {
        const file = this.turned ? 7 - column : column;
        const number = this.turned ? row + 1 : 8 - row;
        const name = FILES[file] + number;
        const square = document.createElement('button');
        square.type = 'button';
        square.dataset.square = name;
        square.setAttribute('role', 'gridcell');
        square.tabIndex = -1;
        this.squares[name] = square;
        rank.append(square);
      }
      this.place.append(rank);
    }
  }

  turn(turned) {
    const had = this.place.contains(this.root.activeElement);
    this.turned = turned;
    this.lay();
    this.draw();
    this.point(this.pointed);
    this.mark(this.marked);
    if (had) this.squares[this.at].focus();
  }

  /**
   * Shows a position: its FEN, legal moves and the last move in long algebraic notation, castlings with the squares of king and rook, attack counts or null, squares
   * of men that check. A square stays chosen in the same one. Men that went a step glide there, unless it is `still`.
   */
  show({ fen, moves, castlings, heat, checks, last, still }) {
    const was = this.shown.men;
    this.shown = { men: placed(fen), moves, castlings, heat, checks, last };
    this.side = fen.split(' ')[1];
    const isOther = fen !== this.fen;
    if (isOther) Object.assign(this, { chosen: '', arrowFrom: '' });
    this.fen = fen;
    this.draw();
    if (isOther && !still) this.glide(was);
    this.dropped = '';
  }

  // The square that a man came from: the nearest from which an equal one went, or where the last move began.
  cameFrom(to, was) {
    const { men, last } = this.shown;
    const far = (it) => Math.hypot(it.charCodeAt(0) - to.charCodeAt(0), it.charCodeAt(1) - to.charCodeAt(1));
    const gone = Object.keys(was).filter((it) => was[it] === men[to] && men[it] !== was[it]).sort((a, b) => far(a) - far(b));
    return gone[0] ?? (last.slice(2, 4) === to ? last.slice(0, 2) : '');
  }

  // Lets the men that stand elsewhere than before glide there, where it is a step.
  glide(was) {
    const { men } = this.shown;
    const came = Object.keys(men).filter((it) => men[it] !== was[it]);
    if (came.length > 3) return;
    for (const to of came) {
      const from = this.cameFrom(to, was);
      const picture = this.squares[to].querySelector('.man');
      if (!from || to === this.dropped || !picture.animate) continue;
      const [a, b] = [this.squares[from].getBoundingClientRect(), this.squares[to].getBoundingClientRect()];
      this.squares[to].style.zIndex = 4;
      const done = () => { this.squares[to].style.zIndex = ''; };
      const glides = picture.animate([{ transform: `translate(${a.left - b.left}px, ${a.top - b.top}px)` }, { transform: 'none' }], { duration: 180, easing: 'ease-out' });
      glides.onfinish = done;
      glides.oncancel = done;
    }
  }

  /** An arrow from the square to the square of a move in long algebraic notation, or none where it is empty. */
  point(m) {
    this.pointed = m;
    this.over('arrow', m ? [this.arrow(m.slice(0, 2), m.slice(2, 4))] : []);
  }

  /** Draws arrows and circles, `{colour, from, to}`, and a `preview` of one that is being drawn. */
  mark(shapes, preview = null) {
    this.marked = shapes;
    const all = preview ? [...shapes, preview] : shapes;
    this.over('shapes', all.map(({ colour, from, to }) => {
      const it = from === to ? this.circle(from) : this.arrow(from, to);
      it.setAttribute('class', `shape${colour in COLOURS ? colour : 'G'}`);
      return it;
    }));
    this.draw();
  }

  // A picture over the squares, in the place of the one of that kind.
  over(kind, parts) {
    this.place.querySelector(`:scope > .${kind}`)?.remove();
    if (parts.length === 0) return;
    const picture = document.createElementNS(SVG, 'svg');
    picture.setAttribute('class', kind);
    picture.setAttribute('viewBox', '0 0 8 8');
    picture.setAttribute('aria-hidden', 'true');
    picture.append(...parts);
    this.place.append(picture);
  }

  // The middle of a square as it is seen.
  middle(name) {
    const [x, y] = [FILES.indexOf(name[0]) + 0.5, 8.5 - Number(name[1])];
    return this.turned ? [8 - x, 8 - y] : [x, y];
  }

  arrow(a, b) {
    const [[x, y], [to, down]] = [this.middle(a), this.middle(b)];
    const long = Math.hypot(to - x, down - y);
    const path = document.createElementNS(SVG, 'path');
    path.setAttribute('d', `M.32-.06H${long - 0.4}V-.18L${long - 0.08} 0L${long - 0.4} .18V.06H.32z`);
    path.setAttribute('stroke-width', '0.03');
    path.setAttribute('transform', `translate(${x} ${y}) rotate(${Math.atan2(down - y, to - x) * 180 / Math.PI})`);
    return path;
  }

  circle(name) {
    const [x, y] = this.middle(name);
    const it = document.createElementNS(SVG, 'circle');
    for (const [key, value] of Object.entries({ cx: x, cy: y, r: 0.44, 'stroke-width': 0.08 })) it.setAttribute(key, value);
    return it;
  }

  targets() {
    return this.shown.moves.filter((it) => it.slice(0, 2) === this.chosen).map((it) => it.slice(2, 4));
  }

  // The rooks that the chosen king castles with: it is castled by going onto one, too.
  rooks() {
    return this.shown.castlings.filter((it) => it.king === this.chosen).map((it) => it.rook);
  }

  // The coordinates are in corners that no man covers.
  names(name) {
    const [file, number] = name;
    const found = [];
    const put = (text, kind) => {
      const at = document.createElement('span');
      at.className = `at ${kind}`;
      at.textContent = text;
      at.setAttribute('aria-hidden', 'true');
      found.push(at);
    };
    if (file === (this.turned ? 'h' : 'a')) put(number, 'rankname');
    if (number === (this.turned ? '8' : '1')) put(file, 'filename');
    return found;
  }

  draw() {
    const { men, checks, heat, last } = this.shown;
    const targets = this.chosen ? this.targets() : [];
    const rooks = this.chosen ? this.rooks() : [];
    const king = this.side === 'w' ? 'K' : 'k';
    for (const name of Object.keys(this.squares)) {
      const letter = men[name];
      const dark = (FILES.indexOf(name[0]) + Number(name[1])) % 2 === 1;
      const isRook = rooks.includes(name);
      const target = targets.includes(name) || isRook;
      const isLast = last.slice(0, 2) === name || last.slice(2, 4) === name;
      const isChecked = checks.length > 0 && letter === king;
      const is = { dark, last: isLast, chosen: name === this.chosen, target, taken: target && letter, checking: checks.includes(name), checked: isChecked };
      const count = heat ? heat.counts[(Number(name[1]) - 1) * 8 + FILES.indexOf(name[0])] : 0;
      const said = [name, letter ? named(letter) : 'empty'];
      if (name === this.chosen) said.push('chosen');
      if (target) said.push(isRook ? 'may be castled with' : 'may be moved to');
      if (isLast) said.push('last move');
      if (isChecked) said.push('in check');
      if (checks.includes(name)) said.push('gives check');
      if (heat) said.push(`attacked ${count} times`);
      if (name === this.arrowFrom) said.push('an arrow begins here');
      for (const { colour, from, to } of this.marked) if (from === name) said.push(`${COLOURS[colour] ?? 'green'} ${from === to ? 'circle' : `arrow to ${to}`}`);
      const kind = ['square', ...Object.keys(is).filter((it) => is[it]), ...(heat ? [`by${heat.colour}`] : [])].join(' ');
      this.drawSquare(name, { kind, letter, isAt: name === this.at, count: heat ? count : null, said: said.join(', ') });
    }
  }

  // (a square that shows the same as before stays)
  drawSquare(name, shows) {
    const { kind, letter, isAt, count, said } = shows;
    const all = JSON.stringify(shows);
    if (this.drawn[name] === all) return;
    this.drawn[name] = all;
    const square = this.squares[name];
    square.className = kind;
    square.tabIndex = isAt ? 0 : -1;
    square.replaceChildren(...this.names(name));
    if (letter) square.append(man(letter));
    if (isAt) {
      const ring = document.createElement('span');
      ring.className = 'ring';
      square.append(ring);
    }
    if (count !== null) {
      const shown = document.createElement('span');
      shown.className = 'heat';
      square.style.setProperty('--n', count);
      shown.textContent = count || '';
      square.append(shown);
    }
    square.setAttribute('aria-label', said);
    square.setAttribute('aria-selected', String(name === this.chosen));
  }

  begins(name) {
    return this.shown.moves.some((it) => it.slice(0, 2) === name);
  }

  // A click or a key on a square: chooses it, or moves there.
  pick(name) {
    this.at = name;
    if (this.chosen && [...this.targets(), ...this.rooks()].includes(name)) {
      this.move(this.chosen, name);
      return;
    }
    if (this.chosen && this.chosen !== name && !this.begins(name)) this.wants(null, `${this.chosen}${name}`);
    this.chosen = this.chosen !== name && this.begins(name) ? name : '';
    this.draw();
  }

  // The moves from one square to another: one, or one for each promotion, or none.
  move(from, to) {
    const castled = this.shown.castlings.filter((it) => it.king === from && it.rook === to).map((it) => it.move);
    const found = [...this.shown.moves.filter((it) => it.slice(0, 4) === from + to), ...castled];
    this.chosen = '';
    this.at = to;
    this.draw();
    if (found.length > 1) this.asks(found);
    else this.wants(found[0] ?? null, from + to);
  }

  squareAt(x, y) {
    return this.root.elementFromPoint(x, y)?.closest?.('[data-square]')?.dataset.square;
  }

  down(event) {
    const from = event.target.closest('[data-square]')?.dataset.square;
    if (from && event.button === 2 && this.draws) this.drag(event, from);
    if (!from || event.button !== 0) return;
    event.preventDefault();
    this.squares[from].focus({ preventScroll: true });
    const was = this.chosen;
    const begins = () => {
      if (!this.begins(from)) return null;
      if (this.chosen !== from) {
        this.chosen = from;
        this.draw();
      }
      this.squares[from].classList.add('dragged');
      this.drawn[from] = '';
      return { letter: this.shown.men[from], size: this.squares[from].offsetWidth, into: this.root.body ?? this.root };
    };
    const ends = (it, isDragged) => {
      const to = it.type === 'pointerup' ? this.squareAt(it.clientX, it.clientY) : undefined;
      if (!isDragged) {
        if (to === from) {
          this.chosen = was;
          this.pick(from);
        }
      } else if (to && to !== from) {
        // (it lies there already)
        this.dropped = to;
        this.move(from, to);
      } else {
        this.chosen = '';
        this.draw();
      }
    };
    dragged(event, { begins, ends });
  }

  // With the right button an arrow is drawn, or on one square a circle: green, red with Shift or Ctrl, blue with Alt, yellow with both.
  drag(event, from) {
    event.preventDefault();
    const colourOf = (it) => 'GRBY'[(it.shiftKey || it.ctrlKey ? 1 : 0) + (it.altKey || it.metaKey ? 2 : 0)];
    const colour = colourOf(event);
    let to = from;
    const shows = () => this.mark(this.marked, to ? { colour, from, to } : null);
    const moved = (it) => {
      to = this.squareAt(it.clientX, it.clientY);
      shows();
    };
    followed(moved, (it) => {
      to = it.type === 'pointerup' ? this.squareAt(it.clientX, it.clientY) : undefined;
      this.mark(this.marked);
      if (to) this.draws(`${colour}${from}${to === from ? '' : to}`);
    });
    shows();
  }

  // By keys an arrow begins at one square and ends at another; twice at one it is a circle.
  drawByKey() {
    const from = this.arrowFrom;
    this.arrowFrom = from ? '' : this.at;
    this.draw();
    if (from) this.draws(`G${from}${from === this.at ? '' : this.at}`);
  }

  key(event) {
    const steps = { ArrowLeft: [-1, 0], ArrowRight: [1, 0], ArrowUp: [0, 1], ArrowDown: [0, -1] };
    if (event.altKey || event.ctrlKey || event.metaKey) return;
    // (an arrow alone steps through the game where the page has one)
    if (steps[event.key] && !event.shiftKey && !this.hasArrows) return;
    if (steps[event.key]) {
      event.preventDefault();
      const by = this.turned ? -1 : 1;
      const file = FILES.indexOf(this.at[0]) + by * steps[event.key][0];
      const number = Number(this.at[1]) + by * steps[event.key][1];
      if (file < 0 || file > 7 || number < 1 || number > 8) return;
      this.at = FILES[file] + number;
      this.draw();
      this.squares[this.at].focus();
    } else if (event.key === 'Enter' || event.key === ' ') {
      event.preventDefault();
      this.pick(this.at);
      this.squares[this.at].focus();
    } else if (event.key.toLowerCase() === 'a' && this.draws) {
      event.preventDefault();
      this.drawByKey();
    } else if (event.key === 'Escape') {
      this.chosen = '';
      this.arrowFrom = '';
      this.draw();
    }
  }
}
