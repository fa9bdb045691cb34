// `<jatshegi-board>`: the page's board as an element. It draws a position and says what a person does there; which moves there are, its host tells it.
import { styled } from './look.js';
import { man, named } from './men.js';
import { Board } from './view.js';

const START = 'rnbqkbnr/pppppppp/8/8/8/8/PPPPPPPP/RNBQKBNR w KQkq - 0 1';
const RULES = [
  ':host { display: block; --light: #efe9da; --dark: #94ad9b; --target: #16201b; }',
  ':host([hidden]) { display: none; }',
  '.place { position: relative; aspect-ratio: 1; }',
  '.squares { position: absolute; inset: 0; display: grid; grid-template-rows: repeat(8, 1fr); border-radius: 4px; overflow: hidden; font-family: system-ui, sans-serif; touch-action: none; user-select: none; -webkit-user-select: none; }',
  '.promotion { position: absolute; z-index: 6; display: flex; flex-direction: column; width: 12.5%; background: #fff; box-shadow: 0 2px 12px rgba(0, 0, 0, .5); }',
  '.promotion button { position: relative; aspect-ratio: 1; width: 100%; border: 0; padding: 0; background: var(--light); cursor: pointer; }',
  '.promotion button:hover, .promotion button:focus-visible { background: var(--dark); outline: 3px solid #0b57b7; outline-offset: -3px; }',
];

const listOf = (it) => (Array.isArray(it) ? it.join(' ') : String(it ?? ''));
// (one that is none is passed over)
const isShape = (item) => /^[A-Z][a-h][1-8]([a-h][1-8])?$/.test(item);
const shapeOf = (item) => ({ colour: item[0], from: item.slice(1, 3), to: item.slice(3) || item.slice(1) });

// The attributes, with the kind of each; each is a property, too.
const ATTRIBUTES = { fen: 'text', last: 'text', label: 'text', moves: 'list', checks: 'list', shapes: 'list', turned: 'flag', still: 'flag', draws: 'flag' };

// (a server that only renders pages has no elements)
export class JatshegiBoard extends (globalThis.HTMLElement ?? class {}) {
  static get observedAttributes() {
    return Object.keys(ATTRIBUTES);
  }

  constructor() {
    super();
    this._view = null;
    this._isWaiting = false;
  }

  connectedCallback() {
    if (!this._view) this._lay();
    this._sizes.observe(this._place);
    this._draw();
  }

  disconnectedCallback() {
    this._sizes.disconnect();
  }

  attributeChangedCallback() {
    // (of several changes at once the last is drawn)
    if (!this._view || this._isWaiting) return;
    this._isWaiting = true;
    queueMicrotask(() => {
      this._isWaiting = false;
      this._draw();
    });
  }

  focus() {
    this._view?.squares[this._view.at].focus();
  }

  _lay() {
    const root = this.attachShadow({ mode: 'open' });
    styled(root, RULES);
    this._place = document.createElement('div');
    this._place.className = 'place';
    const squares = document.createElement('div');
    squares.className = 'squares';
    squares.setAttribute('role', 'grid');
    this._place.append(squares);
    root.append(this._place);
    this._sizes = new ResizeObserver(() => this._place.style.setProperty('--board', `${this._place.clientWidth}px`));
    this._view = new Board(squares, {
      wants: (lan, text) => this._say(lan ? 'move' : 'refused', { lan: lan ?? text, from: text.slice(0, 2), to: text.slice(2, 4) }),
      asks: (moves) => this._ask(moves),
      draws: null,
      hasArrows: true,
    });
  }

  _say(name, detail) {
    this.dispatchEvent(new CustomEvent(name, { detail, bubbles: true, composed: true }));
  }

  _draw() {
    const { _view: view, fen, moves, checks, last, still, turned } = this;
    this._place.querySelector('.promotion')?.remove();
    view.place.setAttribute('aria-label', this.label || 'Chess board');
    view.draws = this.draws ? (shape) => this._say('shape', { shape }) : null;
    if (view.turned !== turned) view.turn(turned);
    const isStill = still || matchMedia('(prefers-reduced-motion: reduce)').matches;
    view.show({ fen: fen || START, moves, castlings: [], heat: null, checks, last, still: isStill });
    view.mark(this.shapes.filter(isShape).map(shapeOf));
  }

  // The promotions among which to choose are at their square; Escape, or a click beside them, gives up.
  _ask(moves) {
    const to = moves[0].slice(2, 4);
    const box = document.createElement('div');
    box.className = 'promotion';
    box.setAttribute('role', 'group');
    box.setAttribute('aria-label', 'Promote to');
    const gives = (lan = null) => {
      box.remove();
      this.focus();
      if (lan) this._say('move', { lan, from: lan.slice(0, 2), to });
    };
    box.append(...moves.map((lan) => {
      const letter = this._view.side === 'w' ? lan[4].toUpperCase() : lan[4];
      const button = document.createElement('button');
      button.type = 'button';
      button.setAttribute('aria-label', named(letter));
      button.append(man(letter));
      button.onclick = () => gives(lan);
      return button;
    }));
    const square = this._view.squares[to];
    const isAtTop = square.getBoundingClientRect().top - this._place.getBoundingClientRect().top < this._place.clientHeight / 2;
    box.style.left = `${12.5 * [...square.parentElement.children].indexOf(square)}%`;
    box.style[isAtTop ? 'top' : 'bottom'] = '0';
    box.onkeydown = (event) => event.key === 'Escape' && gives();
    box.onfocusout = ({ relatedTarget }) => !box.contains(relatedTarget) && box.remove();
    this._place.querySelector('.promotion')?.remove();
    this._place.append(box);
    box.firstElementChild.focus();
  }
}

for (const [name, kind] of Object.entries(ATTRIBUTES)) {
  Object.defineProperty(JatshegiBoard.prototype, name, {
    configurable: true,
    enumerable: true,
    get() {
      if (kind === 'flag') return this.hasAttribute(name);
      const text = this.getAttribute(name) ?? '';
      return kind === 'list' ? text.split(/[\s,]+/).filter(Boolean) : text;
    },
    set(value) {
      if (kind === 'flag') this.toggleAttribute(name, Boolean(value));
      else this.setAttribute(name, listOf(value));
    },
  });
}

globalThis.customElements?.define('jatshegi-board', JatshegiBoard);
