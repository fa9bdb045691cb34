// The graph of the evaluations in a game's comments and of those of the engine: a picture of the main line, in which a click goes to a move.
import { evaluation } from './commands.js';

const SVG = 'http://www.w3.org/2000/svg';
const HIGH = 100;

/** White's share of a bar, in percent, for an evaluation in centipawns. */
export const share = (value) => Math.max(2, Math.min(98, 50 + 50 * (2 / (1 + Math.exp(-value / 300)) - 1)));

const part = (name, attributes) => {
  const it = document.createElementNS(SVG, name);
  for (const [key, value] of Object.entries(attributes)) it.setAttribute(key, value);
  return it;
};

export class Graph {
  /** `goes` is called with the node of a move that is to be gone to. */
  constructor(place, goes) {
    this.place = place;
    this.line = this.said = this.comments = this.points = [];
    this.many = 0;
    place.addEventListener('click', (event) => {
      const { left, width } = place.getBoundingClientRect();
      const at = ((event.clientX - left) / width) * this.many;
      const nearest = [...this.points].sort((a, b) => Math.abs(a.at - at) - Math.abs(b.at - at))[0];
      if (nearest) goes(nearest.row);
    });
  }

  /** Shows the main line below a root, each of its nodes with the commands that `commandsOf` gives. A line with less than two evaluations has no graph. */
  show(root, commandsOf) {
    const old = this.line;
    this.line = [];
    for (let row = root?.children[0]; row; row = row.children[0]) this.line.push(row);
    // (what the engine said of the moves that are as before stays, until it is told anew)
    const other = this.line.findIndex((row, i) => row.san !== old[i]?.san);
    this.tell(other < 0 ? this.said : this.said.slice(0, other), this.pointsOf((row) => evaluation(commandsOf(row))));
  }

  pointsOf(found) {
    return this.line.map((row, i) => ({ row, at: i + 1, found: found(row, i) })).filter(({ found: it }) => it);
  }

  /** Shows what the engine says beside it: for each move of the line its evaluation, or null. */
  tell(said, comments = this.comments) {
    const engine = this.pointsOf((_, i) => said[i]);
    const curves = [comments, engine].map((it) => (it.length < 2 ? [] : it));
    Object.assign(this, { said, comments, points: curves.flat(), many: this.line.length });
    this.place.hidden = !this.points.length;
    document.body.classList.toggle('graphed', !this.place.hidden);
    if (this.place.hidden) return;
    const [white, other] = curves.map((points) => points.map(({ at, found }) => `${at} ${(HIGH - share(100 * found.value)).toFixed(1)}`).join('L'));
    this.mark = part('path', { class: 'here', d: '' });
    const picture = part('svg', { viewBox: `0 0 ${this.many} ${HIGH}`, preserveAspectRatio: 'none', 'aria-hidden': 'true' });
    if (white) picture.append(part('path', { class: 'white', d: `M${comments[0].at} ${HIGH}L${white}L${comments.at(-1).at} ${HIGH}z` }));
    picture.append(part('path', { class: 'middle', d: `M0 ${HIGH / 2}H${this.many}` }));
    if (other) picture.append(...['edge', 'curve'].map((name) => part('path', { class: name, d: `M${other}` })));
    picture.append(this.mark);
    this.place.replaceChildren(picture);
    const [inComments, byEngine] = curves.map((it) => (it.length ? `from ${it[0].found.text} to ${it.at(-1).found.text}` : ''));
    const words = !byEngine ? inComments : `${inComments ? `in the comments ${inComments}, and ` : ''}by the engine ${byEngine}`;
    this.place.setAttribute('aria-label', `Evaluations of the main line, ${words}`);
    this.place.title = other ? 'The line is the engine\u2019s' : '';
    this.go(this.at);
  }

  /** Marks the place of a node: that of its last move in the main line. */
  go(row) {
    this.at = row;
    if (this.place.hidden) return;
    const line = [];
    for (let it = row; it?.parent; it = it.parent) line.unshift(it);
    const other = line.findIndex((it) => it.index !== 0);
    const at = other < 0 ? line.length : other;
    this.mark.setAttribute('d', `M${at} 0V${HIGH}`);
  }
}
