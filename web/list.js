// The list of what was read from a text: its rows in the order of the text or of a column, and the keys that go through it.
const MOST_SHOWN = 50_000;
// Rows are in parts of so many, of which a browser lays out those that are in sight.
const PART = 100;
// By how many rows each of these keys goes on.
const BY = { ArrowDown: 1, ArrowUp: -1, PageDown: 8, PageUp: -8, Home: -Infinity, End: Infinity };
const NEXT = { none: 'ascending', ascending: 'descending', descending: 'none' };

const by = (id) => document.getElementById(id);

const part = (kind, role, ...parts) => {
  const it = document.createElement(kind);
  if (role) it.setAttribute('role', role);
  it.append(...parts);
  return it;
};

/** Items in the order of their texts, and where these are equal in their own; an item without a text is after all others. */
const sorted = (items, textOf, isDown) => {
  const collator = new Intl.Collator([], { numeric: true });
  const all = items.map((it, i) => ({ it, i, text: textOf(it) }));
  const known = all.filter(({ text }) => text).sort((a, b) => (isDown ? -1 : 1) * collator.compare(a.text, b.text) || a.i - b.i);
  return [...known, ...all.filter(({ text }) => !text)].map(({ it }) => it);
};

export class List {
  /** `texts` gives for the name of each column what an item is sorted by; `row` fills a row, its cells and its button, by an item; `opens` opens an item. */
  constructor({ texts, fills, opens }) {
    Object.assign(this, { texts, fills, place: by('games'), columns: by('columns'), items: new WeakMap(), rows: new Map(), now: {}, seen: 0, many: 0, back: null });
    this.place.addEventListener('click', ({ target }) => {
      const row = target.closest('li');
      if (row?.querySelector('button')) opens(this.items.get(row));
    });
    this.place.addEventListener('keydown', (event) => this.key(event));
    this.place.addEventListener('focusin', ({ target }) => this.stop(target));
    this.columns.addEventListener('click', ({ target }) => {
      const head = target.closest('[role=columnheader]');
      if (head) this.sort(head);
    });
    const button = part('button');
    button.tabIndex = -1;
    this.pattern = part('li', 'row', part('span', 'cell', button));
  }

  // The column by which it is sorted, and how.
  get order() {
    const head = this.columns.querySelector('[aria-sort$=cending]');
    return head ? `${head.dataset.column} ${head.getAttribute('aria-sort')}` : '';
  }

  sort(head) {
    const way = NEXT[head.getAttribute('aria-sort')];
    this.comeTo({ order: way === 'none' ? '' : `${head.dataset.column} ${way}` });
    this.draw(true);
    this.place.scrollTop = 0;
  }

  /** Which row is the first in sight, how far it is cut, and the order. */
  get where() {
    const { top } = this.place.getBoundingClientRect();
    const first = (all) => [...all].find((it) => it.getBoundingClientRect().bottom > top);
    const row = first(first(this.place.children)?.children ?? []);
    return { row: this.items.get(row)?.number, cut: row ? top - row.getBoundingClientRect().top : 0, order: this.order };
  }

  /** What is shown next comes in that order, and with that row as the first in sight; without both, in the order of its text and from its first row on. */
  comeTo({ row, cut = 0, order = '' } = {}) {
    const [column, way] = order.split(' ');
    for (const it of this.columns.children) it.setAttribute('aria-sort', it.dataset.column === column ? way : 'none');
    this.back = row ? { row, cut } : null;
  }

  goBack() {
    const row = this.rows.get(this.back.row);
    // (once more, where its part had not been laid out)
    for (let i = 0; row && i < 2; i++) this.place.scrollTop += row.getBoundingClientRect().top - this.place.getBoundingClientRect().top + this.back.cut;
  }

  // The one row of the list that the Tab key comes to.
  stop(button) {
    if (this.at === button) return;
    if (this.at) this.at.tabIndex = -1;
    this.at = button;
    if (button) button.tabIndex = 0;
  }

  key(event) {
    const all = [...this.place.querySelectorAll('button')];
    const at = all.indexOf(document.activeElement);
    const far = BY[event.key];
    if (far === undefined || at < 0 || event.altKey || event.ctrlKey || event.metaKey) return;
    event.preventDefault();
    const next = all[Math.max(0, Math.min(all.length - 1, at + far))];
    next.focus();
    next.scrollIntoView({ block: 'nearest' });
  }

  // The part that a row is put into.
  lastPart() {
    const last = this.place.lastElementChild;
    if (last && last.children.length < PART) return last;
    this.place.append(part('ul', 'rowgroup'));
    return this.place.lastElementChild;
  }

  row(it) {
    const row = this.pattern.cloneNode(true);
    this.items.set(row, it);
    this.rows.set(it.number, row);
    this.fills(row, it);
    return row;
  }

  /**
   * Shows those `found` for which `has` holds; `of` is what they are of, and `words` what was asked for. What is listed stays where it is while more of it is found, so
   * that it can be clicked: once all `isRead` it comes into its order. Returns how many there are more than are shown.
   */
  show(now) {
    const was = this.now;
    this.now = now;
    this.columns.hidden = !now.isTable;
    const isOther = was.of !== now.of || was.words !== now.words;
    if (was.of === now.of && isOther) this.back = null;
    else if (!isOther && was.isRead !== now.isRead && this.order) this.back ||= this.where;
    this.draw(isOther || (was.isRead !== now.isRead && this.order !== ''));
    return Math.max(0, this.many - MOST_SHOWN);
  }

  draw(isAnew) {
    const { found, has, isRead, isTable } = this.now;
    const focused = this.place.contains(document.activeElement) ? this.items.get(document.activeElement.closest('li'))?.number : null;
    if (isAnew) {
      this.place.replaceChildren();
      this.rows.clear();
      this.seen = this.many = 0;
    }
    let more = found.slice(this.seen).filter(has);
    this.seen = found.length;
    const [column, way] = this.order.split(' ');
    if (isAnew && column && isTable) more = sorted(more, this.texts[column], way === 'descending');
    for (const it of more.slice(0, Math.max(0, MOST_SHOWN - this.many))) this.lastPart().append(this.row(it));
    this.many += more.length;
    if (this.back) this.goBack();
    if (isRead) this.back = null;
    if (!this.at?.isConnected) this.stop(this.place.querySelector('button'));
    if (isAnew && focused) this.rows.get(focused)?.querySelector('button')?.focus({ preventScroll: true });
    this.mark(this.marked);
  }

  /** Marks the row with that number, as the one that is on the board. */
  mark(number) {
    this.marked = number;
    const now = this.rows.get(number) ?? null;
    if (now === this.here) return;
    for (const [row, isHere] of [[this.here, false], [now, true]]) {
      row?.classList.toggle('here', isHere);
      if (isHere) row?.querySelector('button')?.setAttribute('aria-current', 'true');
      else row?.querySelector('button')?.removeAttribute('aria-current');
    }
    this.here = now;
  }
}
