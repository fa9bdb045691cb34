// Dialogs and the menu: each is opened by a button with `data-opens`, and closed by Escape, its cross, or a click beside it.
const by = (id) => document.getElementById(id);

/** Puts an open box at what it is of, as the menu is at its button: above it if there is room, and in the window. */
export const placeAt = (box, it) => {
  const a = it.getBoundingClientRect();
  const b = box.getBoundingClientRect();
  box.style.left = `${Math.max(8, Math.min(a.right - b.width, innerWidth - b.width - 8))}px`;
  box.style.top = `${Math.max(8, Math.min(a.top - b.height - 4 > 8 ? a.top - b.height - 4 : a.bottom + 4, innerHeight - b.height - 8))}px`;
};

export const openDialog = (id, button = null) => {
  const it = by(id);
  if (!it.open) {
    it.showModal();
    it.dispatchEvent(new Event('opened'));
  }
  if (id === 'menu' && button) placeAt(it, button);
};

const isOutside = (box, { clientX: x, clientY: y }) => {
  const it = box.getBoundingClientRect();
  return x < it.left || x > it.right || y < it.top || y > it.bottom;
};

const clicked = (event) => {
  const box = event.target.closest('dialog');
  const opener = event.target.closest('[data-opens]');
  if (opener) {
    box?.close();
    openDialog(opener.dataset.opens, opener);
  } else if (box && (event.target.closest('.close') || (box.id === 'menu' && event.target.closest('button')))) box.close();
  else if (event.target === box && event.detail && isOutside(box, event)) box.close();
};

// Up and down in the menu.
const menuKeys = (event) => {
  const items = [...by('menu').querySelectorAll('button:not([hidden])')];
  const at = items.indexOf(document.activeElement);
  const to = { ArrowDown: at + 1, ArrowUp: at - 1, Home: 0, End: items.length - 1 }[event.key];
  if (to === undefined) return;
  event.preventDefault();
  items.at(to % items.length).focus();
};

export const dialogs = () => {
  addEventListener('click', clicked);
  by('menu').addEventListener('keydown', menuKeys);
};
