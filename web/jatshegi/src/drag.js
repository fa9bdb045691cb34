// A man that is dragged by mouse or touch: of the board, and of the page's editor.
import { man } from './men.js';

// So many pixels off, a press is a drag.
const FAR = 5;

/**
 * Follows the pointer from an event that pressed it. Once it is far enough, `begins` gives the man's letter, its size and where its picture goes in the document, or null
 * where nothing is dragged; the picture is then under the pointer. `ends` is called with the last event, and whether a man was dragged.
 */
export const dragged = ({ clientX: x, clientY: y }, { begins, ends }) => {
  let ghost = null;
  const under = (it) => {
    ghost.style.left = `${it.clientX - ghost.offsetWidth / 2}px`;
    ghost.style.top = `${it.clientY - ghost.offsetHeight / 2}px`;
  };
  const moved = (it) => {
    const found = !ghost && Math.hypot(it.clientX - x, it.clientY - y) > FAR ? begins() : null;
    if (found) {
      ghost = document.createElement('div');
      ghost.className = 'ghost';
      ghost.style.width = ghost.style.height = `${found.size}px`;
      ghost.append(man(found.letter));
      found.into.append(ghost);
    }
    if (ghost) under(it);
  };
  followed(moved, (it) => {
    ghost?.remove();
    ends(it, ghost !== null);
  });
};

/** Calls `moved` with each event of the pointer, and `ended` with the last one: it is let go, or given up. */
export const followed = (moved, ended) => {
  const last = (it) => {
    removeEventListener('pointermove', moved);
    for (const kind of ['pointerup', 'pointercancel']) removeEventListener(kind, last);
    ended(it);
  };
  addEventListener('pointermove', moved);
  for (const kind of ['pointerup', 'pointercancel']) addEventListener(kind, last);
};
