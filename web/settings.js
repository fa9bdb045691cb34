// What a person chooses for the page: it is kept in the browser.
const by = (id) => document.getElementById(id);
const KEPT = ['theme', 'motion', 'depth'];

const read = (name) => {
  try {
    return localStorage.getItem(name);
  } catch {
    return null;
  }
};

const write = (name, value) => {
  try {
    localStorage.setItem(name, value);
  } catch {
    // (a browser that keeps nothing)
  }
};

const apply = () => {
  const theme = by('theme').value;
  if (theme) document.documentElement.dataset.theme = theme;
  else delete document.documentElement.dataset.theme;
};

/** Whether men are to jump to where they go. */
export const isStill = () => by('motion').value === 'still' || matchMedia('(prefers-reduced-motion: reduce)').matches;

export const settings = () => {
  for (const name of KEPT) {
    const kept = read(name);
    if (kept !== null) by(name).value = kept;
    by(name).addEventListener('change', () => {
      write(name, by(name).value);
      apply();
    });
  }
  apply();
};
