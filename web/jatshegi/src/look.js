// How a board looks. Its colours are `--light`, `--dark`, `--target`, and its width is `--board`.
export const RULES = [
  '.rank { display: grid; grid-template-columns: repeat(8, 1fr); }',
  '.square { position: relative; border: 0; padding: 0; margin: 0; border-radius: 0; font: inherit; min-width: 0; min-height: 0; background: var(--light); cursor: default; }',
  '.square:hover { background: var(--light); }',
  '.square.dark, .square.dark:hover { background: var(--dark); }',
  '.square.last { box-shadow: inset 0 0 0 100vmax rgba(214, 190, 52, .6); }',
  '.square.chosen { box-shadow: inset 0 0 0 100vmax rgba(52, 132, 98, .72); }',
  '.square.checked { background-image: radial-gradient(circle, rgba(226, 32, 24, .95) 8%, rgba(226, 32, 24, .75) 38%, rgba(226, 32, 24, 0) 72%); }',
  '.square.checking::before { content: ""; position: absolute; inset: 0; border: .18em solid #b3211b; pointer-events: none; }',
  '.square:focus-visible { outline: none; }',
  '.square:focus-visible > .ring { position: absolute; inset: 0; border: 3px solid #0d1110; box-shadow: inset 0 0 0 2px #fff; z-index: 3; pointer-events: none; }',
  '.square svg.man, .ghost svg { position: absolute; inset: -2%; width: 104%; height: 104%; pointer-events: none; z-index: 1; }',
  '.square.target::after { content: ""; position: absolute; inset: 35%; border-radius: 50%; background: var(--target); opacity: .62; pointer-events: none; z-index: 2; }',
  '.square.target.taken::after { inset: 3%; background: none; border: calc(var(--board) / 130) solid var(--target); }',
  '.square.target:hover { box-shadow: inset 0 0 0 100vmax rgba(52, 132, 98, .5); }',
  '.square .at { position: absolute; font-size: max(.5rem, var(--board) * .02); line-height: 1; font-weight: 650; color: #10160f; pointer-events: none; z-index: 2; }',
  '.square .at.rankname { left: 4%; top: 4%; }',
  '.square .at.filename { right: 4%; bottom: 3%; }',
  '.square .heat { position: absolute; right: 4%; top: 3%; pointer-events: none; font-size: calc(var(--board) * .027); line-height: 1.25; font-weight: 700; color: #fff; background: #1b211e; border-radius: 1em; min-width: 1.25em; text-align: center; z-index: 2; }',
  '.square .heat:empty { display: none; }',
  '.square.byw { background-image: linear-gradient(rgba(214, 69, 46, calc(var(--n) * .13)) 0 100%); }',
  '.square.byb { background-image: linear-gradient(rgba(47, 92, 201, calc(var(--n) * .13)) 0 100%); }',
  '.man { fill: #fff; stroke: #1b1b1b; stroke-width: 1.5; stroke-linejoin: round; stroke-linecap: round; }',
  '.man.black { fill: #262626; stroke: #e9e9e9; stroke-width: 1.1; }',
  '.man .mark, .mark { fill: none; }',
  '.ghost { position: fixed; z-index: 9; pointer-events: none; }',
  '.dragged > svg.man { opacity: .3; }',
  '.arrow { position: absolute; inset: 0; width: 100%; height: 100%; pointer-events: none; z-index: 5; fill: #1b5fae; stroke: #1b5fae; opacity: .72; }',
  '.shapes { position: absolute; inset: 0; width: 100%; height: 100%; pointer-events: none; z-index: 4; opacity: .85; }',
  '.shapes circle { fill: none !important; }',
  '.shapeG { fill: #0f6b23; stroke: #0f6b23; }',
  '.shapeR { fill: #a51818; stroke: #a51818; }',
  '.shapeB { fill: #123f9c; stroke: #123f9c; }',
  '.shapeY { fill: #8a5a00; stroke: #8a5a00; }',
];

/** Has a document, or a shadow, look so. */
export const styled = (root, more = []) => {
  const all = [...RULES, ...more];
  if ('adoptedStyleSheets' in root) {
    const sheet = new CSSStyleSheet();
    sheet.replaceSync(all.join('\n'));
    root.adoptedStyleSheets = [...root.adoptedStyleSheets, sheet];
  } else if (root.head) {
    // (one by one into a sheet that is there: a page may forbid others)
    const [sheet] = root.styleSheets;
    for (const it of all) sheet.insertRule(it, sheet.cssRules.length);
  } else {
    const it = document.createElement('style');
    it.textContent = all.join('\n');
    root.append(it);
  }
};
