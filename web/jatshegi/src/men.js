// The pictures of the men, and their names.
const SVG = 'http://www.w3.org/2000/svg';
const NAMES = { p: 'pawn', n: 'knight', b: 'bishop', r: 'rook', q: 'queen', k: 'king' };
const PICTURES = {
  p: '<path d="M14.5 33c0-6.500 2.600-8.500 3.300-13.200h4.400c.7 4.700 3.300 6.700 3.300 13.200z"/><circle cx="20" cy="14" r="5.600"/><path d="M10.500 32.500h19v4h-19z"/>',
  r: '<path d="M12.500 32l1-14h13l1 14z"/><path d="M10.500 7.500h4.600v3.200h2.800V7.500h4.200v3.200h2.800V7.500h4.600v7l-3.200 3.500H13.700l-3.200-3.500z"/><path d="M9.500 32h21v4.500h-21z"/>',
  n: '<path d="M12 32.500c-.4-6.800 6.300-8.900 6.600-14.400-2.500 2.200-5.500 2.600-7.300 4.700-1.300 1.500-3 1.100-3.800-.3-.7-1.300-.2-2.600.7-3.800 2.500-3.300 3-7.500 7.300-9.700l.3-4.200 3.400 2.800c7.600.9 11.700 8.600 10.800 24.900z"/><path class="mark" d="M16.300 12.600l1.700-.5"/><path d="M10.500 32.500h21v4h-21z"/>',
  b: '<circle cx="20" cy="6.500" r="2.400"/><path d="M20 9c5.600 3.600 7.800 7.600 7.800 11.500 0 3-1.700 4.800-3.800 5.900l1.800 6.100H14.200l1.800-6.100c-2.100-1.100-3.800-2.900-3.800-5.900C12.200 16.600 14.400 12.600 20 9z"/><path class="mark" d="M20 14.500v7M16.700 18h6.600"/><path d="M9.500 32.500h21v4h-21z"/>',
  q: '<path d="M11 32.500L6.500 14.800l6.300 6.500 1.700-11.600 4 10.200L20 8.200l1.500 11.700 4-10.200 1.700 11.600 6.300-6.500L29 32.500z"/><circle cx="6.500" cy="13" r="1.900"/><circle cx="14.200" cy="8" r="1.900"/><circle cx="20" cy="6.400" r="1.900"/><circle cx="25.800" cy="8" r="1.900"/><circle cx="33.500" cy="13" r="1.900"/><path d="M10 32.500h20v4H10z"/>',
  k: '<path d="M18.500 3.500h3v2.300h2.500v2.900h-2.500v3.600h-3V8.700h-2.500V5.800h2.500z"/><path d="M12.300 32.500C6.400 27 4.700 17.500 11.600 15.800c3.900-1 6.900 1.200 8.400 4.900 1.500-3.700 4.500-5.900 8.400-4.900 6.900 1.700 5.200 11.200-.7 16.700z"/><path d="M20 20.700c-1.300-3.200-2.300-5.700 0-9.200 2.300 3.500 1.300 6 0 9.200z"/><path d="M10.500 32.500h19v4h-19z"/>',
};

const drawn = {};

const draw = (letter) => {
  const picture = document.createElementNS(SVG, 'svg');
  picture.setAttribute('class', letter === letter.toUpperCase() ? 'man' : 'man black');
  picture.setAttribute('viewBox', '0 0 40 40');
  picture.setAttribute('aria-hidden', 'true');
  picture.innerHTML = PICTURES[letter.toLowerCase()];
  return picture;
};

/** The picture of a man by its letter in FEN. */
export const man = (letter) => (drawn[letter] ??= draw(letter)).cloneNode(true);

export const named = (letter) => `${letter === letter.toUpperCase() ? 'white' : 'black'} ${NAMES[letter.toLowerCase()]}`;
