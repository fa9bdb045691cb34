// The list of the games that are kept in this browser.
import { begin } from './game.js';
import { drop, mine, nameOf, openGame, putAway, recordsNow, rename } from './mine.js';

const by = (id) => document.getElementById(id);

const button = (text, says, does) => {
  const it = document.createElement('button');
  it.type = 'button';
  it.textContent = text;
  it.setAttribute('aria-label', says);
  it.onclick = does;
  return it;
};

// (made once it is wanted: that takes long)
let times = null;
const when = (time) => {
  times ??= new Intl.DateTimeFormat([], { dateStyle: 'medium', timeStyle: 'short' });
  return times.format(time);
};

const row = (it, isHere) => {
  const place = document.createElement('li');
  place.dataset.game = it.id;
  if (it.removed) {
    place.append(document.createTextNode(`${nameOf(it)} `), button('Bring back', `Bring back ${nameOf(it)}`, () => putAway(it.id, false)), button('Erase', `Erase ${nameOf(it)} for good`, () => drop(it.id)));
    return place;
  }
  const open = button(nameOf(it), `Open ${nameOf(it)}`, async () => {
    if (await openGame(it.id)) by('gamesbox').close();
  });
  open.className = 'open';
  if (isHere) open.setAttribute('aria-current', 'true');
  const time = document.createElement('small');
  time.textContent = it.changed ? when(it.changed) : 'new';
  open.append(' ', time);
  place.append(open, button('\u2715', `Put ${nameOf(it)} away`, () => putAway(it.id, true)));
  return place;
};

let drawn = '';

export const drawOwn = () => {
  const here = mine.here?.record;
  if (!here) return;
  const others = recordsNow().filter((it) => it.id !== here.id);
  const live = [here, ...others.filter((it) => !it.removed)].sort((a, b) => a.serial - b.serial || a.made - b.made);
  const away = others.filter((it) => it.removed).sort((a, b) => b.removed - a.removed);
  if (document.activeElement !== by('name')) by('name').value = here.name;
  by('name').placeholder = nameOf({ ...here, name: '' });
  by('gamename').textContent = nameOf(here);
  const fault = mine.trouble || mine.failed;
  by('keeping').textContent = fault ? 'not kept' : here.version ? 'kept' : '';
  by('nokeeping').textContent = fault;
  // (said once, so that it is announced once)
  const isRisky = mine.failed || (mine.trouble && mine.here.isMade);
  if (by('unkept').textContent !== (isRisky ? fault : '')) by('unkept').textContent = isRisky ? fault : '';
  const now = JSON.stringify([here.id, ...[...live, ...away].map((it) => [it.id, nameOf(it), it.removed, it.changed && when(it.changed)])]);
  if (drawn === now) return;
  drawn = now;
  const had = by('gamesbox').contains(document.activeElement) && document.activeElement.closest('li');
  by('own').replaceChildren(...live.map((it) => row(it, it.id === here.id)));
  by('away').replaceChildren(...away.map((it) => row(it, false)));
  by('awaybox').hidden = !away.length;
  if (had) (by('own').querySelector('[aria-current]') ?? by('another')).focus();
};

export const ownCommands = () => {
  by('another').onclick = async () => {
    if (await begin('new')) by('gamesbox').close();
  };
  by('name').onchange = () => rename(mine.here.record.id, by('name').value.trim());
};
