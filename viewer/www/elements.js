/** The left side: models, and elements by class, storey, model or clash, to hide, to see through, or alone. */
import { state, on, changed } from './state.js';
import { text, number } from './texts.js';
import { $, make, icon, swatch, complain, say } from './dom.js';
import { colourOf, groupOf, shortClass } from './look.js';
import * as api from './api.js';
import { explain } from './faults.js';

/** The groups by name, each with the places of its elements. */
export function groups() {
  const found = new Map();
  state.elements.forEach((element, place) => {
    const key = groupOf(element, place);
    if (!found.has(key)) found.set(key, []);
    found.get(key).push(place);
  });
  const order = { storey: byHeight, clash: byChange }[state.by] || ((a, b) => (a[0] < b[0] ? -1 : 1));
  return [...found].sort(order);
}

const CHANGES = ['new', 'kept', 'gone', 'same'];
const byChange = (a, b) => CHANGES.indexOf(a[0]) - CHANGES.indexOf(b[0]);

/** Storeys have no height in the server's replies: their lowest elements say how they follow, the highest first. */
const lowest = places => places.reduce((least, place) => Math.min(least, state.boxes[place][2]), Infinity);
const byHeight = (a, b) => lowest(b[1]) - lowest(a[1]);

const all = (places, set) => places.every(place => set.has(place));

function flip(places, set) {
  const had = all(places, set);
  for (const place of places) {
    if (had) set.delete(place);
    else set.add(place);
  }
  changed('look');
}

/** Shows these elements alone; again: shows all. */
export function isolate(places) {
  const alone = isAlone(places);
  state.hidden = new Set();
  if (!alone) {
    const kept = new Set(places);
    state.elements.forEach((_, place) => { if (!kept.has(place)) state.hidden.add(place); });
  }
  changed('look');
}

const isAlone = places => places.length < state.elements.length &&
  state.hidden.size === state.elements.length - places.length && !places.some(place => state.hidden.has(place));

export const hide = places => flip(places, state.hidden);
export const seeThrough = places => flip(places, state.ghost);

export function showAll() {
  state.hidden = new Set();
  state.ghost = new Set();
  state.marked = new Map();
  state.picked = -1;
  state.clash = null;
  changed('look', 'clash');
}

function nameOf(key) {
  if (state.by === 'clash') return text('change-' + key);
  return state.by === 'class' ? shortClass(key) : key || text('noStorey');
}

function row(key, places) {
  const name = nameOf(key);
  const hidden = all(places, state.hidden);
  const ghost = all(places, state.ghost);
  const label = make('span', [name, make('small', ' ' + number(places.length))], { className: 'name' + (hidden ? ' off' : ''), title: key });
  const toggle = (sign, word, pressed, act) =>
    icon(text(sign), `${text(word)}: ${name}`, () => act(places), { 'aria-pressed': String(pressed) });
  return make('li', [swatch(colourOf(key)), label,
    toggle('hide', 'hide', hidden, hide), toggle('alone', 'alone', isAlone(places), isolate),
    toggle('ghost', 'ghost', ghost, seeThrough)]);
}

/** Draws the list anew, and leaves the keyboard where it was. */
function showGroups() {
  const focus = [...$('groups').querySelectorAll('button')].indexOf(document.activeElement);
  $('groups').replaceChildren(...groups().map(([key, places]) => row(key, places)));
  if (focus >= 0) ($('groups').querySelectorAll('button')[focus] || $('by')).focus();
}

async function remove(name) {
  if (!confirm(text('confirmDelete', name))) return;
  try {
    const made = await api.deleteModel(state.project, name);
    say(text('madeVersion', made.version));
    changed('newVersion');
  } catch (fault) {
    complain(explain(fault));
  }
}

function showModels() {
  $('models').replaceChildren(...state.models.map(({ name, count, triangles }) => make('li', [
    make('span', [name, make('small', ' ' + text('modelCounts', count, triangles))], { className: 'name', title: name }),
    icon('✕', text('deleteModel', name), () => remove(name)),
  ])));
  if (!state.models.length) $('models').append(make('li', text('noModels'), { className: 'soft' }));
}

export function start() {
  $('by').addEventListener('change', () => {
    state.by = $('by').value;
    changed('look');
  });
  $('showAll').addEventListener('click', showAll);
  on('version', showModels);
  on('look', showGroups);
}
