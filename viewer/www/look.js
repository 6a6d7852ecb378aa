/** The colour of each element, and whether it is hidden or seen through. */
import { state, on } from './state.js';

const NAMED = {
  IFCWALL: [201, 183, 156], IFCWALLSTANDARDCASE: [201, 183, 156], IFCSLAB: [154, 163, 171], IFCBEAM: [184, 116, 58],
  IFCCOLUMN: [143, 106, 74], IFCDOOR: [93, 138, 102], IFCWINDOW: [127, 179, 213], IFCPIPESEGMENT: [62, 138, 205],
  IFCDUCTSEGMENT: [39, 166, 154],
};
export const RED = [225, 50, 40];
export const BLUE = [40, 110, 230];
export const YELLOW = [240, 170, 20];
export const CHANGE = { new: [210, 53, 43], gone: [47, 143, 78], kept: [200, 152, 35], same: [120, 130, 145] };
const FAINT = 26;
const GHOST = 60;

const given = new Map();

function hue(angle) {
  const part = n => {
    const k = (n + angle / 30) % 12;
    return Math.round(255 * (0.57 - 0.21 * Math.max(-1, Math.min(k - 3, 9 - k, 1))));
  };
  return [part(0), part(8), part(4)];
}

/** The colour of a group: one of the named, else a hue of its own, always the same while the page is open. */
export function colourOf(key) {
  if (state.by === 'clash') return CHANGE[key] || CHANGE.same;
  if (!given.has(key)) given.set(key, NAMED[key] || hue((given.size * 137.5) % 360));
  return given.get(key);
}

/** By place: the strongest change of the clashes that an element has part in. */
const changes = new Map();
const STRENGTH = ['gone', 'kept', 'new'];

function countChanges() {
  changes.clear();
  for (const clash of state.all) {
    for (const side of [clash.a, clash.b]) {
      const place = state.byKey.get(side.model + ' ' + side.guid);
      if (place === undefined) continue;
      const change = clash.change || 'kept';
      const old = changes.get(place);
      if (!old || STRENGTH.indexOf(change) > STRENGTH.indexOf(old)) changes.set(place, change);
    }
  }
}
on('clashes', countChanges);

/** The group of an element, by what the page groups by. */
export function groupOf(element, place) {
  if (state.by === 'class') return element.class;
  if (state.by === 'storey') return element.storey || '';
  if (state.by === 'model') return element.model;
  return changes.get(place) || 'same';
}

export const isShown = place => !state.hidden.has(place);

/** Four bytes an element, as Scene.setLook takes them. */
export function lookBytes() {
  const out = new Uint8Array(4 * state.elements.length);
  const focus = state.marked.size > 0;
  state.elements.forEach((element, place) => {
    const marked = state.marked.get(place);
    const key = groupOf(element, place);
    out.set(marked || colourOf(key), 4 * place);
    let solid = state.ghost.has(place) ? GHOST : 255;
    if (focus || (state.by === 'clash' && key === 'same')) solid = FAINT;
    if (state.hidden.has(place)) solid = 0;
    if (place === state.picked && solid) {
      for (let k = 0; k < 3; ++k) out[4 * place + k] = (out[4 * place + k] + 2 * YELLOW[k]) / 3;
      solid = 255;
    }
    out[4 * place + 3] = marked ? 255 : solid;
  });
  return out;
}

const WORDS = /(STANDARDCASE|SEGMENT|TERMINAL|FITTING|FIXTURE|ELEMENT|PROXY|FLIGHT|DEVICE|ASSEMBLY|CONTROLLER)/g;

/** IFCPIPESEGMENT as people read it: Pipe segment. */
export const shortClass = name => name.slice(3, 4) + name.slice(4).replace(WORDS, ' $1').trim().toLowerCase();
