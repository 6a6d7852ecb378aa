/** Three planes that cut the building: for each axis a place, which side is left, and whether it cuts. */
import { state, on, changed } from './state.js';
import { text, millimetres } from './texts.js';
import { $, make, button } from './dom.js';
import { onGrid } from './matrix.js';

const AXES = ['x', 'y', 'z'];
const planes = AXES.map(() => ({ on: false, above: false, part: 0.5 }));

/** Where a plane cuts, in millimetres: on the grid, so that at its ends nothing is lost. */
function placeOf(k) {
  const box = state.whole || [0, 0, 0, 1, 1, 1];
  return onGrid([box[k] + planes[k].part * (box[k + 3] - box[k])], state.grid)[0];
}

/** What is said of a plane beside its slider. */
const said = k => (planes[k].on ? millimetres(placeOf(k), state.grid) + ' mm' : text('off'));

/** The least and the greatest corner of what the planes leave. */
export function cut() {
  const low = planes.map((plane, k) => (plane.on && plane.above ? placeOf(k) : -1e9));
  const high = planes.map((plane, k) => (plane.on && !plane.above ? placeOf(k) : 1e9));
  return { low, high };
}

function row(axis, k) {
  const plane = planes[k];
  const label = text('section-' + axis);
  const output = make('output', '');
  const show = () => {
    output.textContent = said(k);
    changed('cut');
  };
  const check = make('input', null, { type: 'checkbox', checked: plane.on, 'aria-label': label });
  const slider = make('input', null, { type: 'range', min: 0, max: 1000, value: 1000 * plane.part, 'aria-label': label });
  const set = turned => { plane.on = check.checked = turned; show(); };
  check.addEventListener('change', () => set(check.checked));
  slider.addEventListener('input', () => { plane.part = slider.value / 1000; set(true); });
  const flip = button('⇄', () => { plane.above = !plane.above; set(true); }, { title: text('flip'), 'aria-label': `${text('flip')}: ${label}` });
  const out = make('div', [make('label', [check, ' ' + axis.toUpperCase()]), slider, output, flip], { className: 'section' });
  output.textContent = said(k);
  return out;
}

const show = () => $('sections').replaceChildren(...AXES.map(row));

export function start() {
  on('version', show);
  on('language', show);
}
