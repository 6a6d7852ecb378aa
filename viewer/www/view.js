/** The middle: the picture, what is picked, measuring, and the frame of a clash. */
import { state, on, changed } from './state.js';
import { text, number, millimetres } from './texts.js';
import { $, make, button, swatch, say, complain } from './dom.js';
import { Camera, control } from './camera.js';
import { Scene } from './scene.js';
import { hull, centre, diagonal, length, minus } from './matrix.js';
import { pick, snap } from './pick.js';
import { lookBytes, isShown, RED, BLUE, YELLOW } from './look.js';
import { cut } from './sections.js';
import { hide, isolate, seeThrough } from './elements.js';
import { loadTriangles } from './triangles.js';

const camera = new Camera();
let scene = null;
let measuring = null;
let place = null;
let ticket = 0;

/** For tests and measurements. */
export const inside = { camera, get scene() { return scene; } };

export function frame(box, room) {
  if (!box) return;
  camera.frame(box.map((v, k) => v - scene.origin[k % 3]), scene.aspect(), room);
  scene.dirty = true;
}

export const whole = () => frame(state.whole || [0, 0, 0, 10000, 10000, 3000]);

function marks() {
  const lines = [];
  const points = [];
  if (measuring) {
    for (const at of measuring) points.push({ at, colour: [230, 40, 160, 255] });
    if (measuring.length === 2) lines.push({ from: measuring[0], to: measuring[1], colour: [230, 40, 160, 255] });
  }
  scene.setLines(lines, place ? [{ box: place, colour: [...YELLOW, 255] }] : [], points);
}

/** Marks elements by their colours and frames them; `box` is a place to show besides. */
export function mark(colours, box) {
  state.marked = colours;
  state.picked = -1;
  place = box;
  const boxes = [...colours.keys()].map(n => state.boxes[n]);
  if (boxes.length) frame(hull(boxes), 1.5);
  marks();
  changed('look');
}

/** Goes near to the place that is marked. */
export function near() {
  if (place) frame(place, 3);
}

export const markPair = (places, box) => mark(new Map(places.map((n, k) => [n, k ? BLUE : RED])), box);

/** What is at a place of the picture, from -1 to 1 both ways: what is marked before what is faint. */
function pickAt(x, y) {
  const shown = n => isShown(n) && (!state.marked.size || state.marked.has(n));
  const ray = camera.ray(x, y, scene.aspect());
  return pick(ray, scene, state.boxes, shown) || pick(ray, scene, state.boxes, isShown);
}

function click(event) {
  const rect = $('canvas').getBoundingClientRect();
  choose((event.clientX - rect.left) / rect.width * 2 - 1, 1 - (event.clientY - rect.top) / rect.height * 2);
}

/** Picks or measures there. */
function choose(x, y) {
  const hit = pickAt(x, y);
  if (measuring) {
    if (hit) measureTo(snap(hit, camera.height() * 0.02));
    return;
  }
  state.picked = hit ? hit.place : -1;
  changed('look');
  showCard();
}

function measureTo(at) {
  measuring = measuring.length === 1 ? [measuring[0], at] : [at];
  marks();
  showCard();
}

function facts(rows) {
  return make('dl', [].concat(...rows.filter(row => row[1]).map(([name, value]) => [make('dt', text(name)), make('dd', value)])));
}

function measured() {
  if (measuring.length < 2) return [make('p', text(measuring.length ? 'measureSecond' : 'measureFirst'))];
  const [a, b] = measuring;
  const [x, y, z] = minus(b, a).map(v => millimetres(Math.abs(v), state.grid));
  return [facts([['distance', number(length(minus(b, a)), 1) + ' mm'], ['axes', `X ${x}, Y ${y}, Z ${z} mm`]])];
}

function pickedCard() {
  const element = state.elements[state.picked];
  const one = [state.picked];
  const act = (word, run) => button(text(word), () => { run(one); showCard(); });
  return [
    facts([['name', element.name], ['class', element.class], ['storey', element.storey || text('noStorey')],
      ['model', element.model], ['identifier', element.guid], ['triangles', number(element.triangles)]]),
    make('div', [act('hide', hide), act('alone', isolate), act('ghost', seeThrough),
      button(text('itsClashes'), () => changed('itsClashes')),
      button(text('close'), () => { state.picked = -1; changed('look'); showCard(); })], { className: 'bar' }),
  ];
}

function pairCard() {
  const out = [];
  for (const [n, colour] of state.marked) {
    if (out.length > 5) break;
    const e = state.elements[n];
    out.push(make('p', [swatch(colour), ` ${e.name || e.guid}, ${e.class}, ${e.model}` + (e.storey ? ', ' + e.storey : '')], { className: 'pair' }));
  }
  if (state.marked.size > out.length) out.push(make('p', text('andMore', state.marked.size - out.length)));
  return out;
}

export function showCard() {
  const parts = measuring ? measured() : state.picked >= 0 ? pickedCard() : pairCard();
  $('card').replaceChildren(...parts);
  $('card').hidden = !parts.length;
}

function background() {
  const [r, g, b] = getComputedStyle($('view')).backgroundColor.match(/\d+/g).map(v => v / 255);
  scene.background = [r, g, b];
  scene.dirty = true;
}

/** Gives the scene the elements of the version that was opened, and asks for their triangles. */
async function showVersion() {
  const mine = ++ticket;
  place = null;
  scene.clear();
  const origin = state.whole ? centre(state.whole).map(Math.round) : [0, 0, 0];
  scene.setElements(state.boxes, origin, state.grid);
  camera.radius = state.whole ? diagonal(state.whole) / 2 : 20000;
  scene.setCut(cut().low, cut().high);
  marks();
  const started = performance.now();
  const names = state.models.filter(model => model.count).map(model => model.name);
  const placesOf = (name, n) => state.models.find(model => model.name === name).places[n];
  const got = await loadTriangles(state.project, state.version, names, placesOf, { origin, grid: state.grid }, () => mine !== ticket);
  if (!got || mine !== ticket) return;
  scene.setTriangles(got.at, got.runs, state.boxes);
  inside.loaded = performance.now() - started;
}

function tools() {
  $('whole').addEventListener('click', whole);
  for (const name of ['top', 'front', 'side']) {
    $(name).addEventListener('click', () => { camera.look(name); whole(); });
  }
  $('measure').addEventListener('click', () => {
    measuring = measuring ? null : [];
    $('measure').setAttribute('aria-pressed', String(!!measuring));
    marks();
    showCard();
  });
}

export function start() {
  scene = new Scene($('canvas'), camera);
  control($('canvas'), camera, () => scene.move(), click);
  $('canvas').addEventListener('keydown', event => {
    if (event.key === 'Home') whole();
    if (event.key === 'Enter') choose(0, 0);
    if (event.key === 'Escape') {
      if (measuring) $('measure').click();
      state.picked = -1;
      changed('look');
    }
  });
  $('canvas').addEventListener('webglcontextlost', () => complain(text('drawingLost')));
  tools();
  background();
  matchMedia('(prefers-color-scheme: dark)').addEventListener('change', background);
  new ResizeObserver(() => { scene.dirty = true; }).observe($('canvas'));
  on('version', () => showVersion().catch(() => say(text('noTriangles'))));
  on('look', () => { scene.setLook(lookBytes()); showCard(); });
  on('cut', () => scene.setCut(cut().low, cut().high));
  on('clash', () => { if (!state.marked.size) { place = null; marks(); } });
}
