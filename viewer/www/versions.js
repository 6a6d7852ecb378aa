/** The last versions, what changed between two, and loading one. */
import { state, on, changed } from './state.js';
import { text, date, number } from './texts.js';
import { $, make, button, say, complain } from './dom.js';
import { hull, diagonal } from './matrix.js';
import { whole } from './view.js';
import { explain } from './faults.js';
import * as api from './api.js';

const KEPT = 16;
const POLL = 5000;

let ticket = 0;
let framed = null;

/** The numbers of the versions that the server still has, the newest first. */
const numbers = () => Array.from({ length: Math.min(KEPT, state.newest + 1) }, (_, n) => state.newest - n);

/** Several models may have elements of one identifier. */
function placesByGuid(elements) {
  const out = new Map();
  elements.forEach((e, n) => {
    if (out.has(e.guid)) out.get(e.guid).push(n);
    else out.set(e.guid, [n]);
  });
  return out;
}

/** Takes a version's reply into the state: elements by size, the greatest first, so that a part of them shows the most. */
function take(reply) {
  const elements = [];
  for (const model of reply.models) {
    model.elements.forEach((e, n) => elements.push(Object.assign(e, { model: model.name, place: n, size: diagonal(e.box) })));
  }
  elements.sort((a, b) => b.size - a.size);
  const models = reply.models.map(model => ({
    name: model.name, count: model.elements.length, places: new Array(model.elements.length),
    triangles: model.elements.reduce((sum, e) => sum + e.triangles, 0), date: model.date, author: model.author,
  }));
  const byName = new Map(models.map(model => [model.name, model]));
  elements.forEach((e, n) => { byName.get(e.model).places[e.place] = n; });
  Object.assign(state, {
    reply, elements, models, version: reply.version, newest: reply.newest, grid: reply.per_mm, rules: reply.rules,
    boxes: elements.map(e => e.box), byKey: new Map(elements.map((e, n) => [e.model + ' ' + e.guid, n])),
    byGuid: placesByGuid(elements), whole: hull(elements.map(e => e.box)), hidden: new Set(), ghost: new Set(), marked: new Map(), picked: -1,
  });
}

function showSelects() {
  const label = n => (n === state.newest ? text('newestNumber', n) : String(n));
  $('version').replaceChildren(...numbers().map(n => make('option', label(n), { value: n })));
  $('version').value = state.version;
  const others = numbers().filter(n => n !== state.version);
  const wanted = others.includes(state.version - 1) && state.version > 1 ? String(state.version - 1) : '';
  $('against').replaceChildren(make('option', text('nothing'), { value: '' }), ...others.map(n => make('option', String(n), { value: n })));
  $('against').value = wanted;
  const triangles = state.elements.reduce((sum, e) => sum + e.triangles, 0);
  $('summary').textContent = text('summary', state.elements.length, triangles, state.rules.length);
  $('newer').hidden = true;
}

/** Opens a version by its number, or the newest. */
export async function open(wanted) {
  const mine = ++ticket;
  say(text('loading'));
  try {
    const reply = await api.version(state.project, wanted);
    if (mine !== ticket) return;
    take(reply);
    showSelects();
    changed('version', 'look');
    if (framed !== state.project) whole();
    framed = state.elements.length ? state.project : null;
    say('');
    complain('');
  } catch (fault) {
    if (mine === ticket) complain(explain(fault));
  }
}

/** Asks for the newest number, and offers that version where it isn't known yet. */
async function poll() {
  if (document.hidden || !state.project) return;
  try {
    const newest = await api.newest(state.project);
    if (newest === state.newest) return;
    $('newer').textContent = text('newerVersion', newest);
    $('newer').hidden = false;
  } catch (fault) {
    complain(explain(fault));
  }
}

function changeLines() {
  const { changes, against } = state;
  if (!changes) return [make('p', text('notCompared'), { className: 'soft' })];
  const lines = changes.models.map(m => make('li', `${m.name}: ` + (m.what === 'changed' ?
    text('modelChanged', m.new, m.gone, m.changed) : text('model-' + m.what, m.new + m.gone))));
  if (changes.rules) lines.push(make('li', text('rulesChanged')));
  const count = change => state.all.filter(clash => clash.change === change).length;
  lines.push(make('li', text('clashesChanged', count('new'), count('kept'), count('gone'))));
  return [make('h3', text('changedSince', state.version, against.version)), make('ul', lines, { id: 'change-list' })];
}

/** Date and author stand there where the server gives them. */
function row(n) {
  const details = n === state.version ? [state.reply.author, state.reply.date && date(state.reply.date)].filter(v => v).join(', ') : '';
  const name = `${text('version')} ${number(n)}${n === state.newest ? ', ' + text('newest') : ''}`;
  const compare = button(text('compare'), () => { $('against').value = n; $('against').dispatchEvent(new Event('change')); }, { disabled: n === state.version });
  return make('li', [make('span', name + (details ? ': ' + details : ''), { className: 'name' }),
    button(text('open'), () => open(n), { disabled: n === state.version }), compare]);
}

function show() {
  $('pane-versions').replaceChildren(...changeLines(), make('h3', text('versions')), make('ul', numbers().map(row), { className: 'rows', id: 'version-list' }));
}

export function start() {
  $('version').addEventListener('change', () => open(Number($('version').value)));
  $('newer').addEventListener('click', () => open('newest'));
  on('newVersion', () => open('newest'));
  on('project', () => open('newest'));
  on('version', show);
  on('clashes', show);
  on('language', () => { const against = $('against').value; showSelects(); $('against').value = against; show(); });
  setInterval(poll, POLL);
}
