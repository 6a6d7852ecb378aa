/** The clashes of the version that is shown, in pages, with filters, and against another version. */
import { state, on, changed, placeOf, keyOf } from './state.js';
import { text, number } from './texts.js';
import { $, make, button, field, choice, arrows, say, complain } from './dom.js';
import { compareClashes, compareVersions } from './compare.js';
import { meeting } from './matrix.js';
import { shortClass } from './look.js';
import { markPair, near, whole } from './view.js';
import { topicOf, openTopic, topicOfClash } from './topics.js';
import { explain } from './faults.js';
import * as api from './api.js';

const PAGE = 50;
const MOST = 50000;
const NONE = { change: '', rule: '', modelA: '', modelB: '', classA: '', classB: '', storey: '', element: '' };

let filter = Object.assign({}, NONE);
let first = 0;
let ticket = 0;

/** What the page knows of one side: of this version, of the other one, or no more than its names. */
export function sideOf(side) {
  const place = placeOf(side);
  if (place !== undefined) return state.elements[place];
  const other = state.against && state.against.elements.get(keyOf(side));
  return other || { name: side.guid, guid: side.guid, model: side.model, class: '?', storey: null, box: null };
}

const has = (element, word) => [element.name, element.guid].some(v => v && v.toLowerCase().includes(word.toLowerCase()));

/** Whether two sides fit two wishes, in either order. */
const either = (a, b, one, two, of) =>
  [[a, b], [b, a]].some(([x, y]) => (!one || of(x) === one) && (!two || of(y) === two));

export function fits(clash, wish) {
  const a = sideOf(clash.a);
  const b = sideOf(clash.b);
  return (!wish.change || clash.change === wish.change) &&
    (wish.rule === '' || clash.rule === Number(wish.rule)) &&
    either(a, b, wish.modelA, wish.modelB, e => e.model) &&
    either(a, b, wish.classA, wish.classB, e => e.class) &&
    (!wish.storey || a.storey === wish.storey || b.storey === wish.storey) &&
    (!wish.element || has(a, wish.element) || has(b, wish.element));
}

export const filtered = () => state.all.filter(clash => fits(clash, filter));

function setFilter(name, value) {
  filter[name] = value;
  first = 0;
  show();
}

const sorted = values => [...new Set(values)].filter(v => v).sort();

/** The fields of the filters, with what this version offers. */
function showFields() {
  const pairs = (values, any) => [['', text(any)]].concat(values.map(v => [v, v]));
  const select = (name, values, any) => choice(pairs(values, any), filter[name], value => setFilter(name, value));
  const rules = [['', text('anyRule')]].concat(state.rules.map((rule, n) => [String(n), `${n}: ${rule.a} × ${rule.b}`]));
  const classes = sorted(state.elements.map(e => e.class));
  const models = state.models.map(model => model.name);
  const element = make('input', null, { value: filter.element, placeholder: text('nameOrIdentifier'), type: 'search' });
  element.addEventListener('input', () => setFilter('element', element.value.trim()));
  $('filter-fields').replaceChildren(
    ...field(text('rule'), choice(rules, filter.rule, value => setFilter('rule', value), { className: 'wish-rule' })),
    ...field(text('model'), select('modelA', models, 'anyModel')), ...field(text('andModel'), select('modelB', models, 'anyModel')),
    ...field(text('class'), select('classA', classes, 'anyClass')), ...field(text('andClass'), select('classB', classes, 'anyClass')),
    ...field(text('storey'), select('storey', sorted(state.elements.map(e => e.storey)), 'anyStorey')),
    ...field(text('element'), element),
    make('span', ''), button(text('noFilters'), () => { filter = Object.assign({}, NONE); first = 0; showFields(); show(); }));
}

/** How many are new, kept and gone: each a button that filters. */
function showChanges() {
  if (!state.against) {
    $('changes').replaceChildren(make('span', text('notCompared'), { className: 'soft' }));
    return;
  }
  const chips = ['', 'new', 'kept', 'gone'].map(change => {
    const count = change ? state.all.filter(clash => clash.change === change).length : state.all.length;
    return button(`${text('change-' + (change || 'all'))} ${number(count)}`, () => setFilter('change', change),
      { className: change ? 'word-' + change : '', 'aria-pressed': String(filter.change === change) });
  });
  $('changes').replaceChildren(make('span', text('against', state.against.version), { className: 'soft' }), ...chips);
}

/** The rule of a clash, with its distance if it has one. */
function ruleOf(clash) {
  return clash.distance === undefined ? text('rulePierced', clash.rule) : text('ruleWithin', clash.rule, clash.distance);
}

function row(clash) {
  const a = sideOf(clash.a);
  const b = sideOf(clash.b);
  const topic = topicOf(clash);
  const storeys = sorted([a.storey, b.storey]).join(' / ');
  const title = make('span', [`${a.name || a.guid} × ${b.name || b.guid}`]);
  const details = make('small', [
    clash.change ? make('span', text('change-' + clash.change), { className: 'word-' + clash.change }) : null,
    `${clash.change ? ', ' : ''}${shortClass(a.class)} × ${shortClass(b.class)}, ${a.model} × ${b.model}, ` +
      `${ruleOf(clash)}${storeys ? ', ' + storeys : ''}`,
    topic ? make('span', text('topicNumber', topic.server_assigned_id), { className: 'badge' }) : null]);
  const open = button([title, details], () => choose(clash), { 'aria-current': String(clash === state.clash) });
  return make('li', [open], { className: clash.change ? 'is-' + clash.change : '' });
}

function showActions() {
  const clash = state.clash;
  $('clash-actions').hidden = !clash;
  if (!clash) return;
  const topic = topicOf(clash);
  $('clash-actions').replaceChildren(
    topic ? button(text('openTopic', topic.server_assigned_id), () => openTopic(topic), { id: 'open-topic', className: 'strong' }) :
      button(text('makeTopic'), () => topicOfClash(clash), { id: 'make-topic', className: 'strong', disabled: clash.change === 'gone' }),
    button(text('whereNear'), near, { id: 'where-near' }),
    button(text('wholeAgain'), () => { close(); whole(); }));
}

function close() {
  state.clash = null;
  markPair([], null);
  show();
}

export function show() {
  const list = filtered();
  first = Math.min(first, Math.max(0, Math.floor((list.length - 1) / PAGE) * PAGE));
  $('total').textContent = state.loadingClashes ? '…' : `(${number(state.clashes.total || state.clashes.length)})`;
  $('page').textContent = state.loadingClashes ? state.loadingClashes :
    list.length ? text('pageOf', first + 1, Math.min(first + PAGE, list.length), list.length) : text('noClashes');
  $('previous').disabled = first === 0;
  $('next').disabled = first + PAGE >= list.length;
  const focus = [...$('clash-list').querySelectorAll('button')].indexOf(document.activeElement);
  $('clash-list').replaceChildren(...list.slice(first, first + PAGE).map(row));
  if (focus >= 0 && $('clash-list').children[focus]) $('clash-list').children[focus].firstChild.focus();
  showChanges();
  showActions();
}

/** Marks both elements, shows where their boxes are near, and frames them. */
export function choose(clash) {
  state.clash = clash;
  const places = [clash.a, clash.b].map(placeOf).filter(place => place !== undefined);
  const boxes = [sideOf(clash.a).box, sideOf(clash.b).box];
  markPair(places, boxes[0] && boxes[1] ? meeting(boxes[0], boxes[1], Math.max(20, clash.distance || 0)) : null);
  if (places.length < 2) say(text('elementGone'));
  show();
}

/** The reply of the version to compare with, its elements by key, and its clashes. */
async function loadAgainst(version, stopped) {
  const reply = await api.version(state.project, version);
  const elements = new Map();
  for (const model of reply.models) for (const e of model.elements) elements.set(model.name + ' ' + e.guid, Object.assign({ model: model.name }, e));
  const clashes = await api.clashes(state.project, version, MOST, () => {}, stopped);
  return { version, reply, elements, clashes };
}

/** Loads the clashes of the version that is shown, and those of the other version if one is chosen. */
export async function load() {
  const mine = ++ticket;
  const stopped = () => mine !== ticket;
  const progress = left => { state.loadingClashes = text('stillChecked', left); show(); };
  Object.assign(state, { clashes: [], all: [], clash: null, against: null, changes: null, loadingClashes: text('loading') });
  showFields();
  show();
  const clashes = await api.clashes(state.project, state.version, MOST, progress, stopped);
  if (stopped()) return;
  const other = Number($('against').value);
  const against = $('against').value === '' ? null : await loadAgainst(other, stopped).catch(fault => {
    complain(explain(fault));
    return null;
  });
  if (stopped()) return;
  state.clashes = clashes;
  state.loadingClashes = '';
  state.against = against;
  state.all = compareClashes(clashes, against && against.clashes);
  state.changes = against && compareVersions(state.reply, against.reply);
  if (clashes.total > clashes.length) complain(text('tooManyClashes', clashes.length, clashes.total));
  changed('clashes');
  show();
  if (state.by === 'clash') changed('look');
}

export function start() {
  const again = () => load().catch(fault => { state.loadingClashes = ''; show(); complain(explain(fault)); });
  arrows($('clash-list'));
  $('previous').addEventListener('click', () => { first = Math.max(0, first - PAGE); show(); });
  $('next').addEventListener('click', () => { first += PAGE; show(); });
  $('against').addEventListener('change', again);
  on('version', again);
  on('topics', show);
  on('language', () => { showFields(); show(); });
  on('clash', show);
  on('itsClashes', () => {
    $('tab-clashes').click();
    $('filters').open = true;
    filter = Object.assign({}, NONE, { element: state.elements[state.picked].guid });
    showFields();
    show();
  });
}
