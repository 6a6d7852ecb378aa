/** The clash rules as a table: the first rule that fits two elements decides. */
import { state, on, changed } from './state.js';
import { text, number } from './texts.js';
import { $, make, button, icon, choice, say, complain } from './dom.js';
import { explain } from './faults.js';
import * as api from './api.js';

const COLUMNS = ['a', 'b', 'kind', 'distance', 'storey', 'level', 'models', 'found'];
const OPTIONS = { kind: ['clash', 'pierce', 'ignore'], storey: ['any', 'same', 'different'], models: ['any', 'same', 'other'] };

let table = [];
let bad = -1;
let touched = false;

/** What goes out: the members that a rule has, numbers as numbers. A pierce rule has no distance. */
export function bodyOf(rules) {
  return rules.map(rule => {
    const out = { a: rule.a, b: rule.b, kind: rule.kind, storey: rule.storey, models: rule.models };
    const told = rule.distance !== '' && rule.distance !== null && rule.distance !== undefined;
    if (told && rule.kind !== 'pierce') out.distance = Number(rule.distance);
    if (rule.level) out.level = rule.level;
    return out;
  });
}

function edit(rule, name, value) {
  rule[name] = value;
  touched = true;
}

function cell(rule, name, n) {
  const label = `${text('rule')} ${n}: ${text('rule-' + name)}`;
  if (name === 'found') return make('span', number(state.clashes.filter(clash => clash.rule === n).length));
  if (OPTIONS[name]) {
    return choice(OPTIONS[name].map(v => [v, text(`rule-${name}-${v}`)]), rule[name], value => edit(rule, name, value), { 'aria-label': label });
  }
  const input = make('input', null, { value: rule[name] === null || rule[name] === undefined ? '' : rule[name], 'aria-label': label });
  if (name === 'distance') Object.assign(input, { type: 'number', min: 0, max: 1000, step: 1 });
  else if (name !== 'level') input.setAttribute('list', 'rule-classes');
  input.addEventListener('change', () => edit(rule, name, input.value.trim()));
  return input;
}

function swap(n, m) {
  [table[n], table[m]] = [table[m], table[n]];
  touched = true;
  show();
}

function row(rule, n) {
  const act = (sign, word, run, disabled) => icon(sign, `${text(word)}: ${text('rule')} ${n}`, run, { disabled });
  const acts = [
    act('↑', 'moveUp', () => swap(n, n - 1), n === 0), act('↓', 'moveDown', () => swap(n, n + 1), n === table.length - 1),
    act('✕', 'remove', () => { table.splice(n, 1); touched = true; show(); }, false)];
  return make('tr', [make('td', String(n)), ...COLUMNS.map(name => make('td', [cell(rule, name, n)])), make('td', acts)],
    { className: n === bad ? 'bad' : '' });
}

function addRule() {
  table.push({ a: '*', b: '*', kind: 'clash', distance: 50, storey: 'any', level: null, models: 'any' });
  touched = true;
  show();
}

async function put() {
  bad = -1;
  try {
    const made = await api.putRules(state.project, bodyOf(table));
    touched = false;
    say(text('madeVersion', made.version));
    complain('');
    changed('newVersion');
  } catch (fault) {
    if (fault.body && fault.body.index !== undefined) bad = fault.body.index;
    complain(explain(fault));
    show();
  }
}

function show() {
  const head = make('tr', [make('th', '#'), ...COLUMNS.map(name => make('th', text('rule-' + name))), make('th', '')]);
  const classes = [...new Set(['*'].concat(state.elements.map(e => e.class)))];
  $('pane-rules').replaceChildren(
    make('p', text('rulesHelp'), { className: 'soft' }),
    make('table', [make('thead', [head]), make('tbody', table.map(row))], { id: 'rule-table' }),
    make('datalist', classes.map(value => make('option', null, { value })), { id: 'rule-classes' }),
    make('div', [button(text('addRule'), addRule, { id: 'add-rule' }), button(text('putRules'), put, { id: 'put-rules', className: 'strong' }),
      button(text('resetRules'), reset)], { className: 'actions' }));
}

function reset() {
  table = state.rules.map(rule => Object.assign({}, rule));
  touched = false;
  bad = -1;
  show();
}

export function start() {
  on('version', () => (touched ? show() : reset()));
  on('project', () => { touched = false; });
  on('clashes', () => { if (!touched) show(); });
  on('language', show);
}
