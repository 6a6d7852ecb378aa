/** Topics: the list, one of them with its comments and viewpoints, and the topic of a clash. */
import { state, on, changed } from './state.js';
import { text, date } from './texts.js';
import { $, make, button, field, arrows, say, complain } from './dom.js';
import { RED, BLUE, YELLOW } from './look.js';
import { meeting } from './matrix.js';
import { mark } from './view.js';
import { explain } from './faults.js';
import * as api from './api.js';

const TITLE = /^Clash of ([0-9A-Za-z_$]{22}) and ([0-9A-Za-z_$]{22})$/;
const LOOKED_AT = 200;
const MOST_COMPONENTS = 1000;
const NEAR = 20;
const MOST_LISTED = 500;
const FIELDS = ['title', 'topic_status', 'priority', 'assigned_to', 'topic_type', 'due_date', 'labels', 'description'];
const KEPT = ['title', 'topic_type', 'topic_status', 'priority', 'assigned_to', 'stage', 'description', 'index', 'labels', 'due_date'];
const OFFERED = { topic_status: ['Open', 'In progress', 'Resolved', 'Closed'], priority: ['Low', 'Normal', 'High', 'Critical'], topic_type: ['Clash', 'Request', 'Remark', 'Fault'] };

/** By both identifiers: the topic of their clash. */
const byPair = new Map();
/** By a topic's identifier: the pairs that its viewpoints select, where its title doesn't say them. */
const looked = new Map();

const pairOf = (a, b) => (a < b ? a + ' ' + b : b + ' ' + a);

export const topicOf = clash => byPair.get(pairOf(clash.a.guid, clash.b.guid));

const selectionOf = (guid, viewpoint) => api.viewpointPart(state.project, guid, viewpoint, 'selection');

/** The pair of a topic of type Clash whose title was changed: what its first viewpoint of two components selects. */
async function lookedPair(topic) {
  if (looked.has(topic.guid)) return looked.get(topic.guid);
  let pair = null;
  for (const viewpoint of await api.viewpoints(state.project, topic.guid)) {
    const selection = await selectionOf(topic.guid, viewpoint.guid) || [];
    if (!pair && selection.length === 2) pair = pairOf(selection[0].ifc_guid, selection[1].ifc_guid);
  }
  looked.set(topic.guid, pair);
  return pair;
}

async function tie() {
  byPair.clear();
  let left = LOOKED_AT;
  for (const topic of state.topics) {
    const said = TITLE.exec(topic.title);
    const pair = said ? pairOf(said[1], said[2]) : topic.topic_type === 'Clash' && left-- > 0 ? await lookedPair(topic) : null;
    if (pair && !byPair.has(pair)) byPair.set(pair, topic);
  }
}

export async function load() {
  state.topics = await api.topics(state.project);
  await tie();
  $('topic-total').textContent = `(${state.topics.length})`;
  changed('topics');
}

/** A topic's title for people: the names of both elements where the title has their identifiers. */
function titleOf(topic) {
  const said = TITLE.exec(topic.title);
  if (!said) return topic.title;
  const name = guid => {
    const [place] = state.byGuid.get(guid) || [];
    return place === undefined ? guid : state.elements[place].name || guid;
  };
  return text('clashOf', name(said[1]), name(said[2]));
}

function row(topic) {
  const facts = [topic.topic_status, topic.priority, topic.assigned_to, date(topic.creation_date)].filter(v => v).join(', ');
  return make('li', [button([make('span', `${topic.server_assigned_id}  ${titleOf(topic)}`), make('small', facts)], () => openTopic(topic))]);
}

function showList() {
  const list = make('ul', state.topics.slice(-MOST_LISTED).reverse().map(row), { className: 'list', id: 'topic-list' });
  arrows(list);
  const title = make('input', null, { placeholder: text('newTopic'), maxLength: 1000, required: true, 'aria-label': text('newTopic') });
  const form = make('form', [title, make('button', text('make'))], { className: 'bar', onsubmit: event => {
    event.preventDefault();
    guard(async () => {
      const made = await api.makeTopic(state.project, { title: title.value, topic_status: 'Open' });
      await load();
      await openTopic(made);
    });
  } });
  const more = state.topics.length > MOST_LISTED ? make('p', text('newestTopics', MOST_LISTED), { className: 'soft' }) : '';
  $('pane-topics').replaceChildren(form, more, state.topics.length ? list : make('p', text('noTopics'), { className: 'soft' }));
}

async function guard(run) {
  try {
    await run();
  } catch (fault) {
    complain(explain(fault));
  }
}

/** Makes a topic of a clash, if there is none by now, and opens it. */
export function topicOfClash(clash) {
  return guard(async () => {
    await load();
    const there = topicOf(clash);
    const topic = there || await api.topicOfClash(state.project, clash.version, clash.place);
    if (there) say(text('topicIsThere', there.server_assigned_id));
    else {
      await load();
      say(text('topicMade', topic.server_assigned_id));
    }
    await openTopic(topic);
  });
}

function fieldOf(topic, name) {
  const value = name === 'labels' ? (topic.labels || []).join(', ') : name === 'due_date' ? (topic.due_date || '').slice(0, 10) : topic[name] || '';
  const input = make(name === 'description' ? 'textarea' : 'input', null, { value, name, rows: 3 });
  if (name === 'due_date') input.type = 'date';
  if (name === 'title') input.required = true;
  const offered = OFFERED[name] || (name === 'assigned_to' ? [...new Set(state.topics.map(t => t.assigned_to).filter(v => v))] : null);
  if (!offered) return field(text('topic-' + name), input);
  const id = 'offer-' + name;
  input.setAttribute('list', id);
  return [...field(text('topic-' + name), input), make('datalist', offered.map(v => make('option', null, { value: v })), { id })];
}

/** The whole body of a topic: what the form says, and the other members that it had. */
export function bodyOf(topic, values) {
  const body = {};
  for (const name of KEPT) if (topic[name] !== undefined) body[name] = topic[name];
  for (const [name, value] of Object.entries(values)) {
    if (name === 'labels') body.labels = value.split(',').map(v => v.trim()).filter(v => v);
    else if (name === 'due_date') body.due_date = !value ? null : (topic.due_date || '').startsWith(value) ? topic.due_date : value + 'T00:00:00Z';
    else body[name] = value || null;
  }
  return body;
}

function editor(topic) {
  const fields = make('div', [].concat(...FIELDS.map(name => fieldOf(topic, name))), { className: 'fields' });
  const form = make('form', [fields, make('div', [make('button', text('save'), { className: 'strong', id: 'save-topic' })], { className: 'bar' })], { id: 'topic-form' });
  form.addEventListener('submit', event => {
    event.preventDefault();
    guard(async () => {
      const values = Object.fromEntries(FIELDS.map(name => [name, form.elements[name].value]));
      const saved = await api.putTopic(state.project, topic.guid, bodyOf(await api.topic(state.project, topic.guid), values));
      say(text('saved'));
      await load();
      await openTopic(saved);
    });
  });
  return form;
}

function commentForm(topic) {
  const input = make('textarea', null, { rows: 2, maxLength: 8000, required: true, placeholder: text('comment'), 'aria-label': text('comment'), id: 'comment' });
  return make('form', [input, make('button', text('send'), { id: 'send-comment' })], { className: 'bar', onsubmit: event => {
    event.preventDefault();
    guard(async () => {
      await api.makeComment(state.project, topic.guid, { comment: input.value });
      await openTopic(topic);
    });
  } });
}

/** The colour of each element that a viewpoint colours or selects. */
function viewColours(selection, coloring) {
  const colours = new Map();
  const places = guid => state.byGuid.get(guid) || [];
  selection.forEach((c, k) => places(c.ifc_guid).forEach(n => colours.set(n, selection.length === 2 ? [RED, BLUE][k] : YELLOW)));
  for (const { color, components } of coloring) {
    const [r, g, b] = color.replace('#', '').slice(-6).match(/../g).map(v => parseInt(v, 16));
    for (const c of components) places(c.ifc_guid).forEach(n => colours.set(n, [r, g, b]));
  }
  return colours;
}

/** Shows what a viewpoint says: what is visible, then what is coloured or selected. */
async function showViewpoint(topic, viewpoint) {
  const part = name => api.viewpointPart(state.project, topic.guid, viewpoint.guid, name);
  const [selection, coloring, visibility] = [await part('selection'), await part('coloring'), await part('visibility')];
  state.hidden = new Set();
  if (visibility) {
    const exceptions = new Set((visibility.exceptions || []).map(c => c.ifc_guid));
    const shown = e => exceptions.has(e.guid) !== !!visibility.default_visibility;
    if (visibility.default_visibility || exceptions.size) state.elements.forEach((e, n) => { if (!shown(e)) state.hidden.add(n); });
  }
  const colours = viewColours(selection || [], coloring || []);
  const boxes = [...colours.keys()].map(n => state.boxes[n]);
  mark(colours, boxes.length === 2 && (selection || []).length === 2 ? meeting(boxes[0], boxes[1], NEAR) : null);
}

/** What the picture shows now, as the components of a viewpoint. */
export function componentsNow() {
  const guids = places => [...new Set(places.map(n => state.elements[n].guid))].map(ifc_guid => ({ ifc_guid }));
  const selected = state.picked >= 0 ? [state.picked] : [...state.marked.keys()];
  const hidden = [...state.hidden];
  const shown = state.elements.map((_, n) => n).filter(n => !state.hidden.has(n));
  const visible = hidden.length <= shown.length;
  const components = { selection: guids(selected), visibility: { default_visibility: visible, exceptions: guids(visible ? hidden : shown) } };
  return components.selection.length + components.visibility.exceptions.length > MOST_COMPONENTS ? null : components;
}

function keepView(topic) {
  return guard(async () => {
    const components = componentsNow();
    if (!components) {
      complain(text('tooManyComponents'));
      return;
    }
    await api.makeViewpoint(state.project, topic.guid, { components });
    await openTopic(topic);
  });
}

function viewpointRow(topic, views) {
  const buttons = views.map((view, n) => button(text('viewpoint', n + 1), () => guard(() => showViewpoint(topic, view)), { className: 'viewpoint' }));
  return make('div', [...buttons, button(text('keepView'), () => keepView(topic), { id: 'keep-view' })], { className: 'chips' });
}

/** Opens a topic: its form, its viewpoints (the first is shown), its comments. */
export function openTopic(chosen) {
  return guard(async () => {
    const topic = await api.topic(state.project, chosen.guid);
    const views = await api.viewpoints(state.project, topic.guid);
    const comments = await api.comments(state.project, topic.guid);
    const again = state.topic && state.topic.guid === topic.guid;
    state.topic = topic;
    const author = text('madeBy', topic.creation_author, date(topic.creation_date));
    $('pane-topics').replaceChildren(
      make('div', [make('h3', `${topic.server_assigned_id}  ${titleOf(topic)}`), button(text('backToList'), () => { state.topic = null; showList(); }, { id: 'back' })], { className: 'bar' }),
      make('small', author, { className: 'soft' }),
      editor(topic), make('h3', text('viewpoints')), viewpointRow(topic, views),
      make('h3', text('comments')),
      make('ul', comments.map(c => make('li', [make('small', `${c.author}, ${date(c.date)}`), c.comment])), { className: 'comments', id: 'comments' }),
      commentForm(topic));
    $('tab-topics').click();
    if (views.length && !again) await showViewpoint(topic, views[0]);
  });
}

export function start() {
  on('topics', () => { if (!state.topic) showList(); });
  on('version', () => { if (!state.topic) showList(); });
  on('language', () => (state.topic ? openTopic(state.topic) : showList()));
  on('project', () => { state.topic = null; looked.clear(); guard(load); });
  on('refresh', () => guard(load));
}
