/** Small helpers for the page's elements. Texts are always set as text, never as markup. */
import { text } from './texts.js';

export const $ = id => document.getElementById(id);

/** Makes an element: members of `more` that start with `on` are listeners, others properties or, with `-`, attributes. */
export function make(tag, content, more = {}) {
  const out = document.createElement(tag);
  if (Array.isArray(content)) out.append(...content.filter(part => part !== null));
  else if (content !== undefined && content !== null) out.textContent = content;
  for (const [name, value] of Object.entries(more)) {
    if (name.startsWith('on')) out.addEventListener(name.slice(2), value);
    else if (name.includes('-')) out.setAttribute(name, value);
    else out[name] = value;
  }
  return out;
}

export const button = (content, click, more) => make('button', content, Object.assign({ type: 'button', onclick: click }, more));

/** A small button with a sign, and its name for those who don't see it. */
export const icon = (sign, name, click, more) =>
  button(sign, click, Object.assign({ title: name, 'aria-label': name }, more));

export function swatch(colour) {
  const out = make('span', '', { className: 'swatch' });
  out.style.background = `rgb(${colour[0]}, ${colour[1]}, ${colour[2]})`;
  return out;
}

/** A choice of [value, label] pairs. */
export function choice(pairs, value, change, more) {
  const out = make('select', pairs.map(([key, label]) => make('option', label, { value: key })), more);
  out.value = value;
  if (change) out.addEventListener('change', () => change(out.value));
  return out;
}

/** A label and its field, as two cells of a grid. */
export function field(label, input) {
  const id = 'field-' + (++field.count);
  input.id = id;
  return [make('label', label, { htmlFor: id }), input];
}
field.count = 0;

/** Up and down go from one entry of a list to the next. */
export function arrows(list) {
  list.addEventListener('keydown', event => {
    const step = { ArrowDown: 'nextElementSibling', ArrowUp: 'previousElementSibling' }[event.key];
    const item = event.target.closest('li');
    if (!step || !item || !item[step]) return;
    event.preventDefault();
    const next = item[step].querySelector('button');
    if (next) next.focus();
  });
}

/** Puts the texts of the chosen language where `data-text` and `data-label` say. */
export function translate(root = document) {
  for (const item of root.querySelectorAll('[data-text]')) item.textContent = text(item.dataset.text);
  for (const item of root.querySelectorAll('[data-label]')) {
    item.setAttribute('aria-label', text(item.dataset.label));
    if (item.tagName === 'BUTTON') item.title = text(item.dataset.label);
  }
}

export const say = message => { $('state').textContent = message; };

export function complain(message) {
  $('error').textContent = message;
}
