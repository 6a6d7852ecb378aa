/** Models put by drag and drop or by the button: progress, what became of each, and the line of a fault. */
import { state, changed } from './state.js';
import { text, number } from './texts.js';
import { $, make, complain } from './dom.js';
import { explain, isOfProfile, lineOf, sniff } from './faults.js';
import * as api from './api.js';

const MOST_BYTES = 33554432;
const MOST_LINE = 160;

/** A model's name from a file's: without the last part, and only the characters that a name may have. */
export function modelName(file) {
  const base = file.replace(/\.[^.]*$/, '').normalize('NFKD').replace(/[^A-Za-z0-9_.-]+/g, '-').replace(/^-+|-+$/g, '');
  return base.slice(0, 64) || 'model';
}

function converterHint(file) {
  const base = modelName(file.name);
  return [make('p', text('converter')), make('pre', `ifc2grid ${file.name} ${base}.grid.ifc`)];
}

/** The line of the file that a fault is in, with its number. */
function faultLine(bytes, body) {
  const found = lineOf(bytes, body);
  if (!found) return [];
  const shown = found.text.length > MOST_LINE ? found.text.slice(0, MOST_LINE) + ' …' : found.text;
  return [make('p', text('line', found.line)), make('pre', shown)];
}

async function putOne(file) {
  const bar = make('progress', null, { max: 1, value: 0, 'aria-label': file.name });
  const item = make('li', [make('span', file.name, { className: 'name' }), bar]);
  $('uploads').prepend(item);
  const end = (kind, ...parts) => item.replaceChildren(make('span', file.name, { className: 'name' }), ...parts.map(part =>
    (typeof part === 'string' ? make('p', part, { className: kind }) : part)));
  if (file.size > MOST_BYTES) return end('bad', text('tooLong', number(file.size)), ...converterHint(file));
  const bytes = new Uint8Array(await file.arrayBuffer());
  const before = sniff(bytes);
  if (before) return end('bad', text(before.key, before.value), ...converterHint(file));
  try {
    const made = await api.putModel(state.project, modelName(file.name), $('grid').value, file, part => { bar.value = part; });
    end('good', text('putDone', modelName(file.name), made.elements, made.triangles, made.version));
    return made;
  } catch (fault) {
    const hint = isOfProfile(fault) ? converterHint(file) : [];
    end('bad', explain(fault), ...(fault.body ? faultLine(bytes, fault.body) : []), ...hint);
  }
  return null;
}

async function putAll(files) {
  let made = null;
  for (const file of files) {
    try {
      made = await putOne(file) || made;
    } catch (fault) {
      complain(explain(fault));
    }
  }
  if (made) changed('newVersion');
}

export function start() {
  const over = shown => document.body.classList.toggle('over', shown);
  document.addEventListener('dragover', event => { event.preventDefault(); over(true); });
  document.addEventListener('dragleave', event => { if (!event.relatedTarget) over(false); });
  document.addEventListener('drop', event => {
    event.preventDefault();
    over(false);
    putAll([...event.dataTransfer.files]);
  });
  $('files').addEventListener('change', () => { putAll([...$('files').files]); $('files').value = ''; });
}
