/** The server's codes in words, and where in a file a fault is. */
import { text, known } from './texts.js';

/** What the converter mends: these files aren't of the profile, but may be sound. */
const OF_PROFILE = new Set(['U4', 'U8', 'U9', 'U10', 'U11', 'U13', 'U15', 'U16', 'U19']);

export const isOfProfile = fault => OF_PROFILE.has(fault.code);

/** One line: the code, what it means, and what to do. */
export function explain(fault) {
  if (!fault.code) return fault.message;
  const key = 'fault-' + fault.code;
  const body = fault.body || {};
  const what = [body.count, body.limit].filter(v => v !== undefined).join(' / ') || body.name || body.what || '';
  const said = known(key) ? text(key) : fault.message;
  return `${fault.code}: ${said}${what !== '' ? ` (${what})` : ''}`;
}

/** The place in the bytes where an instance is defined, or -1. */
function placeOfInstance(bytes, id) {
  const content = new TextDecoder('latin1').decode(bytes);
  const found = new RegExp('(?:^|[;\\s])#0*' + id + '\\s*=').exec(content);
  return found ? found.index + found[0].indexOf('#') : -1;
}

/** The line with a fault: `at` is a place in the bytes, `id` an instance's number. */
export function lineOf(bytes, body) {
  const at = body.at !== undefined ? body.at : body.id !== undefined ? placeOfInstance(bytes, body.id) : -1;
  if (at < 0) return null;
  const NEWLINE = 10;
  let line = 1;
  let begin = 0;
  for (let n = 0; n < at && n < bytes.length; ++n) {
    if (bytes[n] === NEWLINE) {
      ++line;
      begin = n + 1;
    }
  }
  const found = bytes.indexOf(NEWLINE, begin);
  const end = found < 0 ? bytes.length : found;
  return { line, text: new TextDecoder('latin1').decode(bytes.subarray(begin, Math.min(end, begin + 400))).trim() };
}

/** Files that needn't be sent: no IFC at all, or another schema than IFC4. Null where the server has to look. */
export function sniff(bytes) {
  const head = new TextDecoder('latin1').decode(bytes.subarray(0, 8192));
  if (!/^\s*ISO-10303-21\s*;/.test(head)) return { key: 'notIfc' };
  const schema = /FILE_SCHEMA\s*\(\s*\(\s*'([^']*)'\s*\)\s*\)/i.exec(head);
  return schema && schema[1] !== 'IFC4' ? { key: 'otherSchema', value: schema[1] } : null;
}
