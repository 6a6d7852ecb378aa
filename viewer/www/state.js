/** What the page knows, in one object, and who wants to hear of a change. `grid` is how many grid numbers a millimetre has. */

export const state = {
  projects: [], project: null,
  newest: 0, version: 0, grid: 1, rules: [], models: [],
  elements: [], boxes: [], byKey: new Map(), byGuid: new Map(), whole: null,
  hidden: new Set(), ghost: new Set(), marked: new Map(), picked: -1,
  by: 'class',
  against: null, clashes: [], all: [], clash: null,
  topics: [], topic: null,
};

const listeners = new Map();

/** Calls a function after each change of that name. */
export function on(name, listener) {
  if (!listeners.has(name)) listeners.set(name, []);
  listeners.get(name).push(listener);
}

export function changed(...names) {
  for (const name of names) for (const listener of listeners.get(name) || []) listener();
}

export const keyOf = side => side.model + ' ' + side.guid;

/** The place of an element of the shown version, or undefined. */
export const placeOf = side => state.byKey.get(keyOf(side));
