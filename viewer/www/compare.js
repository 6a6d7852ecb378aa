/** What differs between two versions, worked out from their replies. */

/** A pair of elements, whichever comes first. */
export function pairKey(clash) {
  const a = clash.a.model + ' ' + clash.a.guid;
  const b = clash.b.model + ' ' + clash.b.guid;
  return a < b ? a + ' ' + b : b + ' ' + a;
}

/**
 * Marks each clash as `new` (not in the other version), `kept`, or `gone` (in the other version alone), and gives those
 * that are new, then those that are kept, then those that are gone. Without another version nothing is marked.
 */
export function compareClashes(these, others) {
  if (!others) return these.map(clash => Object.assign(clash, { change: null }));
  const before = new Set(others.map(pairKey));
  const now = new Set(these.map(pairKey));
  for (const clash of these) clash.change = before.has(pairKey(clash)) ? 'kept' : 'new';
  const gone = others.filter(clash => !now.has(pairKey(clash)));
  for (const clash of gone) clash.change = 'gone';
  const of = change => these.filter(clash => clash.change === change);
  return of('new').concat(of('kept'), gone);
}

const same = (a, b) => JSON.stringify(a) === JSON.stringify(b);
const elementsOf = model => new Map(model ? model.elements.map(element => [element.guid, element]) : []);

/** How many elements of a model are new, gone and changed; null where nothing is. */
function compareModel(now, before) {
  const these = elementsOf(now);
  const others = elementsOf(before);
  const counts = { new: 0, gone: 0, changed: 0 };
  for (const [guid, element] of these) {
    const other = others.get(guid);
    if (!other) ++counts.new;
    else if (!same([element.box, element.class, element.name, element.storey, element.triangles],
      [other.box, other.class, other.name, other.storey, other.triangles])) ++counts.changed;
  }
  for (const guid of others.keys()) if (!these.has(guid)) ++counts.gone;
  return counts.new || counts.gone || counts.changed || !now || !before ? counts : null;
}

/** What became of the models and the rules from one version's reply to another's. */
export function compareVersions(now, before) {
  const names = new Set(now.models.concat(before.models).map(model => model.name));
  const models = [];
  for (const name of [...names].sort()) {
    const a = now.models.find(model => model.name === name);
    const b = before.models.find(model => model.name === name);
    const counts = compareModel(a, b);
    if (counts) models.push(Object.assign(counts, { name, what: a ? (b ? 'changed' : 'new') : 'gone' }));
  }
  return { models, rules: !same(now.rules, before.rules) };
}
