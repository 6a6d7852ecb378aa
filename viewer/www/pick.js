/** What is under the pointer: the nearest shown element that a ray meets, the point, and the corner that is near it. */
import { add, minus, times, dot, cross, length, corners, onGrid } from './matrix.js';

/** Where the ray comes into a box, as a length, or Infinity. */
export function meetsBox(ray, low, high) {
  let begin = 0;
  let end = Infinity;
  for (let k = 0; k < 3; ++k) {
    const a = (low[k] - ray.from[k]) / ray.to[k];
    const b = (high[k] - ray.from[k]) / ray.to[k];
    begin = Math.max(begin, Math.min(a, b));
    end = Math.min(end, Math.max(a, b));
  }
  return begin <= end ? begin : Infinity;
}

/** Where the ray meets a triangle, nine numbers from `n` on, as a length, or Infinity. */
function meetsTriangle(ray, at, n) {
  const a = [at[n], at[n + 1], at[n + 2]];
  const ab = [at[n + 3] - a[0], at[n + 4] - a[1], at[n + 5] - a[2]];
  const ac = [at[n + 6] - a[0], at[n + 7] - a[1], at[n + 8] - a[2]];
  const p = cross(ray.to, ac);
  const det = dot(ab, p);
  if (Math.abs(det) < 1e-9) return Infinity;
  const from = minus(ray.from, a);
  const u = dot(from, p) / det;
  if (u < 0 || u > 1) return Infinity;
  const q = cross(from, ab);
  const v = dot(ray.to, q) / det;
  if (v < 0 || u + v > 1) return Infinity;
  const t = dot(ac, q) / det;
  return t > 0 ? t : Infinity;
}

const inside = (at, low, high) => at.every((v, k) => v >= low[k] - 0.5 && v <= high[k] + 0.5);

/** The nearest place of one element's triangles that isn't cut away, with the triangle's corners. */
function inRun(ray, at, run, cut, best) {
  let found = null;
  for (let n = 9 * run.first; n < 9 * (run.first + run.count); n += 9) {
    const t = meetsTriangle(ray, at, n);
    if (t >= best || !inside(add(ray.from, times(ray.to, t)), cut.low, cut.high)) continue;
    best = t;
    found = { t, corners: [0, 3, 6].map(k => [at[n + k], at[n + k + 1], at[n + k + 2]]) };
  }
  return found;
}

/**
 * Gives `{ place, at, corners }` in the building's millimetres and on its grid, or null. `shown` says by place whether an element can
 * be picked. Boxes are cut to the part that the sections leave.
 */
export function pick(ray, scene, boxes, shown) {
  const cut = { low: scene.low, high: scene.high };
  const runs = new Map(scene.triangles ? scene.triangles.runs.map(run => [run.place, run]) : []);
  let best = null;
  boxes.forEach((box, place) => {
    if (!shown(place)) return;
    const low = [0, 1, 2].map(k => Math.max(box[k] - scene.origin[k], cut.low[k]));
    const high = [0, 1, 2].map(k => Math.min(box[k + 3] - scene.origin[k], cut.high[k]));
    if (low.some((v, k) => v > high[k])) return;
    const t = meetsBox(ray, low, high);
    const nearest = best ? best.t : Infinity;
    if (t >= nearest) return;
    const run = runs.get(place);
    const found = run ? inRun(ray, scene.triangles.at, run, cut, nearest) : { t, corners: corners(low.concat(high)) };
    if (found) best = Object.assign(found, { place });
  });
  if (!best) return null;
  const world = at => onGrid(add(at, scene.origin), scene.grid);
  return { place: best.place, at: world(add(ray.from, times(ray.to, best.t))), corners: best.corners.map(world) };
}

/** The corner that is within some millimetres of the point that was met, else that point. */
export function snap(hit, reach) {
  let best = hit.at;
  for (const corner of hit.corners) {
    const far = length(minus(corner, hit.at));
    if (far < reach) {
      reach = far;
      best = corner;
    }
  }
  return best;
}
