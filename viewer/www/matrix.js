/** Vectors of three numbers and 4 x 4 matrices, column by column, as WebGL takes them. */

export const add = (a, b) => [a[0] + b[0], a[1] + b[1], a[2] + b[2]];
export const minus = (a, b) => [a[0] - b[0], a[1] - b[1], a[2] - b[2]];
export const times = (a, k) => [a[0] * k, a[1] * k, a[2] * k];
export const dot = (a, b) => a[0] * b[0] + a[1] * b[1] + a[2] * b[2];
export const cross = (a, b) => [a[1] * b[2] - a[2] * b[1], a[2] * b[0] - a[0] * b[2], a[0] * b[1] - a[1] * b[0]];
export const length = a => Math.hypot(a[0], a[1], a[2]);
export const unit = a => times(a, 1 / (length(a) || 1));

/** A box is the least corner and then the greatest, six numbers. */
export const centre = box => [0, 1, 2].map(k => (box[k] + box[k + 3]) / 2);
export const diagonal = box => Math.hypot(box[3] - box[0], box[4] - box[1], box[5] - box[2]);

/** The nearest point of a grid that has so many numbers in a millimetre, in millimetres. */
export const onGrid = (at, grid) => at.map(v => Math.round(v * grid) / grid);

export const corners = box => Array.from({ length: 8 }, (_, n) => [0, 1, 2].map(k => box[(n >> k) & 1 ? k + 3 : k]));

/** The least box around boxes, or null around none. */
export function hull(boxes) {
  if (!boxes.length) return null;
  const out = boxes[0].slice();
  for (const box of boxes) {
    for (let k = 0; k < 3; ++k) {
      if (box[k] < out[k]) out[k] = box[k];
      if (box[k + 3] > out[k + 3]) out[k + 3] = box[k + 3];
    }
  }
  return out;
}

/** Where two boxes meet, if each gives way by half the distance; where they don't meet, the gap between them. */
export function meeting(a, b, distance) {
  const out = new Array(6);
  for (let k = 0; k < 3; ++k) {
    const low = Math.max(a[k], b[k]);
    const high = Math.min(a[k + 3], b[k + 3]);
    out[k] = Math.min(low, high) - distance / 2;
    out[k + 3] = Math.max(low, high) + distance / 2;
  }
  return out;
}

export function multiply(a, b) {
  const out = new Float64Array(16);
  for (let column = 0; column < 4; ++column) {
    for (let row = 0; row < 4; ++row) {
      let sum = 0;
      for (let k = 0; k < 4; ++k) sum += a[k * 4 + row] * b[column * 4 + k];
      out[column * 4 + row] = sum;
    }
  }
  return out;
}

export function perspective(angle, aspect, near, far) {
  const f = 1 / Math.tan(angle / 2);
  const depth = 1 / (near - far);
  return [f / aspect, 0, 0, 0, 0, f, 0, 0, 0, 0, (far + near) * depth, -1, 0, 0, 2 * far * near * depth, 0];
}

/** The view from an eye, by its three directions. */
export function view(eye, right, up, back) {
  return [right[0], up[0], back[0], 0, right[1], up[1], back[1], 0, right[2], up[2], back[2], 0,
    -dot(right, eye), -dot(up, eye), -dot(back, eye), 1];
}
