/**
 * What is drawn, by WebGL2 and on demand. All boxes are one array of corners and all triangles another, the greatest
 * elements first. A texture has one colour an element, so hiding and marking changes that texture alone.
 * While the camera moves, as many of the greatest parts are drawn as FRAME milliseconds allow; at rest all are.
 */
import { programs } from './shaders.js';

const FRAME = 30;
const REST = 220;
/** Every so many pictures while turning are waited for and timed: waiting for each would cost as much as drawing. */
const MEASURED = 3;
const WIDE = 1024;
const CORNERS = [0, 1, 2, 3, 4, 5, 6, 7];
const SIDES = [0, 2, 1, 1, 2, 3, 4, 5, 6, 5, 7, 6, 0, 1, 4, 1, 5, 4, 2, 6, 3, 3, 6, 7, 0, 4, 2, 2, 4, 6, 1, 3, 5, 3, 7, 5];
const EDGES = [0, 1, 2, 3, 4, 5, 6, 7, 0, 2, 1, 3, 4, 6, 5, 7, 0, 4, 1, 5, 2, 6, 3, 7];

const corner = (box, n, origin) => [0, 1, 2].map(k => box[(n >> k) & 1 ? k + 3 : k] - origin[k]);

export class Scene {
  constructor(canvas, camera) {
    const gl = canvas.getContext('webgl2', { alpha: false, antialias: false });
    if (!gl) throw new Error('noWebGL');
    Object.assign(this, { canvas, camera, gl, programs: programs(gl), origin: [0, 0, 0], grid: 1, count: 0, bytes: 0, frames: 0 });
    this.low = [-1e9, -1e9, -1e9];
    this.high = [1e9, 1e9, 1e9];
    this.look = gl.createTexture();
    this.lines = { array: gl.createVertexArray(), buffer: gl.createBuffer(), edges: 0, faces: 0, points: 0 };
    this.pixel = new Uint8Array(4);
    this.budget = 8000;
    this.moved = -1e9;
    this.turns = 0;
    this.ghosts = false;
    this.dirty = true;
    this.setLines([], [], []);
    this.background = [0.93, 0.95, 0.96];
    const turn = () => { this.draw(); requestAnimationFrame(turn); };
    requestAnimationFrame(turn);
  }

  /**
   * The elements, the greatest first: `boxes` has six lengths each, in millimetres, of which each has `grid` grid numbers.
   * None has triangles yet.
   */
  setElements(boxes, origin, grid) {
    this.origin = origin;
    this.grid = grid;
    this.count = boxes.length;
    this.triangles = null;
    this.makeBoxes(boxes, boxes.map((_, place) => place));
  }

  /** The corners of the boxes of the listed elements, and the 12 triangles of each by their corners. */
  makeBoxes(boxes, places) {
    const at = new Float32Array(24 * places.length);
    const element = new Uint32Array(8 * places.length);
    const index = new Uint32Array(36 * places.length);
    places.forEach((place, n) => {
      for (const c of CORNERS) at.set(corner(boxes[place], c, this.origin), 24 * n + 3 * c);
      element.fill(place, 8 * n, 8 * n + 8);
      for (let i = 0; i < 36; ++i) index[36 * n + i] = 8 * n + SIDES[i];
    });
    this.release('boxMesh');
    this.boxMesh = places.length ? this.mesh(at, element, index) : null;
    this.dirty = true;
  }

  /**
   * Surfaces in place of boxes. `at` has nine numbers a triangle, in millimetres from the origin, `runs` the elements in
   * the order in which their triangles come: place, first triangle, count. The other elements keep their boxes.
   */
  setTriangles(at, runs, boxes) {
    const element = new Uint32Array(at.length / 3);
    const drawn = new Uint8Array(boxes.length);
    for (const run of runs) {
      element.fill(run.place, 3 * run.first, 3 * (run.first + run.count));
      drawn[run.place] = 1;
    }
    this.release('triangleMesh');
    this.triangleMesh = this.mesh(at, element, null);
    this.triangles = { at, runs };
    this.makeBoxes(boxes, boxes.map((_, place) => place).filter(place => !drawn[place]));
  }

  mesh(at, element, index) {
    const gl = this.gl;
    const array = gl.createVertexArray();
    gl.bindVertexArray(array);
    const buffers = [at, element, index].map((data, n) => {
      if (!data) return null;
      const buffer = gl.createBuffer();
      const target = n === 2 ? gl.ELEMENT_ARRAY_BUFFER : gl.ARRAY_BUFFER;
      gl.bindBuffer(target, buffer);
      gl.bufferData(target, data, gl.STATIC_DRAW);
      if (n === 0) gl.vertexAttribPointer(0, 3, gl.FLOAT, false, 0, 0);
      if (n === 1) gl.vertexAttribIPointer(1, 1, gl.UNSIGNED_INT, 0, 0);
      if (n < 2) gl.enableVertexAttribArray(n);
      return buffer;
    });
    gl.bindVertexArray(null);
    const bytes = at.byteLength + element.byteLength + (index ? index.byteLength : 0);
    this.bytes += bytes;
    return { array, buffers, bytes, indexed: index !== null, triangles: (index ? index.length : at.length / 3) / 3 };
  }

  release(name) {
    const old = this[name];
    this[name] = null;
    if (!old) return;
    this.bytes -= old.bytes;
    old.buffers.forEach(buffer => this.gl.deleteBuffer(buffer));
    this.gl.deleteVertexArray(old.array);
  }

  clear() {
    this.release('boxMesh');
    this.release('triangleMesh');
    this.triangles = null;
  }

  /** Four bytes an element: red, green, blue, and how solid it is (0 is hidden, 255 is solid). */
  setLook(bytes) {
    const gl = this.gl;
    const rows = Math.max(1, Math.ceil(this.count / WIDE));
    const padded = new Uint8Array(WIDE * rows * 4);
    padded.set(bytes);
    this.ghosts = false;
    for (let n = 3; n < bytes.length && !this.ghosts; n += 4) this.ghosts = bytes[n] > 2 && bytes[n] < 250;
    gl.bindTexture(gl.TEXTURE_2D, this.look);
    gl.texImage2D(gl.TEXTURE_2D, 0, gl.RGBA8, WIDE, rows, 0, gl.RGBA, gl.UNSIGNED_BYTE, padded);
    gl.texParameteri(gl.TEXTURE_2D, gl.TEXTURE_MIN_FILTER, gl.NEAREST);
    gl.texParameteri(gl.TEXTURE_2D, gl.TEXTURE_MAG_FILTER, gl.NEAREST);
    this.dirty = true;
  }

  setCut(low, high) {
    this.low = low.map((v, k) => v - this.origin[k]);
    this.high = high.map((v, k) => v - this.origin[k]);
    this.dirty = true;
  }

  /** Lines from point to point, boxes with faces, points: each with a colour of four bytes, drawn over all else. */
  setLines(lines, boxes, points) {
    const data = [[], [], []];
    const put = (list, at, colour) => list.push({ at, colour });
    const near = at => at.map((v, k) => v - this.origin[k]);
    for (const { from, to, colour } of lines) [from, to].forEach(at => put(data[0], near(at), colour));
    for (const { box, colour } of boxes) {
      EDGES.forEach(c => put(data[0], corner(box, c, this.origin), colour));
      SIDES.forEach(c => put(data[1], corner(box, c, this.origin), [colour[0], colour[1], colour[2], 70]));
    }
    for (const { at, colour } of points) put(data[2], near(at), colour);
    const all = data[0].concat(data[1], data[2]);
    const bytes = new ArrayBuffer(16 * all.length);
    all.forEach((vertex, n) => {
      new Float32Array(bytes, 16 * n, 3).set(vertex.at);
      new Uint8Array(bytes, 16 * n + 12, 4).set(vertex.colour);
    });
    const gl = this.gl;
    Object.assign(this.lines, { edges: data[0].length, faces: data[1].length, points: data[2].length });
    gl.bindVertexArray(this.lines.array);
    gl.bindBuffer(gl.ARRAY_BUFFER, this.lines.buffer);
    gl.bufferData(gl.ARRAY_BUFFER, bytes, gl.DYNAMIC_DRAW);
    gl.vertexAttribPointer(0, 3, gl.FLOAT, false, 16, 0);
    gl.vertexAttribPointer(1, 4, gl.UNSIGNED_BYTE, true, 16, 12);
    [0, 1].forEach(n => gl.enableVertexAttribArray(n));
    gl.bindVertexArray(null);
    this.dirty = true;
  }

  /** To be called when the camera moved: fewer parts are drawn until it rests. */
  move() {
    this.moved = performance.now();
    this.dirty = true;
  }

  aspect() {
    return this.canvas.clientWidth / Math.max(1, this.canvas.clientHeight);
  }

  fit() {
    const ratio = Math.min(window.devicePixelRatio || 1, 2);
    const wide = Math.round(this.canvas.clientWidth * ratio);
    const high = Math.round(this.canvas.clientHeight * ratio);
    if (this.canvas.width === wide && this.canvas.height === high) return;
    this.canvas.width = wide;
    this.canvas.height = high;
    this.dirty = true;
  }

  draw() {
    this.fit();
    const turning = performance.now() - this.moved < REST;
    if (!this.dirty && !(this.short && !turning)) return;
    this.dirty = false;
    const total = this.total();
    this.short = turning && this.budget < total;
    const measured = turning && total && ++this.turns % MEASURED === 0;
    const started = measured ? this.settled() : 0;
    this.render(this.short ? this.budget : total);
    ++this.frames;
    if (measured) this.learn(this.settled() - started, total);
  }

  total() {
    return (this.boxMesh ? this.boxMesh.triangles : 0) + (this.triangleMesh ? this.triangleMesh.triangles : 0);
  }

  /** The time once all that was asked of the graphics is done. */
  settled() {
    this.gl.readPixels(0, 0, 1, 1, this.gl.RGBA, this.gl.UNSIGNED_BYTE, this.pixel);
    return performance.now();
  }

  /** Draws more or less next time, by how long a picture took. */
  learn(time, total) {
    const factor = Math.min(1.3, Math.max(0.4, FRAME / Math.max(1, time)));
    this.budget = Math.max(1200, Math.min(total, Math.round(Math.min(this.budget, total) * factor)));
  }

  /** Draws so many triangles, of the triangles and of the boxes in proportion. */
  render(count) {
    const gl = this.gl;
    gl.viewport(0, 0, this.canvas.width, this.canvas.height);
    gl.clearColor(this.background[0], this.background[1], this.background[2], 1);
    gl.clear(gl.COLOR_BUFFER_BIT | gl.DEPTH_BUFFER_BIT);
    const matrix = new Float32Array(this.camera.matrix(this.aspect()));
    gl.bindTexture(gl.TEXTURE_2D, this.look);
    gl.enable(gl.DEPTH_TEST);
    gl.blendFunc(gl.SRC_ALPHA, gl.ONE_MINUS_SRC_ALPHA);
    const share = Math.min(1, count / Math.max(1, this.total()));
    for (const ghosts of this.ghosts ? [0, 1] : [0]) {
      if (ghosts) gl.enable(gl.BLEND);
      gl.depthMask(!ghosts);
      for (const mesh of [this.triangleMesh, this.boxMesh]) if (mesh) this.part(mesh, matrix, ghosts, share);
    }
    gl.depthMask(true);
    this.overlay(matrix);
    gl.disable(gl.BLEND);
  }

  /** Draws the first part of a mesh: what is solid, or what is seen through. */
  part(mesh, matrix, ghosts, share) {
    const gl = this.gl;
    const { made, at } = mesh.indexed ? this.programs.boxes : this.programs.triangles;
    gl.useProgram(made);
    gl.uniformMatrix4fv(at.view, false, matrix);
    gl.uniform3fv(at.cut_low, this.low);
    gl.uniform3fv(at.cut_high, this.high);
    gl.uniform1i(at.ghosts, ghosts);
    const triangles = Math.ceil(mesh.triangles * share);
    gl.bindVertexArray(mesh.array);
    if (mesh.indexed) gl.drawElements(gl.TRIANGLES, 36 * Math.ceil(triangles / 12), gl.UNSIGNED_INT, 0);
    else gl.drawArrays(gl.TRIANGLES, 0, 3 * triangles);
  }

  overlay(matrix) {
    const gl = this.gl;
    const { edges, faces, points, array } = this.lines;
    if (!edges && !points) return;
    gl.useProgram(this.programs.line.made);
    gl.uniformMatrix4fv(this.programs.line.at.view, false, matrix);
    gl.bindVertexArray(array);
    gl.disable(gl.DEPTH_TEST);
    gl.enable(gl.BLEND);
    if (faces) gl.drawArrays(gl.TRIANGLES, edges, faces);
    if (edges) gl.drawArrays(gl.LINES, 0, edges);
    if (points) gl.drawArrays(gl.POINTS, edges + faces, points);
  }
}
