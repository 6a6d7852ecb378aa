/** The eye that turns around a target, and what the pointer and the keys do to it. Lengths are millimetres from the scene's origin. */
import { add, minus, times, dot, cross, unit, perspective, view, multiply, centre, corners } from './matrix.js';

const ANGLE = Math.PI / 4;
const STEEPEST = Math.PI / 2 - 0.001;

export class Camera {
  constructor() {
    this.target = [0, 0, 0];
    this.distance = 30000;
    this.azimuth = -1.05;
    this.elevation = 0.5;
    this.radius = 20000;
  }

  /** Unit vectors: to the right, up, and back towards the eye. */
  directions() {
    const flat = Math.cos(this.elevation);
    const back = [flat * Math.cos(this.azimuth), flat * Math.sin(this.azimuth), Math.sin(this.elevation)];
    const right = [-Math.sin(this.azimuth), Math.cos(this.azimuth), 0];
    return { right, up: cross(back, right), back };
  }

  eye() {
    return add(this.target, times(this.directions().back, this.distance));
  }

  matrix(aspect) {
    const { right, up, back } = this.directions();
    const far = this.distance + 2.2 * this.radius + Math.hypot(...this.target);
    const near = Math.max(this.distance / 200, 5);
    return multiply(perspective(ANGLE, aspect, near, far), view(this.eye(), right, up, back));
  }

  /** The ray through a place of the picture, which runs from -1 to 1 both ways. */
  ray(x, y, aspect) {
    const { right, up, back } = this.directions();
    const k = Math.tan(ANGLE / 2);
    return { from: this.eye(), to: unit(add(add(times(right, x * k * aspect), times(up, y * k)), times(back, -1))) };
  }

  /** How many millimetres one picture height is at the target. */
  height() {
    return 2 * this.distance * Math.tan(ANGLE / 2);
  }

  /** Looks at a box from where the eye is: all its corners are in the picture, with some room around. */
  frame(box, aspect, room = 1.12) {
    this.target = centre(box);
    const { right, up, back } = this.directions();
    const k = Math.tan(ANGLE / 2);
    this.distance = 0;
    for (const corner of corners(box)) {
      const at = minus(corner, this.target);
      const side = Math.max(Math.abs(dot(at, right)) / aspect, Math.abs(dot(at, up)));
      this.distance = Math.max(this.distance, side * room / k + dot(at, back));
    }
    this.distance = Math.max(this.distance, 300);
  }

  turn(across, along) {
    this.azimuth -= across;
    this.elevation = Math.max(-STEEPEST, Math.min(STEEPEST, this.elevation + along));
  }

  pan(x, y) {
    const { right, up } = this.directions();
    const k = this.height();
    this.target = add(this.target, add(times(right, -x * k), times(up, y * k)));
  }

  zoom(factor) {
    this.distance = Math.max(50, Math.min(20 * this.radius + 100000, this.distance * factor));
  }

  look(name) {
    if (name === 'top') [this.azimuth, this.elevation] = [-Math.PI / 2, STEEPEST];
    if (name === 'front') [this.azimuth, this.elevation] = [-Math.PI / 2, 0];
    if (name === 'side') [this.azimuth, this.elevation] = [0, 0];
  }
}

/** Arrows turn, with Shift they move, plus and minus come nearer and go farther. */
function key(camera, event) {
  const step = event.shiftKey ? 0.05 : 0.12;
  const move = event.shiftKey ? (x, y) => camera.pan(x, y) : (x, y) => camera.turn(-x * 2.4, y * 2.4);
  switch (event.key) {
    case 'ArrowLeft': move(step, 0); break;
    case 'ArrowRight': move(-step, 0); break;
    case 'ArrowUp': move(0, step); break;
    case 'ArrowDown': move(0, -step); break;
    case '+': case '=': camera.zoom(0.85); break;
    case '-': camera.zoom(1 / 0.85); break;
    default: return false;
  }
  return true;
}

/** Listens on the canvas: `moved` after each change of the camera, `click` for a press without a drag. */
export function control(canvas, camera, moved, click) {
  const pointers = new Map();
  let path = 0;
  let spread = 0;
  const finger = () => { const [a, b] = [...pointers.values()]; return Math.hypot(a.x - b.x, a.y - b.y); };
  canvas.addEventListener('pointerdown', event => {
    canvas.setPointerCapture(event.pointerId);
    pointers.set(event.pointerId, { x: event.clientX, y: event.clientY });
    path = 0;
    if (pointers.size === 2) spread = finger();
  });
  canvas.addEventListener('pointermove', event => {
    const last = pointers.get(event.pointerId);
    if (!last) return;
    const x = event.clientX - last.x;
    const y = event.clientY - last.y;
    pointers.set(event.pointerId, { x: event.clientX, y: event.clientY });
    path += Math.abs(x) + Math.abs(y);
    if (path < 4) return;
    if (pointers.size === 2) {
      camera.pan(x / canvas.clientHeight / 2, y / canvas.clientHeight / 2);
      camera.zoom(spread / finger());
      spread = finger();
    } else if (event.shiftKey || event.buttons & 6) camera.pan(x / canvas.clientHeight, y / canvas.clientHeight);
    else camera.turn(x * 0.006, y * 0.006);
    moved();
  });
  canvas.addEventListener('pointerup', event => {
    const known = pointers.delete(event.pointerId);
    if (known && path < 4 && event.button === 0) click(event);
  });
  canvas.addEventListener('pointercancel', event => pointers.delete(event.pointerId));
  canvas.addEventListener('contextmenu', event => event.preventDefault());
  canvas.addEventListener('wheel', event => {
    event.preventDefault();
    camera.zoom(Math.exp(Math.max(-100, Math.min(100, event.deltaY)) * 0.0015));
    moved();
  }, { passive: false });
  canvas.addEventListener('keydown', event => {
    if (event.ctrlKey || event.metaKey || event.altKey || !key(camera, event)) return;
    event.preventDefault();
    moved();
  });
}
