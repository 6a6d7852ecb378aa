/** The programs of the graphics: one for surfaces (boxes and triangles), one for lines and for the place where a clash is. */

/** Boxes are drawn with their edges, so their corners are known in the fragments; triangles do without. */
const surfaceVertex = boxes => `#version 300 es
#define BOXES ${boxes}
precision highp float;
precision highp int;
uniform mat4 u_view;
uniform highp sampler2D u_look;
uniform bool u_ghosts;
in vec3 a_at;
in uint a_element;
flat out vec4 v_look;
out vec3 v_at;
#if BOXES
out vec3 v_corner;
#endif
void main() {
  int element = int(a_element);
  v_look = texelFetch(u_look, ivec2(element & 1023, element >> 10), 0);
  v_at = a_at;
#if BOXES
  int corner = gl_VertexID & 7;
  v_corner = vec3(corner & 1, (corner >> 1) & 1, corner >> 2);
#endif
  bool ghost = v_look.a < 0.98;
  bool drawn = v_look.a > 0.01 && ghost == u_ghosts;
  gl_Position = drawn ? u_view * vec4(a_at, 1.0) : vec4(2.0, 2.0, 2.0, 1.0);
}`;

const surfaceFragment = boxes => `#version 300 es
#define BOXES ${boxes}
precision highp float;
uniform vec3 u_cut_low;
uniform vec3 u_cut_high;
flat in vec4 v_look;
in vec3 v_at;
#if BOXES
in vec3 v_corner;
#endif
out vec4 colour;
void main() {
  if (any(lessThan(v_at, u_cut_low)) || any(greaterThan(v_at, u_cut_high))) discard;
  vec3 normal = normalize(cross(dFdx(v_at), dFdy(v_at)));
  float light = 0.6 + 0.4 * abs(dot(normal, normalize(vec3(0.4, 0.25, 0.85))));
#if BOXES
  vec3 near = min(v_corner, 1.0 - v_corner) / max(fwidth(v_corner), vec3(1e-6));
  float second = max(min(near.x, near.y), min(max(near.x, near.y), near.z));
  light *= mix(0.55, 1.0, smoothstep(0.3, 1.3, second));
#endif
  colour = vec4(v_look.rgb * light, v_look.a);
}`;

const LINE_VERTEX = `#version 300 es
uniform mat4 u_view;
in vec3 a_at;
in vec4 a_colour;
out vec4 v_colour;
void main() {
  v_colour = a_colour;
  gl_PointSize = 7.0;
  gl_Position = u_view * vec4(a_at, 1.0);
}`;

const LINE_FRAGMENT = `#version 300 es
precision mediump float;
in vec4 v_colour;
out vec4 colour;
void main() { colour = v_colour; }`;

function compile(gl, kind, source) {
  const shader = gl.createShader(kind);
  gl.shaderSource(shader, source);
  gl.compileShader(shader);
  if (!gl.getShaderParameter(shader, gl.COMPILE_STATUS)) throw new Error(gl.getShaderInfoLog(shader));
  return shader;
}

function program(gl, vertex, fragment, uniforms) {
  const made = gl.createProgram();
  gl.attachShader(made, compile(gl, gl.VERTEX_SHADER, vertex));
  gl.attachShader(made, compile(gl, gl.FRAGMENT_SHADER, fragment));
  gl.bindAttribLocation(made, 0, 'a_at');
  gl.bindAttribLocation(made, 1, vertex === LINE_VERTEX ? 'a_colour' : 'a_element');
  gl.linkProgram(made);
  if (!gl.getProgramParameter(made, gl.LINK_STATUS)) throw new Error(gl.getProgramInfoLog(made));
  return { made, at: Object.fromEntries(uniforms.map(name => [name, gl.getUniformLocation(made, 'u_' + name)])) };
}

export function programs(gl) {
  const surface = boxes => program(gl, surfaceVertex(boxes), surfaceFragment(boxes), ['view', 'look', 'ghosts', 'cut_low', 'cut_high']);
  return {
    boxes: surface(1),
    triangles: surface(0),
    line: program(gl, LINE_VERTEX, LINE_FRAGMENT, ['view']),
  };
}
