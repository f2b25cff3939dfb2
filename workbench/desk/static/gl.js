// A scene of triangles and lines in WebGL, seen without perspective; turned by dragging or the arrow keys.
// A vertex has nine numbers: its place, its normal (none of a line), its colour.
const VERTEX = `
attribute vec3 place, normal, colour;
uniform mat4 view;
uniform vec3 light;
uniform float nearer;
varying vec3 shade;
void main() {
  float bright = dot(normal, normal) < .01 ? 1. : .58 + .42 * max(0., dot(normal, light));
  shade = colour * bright;
  gl_Position = view * vec4(place, 1.);
  gl_Position.z -= nearer;
}`;
const FRAGMENT = "precision mediump float; varying vec3 shade; void main() { gl_FragColor = vec4(shade, 1.); }";

export const dot = (a, b) => a[0] * b[0] + a[1] * b[1] + a[2] * b[2];
export const cross = (a, b) => [a[1] * b[2] - a[2] * b[1], a[2] * b[0] - a[0] * b[2], a[0] * b[1] - a[1] * b[0]];
export const minus = (a, b) => a.map((v, k) => v - b[k]);
export const unit = a => { const long = Math.hypot(...a) || 1; return a.map(v => v / long); };
const LINE = [0, 0, 0, .13, .16, .2];

// Collects what is drawn; `put` and `edge` take points, and a normal comes from the points where none is given.
export class Mesh {
  constructor() { this.triangles = []; this.lines = []; }
  put(corners, colour, normal = unit(cross(minus(corners[1], corners[0]), minus(corners[2], corners[0])))) {
    for (let k = 2; k < corners.length; k++) {
      for (const corner of [corners[0], corners[k - 1], corners[k]]) {
        this.triangles.push(...corner, ...normal, ...colour);
      }
    }
  }
  edge(from, to) { this.lines.push(...from, ...LINE, ...to, ...LINE); }
  // A box whose corners are mapped, x0 x1 y0 y1 z0 z1.
  box([x0, x1, y0, y1, z0, z1], colour, map = point => point) {
    const at = (i, j, k) => map([i ? x1 : x0, j ? y1 : y0, k ? z1 : z0]), o = map([0, 0, 0]);
    const way = n => minus(map(n), o);
    const sides = [
      [[0, 0, 0], [0, 1, 0], [1, 1, 0], [1, 0, 0], [0, 0, -1]],
      [[0, 0, 1], [1, 0, 1], [1, 1, 1], [0, 1, 1], [0, 0, 1]],
      [[0, 0, 0], [1, 0, 0], [1, 0, 1], [0, 0, 1], [0, -1, 0]],
      [[0, 1, 0], [0, 1, 1], [1, 1, 1], [1, 1, 0], [0, 1, 0]],
      [[0, 0, 0], [0, 0, 1], [0, 1, 1], [0, 1, 0], [-1, 0, 0]],
      [[1, 0, 0], [1, 1, 0], [1, 1, 1], [1, 0, 1], [1, 0, 0]],
    ];
    for (const [a, b, c, d, n] of sides) {
      const ring = [a, b, c, d].map(corner => at(...corner));
      this.put(ring, colour, way(n));
      if (n[0] + n[1] + n[2] > 0 || n[2] < 0) ring.forEach((corner, k) => this.edge(corner, ring[(k + 1) % 4]));
    }
  }
}

class Camera {
  constructor(yaw, pitch) { Object.assign(this, { yaw, pitch, zoom: 1, middle: [0, 0, 0], far: 1 }); }
  turn(yaw, pitch) {
    this.yaw += yaw;
    this.pitch = Math.max(-1.55, Math.min(1.55, this.pitch + pitch));
  }
  nearer(by) { this.zoom = Math.max(.3, Math.min(8, this.zoom * Math.exp(by))); }
  fit(points) {
    const low = [Infinity, Infinity, Infinity], high = low.map(v => -v);
    for (let k = 0; k < points.length; k += 9) {
      for (let x = 0; x < 3; x++) {
        low[x] = Math.min(low[x], points[k + x]);
        high[x] = Math.max(high[x], points[k + x]);
      }
    }
    this.middle = low.map((v, x) => (v + high[x]) / 2);
    this.far = Math.hypot(...minus(high, low)) / 2 || 1;
  }
  look(width, height) {
    const { yaw, pitch } = this, flat = Math.cos(pitch);
    const eye = [Math.sin(yaw) * flat, -Math.cos(yaw) * flat, Math.sin(pitch)];
    const right = [Math.cos(yaw), Math.sin(yaw), 0], up = cross(eye, right);
    const across = this.zoom * .93 / this.far * Math.min(1, height / width);
    const row = (way, by) => [...way.map(v => v * by), -dot(way, this.middle) * by];
    const rows = [row(right, across), row(up, across * width / height), row(eye, -.4 / this.far), [0, 0, 0, 1]];
    const light = unit(eye.map((v, k) => v + .45 * up[k] - .5 * right[k]));
    return { view: [0, 1, 2, 3].flatMap(column => rows.map(one => one[column])), light };
  }
}

function program(gl) {
  const made = gl.createProgram();
  for (const [kind, source] of [[gl.VERTEX_SHADER, VERTEX], [gl.FRAGMENT_SHADER, FRAGMENT]]) {
    const shader = gl.createShader(kind);
    gl.shaderSource(shader, source);
    gl.compileShader(shader);
    gl.attachShader(made, shader);
  }
  gl.linkProgram(made);
  gl.useProgram(made);
  gl.bindBuffer(gl.ARRAY_BUFFER, gl.createBuffer());
  ["place", "normal", "colour"].forEach((name, k) => {
    const at = gl.getAttribLocation(made, name);
    gl.enableVertexAttribArray(at);
    gl.vertexAttribPointer(at, 3, gl.FLOAT, false, 36, 12 * k);
  });
  gl.enable(gl.DEPTH_TEST);
  return Object.fromEntries(["view", "light", "nearer"].map(name => [name, gl.getUniformLocation(made, name)]));
}

// A scene on a canvas; where the browser has no WebGL its `show` does nothing, and a line says so.
export function makeScene(canvas, yaw = -.65, pitch = .6) {
  const gl = canvas.getContext("webgl", { antialias: true, preserveDrawingBuffer: true });
  if (!gl) {
    const words = document.createElement("p");
    words.className = "hint";
    words.textContent = "This browser has no WebGL, and so this picture isn't drawn; all else works.";
    canvas.replaceWith(words);
    return { show() {}, render() {} };
  }
  const at = program(gl), camera = new Camera(yaw, pitch);
  let mesh = new Mesh();
  const render = () => draw(gl, at, camera, mesh, canvas);
  const show = (made, isFitted = true) => { mesh = made; if (isFitted) camera.fit(made.triangles); render(); };
  steer(canvas, camera, render);
  new ResizeObserver(render).observe(canvas);
  return { show, render };
}

function draw(gl, at, camera, mesh, canvas) {
  const width = canvas.clientWidth * devicePixelRatio | 0, height = canvas.clientHeight * devicePixelRatio | 0;
  if (!width || !height) return;
  if (canvas.width !== width || canvas.height !== height) Object.assign(canvas, { width, height });
  gl.viewport(0, 0, width, height);
  gl.clearColor(1, 1, 1, 1);
  gl.clear(gl.COLOR_BUFFER_BIT | gl.DEPTH_BUFFER_BIT);
  const { view, light } = camera.look(width, height);
  gl.uniformMatrix4fv(at.view, false, view);
  gl.uniform3f(at.light, ...light);
  gl.bufferData(gl.ARRAY_BUFFER, new Float32Array([...mesh.triangles, ...mesh.lines]), gl.DYNAMIC_DRAW);
  gl.uniform1f(at.nearer, 0);
  gl.drawArrays(gl.TRIANGLES, 0, mesh.triangles.length / 9);
  gl.uniform1f(at.nearer, .0015);
  gl.drawArrays(gl.LINES, mesh.triangles.length / 9, mesh.lines.length / 9);
}

const TURNS = { ArrowLeft: [.15, 0], ArrowRight: [-.15, 0], ArrowUp: [0, .15], ArrowDown: [0, -.15] };

function steer(canvas, camera, render) {
  canvas.onpointerdown = event => {
    canvas.setPointerCapture(event.pointerId);
    canvas.onpointermove = move => { camera.turn(-move.movementX * .008, move.movementY * .008); render(); };
  };
  canvas.onpointerup = () => { canvas.onpointermove = null; };
  canvas.addEventListener("wheel", event => {
    event.preventDefault();
    camera.nearer(-event.deltaY * .001);
    render();
  }, { passive: false });
  canvas.addEventListener("keydown", event => {
    if (event.key === "+" || event.key === "-") camera.nearer(event.key === "+" ? .2 : -.2);
    else if (TURNS[event.key]) camera.turn(...TURNS[event.key]);
    else return;
    event.preventDefault();
    render();
  });
}
