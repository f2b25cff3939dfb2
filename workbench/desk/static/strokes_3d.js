// The strokes of a plan in 3D: the boxes before each stroke, turned as it folds. Right to |q - t|.
import { run } from "./api.js";
import { $, note } from "./dom.js";
import { makeScene, Mesh } from "./gl.js";

const STEEL = [.72, .74, .77], LOWER = [.6, .62, .66], FINGER = [.11, .45, .78];
const FRONT = [.36, .50, .68], BACK = [.58, .68, .80];
const view = { data: null, scene: null, at: 0 };

const turn = (angle, sink) => ([x, y, z]) => {
  const c = Math.cos(angle), s = Math.sin(angle);
  return [x, y * c - z * s, y * s + z * c - sink];
};
const lifted = by => ([x, y, z]) => [x, y, z + by];

// How far the sheet sinks into the die when it is folded by an angle.
function sinkOf(picture, angle) {
  return picture.v / 2 * Math.tan(angle) - picture.t * (1 / Math.cos(angle) - 1);
}

// Of a tool the length is drawn that lies near the part: a beam of three metres would hide it.
function cut(tool, x0, x1) {
  const [, , a, b, ...rest] = tool, from = Math.max(a, x0), to = Math.min(b, x1);
  return from < to ? [from, to, ...rest] : null;
}

function meshOf(stroke, degrees) {
  const mesh = new Mesh(), { picture } = stroke, angle = degrees * Math.PI / 180, sink = sinkOf(picture, angle);
  const xs = picture.boxes.flatMap(box => [box[2], box[3]]).concat(picture.stage);
  const x0 = Math.min(...xs) - 40000, x1 = Math.max(...xs) + 40000;
  const isBeam = tool => tool[3] - tool[2] > picture.stage[1] - picture.stage[0] && $("s-beams").checked === false;
  for (const tool of picture.tools) {
    const box = isBeam(tool) ? null : cut(tool, x0, x1);
    if (box) mesh.box(box, tool[0] === "upper" ? STEEL : LOWER, tool[0] === "upper" ? lifted(-sink) : lifted(0));
  }
  for (const [, half, ...box] of picture.boxes) {
    mesh.box(box, half === "F" ? FRONT : BACK, turn(half === "F" ? -angle : angle, sink));
  }
  if (degrees < 2) for (const box of stroke.fingers) mesh.box(box, FINGER);
  return mesh;
}

function draw(isFitted = false) {
  const stroke = view.data?.strokes[view.at];
  if (!stroke) return;
  const names = view.data.names, degrees = +$("s-angle").value;
  const words = [`Stroke ${view.at + 1} of ${view.data.strokes.length}: bend ${stroke.bend}, ${names[stroke.bend]}`,
    `station ${stroke.stage}`, `${Math.round(2 * degrees)}°`];
  $("s-words").textContent = words.join(", ");
  view.scene ||= makeScene($("s-canvas"), .5, .5);
  view.scene.show(meshOf(stroke, degrees), isFitted);
}

function go(to) {
  view.at = Math.max(0, Math.min(view.data.strokes.length - 1, to));
  $("s-angle").value = 0;
  $("s-before").disabled = view.at === 0;
  $("s-next").disabled = view.at === view.data.strokes.length - 1;
  draw(true);
}

export async function showStrokes(job) {
  if (!view.data) {
    const state = await run("motion", job);
    if (!state.answer || state.answer.error) {
      note(`The strokes can't be shown: ${state.answer?.error || "cancelled"}`, true);
      return;
    }
    view.data = state.answer;
    go(0);
  } else draw();
}

export const forgetStrokes = () => { view.data = null; };

export function startStrokes() {
  $("s-before").onclick = () => go(view.at - 1);
  $("s-next").onclick = () => go(view.at + 1);
  $("s-angle").oninput = () => draw();
  $("s-beams").onchange = () => draw();
}
