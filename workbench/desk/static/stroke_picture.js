// A stroke seen from the machine's right end, the operator at the left; what a reason names is red.
// `picture` has micrometres: boxes [face, half, x0 x1 y0 y1 z0 z1], tools [group, number, x0 .. z1], stage, nose, v,
// t, and hit.
import { svg } from "./blank_picture.js";
import { el } from "./dom.js";

const HALF = { F: -1, B: 1 };
const COLOURS = { upper: "#c3cad2", lower: "#cfd4d9", F: "#4d79a8", B: "#86a9cc" };
const THIN = { "vector-effect": "non-scaling-stroke", "stroke-width": .9 };

// A half turns by the same angle as the other, the other way.
function turned(half, y, z, degrees) {
  const angle = HALF[half] * degrees * Math.PI / 180, c = Math.cos(angle), s = Math.sin(angle);
  return [y * c - z * s, y * s + z * c];
}

function ring([, half, , , y0, y1, z0, z1], degrees) {
  return [[y0, z0], [y1, z0], [y1, z1], [y0, z1]].map(([y, z]) => turned(half, y / 1000, z / 1000, degrees));
}

const polygon = (points, at) => svg("polygon", {
  points: points.map(([y, z]) => `${y},${-z}`).join(" "), "vector-effect": "non-scaling-stroke", ...at,
});

function toolRect(tool, hit, rise) {
  const [group, number, , , y0, y1, z0, z1] = tool;
  const isHit = hit.tool && hit.tool[0] === group && hit.tool[1] === number;
  const up = group === "lower" ? rise : 0;
  return svg("rect", {
    x: y0 / 1000, y: -(z1 / 1000 + up), width: (y1 - y0) / 1000, height: (z1 - z0) / 1000, ...THIN,
    fill: isHit ? "#f0a59d" : COLOURS[group], stroke: isHit ? "#b3261e" : "#5a636d", "stroke-width": isHit ? 1.8 : .9,
  });
}

function partShapes(box, hit, degrees) {
  const isHit = box[0] === hit.box || box[0] === hit.other, shapes = [];
  if (isHit && degrees) {
    for (const angle of [15, 30]) {
      shapes.push(polygon(ring(box, angle), { fill: "none", stroke: "#b3261e", "stroke-dasharray": "3 3" }));
    }
  }
  const [fill, stroke] = isHit ? ["#d9453a", "#7d120b"] : [COLOURS[box[1]], "#23405f"];
  shapes.push(polygon(ring(box, degrees), { fill, stroke }));
  return shapes;
}

function label(x, y, size, text, anchor) {
  const made = svg("text", { x, y, "font-size": size, "text-anchor": anchor, class: "beside" });
  made.textContent = text;
  return made;
}

export function strokePicture(picture, degrees) {
  const { boxes, hit, stage, tools } = picture, nose = picture.nose / 1000;
  const ends = boxes.flatMap(box => [...ring(box, 0), ...ring(box, 45)]);
  const reach = Math.max(40, ...ends.map(([y]) => Math.abs(y))) * 1.08;
  const top = Math.max(30, ...ends.map(([, z]) => z)) * 1.1, low = -Math.max(45, reach * .25);
  const made = svg("svg", {
    viewBox: `${-reach} ${-top} ${2 * reach} ${top - low}`, role: "img",
    "aria-label": degrees ? "after the stroke" : "before the stroke",
  });
  const rise = degrees ? picture.v / 2000 : 0;
  const near = tools.filter(tool => tool[2] < stage[1] && tool[3] > stage[0]);
  made.append(...near.map(tool => toolRect(tool, hit, rise)),
    svg("path", { d: `M0 0L${nose} ${-nose}H${-nose}Z`, fill: COLOURS.upper, stroke: "#5a636d", ...THIN }),
    ...boxes.flatMap(box => partShapes(box, hit, degrees)));
  const size = reach * .05;
  made.append(label(-reach * .97, -top + size * 1.3, size, "operator", "start"),
    label(reach * .97, -top + size * 1.3, size, "backgauge", "end"));
  return made;
}

// The stroke before and after, side by side.
export function beforeAndAfter(picture, after = "after") {
  const one = (words, degrees) => el("div", {}, el("p", { textContent: words }), strokePicture(picture, degrees));
  return el("div", { className: "two" }, one("before", 0), one(after, 45));
}

export const beforeAlone = (picture, words) =>
  el("div", { className: "two" }, el("div", {}, el("p", { textContent: words }), strokePicture(picture, 0)));

// A tool's profile, the operator at the left.
export function profile(body, kind, { nose = 0, v = 0 } = {}) {
  const all = body.map(box => box.map(n => n / 1000)), half = v / 2000, n = nose / 1000;
  const ys = all.flatMap(box => box.slice(0, 2)), zs = all.flatMap(box => box.slice(2)).concat(0);
  const y0 = Math.min(...ys, -5), y1 = Math.max(...ys, 5), z0 = Math.min(...zs), z1 = Math.max(...zs);
  const pad = (z1 - z0) * .06;
  const made = svg("svg", {
    viewBox: `${y0 - pad} ${-z1 - pad} ${y1 - y0 + 2 * pad} ${z1 - z0 + 2 * pad}`, role: "img",
    "aria-label": `profile of the ${kind}, operator at the left`,
  });
  const steel = { fill: "#b9c2cc", stroke: "#5a636e", ...THIN };
  for (const [a, b, c, d] of all) made.append(svg("rect", { x: a, y: -d, width: b - a, height: d - c, ...steel }));
  if (n) made.append(svg("path", { d: `M0 0L${n} ${-n}H${-n}Z`, ...steel }));
  if (half) made.append(svg("path", { d: `M${-half} 0L0 ${half}L${half} 0`, ...steel, fill: "#fff" }));
  return made;
}
