// The flat blank as a picture, of the numbers that the program prints. Drawn in millimetres: a browser draws no
// letters above 10,000 units.
import { el } from "./dom.js";
import { mm } from "./mm.js";

const NS = "http://www.w3.org/2000/svg";
export const svg = (name, at = {}, ...kids) => {
  const made = document.createElementNS(NS, name);
  for (const key in at) made.setAttribute(key, at[key]);
  made.append(...kids);
  return made;
};

// The blank of what was printed; each face has its frame: along the side S of it (ex), and away from that (ey).
export function readBlank(text) {
  const blank = { size: null, faces: [], bends: [] };
  for (const line of text.split("\n")) {
    const words = line.split(" ");
    if (words[0] === "size") blank.size = [+words[1], +words[2]];
    else if (words[0] === "face") blank.faces.push({ name: words[2], r: words.slice(3, 7).map(Number) });
    else if (words[0] === "bend") blank.bends.push(readBend(words));
    else if (words[0] !== "blank") break;
  }
  blank.faces.forEach((face, number) => {
    const bend = blank.bends.find(one => one.n === number);
    face.ex = bend ? [Math.sign(bend.b[0] - bend.a[0]), Math.sign(bend.b[1] - bend.a[1])] : [1, 0];
    face.ey = [-face.ex[1], face.ex[0]];
  });
  return blank;
}

const readBend = words => ({
  n: +words[1], a: [+words[2], +words[3]], b: [+words[4], +words[5]], up: words[6] === "up",
});

// The two ends of a side of a face, clockwise.
function ends(face, side) {
  const [x0, y0, x1, y1] = face.r, middle = [(x0 + x1) / 2, (y0 + y1) / 2];
  const away = { N: face.ey, S: face.ey.map(v => -v), E: face.ex, W: face.ex.map(v => -v) }[side];
  const along = [away[1], -away[0]];
  const half = way => Math.abs(way[0]) * (x1 - x0) / 2 + Math.abs(way[1]) * (y1 - y0) / 2;
  const centre = middle.map((v, k) => v + away[k] * half(away));
  return [-1, 1].map(sign => centre.map((v, k) => v + sign * along[k] * half(along)));
}

function inMm(blank) {
  const all = list => list.map(v => v / 1000);
  return {
    size: all(blank.size), faces: blank.faces.map(face => ({ ...face, r: all(face.r) })),
    bends: blank.bends.map(bend => ({ ...bend, a: all(bend.a), b: all(bend.b) })),
  };
}

// How large things are drawn: `sight` is what one pixel of the screen is in millimetres.
function scaleOf(box, [width, height]) {
  const pad = Math.max(width, height) * .13;
  const across = (width + 1.5 * pad) / (box.clientWidth || 500), up = (height + 1.6 * pad) / (box.clientHeight || 300);
  const sight = Math.max(across, up);
  return { pad, sight, font: 12.5 * sight };
}

class Drawing {
  constructor(box, blank) {
    this.blank = inMm(blank);
    this.um = blank.size;
    [this.width, this.height] = this.blank.size;
    Object.assign(this, scaleOf(box, this.blank.size));
    const edge = 14 * this.sight, { pad } = this;
    const wide = this.width + 1.5 * pad + edge, high = this.height + 1.35 * pad + 16 * this.sight;
    this.root = svg("svg", {
      viewBox: [-pad - edge, -pad * .45, wide, high].join(" "),
      role: "group", "aria-label": `Flat blank, ${mm(this.um[0])} by ${mm(this.um[1])} mm`,
    });
  }
  flip(y) { return this.height - y; }
  line(from, to, at) {
    return svg("line", { x1: from[0], y1: this.flip(from[1]), x2: to[0], y2: this.flip(to[1]), ...at });
  }
  text(x, y, words, at = {}) {
    const made = svg("text", {
      x, y: this.flip(y), "font-size": this.font, "text-anchor": "middle", "dominant-baseline": "central", ...at,
    });
    made.textContent = words;
    return made;
  }
  face(number, look, onFace) {
    const [x0, y0, x1, y1] = this.blank.faces[number].r;
    const kind = (look.picked === number ? " picked" : "") + (look.wrong.includes(number) ? " wrong" : "");
    const made = svg("rect", { x: x0, y: this.flip(y1), width: x1 - x0, height: y1 - y0, class: "face" + kind });
    made.addEventListener("click", () => onFace(number));
    this.root.append(made);
  }
  edge(number, side, onEdge) {
    const face = this.blank.faces[number], [from, to] = ends(face, side);
    const words = `put a flange on side ${side} of ${face.name}`;
    const made = this.line(from, to, { class: "edge", tabindex: 0, role: "button", "aria-label": words });
    const title = svg("title");
    title.textContent = words;
    made.append(title);
    made.addEventListener("click", () => onEdge(number, side));
    made.addEventListener("keydown", event => {
      if (event.key !== "Enter" && event.key !== " ") return;
      event.preventDefault();
      onEdge(number, side);
    });
    this.root.append(made);
  }
  label(number) {
    const { name, r } = this.blank.faces[number], [x0, y0, x1, y1] = r, w = x1 - x0, h = y1 - y0, isTall = h > w * 1.6;
    const [long, short] = isTall ? [h, w] : [w, h];
    const size = Math.min(this.font, long / (name.length * .62 + 2.2), short * .62);
    if (size < this.font * .3) return;
    const x = (x0 + x1) / 2, y = (y0 + y1) / 2;
    const group = svg("g", isTall ? { transform: `rotate(-90 ${x} ${this.flip(y)})` } : {});
    const bend = this.blank.bends.find(one => one.n === number), r0 = size * .8, wide = name.length * size * .56;
    const start = x - (bend ? (wide + 2.6 * r0) / 2 : wide / 2);
    if (bend) group.append(...this.ball(start + r0, y, r0, bend, size));
    group.append(this.text(start + (bend ? 2.6 * r0 : 0), y, name, { "font-size": size, "text-anchor": "start" }));
    this.root.append(group);
  }
  ball(x, y, r, bend, size) {
    const kind = bend.up ? "up" : "down";
    return [svg("circle", { cx: x, cy: this.flip(y), r, class: "ball " + kind }),
      this.text(x, y, bend.n, { "font-size": size * .9, class: "on-ball " + kind })];
  }
  sizes() {
    const at = -Math.max(this.pad * .3, 8 * this.sight), tick = 3.5 * this.sight, far = at - this.font * .8;
    const rows = [[[0, at], [this.width, at]], [[at, 0], [at, this.height]]];
    for (const [from, to] of rows) {
      const isAcross = from[1] === to[1], off = isAcross ? [0, tick] : [tick, 0];
      const end = p => this.line(p.map((v, k) => v - off[k]), p.map((v, k) => v + off[k]), { class: "dim" });
      this.root.append(this.line(from, to, { class: "dim" }), end(from), end(to));
    }
    this.root.append(this.text(this.width / 2, far, mm(this.um[0])));
    const turned = { transform: `rotate(-90 ${far} ${this.flip(this.height / 2)})` };
    this.root.append(this.text(far, this.height / 2, mm(this.um[1]), turned));
  }
}

// look: data (the part), picked, wrong (numbers of faces). A free side can be clicked or reached by the keyboard.
export function drawBlank(box, blank, look, onFace, onEdge) {
  const drawing = new Drawing(box, blank), all = look.data.face || [];
  blank.faces.forEach((_, number) => drawing.face(number, look, onFace));
  blank.faces.forEach((face, number) => {
    for (const side of number ? ["N", "E", "W"] : ["N", "E", "S", "W"]) {
      if (!all.some(one => one.on === face.name && one.side === side)) drawing.edge(number, side, onEdge);
    }
  });
  for (const bend of drawing.blank.bends) {
    drawing.root.append(drawing.line(bend.a, bend.b, { class: `bend ${bend.up ? "up" : "down"}` }));
  }
  blank.faces.forEach((_, number) => drawing.label(number));
  drawing.sizes();
  const focus = box.contains(document.activeElement) ? document.activeElement.getAttribute("aria-label") : null;
  box.replaceChildren(drawing.root);
  if (focus) [...box.querySelectorAll(".edge")].find(one => one.getAttribute("aria-label") === focus)?.focus();
}

export const noPicture = words => el("p", { className: "hint", textContent: words });
