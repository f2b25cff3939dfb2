// A sheet of strokes for printing that the desk draws itself: for an own order, and where no program that draws is
// built.
import { el } from "./dom.js";
import { mm, seconds } from "./mm.js";
import { beforeAndAfter } from "./stroke_picture.js";

export const TURNS = { none: "no turn", quarter: "quarter turn", half: "half turn", flip: "turn over", roll: "roll" };
const HEADS = ["stroke", "bend", "turn", "at the back", "station", "gauge", "time"];
const STYLE = `body{font:13px/1.4 "Liberation Sans",Arial,sans-serif;margin:1.5cm;color:#111}
h1{font-size:20px;margin:0}
.mark{border:2px solid #b3261e;color:#7d120b;padding:.3em .6em;display:inline-block;font-weight:bold}
table{border-collapse:collapse;width:100%}th,td{text-align:left;border-bottom:1px solid #999;padding:.25em .5em}
section{break-inside:avoid;margin-top:1.2em}.two{display:grid;grid-template-columns:1fr 1fr;gap:1em}
svg{width:100%;max-height:7cm}
p{margin:.3em 0}`;

const HOW_RIGHT = "Pictures from the side, the operator at the left; right to the difference of half deduction and "
  + "thickness.";

export const atBack = (stroke, names) => (stroke.back === "C" ? names[stroke.bend] : "the rest");

function cellsOf(stroke, number, names) {
  const bends = `${[stroke.bend, ...stroke.with].join(", ")} ${names[stroke.bend]}`;
  const gauge = stroke.gauge === undefined ? "" : `${mm(stroke.gauge)} mm`;
  return [number + 1, bends, TURNS[stroke.turn], atBack(stroke, names), stroke.stage, gauge, seconds(stroke.cost)];
}

function table(strokes, names) {
  const rows = strokes.map((stroke, number) =>
    el("tr", {}, ...cellsOf(stroke, number, names).map(text => el("td", { textContent: text }))));
  return el("table", {}, el("thead", {}, el("tr", {}, ...HEADS.map(text => el("th", { textContent: text })))),
    el("tbody", {}, ...rows));
}

// The page as text, for a frame. `mark` says what the order is.
export function strokesSheet({ title, mark, strokes, names, total }) {
  const body = el("body", {}, el("h1", { textContent: title }), el("p", { className: "mark", textContent: mark }),
    el("p", { textContent: `${strokes.length} strokes, ${seconds(total)}` }), table(strokes, names),
    ...strokes.map((stroke, number) => el("section", {},
      el("h2", { textContent: `Stroke ${number + 1}: bend ${stroke.bend}, ${names[stroke.bend]}` }),
      beforeAndAfter(stroke.picture))),
    el("p", { textContent: HOW_RIGHT }));
  const style = el("style", { textContent: STYLE });
  return `<!DOCTYPE html><meta charset="utf-8">${style.outerHTML}${body.outerHTML}`;
}
