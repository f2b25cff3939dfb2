// The My order view: the user's own order of bends, and what the program says of it.
import { run } from "./api.js";
import { $, busy, el, on, say } from "./dom.js";
import { folder, job } from "./files.js";
import { seconds } from "./mm.js";
import { faces, isSaved, names, part, store } from "./part.js";
import { leastOf, plan } from "./plan_view.js";
import { beforeAlone, beforeAndAfter } from "./stroke_picture.js";
import { atBack, strokesSheet, TURNS } from "./strokes_sheet.js";

// Each row: bend, and by hand the side at the back (P or C) and the station.
const order = { rows: [], found: null, turn: 0, timer: 0, isShown: false };
const COLLISIONS = [4, 5, 6, 7], FRAME = 3, NO_GAUGE = 8, WITHOUT_PICTURE = [1, 2, 9];

// ---- the order

const bends = () => faces().map((_, number) => number).slice(1);
const rowOf = bend => ({ bend, back: null, stage: null });

function complete() {
  const count = faces().length;
  order.rows = order.rows.filter(row => row.bend < count);
  for (const bend of bends()) if (!order.rows.some(row => row.bend === bend)) order.rows.push(rowOf(bend));
  order.found = null;
}

function asPlanned() {
  order.rows = plan.steps.flatMap(step => [step.bend, ...step.with]).map(rowOf);
  complete();
}

function moveRow(from, to) {
  order.rows.splice(to, 0, order.rows.splice(from, 1)[0]);
  order.found = null;
  paint(to);
  clearTimeout(order.timer);
  order.timer = setTimeout(judge, 120);
}

// ---- asking

async function judge() {
  const mine = ++order.turn;
  if (!isSaved() && !await store()) return;
  const focus = focusedRow();
  paint(focus);
  if (!order.rows.length) { say($("o-words"), ["This part has no bends."]); return; }
  $("o-words").replaceChildren(busy());
  const state = await run("order", { ...job(), order: order.rows })
    .catch(fault => ({ answer: { error: fault.message } }));
  if (mine !== order.turn || !state.answer) return;
  if (state.answer.error) {
    order.found = null;
    say($("o-words"), [state.answer.error]);
    $("o-picture").replaceChildren();
    return;
  }
  order.found = state.answer;
  paint(focusedRow());
  tellFound();
}

const focusedRow = () => {
  const row = document.activeElement?.closest?.("#order li");
  return row && document.activeElement === row ? [...$("order").children].indexOf(row) : -1;
};

function tellFound() {
  const { strokes, total, checked } = order.found, bad = strokes.find(stroke => !stroke.ok);
  $("o-print").disabled = !!bad || !order.found.all;
  if (bad) { showStroke(bad); return; }
  const least = leastOf(plan.answer), sure = checked ? "" : "; the cost could not be confirmed";
  const beside = least === null ? "" : `; the least of all orders is ${seconds(least)}`;
  const words = `Every stroke is allowed, and the proved program says so${sure}. ${seconds(total)}${beside}.`;
  say($("o-words"), [words], "good");
  showStroke(strokes.at(-1));
}

// ---- the list

function paint(focus = -1) {
  const list = $("order");
  order.rows = order.rows.filter(row => row.bend < faces().length);
  list.replaceChildren(...order.rows.map(rowElement));
  if (focus >= 0) list.children[focus]?.focus();
}

const strokeOf = bend => order.found?.strokes.find(stroke => stroke.bend === bend || stroke.with.includes(bend));

function factOf(stroke) {
  if (!order.found) return "";
  if (!stroke) return "not reached";
  return stroke.ok ? `${TURNS[stroke.turn]}, station ${stroke.stage}` : "refused";
}

function rowElement(row, number) {
  const stroke = strokeOf(row.bend), name = names()[row.bend], isDown = faces()[row.bend].dir === "down";
  const kind = stroke && !stroke.ok ? "stop" : order.found && !stroke ? "after" : "";
  const made = el("li", { draggable: true, tabIndex: 0, className: kind },
    el("span", { className: "grip", textContent: "⠿", ariaHidden: true }),
    el("span", { className: "num" + (isDown ? " down" : ""), textContent: row.bend }), el("b", { textContent: name }),
    el("span", { className: "facts1", textContent: factOf(stroke) }), byHand(row, name));
  made.setAttribute("aria-label", `stroke ${number + 1}: bend ${row.bend}, ${name}, ${factOf(stroke)}`);
  made.onclick = event => { if (!event.target.closest("select")) { made.focus(); if (stroke) showStroke(stroke); } };
  makeMovable(made, number);
  return made;
}

// The side at the back and the station, where the user wants one of his own.
function byHand(row, name) {
  const stations = [...(folder.machine?.stage || [])].map((_, number) => [String(number), `station ${number}`]);
  const pick = (key, label, options, read) => {
    const list = el("select", { ariaLabel: `${label} of bend ${row.bend}` },
      ...options.map(([value, text]) => el("option", { value, textContent: text })));
    list.value = row[key] === null ? "" : String(row[key]);
    list.onchange = () => { row[key] = list.value === "" ? null : read(list.value); judge(); };
    return list;
  };
  const sides = [["", "either side"], ["C", `${name} at the back`], ["P", "the rest at the back"]];
  return el("span", { className: "by-hand" }, pick("back", "side at the back", sides, value => value),
    pick("stage", "station", [["", "any station"], ...stations], Number));
}

function makeMovable(made, number) {
  made.ondragstart = event => {
    event.dataTransfer.setData("text/plain", number);
    event.dataTransfer.effectAllowed = "move";
    made.classList.add("drag");
  };
  made.ondragend = () => paint();
  made.ondragover = event => { event.preventDefault(); made.classList.add("over"); };
  made.ondragleave = () => made.classList.remove("over");
  made.ondrop = event => { event.preventDefault(); moveRow(+event.dataTransfer.getData("text/plain"), number); };
  made.onkeydown = event => {
    const by = { ArrowUp: -1, ArrowDown: 1 }[event.key], to = number + by;
    if (event.target !== made) return;
    if (event.key === "Enter" || event.key === " ") { event.preventDefault(); made.click(); return; }
    if (!by) return;
    event.preventDefault();
    if (to < 0 || to >= order.rows.length) return;
    if (event.altKey) moveRow(number, to);
    else $("order").children[to].focus();
  };
}

// ---- a stroke

function showStroke(stroke) {
  const number = order.found.strokes.indexOf(stroke) + 1, all = names();
  const title = `Stroke ${number}: bend ${stroke.bend}, ${all[stroke.bend]}`;
  [...$("order").children].forEach((row, at) => row.classList.toggle("shown", order.rows[at].bend === stroke.bend));
  if (stroke.ok) {
    const sayWay = ([back, stage]) => `${atBack({ ...stroke, back }, all)} at the back, station ${stage}`;
    const ways = stroke.ways.map(sayWay);
    $("o-picture").replaceChildren(
      el("h2", { textContent: `${title}, ${atBack(stroke, all)} at the back, station ${stroke.stage}: allowed` }),
      beforeAndAfter(stroke.picture),
      ...(order.found.by === "check" ? [el("p", { textContent: `Allowed ways: ${ways.join("; ")}.` })] : []));
    return;
  }
  say($("o-words"), [`${title}: refused in each of its ${stroke.refused.length} ways.`]);
  $("o-picture").replaceChildren(el("h2", { textContent: `${title}: not possible` }), ...waysRefused(stroke, all));
}

// Collisions first; ways that are alike are shown once.
function waysRefused(stroke, all) {
  const rank = way => (COLLISIONS.includes(way.reason[0]) ? 0 : { [FRAME]: 1, [NO_GAUGE]: 2 }[way.reason[0]] ?? 3);
  const shown = new Set();
  const ways = [...stroke.refused].sort((one, other) => rank(one) - rank(other)).filter(way => {
    const key = way.words + way.back;
    return !shown.has(key) && shown.add(key);
  });
  return ways.slice(0, 6).flatMap(way => {
    const back = atBack({ ...stroke, back: way.back }, all), kind = way.reason[0];
    const words = el("h3", { textContent: `${back} at the back, station ${way.stage}: ${way.words}` });
    if (WITHOUT_PICTURE.includes(kind)) return [words];
    if (kind === NO_GAUGE) return [words, beforeAlone(way.picture, "before: what lies behind the bend")];
    return [words, beforeAndAfter(way.picture, "after; red: what is in the way")];
  });
}

function print() {
  const frame = $("o-frame"), { strokes, total } = order.found;
  frame.onload = () => frame.contentWindow.print();
  frame.srcdoc = strokesSheet({
    title: part.name, mark: "Own order, not proved the least", strokes, names: names(), total,
  });
}

export function startOrder() {
  $("o-plan").onclick = () => { asPlanned(); judge(); };
  $("o-back").onclick = () => { order.rows.reverse(); order.found = null; judge(); };
  $("o-print").onclick = print;
  on("part", how => {
    if (how.isNew) asPlanned(); else complete();
    if (order.isShown) judge();
  });
  on("planned", () => { asPlanned(); });
}

export const orderView = {
  show() { order.isShown = true; judge(); },
  hide() { order.isShown = false; },
};
