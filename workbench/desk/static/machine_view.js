// The Machine view: the stations on the bed, the backgauge, times and force. Each changed field is stored at once.
import { post, readFile, storeFile } from "./api.js";
import { svg } from "./blank_picture.js";
import { $, button, el, note, tell } from "./dom.js";
import { chosen, folder, mine } from "./files.js";
import { mm, toUm } from "./mm.js";
import { asText } from "./text_file.js";

// The shop's words for each key, which stands beside.
const WORDS = {
  uncovered: "a bend may stand out past its station by",
  fine: "halvings of a cover that isn't clear (10 refuses the fewest bends)",
  gang: "flanges of one side in one stroke (1: yes)", force: "the machine's force (0: no limit)",
  upright: "pieces may stand upright", front: "room in front of the bed",
  near: "least distance of the fingers behind the bend", far: "greatest distance",
  inset: "from the end of an edge to the finger",
  finger: "width of a finger", gap: "least room between the two", depth: "a finger's depth behind the edge",
  above: "a finger's height above the sheet", below: "and below it", stroke: "each stroke",
  quarter: "a quarter turn of the sheet",
  half: "a half turn", flip: "turning it over", roll: "turning another side up", stage: "going to another station",
};
const readTenths = text => {
  const thousandths = toUm(text);
  return thousandths === null || thousandths % 100 ? null : thousandths / 100;
};
const UNITS = {
  mm: { show: mm, read: toUm }, kN: { show: mm, read: toUm },
  s: { show: value => String(value / 10), read: readTenths },
  "": { show: String, read: text => (/^\d+$/.test(text.trim()) ? +text : null) },
};
const all = (unit, ...keys) => keys.map(key => [key, unit]);
const CARDS = [
  ["Machine", [], [["uncovered", "mm"], ["fine", ""], ["gang", ""], ["force", "kN"]]],
  ["Backgauge", ["gauge"], all("mm", "near", "far", "inset", "finger", "gap", "depth", "above", "below")],
  ["Times", ["cost"], all("s", "stroke", "quarter", "half", "flip", "roll", "stage")],
];
const file = { name: "", text: "", tag: null, data: {} };

export async function loadMachine() {
  const name = chosen("machine");
  folder.machine = name ? (await readFile(name).catch(() => ({ data: {} }))).data : {};
}

// Changes the file and stores it; the view is made anew where `isShown` says so.
async function change(ops, isShown = true) {
  try {
    const made = await post("edit", { text: file.text, ops });
    file.tag = (await storeFile(file.name, made.text, file.tag)).tag;
    Object.assign(file, { text: made.text, data: made.data });
    folder.machine = made.data;
    mine(file.name);
    note();
    tell("machine");
    if (isShown) await show();
    return true;
  } catch (fault) {
    note(fault.message, true);
    if (fault.status === 409) await show();
    return false;
  }
}

function fieldOf(way, key, unit) {
  const table = way.length ? file.data[way[0]] || {} : file.data, value = table[key];
  const { show: shown, read } = UNITS[unit];
  const text = value === undefined ? "" : shown(value);
  const made = el("input", { value: text, inputMode: "decimal", ariaLabel: `${WORDS[key]}, ${key}` });
  made.dataset.key = key;
  made.onchange = async () => {
    const now = read(made.value);
    made.classList.toggle("bad", now === null);
    if (now !== null) await change([{ op: "set", path: [...way, key], value: now }], false);
  };
  const box = el("span", { className: "u" }, made);
  box.dataset.u = unit;
  const words = el("span", { textContent: WORDS[key] });
  return el("label", { className: "field" }, words, box, el("small", { textContent: key }));
}

function card([title, way, keys]) {
  const newer = [["upright", ""], ["front", "mm"]].filter(([key]) => !way.length && key in file.data);
  return el("div", { className: "card" }, el("h2", { textContent: title }),
    ...[...keys, ...newer].map(([key, unit]) => fieldOf(way, key, unit)));
}

// ---- the stations

const lengthOf = stage => (stage.pieces || []).reduce((sum, piece) => sum + piece, 0);

function toolList(number, kind, stage) {
  const list = el("select", { ariaLabel: `${kind} of station ${number}` },
    ...(folder.tools[kind] || []).map(tool => el("option", { value: tool.name, textContent: tool.name })));
  list.value = stage[kind];
  list.onchange = () => change([{ op: "set", path: ["stage", number, kind], value: list.value }]);
  return list;
}

function stageField(number, key, text, read) {
  const made = el("input", { value: text, ariaLabel: `${key === "at" ? "begin" : key} of station ${number}` });
  made.onchange = () => {
    const value = read(made.value), isList = Array.isArray(value);
    const isBad = value === null || isList && (!value.length || value.includes(null));
    made.classList.toggle("bad", isBad);
    if (!isBad) change([{ op: "set", path: ["stage", number, key], value }]);
  };
  return made;
}

const readPieces = text => text.split(/[+\s]+/).filter(Boolean).map(toUm);

function stationRow(stage, number) {
  const cell = (kind, ...kids) => el("td", { className: kind }, ...kids);
  const remove = button("✕", () => change([{ op: "remove", table: "stage", at: number }]),
    { className: "x", ariaLabel: `remove station ${number}` });
  return el("tr", { className: "row" }, cell("", el("b", { textContent: number })),
    cell("", toolList(number, "punch", stage)), cell("", toolList(number, "die", stage)),
    cell("n", stageField(number, "at", mm(stage.at), toUm)),
    cell("", stageField(number, "pieces", (stage.pieces || []).map(mm).join(" + "), readPieces)),
    el("td", { className: "n", textContent: mm(lengthOf(stage)) }), cell("", remove));
}

function addStation() {
  const { punch, die } = folder.tools, stages = file.data.stage || [];
  const at = Math.max(file.data.bed?.[0] ?? 0, ...stages.map(stage => stage.at + lengthOf(stage) + 100000));
  const pieces = [(punch?.[0]?.sections || [[100000, 1]])[0][0]];
  const value = { punch: punch?.[0]?.name || "", die: die?.[0]?.name || "", at, pieces };
  return change([{ op: "add", table: "stage", value }]);
}

function stationsCard() {
  const heads = ["station", "punch", "die", "from", "pieces, longest first", "length", ""];
  const rack = (folder.tools.punch || []).map(tool => `${tool.name} ` + (tool.sections || [])
    .map(([length, count]) => (count > 1 ? `${count} × ` : "") + mm(length)).join(", "));
  const head = el("tr", {}, ...heads.map(text => el("th", { textContent: text, scope: "col" })));
  const body = el("tbody", {}, ...(file.data.stage || []).map(stationRow));
  return el("div", { className: "card wide" }, el("h2", { textContent: `Stations of ${file.name}` }),
    bedPicture(file.data), el("table", { className: "stations" }, el("thead", {}, head), body),
    el("div", { className: "bar" }, button("Add a station", addStation),
      el("span", { className: "state", textContent: `Lengths of the rack: ${rack.join("; ")}` })));
}

// The bed from the front, to scale.
function bedPicture(machine) {
  const [x0, x1] = (machine.bed || [0, 3000000]).map(v => v / 1000), wide = x1 - x0;
  const made = svg("svg", {
    viewBox: `${x0} -10 ${wide} ${wide * .075}`, class: "bed", role: "img", "aria-label": "the bed from the front",
  });
  const put = (x, y, width, height, fill, stroke) => made.append(svg("rect", {
    x, y: wide * y, width, height: wide * height, fill, stroke, "vector-effect": "non-scaling-stroke",
  }));
  put(x0, .035, wide, .02, "#cfd4d9", "#5a636d");
  (machine.stage || []).forEach((stage, number) => {
    let at = stage.at / 1000;
    for (const piece of stage.pieces || []) {
      put(at, .004, piece / 1000, .031, "#b9c2cc", "#23405f");
      at += piece / 1000;
    }
    const middle = (stage.at + lengthOf(stage) / 2) / 1000;
    const label = svg("text", { x: middle, y: wide * .024, "font-size": wide * .014, "text-anchor": "middle" });
    label.textContent = number;
    made.append(label);
  });
  return made;
}

async function show() {
  const box = $("machine"), name = chosen("machine");
  if (!name) {
    box.replaceChildren(el("p", { className: "hint", textContent: "There is no machine file in this folder." }));
    return;
  }
  const found = await readFile(name).catch(fault => ({ fault: fault.message }));
  if (found.fault || found.data.error) {
    box.replaceChildren(el("p", { className: "words" }, found.fault || `${name}: ${found.data.error}`));
    if (!found.fault) box.append(asText(name, show));
    return;
  }
  Object.assign(file, { name, text: found.text, tag: found.tag, data: found.data });
  folder.machine = found.data;
  box.replaceChildren(el("div", { className: "cols" }, stationsCard(), ...CARDS.map(card)), asText(name, show));
}

export const machineView = { show };
