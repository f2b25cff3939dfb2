// The Rack view: punches and dies as profiles, and the deductions of the sheets.
import { post, readFile, storeFile } from "./api.js";
import { $, button, el, note } from "./dom.js";
import { chosen, folder, mine } from "./files.js";
import { mm } from "./mm.js";
import { profile } from "./stroke_picture.js";
import { asText } from "./text_file.js";

export async function loadTools() {
  const name = chosen("tools");
  try { folder.tools = name ? (await readFile(name)).data : {}; } catch (fault) {
    folder.tools = {};
    note(fault.message, true);
  }
  const rows = folder.tools.allow || [], materials = [...new Set(rows.map(row => row.material))];
  $("materials").replaceChildren(...materials.map(material => el("option", { value: material })));
  const sayRow = row => `${row.material}  ${mm(row.thickness)}  r ${mm(row.radius)}`;
  $("p-row").replaceChildren(el("option", { value: "", textContent: "choose a row .." }),
    ...rows.map((row, number) => el("option", { value: number, textContent: sayRow(row) })));
}

const pieces = tool => (tool.sections || []).map(([length, count]) => `${count} × ${mm(length)}`).join(", ");
const isLopsided = tool => (tool.body || []).some(box => box[0] !== -box[1]);

// A tool that is turned round on the bed is a tool of its own in the file: its boxes change front and back.
const turnedRound = tool => ({
  ...tool, name: `${tool.name.slice(0, 22)}_r`, body: tool.body.map(([y0, y1, z0, z1]) => [-y1, -y0, z0, z1]),
});

async function addTurned(kind, tool) {
  const name = chosen("tools"), file = await readFile(name);
  try {
    const made = await post("edit", { text: file.text, ops: [{ op: "add", table: kind, value: turnedRound(tool) }] });
    await storeFile(name, made.text, file.tag);
    mine(name);
  } catch (fault) { note(fault.message, true); }
  await loadTools();
  await show();
}

function toolCard(kind, tool, all) {
  const facts = kind === "die" ? `V ${mm(tool.v)}, height ${mm(tool.height)}, least flange ${mm(tool.least_flange)}`
    : `height ${mm(tool.height)}, nose ${mm(tool.nose)}`;
  const canTurn = isLopsided(tool) && !all.some(other => other.name === turnedRound(tool).name);
  const made = el("div", { className: "tool" }, profile(tool.body || [], kind, tool),
    el("h3", { textContent: tool.name }), el("div", { textContent: facts + " mm" }),
    el("div", { className: "soft", textContent: pieces(tool) }));
  const label = { ariaLabel: `add ${tool.name} turned round` };
  if (canTurn) made.append(button("Add it turned round", () => addTurned(kind, tool), label));
  return made;
}

const COLUMNS = [
  ["material", row => row.material], ["thickness", row => mm(row.thickness) + " mm"],
  ["inside radius", row => mm(row.radius) + " mm"],
  ["k (DIN 6935)", row => (row.k === undefined ? "" : (row.k / 1000).toFixed(3))],
  ["measured deduction of a bend", row => (row.q === undefined ? "" : mm(2 * row.q) + " mm")],
];

function deductions() {
  const head = el("tr", {}, ...COLUMNS.map(([text]) => el("th", { textContent: text, scope: "col" })));
  const rows = (folder.tools.allow || []).map(row =>
    el("tr", { className: "row" }, ...COLUMNS.map(([, read]) => el("td", { textContent: read(row) }))));
  return el("table", {}, el("thead", {}, head), el("tbody", {}, ...rows));
}

async function show() {
  const box = $("rack"), name = chosen("tools"), tools = folder.tools;
  const hint = text => el("p", { className: "hint", textContent: text });
  const head = text => el("h2", { textContent: text });
  if (!name) { box.replaceChildren(hint("There is no tools file in this folder.")); return; }
  const again = async () => { await loadTools(); await show(); };
  if (tools.error) {
    box.replaceChildren(el("p", { className: "words" }, `${name}: ${tools.error}`), asText(name, again));
    return;
  }
  const cards = kind => (tools[kind] || []).map(tool => toolCard(kind, tool, tools[kind]));
  const shelf = kind => el("div", { className: "tools" }, ...cards(kind));
  box.replaceChildren(head("Punches"), hint(`From the machine's right end, the operator at the left. ${name}`),
    shelf("punch"), head("Dies"), shelf("die"), head("Deductions"), deductions(), asText(name, again));
}

export const rackView = { show };
