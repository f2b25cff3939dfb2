// The Part view: the sheet, the faces as a table, the blank and the folded part.
import { post } from "./api.js";
import { drawBlank, noPicture } from "./blank_picture.js";
import { $, ask, button, download, el, note, on, say } from "./dom.js";
import { facesTable, paintFaces } from "./faces_table.js";
import { field, syncField } from "./field.js";
import { chosen, folder, listFolder } from "./files.js";
import { mm } from "./mm.js";
import {
  edit, faces, isSaved, newFile, newPartText, openPart, part, setText, step, store, wrongPlace,
} from "./part.js";
import { roomEdits } from "./room.js";
import { solid } from "./solid.js";

const SHEET = [["p-material", "material"], ["p-thickness", "thickness"], ["p-radius", "radius"]];
const SIDES = { N: "north", E: "east", S: "south", W: "west" };
let scene = null, isShown = false;

// ---- painting

export function paintPart() {
  $("p-title").textContent = part.name || "Part";
  $("p-state").textContent = !part.name ? "" : isSaved() ? "saved" : "not saved";
  $("p-save").disabled = isSaved();
  $("p-undo").disabled = !part.undo.length;
  $("p-redo").disabled = !part.redo.length;
  if (document.activeElement !== $("p-text")) $("p-text").value = part.text;
  if (part.data.error || !Array.isArray(part.data.face)) { paintFaulty(); return; }
  const keep = focused();
  paintSheet();
  paintFaces();
  paintWords();
  restore(keep);
  look();
}

function paintFaulty() {
  if (!part.name) { say($("p-words"), ["Choose a part, or make a new one."]); return; }
  $("p-textbox").open = true;
  say($("p-words"), [part.data.error || "there is no [[face]]", ...(part.answer?.words || [])]);
}

// What is being typed stays, while the table is made anew.
function focused() {
  const active = document.activeElement, path = active?.dataset?.path;
  if (!path) return null;
  const isTyped = active.tagName === "INPUT" && active.value !== active.defaultValue;
  return { path, typed: isTyped ? [active.value, active.selectionStart, active.selectionEnd] : null };
}

function restore(keep) {
  const made = keep && document.querySelector(`[data-path="${CSS.escape(keep.path)}"]`);
  if (!made || made === document.activeElement) return;
  made.focus();
  if (keep.typed && made.tagName === "INPUT") {
    const [text, from, to] = keep.typed;
    made.value = text;
    made.setSelectionRange(from, to);
  } else if (made.tagName === "INPUT") made.select();
}

function paintSheet() {
  const wrong = wrongPlace();
  for (const [id, key] of SHEET) {
    const made = field(part.data[key], [key], key !== "material", key === "radius" ? "inside radius" : key);
    made.id = id;
    if (key === "material") made.setAttribute("list", "materials");
    const isBad = part.bad[key] || wrong && (wrong.key === key && !wrong.faces.length || wrong.also.includes(key));
    made.classList.toggle("bad", !!isBad);
    if ($(id) === document.activeElement) syncField($(id), made); else $(id).replaceWith(made);
  }
  const rows = folder.tools.allow || [], { material, thickness, radius } = part.data;
  const at = rows.findIndex(row => row.material === material && row.thickness === thickness && row.radius === radius);
  $("p-row").value = at < 0 ? "" : String(at);
}

function paintWords() {
  const wrong = wrongPlace(), answer = part.answer, isRefused = !!answer?.status;
  const own = Object.entries(part.bad).filter(([key]) => !key.startsWith("face.")).map(([, bad]) => bad.words);
  say($("p-words"), [...(isRefused && !wrong?.faces.length ? answer.words.slice(-1) : []), ...own]);
  const tips = [...(answer && !isRefused ? answer.words : []).map(words => ({ words })), ...part.slips];
  $("p-words").append(...tips.map(tipOf));
  for (const slip of part.slips) markOdd(slip);
  const room = roomEdits();
  if (room.length) {
    $("p-words").append(el("p", { className: "tip" },
      "Where two flanges meet at a corner each leaves room for the other's bend, and none is longer than its side. ",
      button("Make room", () => edit(room))));
  }
}

function tipOf(tip) {
  const take = tip.fix ? [" ", button(tip.take, () => edit(tip.fix))] : [];
  return el("p", { className: "tip" }, tip.words, ...take);
}

function markOdd(slip) {
  const key = slip.file !== "part" ? null : slip.face === null ? slip.key : `face.${slip.face}.${slip.key}`;
  if (key) document.querySelector(`[data-path="${CSS.escape(key)}"]`)?.classList.add("odd");
}

// ---- the pictures

const parents = () => faces().map(face => faces().findIndex(one => one.name === face.on));

export function look() {
  const isOld = !!part.answer?.status, blank = part.blank;
  $("blank").classList.toggle("old", isOld);
  $("b-size").textContent = !blank ? "" : isOld ? "as it was, before the refusal"
    : `${blank.size.map(mm).join(" × ")} mm`;
  $("b-dxf").disabled = !blank || isOld || !isSaved();
  $("b-dxf").title = isSaved() ? "the blank with its bend lines" : "save the part first";
  $("fold-at").textContent = $("fold").value + "°";
  if (!blank || !part.data.face) { $("blank").replaceChildren(noPicture("There is no blank yet.")); return; }
  const how = { data: part.data, picked: part.picked, wrong: wrongPlace()?.faces || [] };
  drawBlank($("blank"), blank, how, number => { part.picked = number; paintPart(); }, putFlange);
  if (blank.faces.length !== faces().length) return;
  scene ||= solid($("solid"));
  scene.show(blank, part.data.thickness, parents(), +$("fold").value, part.picked);
}

function freeName(start) {
  const used = new Set(faces().map(face => face.name));
  for (let number = 1; ; number++) {
    const name = number === 1 ? start : start.slice(0, 21) + number;
    if (!used.has(name)) return name;
  }
}

// A click on a free side puts a flange along all of it.
async function putFlange(number, side) {
  const face = faces()[number], long = "NS".includes(side) ? face.width : face.length;
  const name = freeName(number ? `${face.name.slice(0, 18)}_${side.toLowerCase()}` : SIDES[side]);
  const length = Math.max(20000, 10 * part.data.thickness);
  part.picked = faces().length;
  const value = { name, on: face.name, side, at: 0, width: long, length, dir: "up" };
  await edit([{ op: "add", table: "face", value }]);
  const made = document.querySelector(`[data-path="face.${part.picked}.length"]`);
  made?.focus();
  made?.select();
}

// ---- what the buttons do

export async function newPart() {
  const wanted = await ask("New part", "Name of its file, in the folder", "new_part.toml");
  if (!wanted) return false;
  const name = wanted.endsWith(".toml") ? wanted : wanted + ".toml";
  const row = (folder.tools.allow || [])[0] || { material: "S235", thickness: 2000, radius: 2000 };
  try { await newFile(name, newPartText(row)); } catch (fault) { note(fault.message, true); return false; }
  await listFolder();
  $("f-part").value = name;
  await openPart(name);
  $("p-material").focus();
  return true;
}

export async function storeDxf() {
  try {
    const made = await post("dxf", { part: part.name, tools: chosen("tools") });
    download(made.name, made.dxf, "image/vnd.dxf");
  } catch (fault) { note(fault.message, true); }
}

function takeRow(event) {
  const row = (folder.tools.allow || [])[event.target.value];
  if (row) edit(SHEET.map(([, key]) => ({ op: "set", path: [key], value: row[key] })));
}

function wireButtons() {
  $("p-save").onclick = store;
  $("p-undo").onclick = () => step("undo", "redo");
  $("p-redo").onclick = () => step("redo", "undo");
  $("p-new").onclick = newPart;
  $("p-row").onchange = takeRow;
  $("p-text").onchange = event => setText(event.target.value);
  $("fold").oninput = look;
  $("b-dxf").onclick = storeDxf;
}

export function startPart(offers) {
  wireButtons();
  facesTable($("faces"));
  if (!offers.dxf) $("b-dxf").hidden = true;
  on("part", () => { if (isShown) paintPart(); });
  on("refused", words => say($("p-words"), [words]));
  new ResizeObserver(() => { if (isShown && part.blank) look(); }).observe($("blank"));
}

export const partView = { show() { isShown = true; paintPart(); }, hide() { isShown = false; } };
