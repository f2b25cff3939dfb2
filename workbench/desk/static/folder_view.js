// The Folder view: each part, and whether it is planned as it stands.
import { get, post, run } from "./api.js";
import { $, ask, busy, button, el, note, tell } from "./dom.js";
import { listFolder, partners } from "./files.js";
import { mm, seconds } from "./mm.js";

const HEADS = ["part", "material", "thickness", "bends", "plan"];
const view = { rows: [], find: null, body: null, state: null, all: null, hasStep: false };

function stateOf(row) {
  if (row.wrong) return row.wrong;
  if (row.claim === undefined) return "not planned";
  return (row.claim === "none" ? "no plan" : seconds(+row.claim)) + (row.current ? "" : ", of an earlier state");
}

const kindOf = row => (row.claim === undefined || !row.current ? "" : row.claim === "none" ? "none" : "yes");

function rowOf(row) {
  const open = button(row.name, () => tell("open", row.name), { className: "link" });
  const thick = row.thickness === undefined ? "" : mm(row.thickness);
  const cell = (className, textContent) => el("td", { className, textContent });
  return el("tr", { className: `row ${kindOf(row)}` }, el("td", {}, open), cell("", row.material ?? ""),
    cell("n", thick), cell("n", row.bends ?? ""), cell("how", stateOf(row)));
}

function draw() {
  const wanted = view.find.value.toLowerCase();
  view.body.replaceChildren(...view.rows.filter(row => row.name.toLowerCase().includes(wanted)).map(rowOf));
}

async function planOne(row) {
  const state = await run("plan", { part: row.name, ...partners(row.name), keep: true })
    .catch(fault => ({ answer: { error: fault.message } }));
  const answer = state.answer || {};
  if (answer.status === 0) Object.assign(row, { claim: /\ntotal (\d+)/.exec(answer.out)[1], current: true });
  else if (answer.status === 1) Object.assign(row, { claim: "none", current: true });
  else row.wrong = answer.error || answer.words?.at(-1) || answer.out || "no answer";
}

async function planAll() {
  view.all.disabled = true;
  for (const row of view.rows.filter(one => !one.wrong && !one.current)) {
    view.state.replaceChildren(busy(), ` ${row.name}`);
    await planOne(row);
    draw();
  }
  view.state.textContent = "done";
  view.all.disabled = false;
}

// A part of a folded body that a CAD program has stored as STEP.
function stepButton() {
  const pick = el("input", { type: "file", accept: ".step,.stp", hidden: true, ariaLabel: "a STEP file" });
  pick.onchange = () => { if (pick.files[0]) takeStep(pick.files[0]); };
  return [pick, button("From STEP", () => pick.click(), { disabled: !view.hasStep,
    title: view.hasStep ? "a part of a folded body" : "this brake has no command import yet" })];
}

async function takeStep(file) {
  const name = file.name.replace(/\.\w+$/, "") + ".toml";
  const wanted = await ask("Part of a STEP body", "Name of its file, in the folder", name);
  if (!wanted) return;
  try {
    await post("import", { name: wanted, step: await file.text() });
    await listFolder();
    tell("open", wanted);
  } catch (fault) { note(fault.message, true); }
}

export const startFolder = offers => { view.hasStep = offers.import; };

async function show() {
  view.rows = (await get("parts")).parts;
  const old = view.find?.value || "";
  const words = "find a part";
  view.find = el("input", { type: "search", placeholder: words, ariaLabel: words, value: old, oninput: draw });
  view.state = el("span", { className: "state", role: "status" });
  view.all = button("Plan all that aren't", planAll);
  view.body = el("tbody");
  const bar = el("div", { className: "bar" }, el("h2", { textContent: "Parts" }), view.find,
    el("span", { className: "gap" }), view.state, view.all, ...stepButton(),
    button("New part", () => tell("new part")));
  const head = el("thead", {}, el("tr", {}, ...HEADS.map(text => el("th", { textContent: text, scope: "col" }))));
  const empty = "There is no part file in this folder yet. A part file is a .toml with [[face]] tables; New part "
    + "makes one.";
  $("folder").replaceChildren(bar, view.rows.length ? el("table", { className: "parts" }, head, view.body)
    : el("p", { className: "hint", textContent: empty }));
  draw();
}

export const folderView = { show };
