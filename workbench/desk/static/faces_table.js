// The faces of the part as a table, indented as the tree in which they stand on one another.
import { button, el } from "./dom.js";
import { field, syncField } from "./field.js";
import { edit, faces, part, wrongPlace } from "./part.js";
import { look } from "./part_view.js";

const SIDES = { N: "N: ahead", E: "E: right", S: "S: below", W: "W: left" };
let body = null;

export function facesTable(table) { body = table.tBodies[0]; }

// The field that has the focus is kept as it is, so that nothing disturbs who types into it.
export function paintFaces() {
  const fresh = faces().map((face, number) => rowsOf(face, number)), old = [...body.querySelectorAll("tr.row")];
  const active = body.contains(document.activeElement) ? document.activeElement.closest("tr.row") : null;
  if (!active || old.length !== fresh.length) { body.replaceChildren(...fresh.flat()); return; }
  for (const why of body.querySelectorAll("tr.why")) why.remove();
  fresh.forEach(([row, ...why], number) => {
    if (old[number] === active) mergeRow(active, row); else old[number].replaceWith(row);
    (old[number] === active ? active : row).after(...why);
  });
}

function mergeRow(active, row) {
  active.className = row.className;
  const cells = [...row.cells];
  [...active.cells].forEach((cell, at) => {
    if (cell.contains(document.activeElement)) syncCell(cell, cells[at]); else cell.replaceWith(cells[at]);
  });
}

function syncCell(cell, fresh) {
  const field = cell.querySelector("input"), made = fresh.querySelector("input");
  if (field === document.activeElement) syncField(field, made); else cell.replaceWith(fresh);
}

const parentOf = number => faces().findIndex(face => face.name === faces()[number].on);
function depth(number) {
  const on = number ? parentOf(number) : -1;
  return on >= 0 && on < number ? 1 + depth(on) : 0;
}

function rowsOf(face, number) {
  const at = ["face", number], label = word => `${word} of face ${face.name}`;
  const cell = (kind, ...kids) => el("td", { className: kind }, ...kids);
  const length = (key, word) => cell("n", field(face[key], [...at, key], true, label(word)));
  const cells = number
    ? [cell("", parentList(face, number, label("parent"))), cell("", sideButtons(face, number, label("side"))),
      length("at", "start"), length("width", "width"), length("length", "length"),
      cell("", wayButton(face, number, label("direction"))), cell("", removeButton(face, number))]
    : [cell(""), cell(""), cell(""), length("width", "width"), length("length", "length"), cell(""), cell("")];
  const row = el("tr", { className: "row" + (number === part.picked ? " picked" : "") });
  row.append(nameCell(face, number, label("name")), ...cells);
  row.addEventListener("focusin", () => pick(number));
  const why = mark(row, number);
  if (!why.length) return [row];
  return [row, el("tr", { className: "why" }, el("td", { colSpan: 8, textContent: why.join("; ") }))];
}

function nameCell(face, number, label) {
  const name = field(face.name, ["face", number, "name"], false, label);
  name.className = "name";
  const kind = number ? (face.dir === "down" ? " down" : "") : " root";
  const title = number ? `bend ${number}, ${face.dir}` : "the first face, which lies on the table";
  const ball = el("span", { className: "num" + kind, textContent: number, title });
  const first = el("div", { className: "first" }, ball, name);
  first.style.paddingLeft = `${depth(number) * .8}rem`;
  return el("td", {}, first);
}

function parentList(face, number, label) {
  const options = faces().slice(0, number).map(one => el("option", { value: one.name, textContent: one.name }));
  const list = el("select", { ariaLabel: label }, ...options);
  list.value = face.on;
  list.dataset.path = `face.${number}.on`;
  list.onchange = () => edit([{ op: "set", path: ["face", number, "on"], value: list.value }]);
  return list;
}

function sideButtons(face, number, label) {
  const isOnRoot = face.on === faces()[0].name, wrong = wrongPlace();
  const made = Object.entries(SIDES).map(([side, title]) => {
    const isOwnBend = side === "S" && !isOnRoot;
    const one = button(side, () => edit([{ op: "set", path: ["face", number, "side"], value: side }]),
      { disabled: isOwnBend, title: isOwnBend ? "S is the flange's own bend" : title });
    one.setAttribute("aria-pressed", face.side === side);
    one.dataset.path = `face.${number}.side.${side}`;
    return one;
  });
  const isBad = wrong?.faces.includes(number) && wrong.key === "side";
  return el("span", { className: "sides" + (isBad ? " bad" : ""), role: "group", ariaLabel: label }, ...made);
}

function wayButton(face, number, label) {
  const other = face.dir === "up" ? "down" : "up";
  const one = button(face.dir === "up" ? "↑ up" : "↓ down",
    () => edit([{ op: "set", path: ["face", number, "dir"], value: other }]), { ariaLabel: `${label}: ${face.dir}` });
  one.dataset.path = `face.${number}.dir`;
  return one;
}

function removeButton(face, number) {
  const remove = () => { part.picked = 0; part.bad = {}; edit([{ op: "remove", at: number }]); };
  return button("✕", remove, { className: "x", ariaLabel: `remove face ${face.name} and what stands on it` });
}

function pick(number) {
  if (part.picked === number) return;
  part.picked = number;
  [...body.querySelectorAll("tr.row")].forEach((row, at) => row.classList.toggle("picked", at === number));
  look();
}

// Marks the row's fields that are wrong, and gives the words below it.
function mark(row, number) {
  const start = `face.${number}.`, wrong = wrongPlace(), why = [];
  for (const [key, bad] of Object.entries(part.bad)) {
    if (!key.startsWith(start)) continue;
    why.push(bad.words);
    row.querySelector(`[data-path="${CSS.escape(key)}"]`)?.classList.add("bad");
  }
  if (wrong?.faces.includes(number)) {
    const which = wrong.key ? `[data-path="${start}${wrong.key}"]` : "input,select";
    for (const one of row.querySelectorAll(which)) one.classList.add("bad");
    if (number === wrong.faces.at(-1)) why.push(...part.answer.words.slice(-1));
  }
  return why;
}

