// The files of the folder, and which three are in use.
import { get } from "./api.js";
import { $, el, tell } from "./dom.js";

export const KINDS = ["part", "tools", "machine"];
export const folder = { files: [], seen: {}, pairs: {}, name: "", tools: {} };

export const chosen = kind => $("f-" + kind).value;
export const job = () => Object.fromEntries(KINDS.map(kind => [kind, chosen(kind)]));
export const place = name => name.split("/").slice(0, -1).join("/");
export const base = () => chosen("part").split("/").pop().replace(/\.toml$/, "");

export async function listFolder() {
  const answer = await get("folder"), before = folder.seen;
  Object.assign(folder, { files: answer.files, pairs: answer.pairs, name: answer.folder });
  folder.seen = Object.fromEntries(answer.files.map(file => [file.name, file.seen]));
  document.title = "brake desk: " + answer.folder.split("/").pop();
  for (const kind of KINDS) fill(kind);
  for (const name in before) if (before[name] && folder.seen[name] !== before[name]) tell("changed", name);
}

function fill(kind) {
  const list = $("f-" + kind), old = list.value;
  const names = folder.files.filter(file => file.kind === kind).map(file => file.name);
  if ([...list.options].map(option => option.value).join("\n") === names.join("\n")) return;
  list.replaceChildren(...names.map(name => el("option", { value: name, textContent: name })));
  if (names.includes(old)) list.value = old;
}

// The tools and the machine with which a part was last planned; else those of its own folder; else the chosen ones.
export function partners(part) {
  const found = {};
  for (const kind of ["tools", "machine"]) {
    const names = folder.files.filter(file => file.kind === kind).map(file => file.name);
    const last = folder.pairs[part]?.[kind];
    found[kind] = names.includes(last) ? last : names.find(name => place(name) === place(part)) || chosen(kind);
  }
  return found;
}

export function choosePartners(part) {
  for (const [kind, name] of Object.entries(partners(part))) if (name) $("f-" + kind).value = name;
}

// A change of the desk's own isn't told as another program's.
export const mine = name => { folder.seen[name] = null; };
