// A file of the folder as text, so that no view sends anybody to another editor.
import { readFile, storeFile } from "./api.js";
import { button, el } from "./dom.js";
import { mine } from "./files.js";

// `after` is called once the text is stored.
export function asText(name, after) {
  const box = el("textarea", { spellcheck: false, rows: 24, ariaLabel: name });
  const state = el("span", { className: "state", role: "status" });
  let tag = null;
  const store = async () => {
    try { tag = (await storeFile(name, box.value, tag)).tag; } catch (fault) { tellFault(fault); return; }
    mine(name);
    state.textContent = "saved";
    save.disabled = true;
    await after();
  };
  const tellFault = fault => {
    state.textContent = fault.message;
    if (fault.answer?.tag) state.append(" ", button("Save over it", () => { tag = fault.answer.tag; store(); }));
  };
  const save = button("Save the text", store, { className: "main", disabled: true });
  const bar = el("div", { className: "bar" }, save, state);
  const made = el("details", {}, el("summary", { textContent: "The file as text" }), box, bar);
  made.ontoggle = async () => {
    if (!made.open || tag !== null) return;
    const file = await readFile(name);
    box.value = file.text;
    tag = file.tag;
  };
  box.oninput = () => { save.disabled = false; };
  return made;
}
