// The part that is open: its text, the blank of it, and the way back.
import { api, dropDraft, keepText, post, readFile, storeFile } from "./api.js";
import { readBlank } from "./blank_picture.js";
import { button, note, tell, told } from "./dom.js";
import { chosen, mine } from "./files.js";

const NOTHING = { name: "", text: "", saved: "", tag: null, data: {}, blank: null, answer: null, slips: [] };
export const part = { ...NOTHING, undo: [], redo: [], picked: 0, bad: {}, merged: null };
keepText(() => part.text);

export const isSaved = () => part.text === part.saved;
export const faces = () => part.data.face || [];
export const names = () => faces().map(face => face.name);
export const wrongPlace = () => (part.answer?.at?.file === "part" ? part.answer.at : null);

// One edit after the other: each begins at the text that the one before left.
let line = Promise.resolve();
export const edit = (ops, how = {}) => (line = line.then(() => editNow(ops, how)));

async function editNow(ops, how) {
  const old = part.text, whose = part.name;
  const body = { text: part.text, ops, tools: chosen("tools") || undefined, machine: chosen("machine") || undefined };
  if (!isSaved() || ops.length || how.isBack) body.name = part.name;
  let answer;
  try { answer = await post("edit", body); } catch (fault) {
    if (fault.answer) tell("refused", fault.message);
    return;
  }
  if (whose !== part.name) return;
  if (answer.text !== old) remember(old, how.merge);
  Object.assign(part, { text: answer.text, data: answer.data, answer: answer.blank, slips: answer.slips || [] });
  if (answer.blank?.status === 0) part.blank = { ...readBlank(answer.blank.out), of: answer.data.face };
  tell("part", how);
}

// What is typed into one field is one step of the way back.
function remember(old, merge) {
  if (!merge || merge !== part.merged) part.undo.push(old);
  part.merged = merge || null;
  part.redo = [];
}

export const step = (from, to) => (line = line.then(() => stepNow(from, to)));

async function stepNow(from, to) {
  if (!part[from].length) return;
  part[to].push(part.text);
  part.text = part[from].pop();
  part.merged = null;
  part.bad = {};
  const { undo, redo } = part;
  await editNow([], { isBack: true });
  Object.assign(part, { undo, redo });
  tell("part", {});
}

// Another text in place of the present one, which the way back has then.
const replaceText = text => (line = line.then(() => {
  part.undo.push(part.text);
  Object.assign(part, { text, redo: [], merged: null, bad: {} });
  return editNow([], { isBack: true });
}));

export function take(file) {
  Object.assign(part, NOTHING, { name: file.name, text: file.text, saved: file.text, tag: file.tag, data: file.data });
  Object.assign(part, { undo: [], redo: [], picked: 0, bad: {}, merged: null });
  return edit([], { isNew: true });
}

export async function openPart(name) {
  if (part.name && !isSaved()) await post("edit", { text: part.text, name: part.name });
  let file;
  try { file = await readFile(name); } catch (fault) {
    Object.assign(part, NOTHING, { undo: [], redo: [], bad: {} });
    tell("part", { isNew: true });
    note(fault.message, true);
    return;
  }
  await take(file);
  if (file.draft) offerDraft(name, file.draft);
}

function offerDraft(name, draft) {
  const goOn = () => { note(); replaceText(draft); };
  const drop = () => dropDraft(name).then(() => note());
  note(`There are edits of ${name} that were never saved.`, false, button("Go on with them", goOn),
    button("Drop them", drop));
}

// A text that was typed; a text area has no \r, which the file may have.
export const setText = text => replaceText(part.text.includes("\r\n") ? text.replaceAll("\n", "\r\n") : text);

// Stores the part, and says whether it is stored.
export async function store() {
  await line;
  const { name, text, tag } = part;
  let stored;
  try { stored = await storeFile(name, text, tag); } catch (fault) {
    if (fault.status === 409) askWhose({ ...fault.answer, name, data: {} });
    else if (fault.answer) note(fault.message, true);
    return false;
  }
  mine(name);
  note();
  if (name !== part.name) return true;
  Object.assign(part, { tag: stored.tag, saved: text });
  tell("part", {});
  return true;
}

function askWhose(file) {
  const theirs = async () => {
    const own = part.text;
    note();
    await take(file.text === null ? { ...file, text: "" } : file);
    part.undo.push(own);
    tell("part", {});
  };
  const keep = () => { part.tag = file.tag; note(); store(); };
  note(`${part.name} was changed by another program while you edited it.`, true,
    button("Show theirs (mine stays in Undo)", theirs), button("Keep mine, and save over theirs", keep));
}

// Another program has stored the part that is open.
export async function changedOutside() {
  const file = await readFile(part.name).catch(() => null);
  if (!file || file.tag === part.tag) return;
  if (!isSaved()) { askWhose(file); return; }
  await take(file);
  told(`${part.name} was changed by another program, and is shown as it is now.`);
}

export const newPartText = row => [
  `material = "${row.material}"`, `thickness = ${row.thickness}`, `radius = ${row.radius}`, "",
  "[[face]]", 'name = "base"', "width = 100000", "length = 60000", ""].join("\n");

export const newFile = (name, text) => api("PUT", "file", { name, text, tag: null });
