// The page: its views, the three files in use, and what all views share.
import { get, takeToken } from "./api.js";
import { $, note, on } from "./dom.js";
import { chosen, choosePartners, folder, listFolder } from "./files.js";
import { folderView, startFolder } from "./folder_view.js";
import { loadMachine, machineView } from "./machine_view.js";
import { orderView, startOrder } from "./order_view.js";
import { changedOutside, edit, isSaved, openPart, part, step, store } from "./part.js";
import { newPart, partView, startPart } from "./part_view.js";
import { forgetPlan, planView, startPlan } from "./plan_view.js";
import { loadTools, rackView } from "./rack_view.js";

const VIEWS = {
  folder: folderView, part: partView, plan: planView, order: orderView, rack: rackView, machine: machineView,
};
const EVERY = 1500;
let shown = null;

// ---- views and addresses: #VIEW/PART

const address = () => `#${shown}/${encodeURI(chosen("part"))}`;

export async function go(view) {
  if (shown && shown !== view) VIEWS[shown].hide?.();
  shown = view;
  for (const tab of $("tabs").children) {
    const isThis = tab.dataset.page === view;
    tab.setAttribute("aria-selected", isThis);
    tab.tabIndex = isThis ? 0 : -1;
  }
  for (const page of document.querySelectorAll(".page")) page.hidden = page.id !== `page-${view}`;
  if (location.hash !== address()) history.pushState(null, "", address());
  await VIEWS[view].show();
}

function readAddress() {
  const [view, ...rest] = location.hash.slice(1).split("/");
  let name = "";
  try { name = decodeURI(rest.join("/")); } catch { /* an address that was typed wrongly */ }
  return { view: view in VIEWS ? view : "folder", name };
}

async function follow() {
  const { view, name } = readAddress();
  if (name && name !== part.name && folder.files.some(file => file.name === name)) {
    $("f-part").value = name;
    await choosePart();
  }
  await go(view);
}

// ---- the files in use

async function choosePart() {
  const main = document.querySelector("main");
  main.ariaBusy = "true";
  forgetPlan();
  choosePartners(chosen("part"));
  await Promise.all([loadTools(), loadMachine()]);
  await openPart(chosen("part"));
  main.ariaBusy = "false";
}

async function changed(name) {
  if (name === part.name) { await changedOutside(); return; }
  const isTools = name === chosen("tools"), isMachine = name === chosen("machine");
  if (isTools) await loadTools();
  if (isMachine) await loadMachine();
  if ((isTools || isMachine) && part.name) edit([]);
  if (isTools && shown === "rack") rackView.show();
  if (isMachine && shown === "machine") machineView.show();
  if (shown === "folder" && !document.activeElement?.closest("#folder input")) folderView.show();
}

function wireFiles() {
  $("f-part").onchange = async () => { await choosePart(); await go(shown); };
  $("f-tools").onchange = async () => { await loadTools(); if (part.name) edit([]); await go(shown); };
  $("f-machine").onchange = async () => { await loadMachine(); if (part.name) edit([]); await go(shown); };
  on("changed", changed);
  on("machine", () => { if (part.name) edit([]); });
  on("open", async name => { $("f-part").value = name; await choosePart(); await go("part"); });
  on("new part", async () => {
    if (!await newPart()) return;
    forgetPlan();
    choosePartners(chosen("part"));
    await go("part");
  });
  on("go", go);
}

// ---- keys

function wireKeys() {
  $("tabs").onclick = event => { if (event.target.dataset.page) go(event.target.dataset.page); };
  $("tabs").onkeydown = event => {
    const by = { ArrowLeft: -1, ArrowRight: 1 }[event.key], tabs = [...$("tabs").children];
    if (!by) return;
    const next = tabs[(tabs.indexOf(document.activeElement) + by + tabs.length) % tabs.length];
    next.focus();
    go(next.dataset.page);
  };
  addEventListener("keydown", event => {
    if (!event.ctrlKey && !event.metaKey) return;
    const key = event.key.toLowerCase(), isTyping = /INPUT|TEXTAREA/.test(document.activeElement?.tagName);
    if (key === "s") {
      event.preventDefault();
      document.activeElement?.blur();
      setTimeout(() => { if (part.name && !isSaved()) store(); }, 100);
    } else if (key === "z" && shown === "part" && !(isTyping && isChanged(document.activeElement))) {
      event.preventDefault();
      if (event.shiftKey) step("redo", "undo"); else step("undo", "redo");
    }
  });
  addEventListener("beforeunload", event => { if (!isSaved()) event.preventDefault(); });
  addEventListener("popstate", follow);
}

// A field in which something is typed that the part doesn't have yet undoes its own letters.
const isChanged = field => field.tagName === "TEXTAREA" || field.value !== field.defaultValue;

async function watch() {
  if (!document.hidden) await listFolder().catch(() => {});
  setTimeout(watch, EVERY);
}

async function start() {
  takeToken();
  wireFiles();
  wireKeys();
  const offers = await get("offers");
  startFolder(offers);
  startPart(offers);
  startPlan(offers);
  startOrder();
  await listFolder();
  const { view, name } = readAddress();
  if (name && folder.files.some(file => file.name === name)) $("f-part").value = name;
  if (chosen("part")) await choosePart(); else await Promise.all([loadTools(), loadMachine()]);
  await go(view);
  document.body.dataset.ready = "yes";
  setTimeout(watch, EVERY);
}

start().catch(fault => { if (!$("note").textContent) note(fault.message, true); });
