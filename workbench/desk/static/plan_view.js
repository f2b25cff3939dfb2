// The Plan view: the plan with its sheet, or what stands in the way and what to try.
import { endRun, readFile, run, storeFile } from "./api.js";
import { $, busy, button, download, el, note, on, say, tell, told } from "./dom.js";
import { base, chosen, folder, job, listFolder, mine } from "./files.js";
import { mm, seconds } from "./mm.js";
import { faces, isSaved, names, part, store } from "./part.js";
import { storeDxf } from "./part_view.js";
import { forgetStrokes, showStrokes, startStrokes } from "./strokes_3d.js";
import { strokesSheet, TURNS } from "./strokes_sheet.js";

export const plan = { answer: null, of: null, job: null, steps: [] };
let running = null, offers = {};
const NO_DRAWER = "The program that draws the setup sheet isn't built; this is the desk's own sheet of strokes.";

// ---- reading what was printed

// A line `step ..`; behind the flange's name, which may be any word, each word has its value.
export function readSteps(printed) {
  return printed.split("\n").filter(line => line.startsWith("step ")).map(line => {
    const words = line.split(" "), rest = words.slice(5), behind = word => rest[rest.indexOf(word) + 1];
    const mates = rest[0] === "with" ? rest.slice(1, rest.indexOf("back")) : [];
    return {
      bend: +words[3], with: mates.map(Number), back: behind("back"), stage: +behind("stage"), turn: behind("turn"),
      gauge: +behind("gauge"), cost: +behind("cost"),
    };
  });
}

export const leastOf = answer => (answer?.status === 0 ? +/\ntotal (\d+)/.exec(answer.out)[1] : null);

// ---- planning

async function goPlan() {
  if (!isSaved() && !await store()) return;
  const which = job();
  await during("plan", { ...which, keep: true }, answer => showAnswer(answer, which));
}

async function during(kind, body, work) {
  $("r-go").disabled = true;
  $("r-stop").hidden = false;
  $("r-state").replaceChildren(busy());
  try {
    const state = await run(kind, body, (now, id) => {
      running = id;
      if (!now.answer) $("r-state").replaceChildren(busy(), ` ${now.seconds.toFixed(1)} s`);
    });
    const isEnded = state.state === "cancelled";
    $("r-state").textContent = isEnded ? "cancelled: nothing was stored" : `${state.seconds.toFixed(1)} s`;
    if (!isEnded) await work(state.answer);
  } catch (fault) { $("r-state").textContent = fault.message; }
  $("r-go").disabled = false;
  $("r-stop").hidden = true;
  markOld();
}

function showAnswer(answer, which) {
  Object.assign(plan, { answer, of: part.saved, job: which, steps: answer.out ? readSteps(answer.out) : [] });
  forgetStrokes();
  if (answer.error || ![0, 1].includes(answer.status)) { showRefusal(answer); return; }
  $("r-result").replaceChildren(...(answer.status === 0 ? planCards(answer) : noPlanCards(answer)));
  showSheet(answer);
  tell("planned");
}

function showRefusal(answer) {
  const words = el("div", { className: "words" });
  say(words, [answer.error || answer.words?.at(-1) || answer.out || "the program gave no answer"]);
  $("r-result").replaceChildren(words);
  emptySheet("Refused: see at the left.");
}

function planCards(answer) {
  const all = names(), facts = [["blank", sizeOf(answer.out)], ["certificate", answer.cert || ""]];
  const strokes = plan.steps.map(step => {
    const mates = step.with.length ? ` with ${step.with.join(", ")}` : "";
    const kind = "num" + (faces()[step.bend]?.dir === "down" ? " down" : "");
    const ball = el("span", { className: kind, textContent: step.bend });
    const where = [TURNS[step.turn], `gauge ${mm(step.gauge)}`,
      `${step.back === "child" ? all[step.bend] : "the rest"} at the back`, `station ${step.stage}`];
    return el("li", {}, ball, el("b", { textContent: all[step.bend] + mates }),
      el("span", { textContent: seconds(step.cost) }), el("small", { textContent: where.join(", ") }));
  });
  const pairOf = ([key, value]) => [el("dt", { textContent: key }), el("dd", { textContent: value })];
  return [el("div", { className: "card" }, el("div", { className: "big", textContent: seconds(leastOf(answer)) }),
    el("div", { textContent: `${plan.steps.length} strokes; no other order costs less` }),
    el("dl", { className: "facts" }, ...facts.flatMap(pairOf)),
    el("ol", { className: "strokes" }, ...strokes)), proposeCard("Cheaper stations?")];
}

const sizeOf = printed => printed.split("\n")[1].split(" ").slice(1).map(mm).join(" × ") + " mm";

function noPlanCards(answer) {
  const tipOf = text => el("p", { className: "tip", textContent: text.replace(/; '?brake .*$/, "") });
  const why = answer.words.slice(-1).map(tipOf);
  const words = "With these stations no order of bends is possible; this is proved. The sheet shows in red what is in "
    + "the way.";
  return [el("div", { className: "card" }, el("div", { className: "big", textContent: "No plan" }),
    el("div", { textContent: words }),
    el("div", { className: "bar" }, button("Try my own order", () => tell("go", "order")))),
  el("div", { className: "words" }, ...why), proposeCard("Other stations")];
}

// ---- proposals of stations

function proposeCard(title) {
  const state = el("span", { className: "state", role: "status" }), list = el("div");
  const ask = button("Propose stations", () => propose(list, state), { disabled: !offers.propose });
  const words = offers.propose ? "Stations of the rack for this part, each planned; the cheapest is shown first."
    : "This brake has no command propose yet.";
  return el("div", { className: "card" }, el("div", { className: "bar" }, el("h2", { textContent: title }),
    el("span", { className: "gap" }), state, ask), el("p", { className: "hint", textContent: words }), list);
}

async function propose(list, state) {
  state.replaceChildren(busy());
  const follow = (now, id) => { running = id; };
  const ended = await run("propose", plan.job || job(), follow).catch(fault => ({ answer: { error: fault.message } }));
  const answer = ended.answer || { error: "cancelled" };
  state.textContent = "";
  if (answer.error || answer.status) {
    say(list, answer.error ? [answer.error] : [...answer.words, ...(answer.lines || [])].filter(line => line));
    return;
  }
  list.replaceChildren(...proposalRows(answer));
}

// The lines of `setups`: one for each setup of the list, then the cheapest one's plan.
function proposalRows(answer) {
  const best = +/\nbest (\d+)/.exec(answer.out)[1];
  const rows = answer.out.split("\n").filter(line => line.startsWith("try ")).map(line => {
    const [, number, name, cost] = line.split(" ");
    const words = line.split(" ").slice(3).join(" ");
    return { number: +number, name, cost: /^\d+$/.test(cost) ? +cost : null, words };
  });
  const first = row => [row.number === best ? 0 : 1, row.cost ?? Infinity];
  rows.sort((one, other) => first(one)[0] - first(other)[0] || first(one)[1] - first(other)[1]);
  return rows.map(row => el("div", { className: "try " + (row.cost === null ? "no" : "yes") },
    el("b", { textContent: row.name }), el("span", { textContent: row.cost === null ? row.words : seconds(row.cost) }),
    ...(row.number === best ? [el("small", { textContent: "the cheapest of these, with a certificate" }),
      button("Take it", () => takeStations(answer, row.name))] : [])));
}

// The stations are this part's, so they go to a machine file of its own; a rack with punches turned round likewise.
async function takeStations(answer, name) {
  const files = [["f-machine", "machine", answer.take], ["f-tools", "tools", answer.tools]]
    .filter(([, , text]) => text);
  const stored = [];
  try {
    for (const [list, kind, text] of files) {
      const own = chosen(kind).replace(/[^/]*$/, "") + `${base()}_${kind}.toml`;
      const old = folder.files.some(file => file.name === own) ? (await readFile(own)).tag : null;
      await storeFile(own, text, old);
      mine(own);
      stored.push([list, own]);
    }
  } catch (fault) { note(fault.message, true); return; }
  await listFolder();
  for (const [list, own] of stored) {
    $(list).value = own;
    $(list).dispatchEvent(new Event("change"));
  }
  told(`${name}: written to ${stored.map(([, own]) => own).join(" and ")}; the shared files stay as they are.`);
  await goPlan();
}

// ---- the sheet

export function emptySheet(text) {
  for (const id of ["sheet", "strokes", "r-bar"]) $(id).hidden = true;
  $("r-empty").hidden = false;
  $("r-empty").textContent = text;
}

async function showSheet(answer) {
  $("r-empty").hidden = true;
  $("r-bar").hidden = false;
  $("r-motion").disabled = answer.status !== 0;
  const frame = $("sheet");
  frame.onload = () => { if (answer.status === 1) showRed(frame.contentDocument); };
  frame.srcdoc = answer.sheet || await ownSheet(answer);
  showPage("sheet");
}

// The first heading of the sheet that has red pictures.
function showRed(page) {
  const heads = [...page.querySelectorAll("h2")];
  const find = words => heads.find(head => head.textContent.startsWith(words));
  (find("As far as") || find("No order"))?.scrollIntoView();
}

async function ownSheet(answer) {
  if (answer.status !== 0) return "<p>The program that draws the setup sheet isn't built: brake --build sheet";
  const state = await run("motion", plan.job), made = state.answer;
  if (!made || made.error) return "<p>No sheet could be drawn.";
  return strokesSheet({
    title: part.name, mark: `The plan of least cost. ${NO_DRAWER}`, strokes: made.strokes, names: made.names,
    total: leastOf(answer),
  });
}

function showPage(which) {
  for (const one of $("r-bar").querySelectorAll("[data-view]")) {
    one.setAttribute("aria-pressed", one.dataset.view === which);
  }
  $("sheet").hidden = which !== "sheet";
  $("strokes").hidden = which !== "strokes";
  if (which === "strokes") showStrokes(plan.job);
}

// ---- old plans

export function markOld() {
  const isOther = JSON.stringify(plan.job) !== JSON.stringify(job());
  const isOld = !!plan.answer && (part.text !== plan.of || isOther || plan.isOld);
  $("r-old").hidden = !isOld;
  $("page-plan").classList.toggle("old", isOld);
  $("r-go").textContent = isSaved() ? "Plan" : "Save and plan";
}

export function forgetPlan() {
  Object.assign(plan, { answer: null, of: null, job: null, steps: [], isOld: false });
  forgetStrokes();
  $("r-result").replaceChildren();
  $("r-state").textContent = "";
  emptySheet("The drawn setup sheet comes here.");
}

export function startPlan(offered) {
  offers = offered;
  $("r-go").onclick = goPlan;
  $("r-stop").onclick = () => running && endRun(running);
  $("r-print").onclick = () => $("sheet").contentWindow.print();
  $("r-html").onclick = () => download(base() + ".html", $("sheet").srcdoc, "text/html");
  $("r-cert").onclick = () => download(base() + ".cert", plan.answer.certtext, "text/plain");
  $("r-dxf").onclick = storeDxf;
  $("r-dxf").hidden = !offers.dxf;
  $("r-bar").onclick = event => event.target.dataset.view && showPage(event.target.dataset.view);
  on("part", markOld);
  on("changed", name => {
    if (!plan.job || !Object.values(plan.job).includes(name) || name === part.name) return;
    plan.isOld = true;
    markOld();
  });
  startStrokes();
  forgetPlan();
}

export const planView = { show: markOld };
