// Calls of the desk's server. The token comes with the address that the program prints, and is kept for this tab.
import { button, download, el, note } from "./dom.js";

const TOKEN = /^#[\w-]{32}$/;
let token = sessionStorage.getItem("desk") || "", isGone = false;
let textToCopy = () => "";

export function takeToken() {
  if (!TOKEN.test(location.hash)) return;
  token = location.hash.slice(1);
  sessionStorage.setItem("desk", token);
  history.replaceState(null, "", "/");
}

// Gives what is being edited, so that it can be saved where the server is gone.
export const keepText = work => { textToCopy = work; };
const saveMine = () => button("Save my text", () => download("part.toml", textToCopy(), "text/plain"));

function tellGone() {
  isGone = true;
  note("The desk's program isn't running any more. What you typed is still here, and the last draft is in .desk of "
    + "the folder: start brake desk again.", true, saveMine());
}

// A server that was started anew at the same port has another token: it is asked for once.
function askToken(words) {
  const field = el("input", { ariaLabel: "the address that the program printed", placeholder: "http://127.0.0.1:.." });
  const take = () => {
    const found = /#([\w-]{32})$/.exec(field.value.trim());
    if (!found) { field.classList.add("bad"); return; }
    token = found[1];
    sessionStorage.setItem("desk", token);
    note();
  };
  field.onkeydown = event => { if (event.key === "Enter") take(); };
  note(`${words}. Paste the address that it printed: what you typed is kept.`, true, field, button("Go on", take),
    saveMine());
}

export async function api(method, path, body) {
  let response;
  try {
    response = await fetch("/api/" + path, {
      method, headers: { "X-Desk": token, "Content-Type": "application/json" }, body: body && JSON.stringify(body),
    });
  } catch {
    tellGone();
    throw new Error("the desk's program isn't running");
  }
  if (isGone) { isGone = false; note(); }
  const answer = await response.json().catch(() => ({ error: "the desk gave no answer" }));
  if (response.status === 403) askToken(answer.error);
  if (!response.ok) throw Object.assign(new Error(answer.error), { status: response.status, answer });
  return answer;
}

export const get = (path, query = {}) => api("GET", path + "?" + new URLSearchParams(query));
export const post = (path, body) => api("POST", path, body);
export const readFile = name => get("file", { name });
export const storeFile = (name, text, tag) => api("PUT", "file", { name, text, tag });
export const dropDraft = name => api("DELETE", "draft", { name });
export const endRun = key => api("DELETE", "run/" + key, {});

const wait = time => new Promise(done => setTimeout(done, time));

// Begins a run and asks for it until it has ended; `each` is told how far it is.
export async function run(path, body, each = () => {}) {
  const { id } = await post(path, body);
  for (let pause = 40; ; pause = Math.min(1000, pause * 1.3)) {
    const state = await get("run/" + id);
    each(state, id);
    if (state.answer !== null || state.state === "cancelled") return state;
    await wait(pause);
  }
}
