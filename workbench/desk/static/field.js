// A field of a file: a length in millimetres or a word. What is wrong with it stands in `part.bad` by its path.
import { el, tell } from "./dom.js";
import { mm, toUm } from "./mm.js";
import { edit, part } from "./part.js";

const STEPS = { ArrowUp: 1, ArrowDown: -1 };
const stepOf = event => (event.shiftKey ? 100 : event.ctrlKey ? 10000 : 1000);
const shown = (value, isLength) => (isLength && typeof value === "number" ? mm(value) : String(value ?? ""));

export function field(value, path, isLength, label) {
  const key = path.join(".");
  const made = el("input", {
    value: part.bad[key]?.text ?? shown(value, isLength), autocomplete: "off", spellcheck: false,
    inputMode: isLength ? "decimal" : "text", ariaLabel: label,
  });
  made.dataset.path = key;
  made.defaultValue = made.value;
  const read = () => (isLength ? toUm(made.value) : made.value.trim());
  if (isLength) made.addEventListener("keydown", event => step(event, made, read));
  // The blank follows what is typed; what isn't a length yet is told when the field is left.
  let timer = 0;
  made.addEventListener("input", () => {
    clearTimeout(timer);
    timer = setTimeout(() => put(key, path, read()), 60);
  });
  made.addEventListener("change", () => {
    clearTimeout(timer);
    leave(made, key, path, read(), label);
  });
  return made;
}

// Takes over the state of a newer field of the same path, but not its text where another is being typed.
export function syncField(old, made) {
  const isTyped = old.value !== old.defaultValue;
  old.className = made.className;
  old.ariaLabel = made.ariaLabel;
  old.defaultValue = made.defaultValue;
  if (!isTyped) old.value = made.defaultValue;
}

function step(event, made, read) {
  const by = STEPS[event.key], now = read();
  if (!by || now === null) return;
  event.preventDefault();
  made.value = mm(Math.max(0, now + by * stepOf(event)));
  made.dispatchEvent(new Event("input"));
}

function put(key, path, now) {
  if (now === null || now === "" || now === current(path)) return;
  delete part.bad[key];
  edit([{ op: "set", path, value: now }], { merge: key });
}

function leave(made, key, path, now, label) {
  delete part.bad[key];
  if (now === null) {
    part.bad[key] = { text: made.value, words: `${label}: a length in mm, of at most three decimals, as 12.5` };
    tell("part", {});
    return;
  }
  made.value = made.defaultValue = shown(now, typeof now === "number");
  if (now !== current(path)) {
    edit([{ op: "set", path, value: now }], { merge: key });
  } else tell("part", {});
}

const current = path => path.reduce((at, name) => at?.[name], part.data);
