// What all views use to make the page: text always goes in as text.
export const $ = id => document.getElementById(id);

export function el(name, at = {}, ...kids) {
  const made = document.createElement(name);
  for (const key in at) {
    if (key in made && key !== "list") made[key] = at[key];
    else made.setAttribute(key, at[key]);
  }
  made.append(...kids);
  return made;
}

export const button = (text, onclick, at = {}) => el("button", { type: "button", textContent: text, onclick, ...at });

export function say(box, lines, kind = "") {
  box.replaceChildren(...lines.map(text => el("p", { className: kind, textContent: text })));
}

export const busy = () => el("span", { className: "busy", role: "img", ariaLabel: "working" });

// Offers a text for storing in the user's own downloads.
export function download(name, text, type) {
  const link = el("a", { download: name, href: URL.createObjectURL(new Blob([text], { type })) });
  link.click();
  setTimeout(() => URL.revokeObjectURL(link.href), 5000);
}

// A line above all views, with buttons; without a text it goes.
export function note(text, isBad = false, ...buttons) {
  const box = $("note");
  box.hidden = !text;
  box.className = isBad ? "bad" : "";
  box.replaceChildren(el("span", { textContent: text || "" }), ...buttons);
}

export const told = text => note(text, false, button("Good", () => note()));

// Asks for one line in the page's own dialog; null where it is cancelled.
export function ask(title, label, value) {
  const dialog = $("ask"), field = $("ask-value");
  $("ask-title").textContent = title;
  $("ask-label").textContent = label;
  field.value = value;
  dialog.returnValue = "";
  dialog.showModal();
  field.select();
  return new Promise(done => {
    dialog.onclose = () => done(dialog.returnValue === "yes" ? field.value.trim() : null);
  });
}

// Who wants to know of a change says so by its name.
const listeners = {};
export const on = (what, work) => { (listeners[what] ||= []).push(work); };
export const tell = (what, ...more) => { for (const work of listeners[what] || []) work(...more); };
