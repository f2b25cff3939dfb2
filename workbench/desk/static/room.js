// 'Make room': edits by which each flange leaves room for its neighbours' bends and ends with its side. The half
// deduction is taken from the blank that the program printed last; whether the part is right then, it says itself.
import { faces, part, wrongPlace } from "./part.js";

const BEFORE = { N: "W", E: "N", S: "E", W: "S" }, BEHIND = { N: "E", E: "S", S: "W", W: "N" };

function isCorner() {
  const wrong = wrongPlace();
  if (!wrong || !wrong.faces.length || !part.blank?.bends.length) return false;
  return wrong.key === "at" || wrong.key === null && !!part.answer.words.at(-1)?.includes("past the end");
}

// What the first flange of the last good blank has lost of its length at each of its bends.
function halfDeduction() {
  const { bends, faces: cores, of } = part.blank, bend = bends[0], core = cores[bend.n].r;
  const flange = of.find(face => face.name === cores[bend.n].name);
  if (!flange) return null;
  const across = bend.a[1] === bend.b[1] ? core[3] - core[1] : core[2] - core[0];
  const count = 1 + of.some(face => face.on === flange.name && face.side === "N");
  return Math.floor((flange.length - across) / count);
}

function roomOf(face, all, need) {
  const on = all.findIndex(one => one.name === face.on), parent = all[on];
  const sides = new Set(all.filter(one => one.on === face.on).map(one => one.side));
  if (on > 0) sides.add("S");
  const whole = parent["NS".includes(face.side) ? "width" : "length"];
  const at = sides.has(BEFORE[face.side]) ? Math.max(face.at, need) : face.at;
  const end = Math.min(face.at + face.width, whole - (sides.has(BEHIND[face.side]) ? need : 0));
  return { at, width: end - at };
}

export function roomEdits() {
  const half = isCorner() ? halfDeduction() : null;
  if (half === null) return [];
  const all = faces().map(face => ({ ...face })), need = Math.ceil(half / 100) * 100, edits = [];
  for (const [number, face] of all.entries()) {
    if (number === 0 || !all.some(one => one.name === face.on)) continue;
    const room = roomOf(face, all, need);
    if (room.width <= 0) return [];
    for (const [key, value] of Object.entries(room)) {
      if (face[key] !== value) edits.push({ op: "set", path: ["face", number, key], value });
      face[key] = value;
    }
  }
  return edits;
}
