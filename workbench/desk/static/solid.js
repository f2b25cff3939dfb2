// The folded part: the blank that the program printed, hinged at its bend lines. Right to |q - t|.
import { cross, dot, makeScene, Mesh, minus, unit } from "./gl.js";

const FLANGE = [.70, .76, .83], ROOT = [.80, .84, .89], PICKED = [1, .85, .5], BEND = [.62, .68, .75];
const PARTS = 6;

// Where the points beyond a bend come to lie, when it is folded by an angle, and its parent by `above`.
function hinge(bend, away, thick, above) {
  const sign = bend.up ? 1 : -1, level = bend.up ? 0 : -thick;
  return angle => {
    const c = Math.cos(angle), s = Math.sin(angle);
    return point => {
      const far = (point[0] - bend.a[0]) * away[0] + (point[1] - bend.a[1]) * away[1], high = point[2] - level;
      const out = far * c - sign * high * s - far, up = sign * far * s + high * c;
      return above([point[0] + away[0] * out, point[1] + away[1] * out, level + up]);
    };
  };
}

// The bend itself, as a fan about its inner line.
function putFan(mesh, bend, thick, turn, angle, colour) {
  const level = bend.up ? 0 : -thick, low = bend.up ? -thick : thick;
  const at = (map, end, z) => map([...end, level + z]);
  for (let k = 0; k < PARTS; k++) {
    const [from, to] = [turn(angle * k / PARTS), turn(angle * (k + 1) / PARTS)];
    const ring = [at(from, bend.a, low), at(from, bend.b, low), at(to, bend.b, low), at(to, bend.a, low)];
    const normal = unit(cross(minus(ring[1], ring[0]), minus(ring[3], ring[0])));
    const isOut = dot(normal, minus(ring[0], at(from, bend.a, 0))) > 0;
    mesh.put(ring, colour, isOut ? normal : normal.map(v => -v));
    const along = unit(minus(ring[1], ring[0]));
    mesh.put([at(from, bend.a, 0), ring[0], ring[3]], BEND, along.map(v => -v));
    mesh.put([at(from, bend.b, 0), ring[1], ring[2]], BEND, along);
  }
}

function meshOf(blank, thick, tree, angle, picked) {
  const mesh = new Mesh(), maps = blank.faces.map(() => point => point);
  blank.faces.forEach((face, number) => {
    const bend = blank.bends.find(one => one.n === number), isPicked = number === picked;
    if (bend) {
      const turn = hinge(bend, face.ey, thick, maps[tree[number]]);
      maps[number] = turn(angle);
      if (angle > .01) putFan(mesh, bend, thick, turn, angle, isPicked ? PICKED : BEND);
    }
    const [x0, y0, x1, y1] = face.r, colour = isPicked ? PICKED : number ? FLANGE : ROOT;
    mesh.box([x0, x1, y0, y1, -thick, 0], colour, maps[number]);
  });
  return mesh;
}

// show(blank, thickness, parents' numbers, angle of all bends in degrees, number of the picked face)
export function solid(canvas) {
  const scene = makeScene(canvas);
  return {
    show: (blank, thick, tree, degrees, picked) =>
      scene.show(meshOf(blank, thick, tree, degrees * Math.PI / 180, picked)),
    render: scene.render,
  };
}
