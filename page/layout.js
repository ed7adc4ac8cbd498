// Where the vertices of a drawing stand, in a square from 0 to 1.

// Boards of up to three sizes stand on their squares, simplexes of three entries in their triangle, other graphs of
// generators on a circle; all else is laid out by forces where it is small.
export function placesOf(id, { names, starts, tips, coordinates }) {
  const n = names.length;
  const entries = names[0]?.split(".").length ?? 0;
  if (id.startsWith("board(") && entries <= 3 && coordinates.length >= entries) {
    return fitted(names.map((_, v) => square(coordinates.slice(0, entries).map((of) => of[v]))));
  }
  if (id.startsWith("simplex(") && entries === 3) {
    return fitted(names.map((name) => corner(name.split(".").map(Number))));
  }
  const round = circle(n);
  return /^(board|simplex|subsets)\(/.test(id) || n > 400 ? fitted(round) : fitted(byForces(round, starts, tips));
}

// rows downward and columns to the right, as a chessboard is drawn; a third size slants away
function square([row, column, layer = 0]) {
  return column === undefined ? [row, 0] : [column + 0.37 * layer, row + 0.23 * layer];
}

function corner([a, b, c]) {
  return [c - a, -Math.sqrt(3) * b];
}

function circle(n) {
  return Array.from({ length: n }, (_, v) => [Math.sin((2 * Math.PI * v) / n), -Math.cos((2 * Math.PI * v) / n)]);
}

// Vertices push one another away, and arcs pull: after Fruchterman and Reingold, from the circle, so always the same.
function byForces(begun, starts, tips) {
  const n = begun.length;
  const places = begun.map(([x, y], v) => [x + 1e-3 * Math.sin(7 * v), y + 1e-3 * Math.cos(11 * v)]);
  const wide = 2 / Math.sqrt(n || 1);
  for (let turn = 0; turn < 200; turn++) {
    const moves = places.map(() => [0, 0]);
    const add = (v, u, force) => {
      const [dx, dy] = [places[v][0] - places[u][0], places[v][1] - places[u][1]];
      const far = Math.hypot(dx, dy) || 1e-9;
      moves[v][0] += (dx / far) * force(far);
      moves[v][1] += (dy / far) * force(far);
      moves[u][0] -= (dx / far) * force(far);
      moves[u][1] -= (dy / far) * force(far);
    };
    for (let v = 0; v < n; v++) {
      for (let u = 0; u < v; u++) {
        add(v, u, (far) => (wide * wide) / far);
      }
      for (let k = starts[v]; k < starts[v + 1]; k++) {
        if (tips[k] !== v) {
          add(v, tips[k], (far) => (-far * far) / wide / 2);
        }
      }
    }
    const most = 0.1 * (1 - turn / 200);
    places.forEach((place, v) => {
      const far = Math.hypot(...moves[v]) || 1e-9;
      place[0] += (moves[v][0] / far) * Math.min(far, most);
      place[1] += (moves[v][1] / far) * Math.min(far, most);
    });
  }
  return places;
}

// The same picture, as large as the square holds with a margin.
function fitted(places) {
  const spans = [0, 1].map((axis) => {
    const all = places.map((place) => place[axis]).sort((a, b) => a - b);
    const [low, high] = [all.at(0), all.at(-1)];
    return { middle: (low + high) / 2, wide: high - low };
  });
  const scale = 0.84 / (Math.max(...spans.map(({ wide }) => wide)) || 1);
  return places.map((place) => place.map((at, axis) => 0.5 + (at - spans[axis].middle) * scale));
}
