// Which x a place has: steps are equally wide, or wide if something that is drawn begins or ends
// there and narrow otherwise, so that a long schedule fits.

const NARROW = 3, LEAST_WIDE = 25, MOST_WIDE = 104;
let axes = 0;
// `column`: how wide a step is, or a wide one; `edges`: the x of each place, unless all are equal
export class Axis {
  constructor(column, edges = null) {
    Object.assign(this, { column, edges, key: edges ? `elastic ${axes++}` : String(column) });
  }
  // `wide` says of each step whether it is wide; `room` is how wide all may be, if they can
  static elastic(wide, room, column = 0) {
    const count = wide.filter(Boolean).length, free = room - (wide.length - count) * NARROW;
    const even = Math.floor(free / Math.max(1, count));
    const most = column || Math.max(LEAST_WIDE, Math.min(MOST_WIDE, even)), edges = [0];
    for (const it of wide) edges.push(edges.at(-1) + (it ? most : NARROW));
    return new Axis(most, edges);
  }
  get isElastic() { return Boolean(this.edges); }
  isSame(other) {
    return Boolean(other) && this.column === other.column
      && String(this.edges) === String(other.edges);
  }
  left(place) {
    const { edges, column } = this, last = edges ? edges.length - 1 : 0;
    if (!edges || place <= 0) return place * column;
    if (place >= last) return edges[last] + (place - last) * column;
    const whole = Math.floor(place);
    return edges[whole] + (place - whole) * (edges[whole + 1] - edges[whole]);
  }
  width(step) { return this.left(step + 1) - this.left(step); }
  // the place at an x, which may be within a step
  place(x) {
    const { edges, column } = this, last = edges ? edges.length - 1 : 0;
    if (!edges || x <= 0) return x / column;
    if (x >= edges[last]) return last + (x - edges[last]) / column;
    let from = 0, to = last;
    while (to - from > 1) {
      const half = (from + to) >> 1;
      if (edges[half] <= x) from = half;
      else to = half;
    }
    return from + (x - edges[from]) / (edges[from + 1] - edges[from]);
  }
}
