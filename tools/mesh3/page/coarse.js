// A coarse copy of what is seen, for motion: of the points in a cube of a grid one stands for all, and a triangle stays
// where three cubes have its corners, once for all that come together. Its corners are numbers of cubes.

const MOST_CUBES = 160; // along the cloud's extent

class Coarse {
  constructor(world) {
    this.world = world;
    this.side = 48; // cubes along the cloud's extent: what served last
    this.gathered = 0;
  }

  // For each point its cube, and for each cube the place of the point that stands for it, the nearest to their mean.
  gather(side) {
    if (this.gathered === side) return;
    const {places: p, n} = this.world, cubes = new Int32Array(side ** 3), of = new Int32Array(n);
    const along = v => Math.min(side - 1, Math.floor((v + 1) * side / 2));
    let count = 0;
    for (let i = 0; i < n; i++) {
      const cube = (along(p[3 * i]) * side + along(p[3 * i + 1])) * side + along(p[3 * i + 2]);
      of[i] = (cubes[cube] = cubes[cube] || ++count) - 1;
    }
    const means = new Float64Array(4 * count), nearest = new Float64Array(count).fill(Infinity);
    for (let i = 0; i < n; i++) {
      const at = 4 * of[i];
      for (let axis = 0; axis < 3; axis++) means[at + axis] += p[3 * i + axis];
      means[at + 3]++;
    }
    this.places = new Float32Array(3 * count);
    for (let i = 0; i < n; i++) {
      const cube = of[i], at = 4 * cube, many = means[at + 3];
      let away = 0;
      for (let axis = 0; axis < 3; axis++) away += (p[3 * i + axis] - means[at + axis] / many) ** 2;
      if (away < nearest[cube]) { nearest[cube] = away; this.places.set(p.subarray(3 * i, 3 * i + 3), 3 * cube); }
    }
    this.cube = of;
    this.gathered = side;
  }

  // What is left of the triangles with so many cubes: ascending corners, how many there are, and of those that came
  // together how many more are at tetrahedra than loose, and how many more look along their order than against it; or
  // null for more than `most`.
  left(seen, side, most) {
    this.gather(side);
    const size = 2 ** Math.ceil(Math.log2(2 * most + 2)), slots = new Int32Array(size), {cube} = this;
    const corners = new Int32Array(3 * most), votes = new Int32Array(most), sides = new Int32Array(most);
    const {corners: all} = seen;
    let count = 0;
    const put = (first, end, vote) => {
      for (let c = first; c < end; c += 3) {
        const u = cube[all[c]], v = cube[all[c + 1]], w = cube[all[c + 2]];
        if (u === v || v === w || w === u) continue;
        const i = Math.min(u, v, w), k = Math.max(u, v, w), j = u + v + w - i - k;
        let slot = (Math.imul(i, 73856093) ^ Math.imul(j, 19349663) ^ Math.imul(k, 83492791)) & (size - 1);
        for (; slots[slot]; slot = (slot + 1) & (size - 1)) {
          const at = 3 * (slots[slot] - 1);
          if (corners[at] === i && corners[at + 1] === j && corners[at + 2] === k) break;
        }
        if (!slots[slot]) {
          if (count === most) return false;
          corners[3 * count] = i;
          corners[3 * count + 1] = j;
          corners[3 * count + 2] = k;
          slots[slot] = ++count;
        }
        votes[slots[slot] - 1] += vote;
        if (vote > 0) sides[slots[slot] - 1] += (u === i ? v === j : u === j ? v === k : v === i) ? 1 : -1;
      }
      return true;
    };
    const loose = all.length - 3 * seen.loose;
    return put(0, 3 * seen.solid, 1) && put(loose, all.length, -1) ? {corners, votes, sides, count} : null;
  }

  // About `most` triangles that look like all: the corners of those at tetrahedra, turned as these are, and of loose
  // ones. Where as many look to one side as to the other, there is one for each.
  of(seen, most) {
    let found = null, side = this.side, high = MOST_CUBES + 1; // with so many there are too many triangles
    for (let tries = 0; tries < 5; tries++) {
      const now = this.left(seen, side, Math.round(1.5 * most));
      if (now) [found, this.side] = [now, side]; else high = side;
      if (now && (now.count > most / 2 || side + 1 === high)) break;
      const between = (this.side + high) >> 1;
      if (!found) side = Math.max(2, side >> 1);
      else side = now ? Math.min(between, Math.ceil(side * Math.sqrt(most / (now.count + 1)))) : between;
      if (found && side <= this.side) break;
    }
    this.gather(this.side);
    return found ? this.parted(found) : [new Uint16Array(0), new Uint16Array(0)];
  }

  // The triangles by their first corners, so that those that lie together stand together.
  ordered(corners, count) {
    const starts = new Int32Array(this.places.length / 3 + 1), order = new Int32Array(count);
    for (let f = 0; f < count; f++) starts[corners[3 * f] + 1]++;
    for (let i = 1; i < starts.length; i++) starts[i] += starts[i - 1];
    for (let f = 0; f < count; f++) order[starts[corners[3 * f]]++] = f;
    return order;
  }

  // The two lists of corners; in short numbers where there are few cubes.
  parted({corners, votes, sides, count}) {
    const Kind = this.places.length / 3 > 65536 ? Uint32Array : Uint16Array;
    const parts = [new Kind(6 * count), new Kind(3 * count)], ends = [0, 0];
    const put = (part, i, j, k) => {
      const to = ends[part];
      parts[part][to] = i;
      parts[part][to + 1] = j;
      parts[part][to + 2] = k;
      ends[part] += 3;
    };
    for (const f of this.ordered(corners, count)) {
      const i = corners[3 * f], j = corners[3 * f + 1], k = corners[3 * f + 2];
      if (votes[f] < 0) { put(1, i, j, k); continue; }
      if (sides[f] >= 0 || !told.turned) put(0, i, j, k);
      if (sides[f] <= 0 && told.turned) put(0, i, k, j);
    }
    return parts.map((part, at) => part.subarray(0, ends[at]));
  }
}
