// What the page was given, unpacked: points, faces with their stops, and the numbers at every stop.

const told = JSON.parse(document.getElementById('told-data').textContent);
const $ = id => document.getElementById(id);

// The bytes of the packed columns: base 64, then deflate, which the browser undoes.
async function bytesOf(text) {
  const plain = atob(text.trim()), packed = new Uint8Array(plain.length);
  for (let i = 0; i < plain.length; i++) packed[i] = plain.charCodeAt(i);
  const stream = new Blob([packed]).stream().pipeThrough(new DecompressionStream('deflate'));
  return new Uint8Array(await new Response(stream).arrayBuffer());
}

// A column of whole numbers: planes of bytes, the low ones first; `steps` adds each to the one before, `signed` undoes
// the folding of numbers below 0; of `wide` ones some have more than 31 bits.
function columnOf(bytes, of) {
  const {at, count, planes, steps, signed, wide} = of;
  const values = wide || planes > 3 ? new Float64Array(count) : new Int32Array(count);
  for (let plane = planes - 1; plane >= 0; plane--) {
    const start = at + plane * count;
    for (let i = 0; i < count; i++) values[i] = values[i] * 256 + bytes[start + i];
  }
  if (signed) for (let i = 0; i < count; i++) values[i] = values[i] % 2 ? -(values[i] + 1) / 2 : values[i] / 2;
  if (steps) for (let i = 1; i < count; i++) values[i] += values[i - 1];
  return values;
}

// Sums from the first on, so that increments become values.
function summed(increments, first = 0) {
  const values = new Int32Array(increments.length);
  let sum = first;
  for (let i = 0; i < values.length; i++) values[i] = sum += increments[i];
  return values;
}

// The first place in an ascending list whose value is above `most`.
function above(list, most) {
  let low = 0, high = list.length;
  while (low < high) {
    const middle = (low + high) >> 1;
    if (list[middle] <= most) low = middle + 1; else high = middle;
  }
  return low;
}

class World {
  constructor(bytes) {
    const column = name => told.columns[name] ? columnOf(bytes, told.columns[name]) : null;
    this.n = told.columns.x.count;
    this.stops = told.columns.alphas.count;
    this.alphas = column('alphas');
    this.whole = ['x', 'y', 'z'].map(column);
    this.radii = Float64Array.from(this.alphas, alpha => Math.sqrt(alpha / 16) * told.unit);
    this.triangles = this.faces('triangle', column, 3);
    this.edges = this.faces('edge', column, 2);
    this.placePoints();
    this.increments = ['parts', 'loops', 'voids', 'cells'].map(column);
    this.frames = told.frames ? this.readFrames(column) : null;
    this.frame = 0;
    this.sumNumbers();
  }

  // Faces by their stops; corners come as differences, of triangles with a bit that tells how they are turned.
  faces(name, column, width) {
    const stop = column(`${name}_stop`), count = stop.length, some = column(`${name}_some`);
    const every = column(`${name}_all`), corners = new Uint32Array(width * count), last = column(`${name}_k`);
    const first = column(`${name}_i`), second = column(`${name}_j`);
    for (let f = 0; f < count; f++) {
      const i = first[f], j = i + second[f];
      corners[width * f] = i;
      corners[width * f + 1] = j;
      if (width === 3) {
        const k = j + (last[f] >> 1);
        corners[3 * f + 1] = last[f] & 1 ? k : j;
        corners[3 * f + 2] = last[f] & 1 ? j : k;
      }
      if (some) some[f] += stop[f];
      every[f] += some ? some[f] : stop[f];
    }
    return {count, stop, some, all: every, corners, born: column(`${name}_born`), died: column(`${name}_died`)};
  }

  // Places for drawing: the middle of the cloud comes to 0, and the farthest point to a distance of 1.
  placePoints() {
    const low = [0, 0, 0], high = [0, 0, 0];
    for (let axis = 0; axis < 3; axis++) {
      let least = Infinity, most = -Infinity;
      for (const v of this.whole[axis]) { if (v < least) least = v; if (v > most) most = v; }
      low[axis] = least;
      high[axis] = most;
    }
    this.middle = low.map((v, axis) => (v + high[axis]) / 2);
    let far = 1e-9;
    const [x, y, z] = this.whole, [mx, my, mz] = this.middle;
    for (let i = 0; i < this.n; i++) far = Math.max(far, (x[i] - mx) ** 2 + (y[i] - my) ** 2 + (z[i] - mz) ** 2);
    this.half = Math.sqrt(far);
    this.low = low.map((v, axis) => (v - this.middle[axis]) / this.half);
    this.high = high.map((v, axis) => (v - this.middle[axis]) / this.half);
    this.places = new Float32Array(3 * this.n);
    for (let i = 0; i < this.n; i++) {
      this.places[3 * i] = (x[i] - mx) / this.half;
      this.places[3 * i + 1] = (y[i] - my) / this.half;
      this.places[3 * i + 2] = (z[i] - mz) / this.half;
    }
  }

  // A coordinate in the units of the scan, of a place for drawing.
  inUnits(place, axis) { return (place * this.half + this.middle[axis]) * told.unit + told.origin[axis]; }

  // The point's coordinates in the units of the scan.
  coordinates(i) { return this.whole.map((of, axis) => of[i] * told.unit + told.origin[axis]); }

  isThere(faces, f) { return !faces.born || (faces.born[f] <= this.frame && this.frame < faces.died[f]); }

  // Frames of edits: what changes of the increments with each, and the tetrahedra that go and come.
  readFrames(column) {
    const stop = column('change_stop'), values = ['parts', 'loops', 'voids', 'cells'].map(n => column(`change_${n}`));
    const cells = column('moved_cells');
    let change = 0, cell = 0;
    return told.frames.map(frame => {
      const from = change, first = cell;
      change += frame.changes;
      cell += 4 * (frame.gone + frame.came);
      return {...frame, stop: stop.subarray(from, change), values: values.map(v => v.subarray(from, change)),
        goneCells: cells.subarray(first, first + 4 * frame.gone),
        cameCells: cells.subarray(first + 4 * frame.gone, cell)};
    });
  }

  // Goes to a frame, by what changes between the two.
  goTo(frame) {
    if (!this.frames || frame === this.frame) return;
    const way = frame > this.frame ? 1 : -1;
    while (this.frame !== frame) {
      const {stop, values} = this.frames[way > 0 ? this.frame + 1 : this.frame];
      for (let k = 0; k < 4; k++) {
        for (let i = 0; i < stop.length; i++) this.increments[k][stop[i]] += way * values[k][i];
      }
      this.frame += way;
    }
    this.sumNumbers();
  }

  sumNumbers() {
    this.numbers = this.increments[0] ? this.increments.slice(0, 3).map(of => summed(of)) : null;
    this.cells = this.increments[3] ? summed(this.increments[3]) : null;
    this.joined = this.joinPoints();
  }

  // For each point the stop at which its first edge comes in; -1 for a point that no edge has, which is not there.
  joinPoints() {
    const joined = new Float32Array(this.n).fill(this.stops);
    const note = (faces, width) => {
      for (let f = faces.count - 1; f >= 0; f--) {
        if (!this.isThere(faces, f)) continue;
        for (let c = width * f; c < width * f + width; c++) joined[faces.corners[c]] = faces.stop[f];
      }
    };
    note(this.triangles, 3);
    const byTriangles = joined.slice();
    note(this.edges, 2);
    for (let i = 0; i < this.n; i++) {
      joined[i] = Math.min(joined[i], byTriangles[i]);
      if (told.frames && joined[i] === this.stops) joined[i] = -1;
    }
    return joined;
  }
}

// The faces that are seen at a stop, as lists for drawing: triangles at tetrahedra in front, loose ones from the back.
class Seen {
  constructor(world) {
    this.world = world;
    this.corners = new Uint32Array(3 * world.triangles.count);
    this.face = new Uint32Array(world.triangles.count);
    this.ends = new Uint32Array(2 * world.edges.count);
    this.sums = new Float32Array(3 * world.n);
    this.areas = new Float32Array(world.n); // at each point
    this.normals = new Int8Array(4 * world.n);
    this.solid = this.loose = this.lines = 0;
  }

  at(stop) {
    const {triangles: t, edges: e} = this.world, corners = this.corners, last = 3 * t.count;
    const timed = t.born !== null;
    let front = 0, back = last;
    for (let f = 0, end = above(t.stop, stop); f < end; f++) {
      if (t.all[f] <= stop || (timed && !this.world.isThere(t, f))) continue;
      const to = t.some[f] <= stop ? front : back -= 3;
      if (to === front) front += 3;
      this.face[to / 3] = f;
      corners[to] = t.corners[3 * f];
      corners[to + 1] = t.corners[3 * f + 1];
      corners[to + 2] = t.corners[3 * f + 2];
    }
    this.solid = front / 3;
    this.loose = (last - back) / 3;
    this.lines = 0;
    for (let f = 0, end = above(e.stop, stop); f < end; f++) {
      if (e.all[f] <= stop || (timed && !this.world.isThere(e, f))) continue;
      this.ends[2 * this.lines] = e.corners[2 * f];
      this.ends[2 * this.lines++ + 1] = e.corners[2 * f + 1];
    }
  }

  get solidCorners() { return this.corners.subarray(0, 3 * this.solid); }
  get looseCorners() { return this.corners.subarray(this.corners.length - 3 * this.loose); }

  // At each point the mean of the normals of the triangles at tetrahedra, by their areas: the shorter the more these
  // differ, so that creases stay sharp.
  findNormals() {
    const {sums, areas, normals, corners} = this, p = this.world.places;
    sums.fill(0);
    areas.fill(0);
    for (let c = 0, end = 3 * this.solid; c < end; c += 3) {
      const u = corners[c], v = corners[c + 1], w = corners[c + 2], i = 3 * u, j = 3 * v, k = 3 * w;
      const ax = p[j] - p[i], ay = p[j + 1] - p[i + 1], az = p[j + 2] - p[i + 2];
      const bx = p[k] - p[i], by = p[k + 1] - p[i + 1], bz = p[k + 2] - p[i + 2];
      const x = ay * bz - az * by, y = az * bx - ax * bz, z = ax * by - ay * bx;
      const area = Math.sqrt(x * x + y * y + z * z);
      areas[u] += area; areas[v] += area; areas[w] += area;
      sums[i] += x; sums[i + 1] += y; sums[i + 2] += z;
      sums[j] += x; sums[j + 1] += y; sums[j + 2] += z;
      sums[k] += x; sums[k + 1] += y; sums[k + 2] += z;
    }
    for (let i = 0; i < this.world.n; i++) {
      const scale = 127 / (areas[i] || 1);
      normals[4 * i] = sums[3 * i] * scale;
      normals[4 * i + 1] = sums[3 * i + 1] * scale;
      normals[4 * i + 2] = sums[3 * i + 2] * scale;
    }
    return normals;
  }

  // The sides of all triangles that are seen, as pairs of points.
  outlines(withLoose) {
    const parts = withLoose ? [this.solidCorners, this.looseCorners] : [this.solidCorners];
    const ends = new Uint32Array(2 * parts.reduce((sum, part) => sum + part.length, 0));
    let to = 0;
    for (const part of parts) {
      for (let c = 0; c < part.length; c += 3) {
        for (let side = 0; side < 3; side++) {
          ends[to++] = part[c + side];
          ends[to++] = part[c + (side + 1) % 3];
        }
      }
    }
    return ends;
  }
}
