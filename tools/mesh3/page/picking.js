// What is under the pointer: a point within a few pixels, or the nearest triangle along the ray from the eye.

class Picking {
  constructor(world, seen) {
    this.world = world;
    this.seen = seen;
  }

  // The ray through a place of the screen (-1 to 1 along each axis): the eye and a direction, in places for drawing.
  ray(view, frame, x, y) {
    const cx = (x - frame[2]) / (view.zoom * frame[0]) - view.x, cy = (y - frame[3]) / (view.zoom * frame[1]) - view.y;
    const t = view.turn, back = (a, b, c) => [0, 1, 2].map(i => t[3 * i] * a + t[3 * i + 1] * b + t[3 * i + 2] * c);
    return {eye: back(0, 0, 4), way: back(cx, cy, -4)};
  }

  // The nearest triangle that the ray meets on the side of the cut that is kept: {face, far} or null.
  triangle(ray, plane, withLoose) {
    const {world: {places: p}, seen} = this, {eye: [ex, ey, ez], way: [dx, dy, dz]} = ray, corners = seen.corners;
    let best = Infinity, at = -1;
    const part = (first, end) => {
      for (let c = first; c < end; c += 3) {
        const i = 3 * corners[c], j = 3 * corners[c + 1], k = 3 * corners[c + 2];
        const ax = p[j] - p[i], ay = p[j + 1] - p[i + 1], az = p[j + 2] - p[i + 2];
        const bx = p[k] - p[i], by = p[k + 1] - p[i + 1], bz = p[k + 2] - p[i + 2];
        const px = dy * bz - dz * by, py = dz * bx - dx * bz, pz = dx * by - dy * bx;
        const size = ax * px + ay * py + az * pz;
        if (size > -1e-14 && size < 1e-14) continue;
        const tx = ex - p[i], ty = ey - p[i + 1], tz = ez - p[i + 2], u = (tx * px + ty * py + tz * pz) / size;
        if (u < 0 || u > 1) continue;
        const qx = ty * az - tz * ay, qy = tz * ax - tx * az, qz = tx * ay - ty * ax;
        const v = (dx * qx + dy * qy + dz * qz) / size;
        if (v < 0 || u + v > 1) continue;
        const far = (bx * qx + by * qy + bz * qz) / size;
        if (far <= 0 || far >= best) continue;
        const place = plane ? plane[0] * (ex + far * dx) + plane[1] * (ey + far * dy) + plane[2] * (ez + far * dz) : 0;
        if (plane && place > plane[3]) continue;
        best = far;
        at = c;
      }
    };
    part(0, 3 * seen.solid);
    if (withLoose) part(corners.length - 3 * seen.loose, corners.length);
    return at < 0 ? null : {face: seen.face[at / 3], far: best};
  }

  // The point nearest to the eye within `reach` pixels of the place, not behind `far`: its number, or -1.
  point(view, frame, x, y, size, reach, far, plane) {
    const t = view.turn, {places: p, n, joined} = this.world;
    let best = -1, nearest = Infinity;
    for (let i = 0; i < n; i++) {
      if (joined[i] < 0) continue;
      const a = p[3 * i], b = p[3 * i + 1], c = p[3 * i + 2];
      if (plane && plane[0] * a + plane[1] * b + plane[2] * c > plane[3] + 1e-5) continue;
      const qz = t[2] * a + t[5] * b + t[8] * c, w = 1 - qz / 4;
      const sx = (t[0] * a + t[3] * b + t[6] * c + view.x * w) * view.zoom * frame[0] / w + frame[2];
      const sy = (t[1] * a + t[4] * b + t[7] * c + view.y * w) * view.zoom * frame[1] / w + frame[3];
      const away = Math.hypot((sx - x) * size[0], (sy - y) * size[1]) / 2;
      if (away > reach || 1 - qz / 4 > far + 0.01) continue;
      const order = away + 20 * w;
      if (order < nearest) { nearest = order; best = i; }
    }
    return best;
  }

  // When a point or triangle comes in, bounds a tetrahedron, and is inside, in words.
  told(of) {
    const {world} = this, t = world.triangles, {radii, stops} = world;
    const at = stop => stop >= stops ? 'never' : `from ${shortly(radii[stop], 5)}`;
    if (of.point !== undefined) {
      let some = stops, every = -1;
      for (let f = 0; f < t.count; f++) {
        const c = t.corners;
        if (c[3 * f] !== of.point && c[3 * f + 1] !== of.point && c[3 * f + 2] !== of.point) continue;
        if (!world.isThere(t, f)) continue;
        some = Math.min(some, t.some[f]);
        every = Math.max(every, t.all[f]);
      }
      const place = world.coordinates(of.point).map(v => shortly(v, 6)).join('  ');
      const name = told.frames ? 'point' : `point ${of.point}`;
      return `${name}: ${place}\njoined ${at(world.joined[of.point])}\nat a tetrahedron ${at(some)}\n` +
        `inside ${at(every < 0 ? stops : every)}`;
    }
    const f = of.face, corners = Array.from(t.corners.subarray(3 * f, 3 * f + 3)).sort((a, b) => a - b);
    const name = told.frames ? 'triangle' : `triangle ${corners.join(' ')}`;
    return `${name}\nin ${at(t.stop[f])}\nbounds a tetrahedron ${at(t.some[f])}\ninside ${at(t.all[f])}`;
  }
}
