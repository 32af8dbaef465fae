// The slider's way through the stops, and the curves over it.

// Places along the slider, 0 to 1: the points alone at 0, then radii by their logarithm, and all at 1. A few stops
// stand at equal distances.
class Axis {
  constructor(world, chosen) {
    this.world = world;
    this.chosen = chosen; // the stops that the page keeps faces for, or null for all
    this.isFew = world.stops <= 64;
    const [low, high] = told.axis, last = Math.max(world.radii[world.stops - 1], high * 1.0001);
    this.knots = [[0.02, Math.log(low)], [0.93, Math.log(high)], [1, Math.log(last)]];
  }

  placeOf(stop) {
    if (this.isFew) return this.world.stops > 1 ? stop / (this.world.stops - 1) : 1;
    if (stop === 0) return 0;
    return this.placeOfRadius(this.world.radii[stop]);
  }

  placeOfRadius(radius) {
    const [[u0, r0], [u1, r1], [u2, r2]] = this.knots, r = Math.log(radius);
    if (r <= r0) return u0;
    return Math.min(1, r <= r1 ? u0 + (u1 - u0) * (r - r0) / (r1 - r0) : u1 + (u2 - u1) * (r - r1) / (r2 - r1));
  }

  stopOf(place) {
    if (this.isFew) return Math.round(place * (this.world.stops - 1));
    const [[u0, r0], [u1, r1], [u2, r2]] = this.knots;
    if (place < u0) return this.kept(0);
    if (place >= 1) return this.kept(this.world.stops - 1);
    const r = place <= u1 ? r0 + (r1 - r0) * (place - u0) / (u1 - u0) : r1 + (r2 - r1) * (place - u1) / (u2 - u1);
    return this.kept(above(this.world.radii, Math.exp(r)) - 1);
  }

  // The stop itself, or where the page keeps some alone the last of them that is not behind it.
  kept(stop) {
    stop = Math.max(0, Math.min(this.world.stops - 1, stop));
    return this.chosen ? this.chosen[Math.max(0, above(this.chosen, stop) - 1)] : stop;
  }

  // The stop before or behind, of those that are kept.
  beside(stop, way) {
    if (!this.chosen) return this.kept(stop + way);
    const at = above(this.chosen, stop) - 1;
    return this.chosen[Math.max(0, Math.min(this.chosen.length - 1, at + way))];
  }

  // Round radii within the slider's range, with their places; two are at least `apart` from one another.
  ticks(apart) {
    if (this.isFew) {
      const {stops} = this.world;
      const every = Math.ceil(stops * apart), all = Array.from({length: stops}, (_, s) => s);
      return all.filter(s => s % every === 0).map(s => [this.placeOf(s), this.textOf(s)]);
    }
    const [low, high] = told.axis, all = [];
    for (let power = Math.floor(Math.log10(low)); power <= Math.ceil(Math.log10(high)); power++) {
      for (const digit of [1, 2, 3, 5, 7]) all.push(digit * 10 ** power);
    }
    const inside = all.filter(radius => radius >= low && radius <= high), kept = [];
    for (const radius of inside) {
      const place = this.placeOfRadius(radius);
      const last = kept.length ? kept[kept.length - 1][0] : 0;
      if (place - last > apart && 1 - place > 0.8 * apart) kept.push([place, shortly(radius)]);
    }
    return [[0, '0'], ...kept, [1, 'all']];
  }

  // A radius with its unit.
  lengthOf(stop) { return `${this.textOf(stop)}${told.length ? ` ${told.length}` : ''}`; }

  textOf(stop) { return stop && this.world.alphas[stop] >= 2 ** 34 ? 'all' : shortly(this.world.radii[stop]); }
}

// A number in few digits, without an exponent where that is short.
function shortly(value, digits = 3) {
  if (!value) return '0';
  const size = Math.floor(Math.log10(Math.abs(value)));
  if (size > 6 || size < -4) return value.toExponential(digits - 1);
  return value.toFixed(Math.max(0, digits - 1 - size)).replace(/(\.\d*?)0+$/, '$1').replace(/\.$/, '');
}

// How much of its width a slider leaves at its ends for half of its thumb, in pixels.
const THUMB = 8;

// One curve: a number at every stop over the slider's places, by its logarithm, and a mark.
class Curve {
  constructor(row, axis) {
    this.canvas = row.querySelector('canvas');
    this.row = row;
    this.axis = axis;
    this.kept = document.createElement('canvas');
  }

  // Draws the curve itself, for a size, a theme and a frame.
  trace(values) {
    const {canvas, kept, axis} = this, dense = devicePixelRatio || 1;
    this.values = values;
    kept.width = canvas.width = Math.max(1, Math.round(canvas.clientWidth * dense));
    kept.height = canvas.height = Math.max(1, Math.round(canvas.clientHeight * dense));
    const pen = kept.getContext('2d'), wide = kept.width - 2 * THUMB * dense, high = kept.height - 5 * dense;
    let most = 1;
    for (let s = 0; s < values.length; s++) if (values[s] > most) most = values[s];
    const y = value => kept.height - 2 * dense - high * Math.log1p(value) / Math.log1p(most);
    pen.beginPath();
    let last = axis.stopOf(0);
    pen.moveTo(THUMB * dense, y(values[last]));
    for (let x = 1; x <= wide; x++) {
      const stop = axis.stopOf(x / wide);
      if (stop === last) { pen.lineTo(x + THUMB * dense, y(values[last])); continue; }
      let low = Infinity, top = -Infinity;
      for (let s = last + 1; s <= stop; s++) {
        if (values[s] < low) low = values[s];
        if (values[s] > top) top = values[s];
      }
      for (const value of [values[last], low, top, values[stop]]) pen.lineTo(x + THUMB * dense, y(value));
      last = stop;
    }
    pen.strokeStyle = getComputedStyle(this.row).color;
    pen.lineWidth = 1.6 * dense;
    pen.lineJoin = 'round';
    pen.stroke();
    pen.lineTo(wide + THUMB * dense, kept.height);
    pen.lineTo(THUMB * dense, kept.height);
    pen.globalAlpha = 0.13;
    pen.fillStyle = pen.strokeStyle;
    pen.fill();
    this.scale(pen, y, most, dense);
  }

  // A tick at 1, 10, 100 and so on up to the greatest number, which is written.
  scale(pen, y, most, dense) {
    pen.fillStyle = getComputedStyle(document.body).color;
    pen.globalAlpha = 0.45;
    for (let value = 1; value <= most; value *= 10) pen.fillRect(0, y(value) - dense / 2, 5 * dense, dense);
    pen.font = `${10 * dense}px system-ui, sans-serif`;
    pen.textBaseline = 'top';
    pen.textAlign = 'right';
    pen.globalAlpha = 0.75;
    pen.fillText(most.toLocaleString('en'), this.kept.width - THUMB * dense, 0);
    pen.globalAlpha = 1;
  }

  mark(stop) {
    const {canvas, kept} = this, pen = canvas.getContext('2d'), dense = devicePixelRatio || 1;
    pen.clearRect(0, 0, canvas.width, canvas.height);
    pen.drawImage(kept, 0, 0);
    pen.fillStyle = getComputedStyle(document.body).color;
    const x = THUMB * dense + this.axis.placeOf(stop) * (canvas.width - 2 * THUMB * dense);
    pen.fillRect(x - 0.75 * dense, 0, 1.5 * dense, canvas.height);
    this.row.querySelector('output').textContent = this.values[stop].toLocaleString('en');
  }
}
