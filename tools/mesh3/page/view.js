// How the scene is seen: its turn, place and size, the cut, what is shown; a link keeps all of it.

const COLOURS = {
  light: {back: [0.957, 0.965, 0.973], text: [0.11, 0.165, 0.21], solid: [0.32, 0.60, 0.84], loose: [0.90, 0.62, 0.0],
    cap: [0.98, 0.92, 0.74], outline: [0.06, 0.13, 0.19, 0.30], gone: [0.80, 0.28, 0.0, 1], came: [0.0, 0.45, 0.30, 1],
    hover: [0.05, 0.09, 0.12, 1]},
  dark: {back: [0.063, 0.082, 0.106], text: [0.85, 0.89, 0.92], solid: [0.34, 0.63, 0.88], loose: [0.92, 0.64, 0.06],
    cap: [0.90, 0.84, 0.64], outline: [0.02, 0.05, 0.08, 0.45], gone: [1.0, 0.50, 0.16, 1], came: [0.25, 0.86, 0.66, 1],
    hover: [1, 1, 1, 1]},
};

class View {
  constructor(world, axis) {
    this.world = world;
    this.axis = axis;
    this.theme = 'auto';
    this.reset();
    this.measure();
    this.stop = axis.kept(told.first);
    this.loose = told.loose;
    this.points = world.n > 20000 ? null : true; // null: those alone that nothing joins, so that faces are seen
    this.lines = null; // where few triangles are seen
    this.cutAxis = 2;
    this.cut = 1; // a share of the cloud's extent; 1 cuts nothing
    this.cutSide = 1; // 1 takes away what is high along the axis, -1 what is low
    this.frame = 0;
  }

  reset() { Object.assign(this, {az: told.view[0], el: told.view[1], zoom: 1, x: 0, y: 0}); }

  get isDark() {
    return this.theme === 'auto' ? matchMedia('(prefers-color-scheme: dark)').matches : this.theme === 'dark';
  }

  get colours() { return COLOURS[this.isDark ? 'dark' : 'light']; }

  // Columns of the matrix that turns the cloud to the eye: x to the right, y up, z to the eye.
  get turn() {
    const [ca, sa, ce, se] = [Math.cos(this.az), Math.sin(this.az), Math.cos(this.el), Math.sin(this.el)];
    return [-sa, -se * ca, ce * ca, ca, -se * sa, ce * sa, 0, ce, se];
  }

  // The place of the cut along its axis, in places for drawing.
  get cutPlace() {
    const {low, high} = this.world, share = this.cutSide > 0 ? this.cut : 1 - this.cut;
    return low[this.cutAxis] + share * (high[this.cutAxis] - low[this.cutAxis]);
  }

  // Cuts along an axis, from the side of the eye.
  cutAlong(axis, cut) {
    if (this.cut >= 1 || axis !== this.cutAxis) this.cutSide = this.turn[3 * axis + 2] < 0 ? -1 : 1;
    this.cutAxis = axis;
    this.cut = cut;
  }

  get plane() {
    if (this.cut >= 1) return null;
    const plane = [0, 0, 0, this.cutSide * this.cutPlace];
    plane[this.cutAxis] = this.cutSide;
    return plane;
  }

  // How far the cloud reaches to the sides and up in the first view.
  measure() {
    const t = this.turn, {places: p, n} = this.world, reach = [0.2, 0.2];
    for (let i = 0; i < 3 * n; i += 3) {
      const w = 1 - (t[2] * p[i] + t[5] * p[i + 1] + t[8] * p[i + 2]) / 4;
      for (const axis of [0, 1]) {
        const place = t[axis] * p[i] + t[3 + axis] * p[i + 1] + t[6 + axis] * p[i + 2];
        reach[axis] = Math.max(reach[axis], Math.abs(place) / w);
      }
    }
    this.reach = reach;
  }

  // Scales and offsets from places to the screen: the cloud fits into what the panel leaves.
  frameOf(wide, high, panel, head, beside = 0) {
    const free = Math.max(high - panel - head, high * 0.25);
    const size = 0.94 * Math.min((wide - beside) / this.reach[0], free / this.reach[1], 1.6 * free);
    return [size / wide, size / high, -beside / wide, (panel - head) / high];
  }

  get text() {
    const parts = [`a=${this.world.alphas[this.stop]}`,
      `v=${[this.az, this.el, this.zoom, this.x, this.y].map(v => +v.toFixed(4)).join(',')}`,
      `s=${(this.loose ? 'o' : '') + (this.points ? 'p' : this.points === null ? 'a' : '') +
        (this.lines ? 'e' : this.lines === null ? '' : 'n')}`];
    if (this.cut < 1) parts.push(`c=${'xyz'[this.cutAxis]},${+this.cut.toFixed(4)},${this.cutSide}`);
    if (this.theme !== 'auto') parts.push(`d=${this.theme}`);
    if (this.world.frames) parts.push(`f=${this.frame}`);
    return `#${parts.join('&')}`;
  }

  // Takes over what a link says; what it does not say, or says wrongly, stays.
  read(text) {
    const words = new URLSearchParams(text.replace(/^#/, ''));
    const number = (word, low, high) => {
      const value = word === null || word === '' ? NaN : Number(word);
      return value >= low && value <= high ? value : null;
    };
    const alpha = number(words.get('a'), 0, 2 ** 34);
    if (alpha !== null) this.stop = this.axis.kept(above(this.world.alphas, alpha) - 1);
    const values = (words.get('v') || '').split(',').map(word => number(word, -1000, 1000));
    if (values.length === 5 && !values.includes(null) && values[2] > 0) {
      [this.az, this.el, this.zoom, this.x, this.y] = values;
    }
    if (words.has('s')) {
      const shown = words.get('s');
      this.loose = shown.includes('o');
      this.points = shown.includes('p') ? true : shown.includes('a') ? null : false;
      this.lines = shown.includes('e') ? true : shown.includes('n') ? false : null;
    }
    const [axis, place, side] = (words.get('c') || ',,').split(',');
    if ('xyz'.includes(axis) && axis && number(place, 0, 1) !== null) {
      [this.cutAxis, this.cut, this.cutSide] = ['xyz'.indexOf(axis), +place, side === '-1' ? -1 : 1];
    }
    if (['dark', 'light'].includes(words.get('d'))) this.theme = words.get('d');
    const frame = number(words.get('f'), 0, (this.world.frames || [0]).length - 1);
    if (frame !== null) this.frame = Math.round(frame);
  }
}
