// The barcode: a line for each part, loop and void that lasts, from the radius at which it comes to where it goes.

class Bars {
  constructor(row, axis) {
    this.row = row;
    this.canvas = row.querySelector('canvas');
    this.axis = axis;
  }

  // The bars that there is room for, the longest of each kind, by kind and birth: {kind, from, to, y, high}.
  get rows() {
    const high = this.canvas.clientHeight, room = Math.floor(high / 3), each = Math.max(1, Math.floor(room / 3));
    const kept = [0, 1, 2].flatMap(kind => told.bars.filter(bar => bar[0] === kind).slice(0, each)
      .sort((a, b) => a[1] - b[1] || a[2] - b[2]));
    const tall = Math.min(8, high / Math.max(1, kept.length));
    return kept.map(([kind, from, to], i) => ({kind, from, to, y: i * tall, high: Math.max(1.4, tall - 1.2)}));
  }

  trace() {
    const {canvas, axis} = this, dense = devicePixelRatio || 1;
    if (this.row.hidden) return;
    canvas.width = Math.max(1, Math.round(canvas.clientWidth * dense));
    canvas.height = Math.max(1, Math.round(canvas.clientHeight * dense));
    const pen = canvas.getContext('2d'), wide = canvas.width - 2 * THUMB * dense;
    const colours = NAMES.map(name => getComputedStyle($(`row-${name}`)).color);
    for (const {kind, from, to, y, high} of this.rows) {
      const [start, end] = [from, to].map(stop => stop >= axis.world.stops ? 1 : axis.placeOf(stop));
      pen.fillStyle = colours[kind];
      pen.fillRect(THUMB * dense + start * wide, y * dense, Math.max(dense, (end - start) * wide), high * dense);
    }
  }

  // What the bar at a height tells, or nothing.
  toldAt(y) {
    const row = this.rows.find(bar => y >= bar.y && y < bar.y + bar.high + 1.2), {world} = this.axis;
    if (!row) return '';
    const end = row.to >= world.stops ? 'for ever' : `to ${this.axis.lengthOf(row.to)}`;
    return `${NAMES[row.kind].slice(0, -1)} from ${this.axis.lengthOf(row.from)} ${end}`;
  }
}
