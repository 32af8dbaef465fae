// The page: what is asked for by slider, keys, pointer and link is shown, and said.

class Page {
  constructor(bytes) {
    this.world = new World(bytes);
    const chosen = told.columns.chosen ? columnOf(bytes, told.columns.chosen) : null;
    this.axis = new Axis(this.world, chosen);
    this.view = new View(this.world, this.axis);
    this.view.read(location.hash);
    this.seen = new Seen(this.world);
    this.coarse = new Coarse(this.world);
    this.scene = new Scene($('scene'), this.world);
    this.picking = new Picking(this.world, this.seen);
    this.curves = this.world.numbers ? NAMES.map(name => new Curve($(`row-${name}`), this.axis)) : [];
    const {isSlow, isSoftware} = this.scene;
    this.share = isSoftware ? 0.6 : 1; // of the screen's pixels in motion
    this.finer = isSoftware && !isSlow && devicePixelRatio < 1.5 ? 1.5 : 1; // at rest, which smooths edges
    this.most = isSlow ? 32768 : 4e6; // triangles in motion
    document.body.classList.toggle('software', isSoftware);
    this.bars = told.bars.length ? new Bars($('row-bars'), this.axis) : null;
    this.hovered = null;
    this.player = new Player(this);
    prepare(this);
    this.world.goTo(this.view.frame);
    this.themed();
    this.shown = -1;
    this.show();
    addEventListener('resize', () => { this.trace(); this.ask(); });
  }

  // Draws before the next frame of the screen.
  ask() {
    if (this.asked) return;
    this.asked = true;
    requestAnimationFrame(() => { this.asked = false; this.draw(); });
  }

  // The screen's width and height, and what panel and title take of it: below, above and, beside a panel that stands
  // at the side, to the right.
  get sizes() {
    const panel = $('panel').getBoundingClientRect(), isBeside = panel.left > 0.3 * innerWidth;
    const head = innerWidth < 620 || isBeside ? document.querySelector('header').getBoundingClientRect().bottom : 26;
    const below = isBeside ? 12 : innerHeight - panel.top + 6;
    return [innerWidth, innerHeight, below, head, isBeside ? innerWidth - panel.left : 0];
  }

  get frameNow() { return this.view.frameOf(...this.sizes); }

  // In motion from here on, until nothing has moved for some time since the last drawing: where drawings come slowly,
  // so does what moves, and a drawing of all in between would come slower yet.
  move() { this.isMoving = true; }

  rest(took) {
    clearTimeout(this.resting);
    const isHeld = this.scene.isSlow && this.pointer.held.size > 0;
    const wait = Math.max(isHeld ? 1500 : 200, Math.min(2500, 3 * took));
    this.resting = setTimeout(() => { this.isMoving = false; this.ask(); }, wait);
  }

  // In motion a drawing that takes long is made with fewer pixels and of a coarse copy, and again with all where it
  // rests.
  draw() {
    const {view, scene, seen, isMoving} = this, canvas = $('scene'), now = performance.now();
    const took = isMoving && this.drawnAt ? now - this.drawnAt : 0;
    if (took) this.pace(took);
    this.drawnAt = isMoving ? now : 0;
    const most = 2 ** Math.round(Math.log2(this.most)), coarse = isMoving && seen.solid + seen.loose > most;
    if (coarse) scene.takeCoarse(this.coarse, most);
    const dense = Math.min(devicePixelRatio || 1, 2.5) * (isMoving ? Math.round(10 * this.share) / 10 : this.finer);
    const wide = Math.round(innerWidth * dense), high = Math.round(innerHeight * dense);
    if (canvas.width !== wide || canvas.height !== high) { canvas.width = wide; canvas.height = high; }
    const few = Math.max(1.5, Math.min(6, 130 / Math.sqrt(this.world.n)));
    scene.draw({turn: view.turn, x: view.x, y: view.y, zoom: view.zoom, frame: this.frameNow, cut: view.plane,
      colours: view.colours, coarse, alone: view.points === null,
      dots: view.points === false ? 0 : Math.max(1, few * dense * Math.sqrt(view.zoom))});
    measure(this);
    if (isMoving) this.rest(took);
    this.frames = (this.frames || 0) + 1;
    document.body.dataset.shown = `${this.view.stop}`;
  }

  // Fewer pixels and triangles after a slow drawing, more after a quick one; both are kept for the next motion.
  pace(took) {
    const count = this.seen.solid + this.seen.loose;
    if (took > 75) {
      this.share = Math.max(0.4, this.share * 0.85);
      if (took > 95) this.most = Math.max(8192, Math.min(count, this.most) * Math.max(0.25, 75 / took));
    } else if (took < 30) {
      this.share = Math.min(1, this.share * 1.05);
      this.most = Math.min(4e6, this.most * 1.1);
    }
  }

  themed() {
    document.documentElement.dataset.theme = this.view.isDark ? 'dark' : 'light';
    this.trace();
    if (this.shown >= 0) this.changed();
    legend(this);
  }

  trace() {
    putTicks(this);
    this.curves.forEach((curve, d) => curve.trace(this.world.numbers[d]));
    this.curves.forEach(curve => curve.mark(this.view.stop));
    this.bars?.trace();
  }

  // Shows the stop and frame of the view: faces, numbers, words.
  show() {
    const {view, world} = this, key = `${view.stop} ${view.frame}`;
    if (this.shown !== key) {
      if (world.frame !== view.frame) { world.goTo(view.frame); this.trace(); }
      this.seen.at(view.stop);
      this.shown = key;
      this.hovered = null;
    }
    this.changed();
    const shown = `${view.loose} ${view.points} ${view.cut < 1}`;
    if (this.explained !== shown) legend(this);
    this.explained = shown;
    say(this);
  }

  // Takes over faces and marks, where only what is shown of them has changed.
  changed() {
    const {view, seen} = this, few = seen.solid + seen.loose <= 4000;
    this.withLines = view.lines === null ? few : view.lines;
    this.scene.take(seen, view.stop, this.withLines, view.loose);
    this.scene.mark([...marksOfEdit(this), ...marksOfHover(this)]);
    this.ask();
  }

  goTo(stop) {
    if (stop === this.view.stop) return;
    this.view.stop = stop;
    this.show();
  }

  goToFrame(frame) {
    this.view.frame = Math.max(0, Math.min(this.world.frames.length - 1, frame));
    this.show();
  }

  // Moves along the slider by a share of it.
  slide(share) {
    this.move();
    this.goTo(this.axis.stopOf(Math.max(0, Math.min(1, this.axis.placeOf(this.view.stop) + share))));
  }
}

// Moves the slider, or the edits, on by themselves.
class Player {
  constructor(page) { this.page = page; this.of = null; }

  toggle(of) {
    const {page} = this, button = {radius: 'play', frame: 'edits-play'};
    if (this.of) $(button[this.of]).setAttribute('aria-pressed', false);
    this.of = this.of === of ? null : of;
    if (!this.of) return;
    $(button[of]).setAttribute('aria-pressed', true);
    this.place = page.axis.placeOf(page.view.stop);
    if (of === 'radius' && this.place >= 1) this.place = 0;
    if (of === 'frame' && page.view.frame === page.world.frames.length - 1) page.goToFrame(0);
    this.last = this.stepped = performance.now();
    requestAnimationFrame(now => this.step(now));
  }

  step(now) {
    if (!this.of) return;
    const {page} = this, passed = Math.min(200, Math.max(0, now - this.last));
    this.last = now;
    if (this.of === 'radius') {
      if (isStill() && now - this.stepped < 700) { requestAnimationFrame(at => this.step(at)); return; }
      this.place = Math.min(1, this.place + (isStill() ? 0.05 : passed / 14000));
      this.stepped = now;
      page.move();
      page.goTo(page.axis.stopOf(this.place));
      if (this.place >= 1) this.toggle('radius');
    } else if (now - this.stepped > 900) {
      this.stepped = now;
      page.goToFrame(page.view.frame + 1);
      if (page.view.frame === page.world.frames.length - 1) this.toggle('frame');
    }
    if (this.of) requestAnimationFrame(then => this.step(then));
  }
}

// Lines around the tetrahedra that the last edit took away and brought.
function marksOfEdit({world, view}) {
  if (!world.frames || !view.frame) return [];
  const {goneCells, cameCells} = world.frames[view.frame];
  const linesOf = cells => {
    const keys = new Set();
    for (let c = 0; c < cells.length; c += 4) {
      for (let i = 0; i < 4; i++) for (let j = i + 1; j < 4; j++) keys.add(cells[c + i] * world.n + cells[c + j]);
    }
    return keys;
  };
  const gone = linesOf(goneCells), came = linesOf(cameCells);
  const ends = keys => Float32Array.from([...keys].flatMap(key => [Math.floor(key / world.n), key % world.n])
    .flatMap(i => [...world.places.subarray(3 * i, 3 * i + 3)]));
  const colours = view.colours, onlyGone = new Set([...gone].filter(key => !came.has(key)));
  const onlyCame = new Set([...came].filter(key => !gone.has(key)));
  const both = new Set([...came].filter(key => gone.has(key)));
  return [{ends: ends(both), colour: [...colours.hover.slice(0, 3), 0.28], over: true},
    {ends: ends(onlyGone), colour: colours.gone, over: true}, {ends: ends(onlyCame), colour: colours.came, over: true}];
}

// The outline of the triangle under the pointer, or a small cross at the point.
function marksOfHover({world, view, hovered}) {
  if (!hovered) return [];
  const p = world.places, ends = [];
  if (hovered.point !== undefined) {
    const at = [...p.subarray(3 * hovered.point, 3 * hovered.point + 3)], arm = 0.03 / view.zoom;
    for (let axis = 0; axis < 3; axis++) {
      for (const way of [-arm, arm]) ends.push(...at.map((v, i) => i === axis ? v + way : v));
    }
  } else {
    const c = world.triangles.corners, f = hovered.face;
    for (const [i, j] of [[0, 1], [1, 2], [2, 0]]) {
      for (const corner of [c[3 * f + i], c[3 * f + j]]) ends.push(...p.subarray(3 * corner, 3 * corner + 3));
    }
  }
  return [{ends: Float32Array.from(ends), colour: view.colours.hover, over: true}];
}

// Whether whoever looks at the page wants little to move: then it goes on in steps.
function isStill() { return matchMedia('(prefers-reduced-motion: reduce)').matches; }

async function start() {
  try {
    if (typeof DecompressionStream === 'undefined') throw new Error('it wants a browser of 2023 or later');
    window.page = new Page(await bytesOf($('packed').textContent));
    $('packed').remove();
  } catch (error) {
    const line = document.createElement('p');
    line.className = 'fault';
    line.textContent = `This page cannot be drawn here: ${error.message}.`;
    document.body.append(line);
    document.body.classList.add('dead');
    $('told').textContent = told.words;
    document.body.dataset.shown = 'fault';
    console.info(error);
  }
}
start();
