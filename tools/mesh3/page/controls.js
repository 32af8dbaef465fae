// Controls: slider, keys, pointer, fingers, buttons; and what the page says of what it shows.

const NAMES = ['parts', 'loops', 'voids'];

// Words of what is seen: the radius, the numbers, counts.
function say(page) {
  const {view, world, axis, seen} = page, {stop} = view, radius = axis.lengthOf(stop);
  page.curves.forEach(curve => curve.mark(stop));
  const slider = $('radius'), place = axis.placeOf(stop);
  slider.value = axis.isFew ? stop : Math.round(place * 2000);
  $('now').textContent = axis.textOf(stop);
  const numbers = world.numbers ? NAMES.map((name, d) => wordOf(world.numbers[d][stop], name)) : [];
  const solid = world.cells ? `${world.cells[stop].toLocaleString('en')} tetrahedra` : '';
  const triangles = seen.solid + (view.loose ? seen.loose : 0);
  const count = triangles ? `${triangles.toLocaleString('en')} triangles seen` : '';
  $('count').textContent = [solid, count].filter(Boolean).join(', ');
  slider.setAttribute('aria-valuetext', [`radius ${radius}`, ...numbers].join(', '));
  for (const button of document.querySelectorAll('#steady button')) {
    button.setAttribute('aria-pressed', stop >= +button.dataset.from && stop < +button.dataset.to);
  }
  for (const [id, value] of [['loose', view.loose], ['points', view.points], ['lines', page.withLines]]) {
    if ($(id)) $(id).checked = value;
  }
  $('lines').indeterminate = view.lines === null; // until it is chosen, it does not move by itself
  $('axis-of-cut').selectedIndex = view.cutAxis;
  $('cut').value = Math.round(view.cut * 1000);
  $('cut-now').textContent = view.cut < 1 ? shortly(world.inUnits(view.cutPlace, view.cutAxis), 4) : 'off';
  if (world.frames) sayEdit(page);
  clearTimeout(page.speaking);
  page.speaking = setTimeout(() => {
    $('aloud').textContent = [`radius ${radius}`, ...numbers, solid].filter(Boolean).join(', ');
    history.replaceState(null, '', view.text);
  }, 300);
}

function wordOf(count, name) { return `${count.toLocaleString('en')} ${count === 1 ? name.slice(0, -1) : name}`; }

function sayEdit({world, view}) {
  const frame = world.frames[view.frame], count = world.frames.length - 1;
  $('frame').max = count;
  $('frame').value = view.frame;
  $('frame-now').textContent = `${view.frame} of ${count}`;
  $('edit').textContent = frame.text;
  $('frame').setAttribute('aria-valuetext', frame.text);
}

function legend(page) {
  const css = colour => `rgb(${colour.slice(0, 3).map(v => Math.round(255 * v)).join(' ')})`, {colours} = page.view;
  const {loose} = page.view, shown = [colours.solid, ...(loose ? [colours.loose] : [])];
  const rows = shown.map((colour, i) => [colour, told.legend[i]]).filter(row => row[1]);
  if (page.view.points !== false) rows.push([colours.text, page.view.points ? 'points' : 'points that nothing joins']);
  if (page.view.cut < 1) rows.push([colours.cap, 'cut open']);
  if (page.world.frames) {
    rows.push([colours.gone, 'edges that the edit took away'], [colours.came, 'edges that it brought']);
  }
  $('legend').replaceChildren(...rows.map(([colour, name]) => {
    const line = document.createElement('li'), patch = document.createElement('i');
    patch.style.background = css(colour);
    line.append(patch, name);
    return line;
  }));
}

// Radii under the slider, as many as there is room for.
function putTicks({axis}) {
  $('axis').replaceChildren(...axis.ticks(52 / Math.max(100, $('axis').clientWidth)).map(([place, text]) => {
    const tick = document.createElement('span');
    tick.style.left = `calc(${THUMB}px + ${place} * (100% - ${2 * THUMB}px))`;
    tick.textContent = text;
    return tick;
  }));
}

// What stands still on the page: title, ticks, shapes that last, which rows there are.
function prepare(page) {
  const {world, axis} = page;
  $('told').textContent = told.words;
  if (!world.numbers) document.querySelectorAll('.number').forEach(row => row.remove());
  if (world.stops < 2) {
    for (const row of document.querySelectorAll('#panel > .row:not(#edits)')) row.style.display = 'none';
    $('loose').parentElement.remove();
  }
  if (axis.isFew) $('radius').max = world.stops - 1;
  if (told.steady.length) {
    $('steady').append(Object.assign(document.createElement('span'), {textContent: 'last longest:'}));
  }
  for (const {from, to, at, numbers} of told.steady) {
    const button = document.createElement('button');
    button.textContent = numbers.map((n, d) => [n, d]).filter(([n, d]) => n || !d)
      .map(([n, d]) => wordOf(n, NAMES[d])).join(', ');
    const span = `${shortly(world.radii[from])}\u2013${to < world.stops ? shortly(world.radii[to]) : 'all'}`;
    button.append(Object.assign(document.createElement('small'), {textContent: ` ${span}`}));
    button.title = `radius ${span}${told.length ? ` ${told.length}` : ''}`;
    Object.assign(button.dataset, {from, to});
    button.onclick = () => page.goTo(axis.kept(at));
    $('steady').append(button);
  }
  if (world.frames) $('edits').hidden = false; else $('edits').remove();
  if (page.bars) $('bars-asked').hidden = false;
  document.querySelector('#panel .unit').textContent = told.length ? `radius, ${told.length}` : 'radius';
  listen(page);
  press(page);
  page.pointer = new Pointer(page);
}

function listen(page) {
  const {view, axis} = page;
  $('radius').oninput = event => {
    page.move();
    page.goTo(axis.stopOf(axis.isFew ? event.target.value / event.target.max : event.target.value / 2000));
  };
  $('play').onclick = () => page.player.toggle('radius');
  if ($('frame')) {
    $('frame').oninput = event => page.goToFrame(+event.target.value);
    $('edits-play').onclick = () => page.player.toggle('frame');
  }
  for (const id of ['loose', 'points', 'lines']) {
    if ($(id)) $(id).onchange = event => { view[id] = event.target.checked; page.show(); };
  }
  $('bars').onchange = event => showBars(page, event.target.checked);
  $('cut').oninput = event => {
    view.cutAlong(view.cutAxis, event.target.value / 1000);
    page.move();
    page.show();
  };
  $('axis-of-cut').onchange = event => { view.cutAlong(event.target.selectedIndex, view.cut); page.show(); };
  $('theme').onclick = () => { view.theme = view.isDark ? 'light' : 'dark'; page.themed(); page.show(); };
  matchMedia('(prefers-color-scheme: dark)').addEventListener('change', () => page.themed());
  $('reset').onclick = () => { view.reset(); page.show(); };
  $('help').onclick = () => $('about').showModal();
  $('save').onclick = () => save(page);
  $('link').onclick = () => copyLink(page);
  addEventListener('hashchange', () => { view.read(location.hash); page.themed(); page.show(); });
  page.curves.forEach(curve => slideOver(page, curve));
}

// A curve is a slider too.
function slideOver(page, {canvas}) {
  const slide = event => {
    const box = canvas.getBoundingClientRect(), place = (event.clientX - box.left - THUMB) / (box.width - 2 * THUMB);
    page.goTo(page.axis.stopOf(Math.max(0, Math.min(1, place))));
  };
  canvas.onpointerdown = event => { canvas.setPointerCapture(event.pointerId); slide(event); };
  canvas.onpointermove = event => {
    if (event.buttons) { page.move(); slide(event); return; }
    const box = canvas.getBoundingClientRect(), place = (event.clientX - box.left - THUMB) / (box.width - 2 * THUMB);
    const stop = page.axis.stopOf(Math.max(0, Math.min(1, place))), d = page.curves.findIndex(c => c.canvas === canvas);
    tipAt(event, `radius ${page.axis.lengthOf(stop)}: ${wordOf(page.world.numbers[d][stop], NAMES[d])}`);
  };
  canvas.onpointerleave = () => { $('tip').hidden = true; };
}

// Shows words beside the pointer.
function tipAt(event, text) {
  const tip = $('tip');
  tip.textContent = text;
  tip.hidden = false;
  const wide = tip.offsetWidth, isRight = event.clientX + 16 + wide > innerWidth;
  const left = Math.max(4, isRight ? event.clientX - 12 - wide : event.clientX + 16);
  Object.assign(tip.style, {left: `${left}px`, right: 'auto', top: `${Math.max(4, event.clientY - 20)}px`});
}

// The barcode, or not; the panel grows, and the scene makes room.
function showBars(page, isShown) {
  if (!page.bars) return;
  $('row-bars').hidden = !isShown;
  $('bars').checked = isShown;
  page.bars.trace();
  page.ask();
  const {canvas} = page.bars;
  canvas.onpointermove = event => {
    const text = page.bars.toldAt(event.clientY - canvas.getBoundingClientRect().top);
    if (text) tipAt(event, text); else $('tip').hidden = true;
  };
  canvas.onpointerleave = () => { $('tip').hidden = true; };
}

// A round length that is about 100 pixels wide at the middle of the cloud: [length, pixels].
function scaleOf({view, world, frameNow}) {
  const pixels = view.zoom * frameNow[0] * innerWidth / 2 / (world.half * told.unit);
  const power = 10 ** Math.floor(Math.log10(130 / pixels));
  const length = [5, 2, 1].map(digit => digit * power).find(size => size * pixels <= 130);
  return [length, length * pixels];
}

// The scale bar, and the axes as they are turned: those that come to the eye are drawn last.
function measure(page) {
  const [length, wide] = scaleOf(page), t = page.view.turn;
  $('scale').firstElementChild.style.width = `${wide.toFixed(1)}px`;
  $('scale').lastElementChild.textContent = `${shortly(length)}${told.length ? ` ${told.length}` : ''}`;
  const axes = [0, 1, 2].map(axis => [t[3 * axis + 2], 'xyz'[axis], t[3 * axis], -t[3 * axis + 1]]);
  $('cross').innerHTML = axes.sort((a, b) => a[0] - b[0]).map(([, name, x, y]) =>
    `<path d="M0 0L${(20 * x).toFixed(1)} ${(20 * y).toFixed(1)}" stroke="currentColor"/>` +
    `<text x="${(27 * x).toFixed(1)}" y="${(27 * y + 4).toFixed(1)}" fill="currentColor">${name}</text>`).join('');
  const {below, beside} = {below: page.sizes[2], beside: page.sizes[4]};
  $('measure').style.bottom = `${beside ? 10 : below + 4}px`;
}

async function copyLink(page) {
  history.replaceState(null, '', page.view.text);
  try {
    await navigator.clipboard.writeText(location.href);
    note(page, 'The link is copied.');
  } catch { note(page, 'The address of the page is the link.'); }
}

function note(page, text) {
  const tip = $('tip');
  tip.textContent = text;
  tip.hidden = false;
  Object.assign(tip.style, {left: 'auto', right: '12px', top: '56px'});
  setTimeout(() => { tip.hidden = true; }, 2500);
}

// A picture of the scene with its words below, as a PNG.
function save(page) {
  page.isMoving = false;
  page.draw();
  const scene = $('scene'), sheet = document.createElement('canvas'), pen = sheet.getContext('2d');
  const dense = scene.width / innerWidth, bottom = Math.round($('panel').getBoundingClientRect().top * dense);
  Object.assign(sheet, {width: scene.width, height: bottom});
  pen.drawImage(scene, 0, 0);
  pen.fillStyle = getComputedStyle(document.body).color;
  pen.font = `600 ${17 * dense}px system-ui, sans-serif`;
  pen.fillText(told.title, 16 * dense, 28 * dense);
  pen.font = `${14 * dense}px system-ui, sans-serif`;
  pen.fillText($('radius').getAttribute('aria-valuetext') || '', 16 * dense, 50 * dense);
  const [, pixels] = scaleOf(page);
  pen.fillRect(16 * dense, bottom - 16 * dense, pixels * dense, 2 * dense);
  pen.fillText($('scale').lastElementChild.textContent, 16 * dense, bottom - 22 * dense);
  sheet.toBlob(blob => {
    const link = document.createElement('a');
    link.href = URL.createObjectURL(blob);
    link.download = `${told.title.replace(/[^\w.-]+/g, '-')}-${page.axis.textOf(page.view.stop)}.png`;
    page.saved = link.download;
    link.click();
    setTimeout(() => URL.revokeObjectURL(link.href), 10000);
  });
}

// Keys, wherever no other control takes them.
function press(page) {
  const {view, axis} = page;
  const toggle = name => { view[name] = name === 'lines' ? !page.withLines : !view[name]; page.show(); };
  const step = (event, way) => {
    if (event.shiftKey || axis.isFew) page.goTo(axis.beside(view.stop, way)); else page.slide(way / 400);
  };
  const enlarge = by => { page.pointer.enlarge(by); page.move(); page.ask(); keep(page); };
  const turn = ({target}, dx, dy) => { // where the scene has the focus
    if (target !== $('scene')) return false;
    page.pointer.turn(dx / 0.008, dy / 0.008);
    page.move();
    page.ask();
    keep(page);
    return true;
  };
  const frame = way => { if (page.world.frames) page.goToFrame(view.frame + way); };
  const cutAlong = axisOf => {
    view.cutAlong(axisOf, view.cut < 1 && axisOf === view.cutAxis ? 1 : 0.5);
    page.show();
  };
  const keys = {
    ArrowLeft: event => turn(event, 0.1, 0) || step(event, -1),
    ArrowRight: event => turn(event, -0.1, 0) || step(event, 1),
    ArrowDown: event => turn(event, 0, -0.1) || step(event, -1),
    ArrowUp: event => turn(event, 0, 0.1) || step(event, 1),
    '+': () => enlarge(1.15), '=': () => enlarge(1.15), '-': () => enlarge(1 / 1.15),
    PageDown: () => page.slide(-0.05), PageUp: () => page.slide(0.05),
    Home: () => page.goTo(axis.kept(0)), End: () => page.goTo(axis.kept(page.world.stops - 1)),
    ' ': () => page.player.toggle('radius'),
    o: () => toggle('loose'), p: () => toggle('points'), e: () => toggle('lines'),
    b: () => showBars(page, $('row-bars').hidden),
    x: () => cutAlong(0), y: () => cutAlong(1), z: () => cutAlong(2), d: () => $('theme').click(),
    r: () => $('reset').click(), l: () => copyLink(page), s: () => save(page), '?': () => $('about').showModal(),
    ',': () => frame(-1), '.': () => frame(1),
  };
  addEventListener('keydown', event => {
    const {target} = event, key = event.key.length === 1 ? event.key.toLowerCase() : event.key;
    if (event.ctrlKey || event.metaKey || event.altKey || !keys[key] || $('about').open) return;
    const isOther = target.matches?.('select, #cut, #frame');
    const isButton = target.matches?.('button, input[type=checkbox]');
    if ((isOther && key.length > 1) || (isButton && key === ' ')) return;
    event.preventDefault();
    keys[key](event);
  });
}

// Pointer and fingers: one turns, two move and make larger, the right button moves, the wheel makes larger.
class Pointer {
  constructor(page) {
    this.page = page;
    this.held = new Map(); // the places of what is down
    const canvas = $('scene');
    canvas.onpointerdown = event => this.down(event, canvas);
    canvas.onpointermove = event => this.move(event);
    canvas.onpointerup = canvas.onpointercancel = event => {
      this.held.delete(event.pointerId);
      if (page.isMoving) page.rest(0);
      keep(page);
    };
    canvas.onpointerleave = () => hide(page);
    canvas.onmousedown = event => event.preventDefault(); // which would give it the focus
    canvas.oncontextmenu = event => event.preventDefault();
    canvas.addEventListener('wheel', event => {
      event.preventDefault();
      this.enlarge(Math.exp(-event.deltaY * (event.deltaMode ? 0.03 : 0.0012)));
      page.move();
      page.ask();
      keep(page);
    }, {passive: false});
  }

  down(event, canvas) {
    canvas.setPointerCapture(event.pointerId);
    this.held.set(event.pointerId, [event.clientX, event.clientY]);
    document.activeElement?.blur(); // so that the arrows are the slider's; the tab key gives them to the scene
    hide(this.page);
  }

  move(event) {
    const {held} = this, last = held.get(event.pointerId), place = [event.clientX, event.clientY];
    if (!last) { hover(this.page, event); return; }
    const before = held.size === 2 ? this.spread() : null, [dx, dy] = [place[0] - last[0], place[1] - last[1]];
    held.set(event.pointerId, place);
    if (before) {
      const after = this.spread();
      this.shift(after.x - before.x, after.y - before.y);
      this.enlarge(after.wide / (before.wide || 1));
    } else if (event.buttons & 6 || event.shiftKey) this.shift(dx, dy);
    else this.turn(dx, dy);
    this.page.move();
    this.page.ask();
  }

  // The middle of two fingers, and how far they are apart.
  spread() {
    const [[ax, ay], [bx, by]] = [...this.held.values()];
    return {x: (ax + bx) / 2, y: (ay + by) / 2, wide: Math.hypot(ax - bx, ay - by)};
  }

  turn(dx, dy) {
    const {view} = this.page;
    view.az -= dx * 0.008;
    view.el = Math.max(-Math.PI / 2, Math.min(Math.PI / 2, view.el + dy * 0.008));
  }

  shift(dx, dy) {
    const {view} = this.page, [sx, sy] = this.page.frameNow;
    view.x += 2 * dx / innerWidth / sx / view.zoom;
    view.y -= 2 * dy / innerHeight / sy / view.zoom;
  }

  enlarge(by) { this.page.view.zoom = Math.max(0.2, Math.min(60, this.page.view.zoom * by)); }
}

function keep(page) {
  clearTimeout(page.keeping);
  page.keeping = setTimeout(() => history.replaceState(null, '', page.view.text), 300);
}

function hide(page) {
  clearTimeout(page.hovering);
  $('tip').hidden = true;
  if (page.hovered) { page.hovered = null; markHover(page); }
}

// Draws the outline of what is under the pointer, where a drawing is quick.
function markHover(page) {
  if (page.scene.isSlow) return;
  page.scene.mark([...marksOfEdit(page), ...marksOfHover(page)]);
  page.ask();
}

// Tells what is under the pointer, once it rests for a moment.
function hover(page, event) {
  clearTimeout(page.hovering);
  page.hovering = setTimeout(() => {
    const {view, picking} = page, x = 2 * event.clientX / innerWidth - 1, y = 1 - 2 * event.clientY / innerHeight;
    const frame = page.frameNow, hit = picking.triangle(picking.ray(view, frame, x, y), view.plane, view.loose);
    const point = picking.point(view, frame, x, y, [innerWidth, innerHeight], 9, hit ? hit.far : 9, view.plane);
    if (point < 0 && !hit) return hide(page);
    page.hovered = point >= 0 ? {point} : {face: hit.face};
    tipAt(event, picking.told(page.hovered));
    markHover(page);
  }, 60);
}
