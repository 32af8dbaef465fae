"""Cases of what the page of tools/draw does: numbers, keys, pointer, links, a phone, edits, and the README's ring."""
import math
import os
import re
import subprocess
import time

from tool_cases import CASES, PROGRAM, expect, is_built, library, tool
from tool_cases.betti import by_gudhi, drawn_cloud, rows_of, steps_by_gudhi, tree_of
from tool_cases.seen import BLUE, LINK, ORANGE, is_bare, is_of, patches, pixels_of, scene

SETTLED = 'new Promise(done => setTimeout(() => done(page.view.text), 500))'


def numbers(page, work):
    """Parts, loops and voids at ten alphas, as the page shows them, beside GUDHI."""
    import numpy as np
    if library('gudhi') is None:
        return
    points = drawn_cloud(300, 23)
    steps = steps_by_gudhi(points)
    name, edits = os.path.join(work, 'drawn.steps'), os.path.join(work, 'drawn.mesh3')
    with open(name, 'w', encoding='ascii') as file:
        file.write(steps)
    with open(edits, 'w', encoding='ascii') as file:
        file.write('mesh3 1\npoints\n' + ''.join(f'{x} {y} {z}\n' for x, y, z in points.tolist()) +
                   'edits\nradii\nend\n')
    status, out, err = tool('draw', name, os.path.join(work, 'drawn.html'))
    expect(f'a page of 300 points: {err}', status == 0)
    page.open(os.path.join(work, 'drawn.html'))
    tree, alphas = tree_of(steps, len(points)), np.array(page.value('[...page.world.alphas]'))
    shown = """(stop => { page.goTo(stop);
        return NAMES.map(name => +document.getElementById(name).textContent.replace(/,/g, '')); })"""
    stops = np.linspace(1, len(alphas) - 1, 10).astype(int).tolist()
    told = [page.value(f'{shown}({stop})') for stop in stops]
    peers = [(tree.persistent_betti_numbers(alphas[s], alphas[s]) + [0, 0, 0])[:3] for s in stops]
    expect(f'the numbers at ten alphas are those of GUDHI: {told}, {peers}', told == peers)
    ours = np.array(page.value('page.world.numbers.map(of => [...of])'))
    expect(f'and at all {len(alphas)}', (ours == by_gudhi(tree, alphas)).all())


def curves(page):
    """Each curve has a mark where the slider stands."""
    place = """(stop => { page.goTo(stop);
        return page.curves.map(({canvas, axis}) => {
          const wide = canvas.width, x = THUMB + axis.placeOf(stop) * (wide - 2 * THUMB);
          const copy = Object.assign(document.createElement('canvas'), {width: wide, height: 1});
          const pen = copy.getContext('2d', {willReadFrequently: true});
          pen.drawImage(canvas, 0, -1);
          const row = pen.getImageData(0, 0, wide, 1).data;
          const dark = [...Array(wide).keys()].filter(at => row[4 * at + 3] > 200 && row[4 * at] < 60
            && row[4 * at + 2] < 90);
          return dark.length > 0 && dark.every(at => Math.abs(at - x) < 3); }); })"""
    for stop in (100, 400):
        expect(f'the mark of each curve stands at stop {stop}', page.value(f'{place}({stop})') == [True] * 3)


def keys(page):
    """Each key does what the page says of it."""
    stop = 'page.view.stop'
    page.value('page.goTo(100), 1')
    page.key('ArrowRight')
    moved = page.value(stop)
    page.key('ArrowLeft')
    page.key('ArrowRight', shift=True)
    page.value('page.goTo(100), 1')
    page.key('ArrowRight', shift=True)
    expect(f'arrows move along, with shift by one radius: {moved}, {page.value(stop)}',
           moved > 101 and page.value(stop) == 101)
    page.key('End')
    last = page.value(stop)
    page.key('Home')
    expect(f'home and end: {last}', page.value(stop) == 0 and last == page.value('page.world.stops') - 1)
    page.key(' ')
    until = time.time() + 60
    while page.value(stop) == 0 and time.time() < until:
        time.sleep(0.1)
    played = page.value(stop)
    page.key(' ')
    halted = page.value(stop)
    time.sleep(0.5)
    expect(f'space plays and halts: {played}, {halted}', played > 0 and page.value(stop) == halted
           and page.value('page.player.of') is None)
    for key, of in (('o', 'loose'), ('p', 'points')):
        before = page.value(f'page.view.{of}')
        page.key(key)
        expect(f'{key} turns {of} on and off', page.value(f'page.view.{of}') == (not before)
               and page.value(f"document.getElementById('{of}').checked") == (not before))
        page.key(key)
    page.key('z')
    expect('z cuts', page.value('page.view.cut') == 0.5)
    page.key('z')
    expect('and cuts no more', page.value('page.view.cut') == 1)
    zoom = page.value('page.view.zoom')
    page.key('+')
    larger = page.value('page.view.zoom')
    page.key('-')
    expect(f'plus and minus make larger and smaller: {larger}', larger > 1.1 * zoom and
           abs(page.value('page.view.zoom') - zoom) < 1e-9)
    stop_before = page.value(stop)
    page.value("document.getElementById('scene').focus(), 1")
    turned = page.value('[page.view.az, page.view.el]')
    page.key('ArrowLeft')
    page.key('ArrowUp')
    now = page.value('[page.view.az, page.view.el]')
    expect(f'arrows turn the scene where it has the focus: {turned}, {now}', page.value(stop) == stop_before and
           abs(now[0] - turned[0]) > 0.05 and abs(now[1] - turned[1]) > 0.05)
    page.value('document.activeElement.blur(), page.view.reset(), page.show(), 1')
    expect('the box of edges does not move by itself', page.value("document.getElementById('lines').indeterminate"))
    page.key('?')
    expect('? tells what the page is', page.value("document.getElementById('about').open"))
    about = page.value("document.getElementById('about').textContent.replace(/\\s+/g, ' ')")
    expect('balls are cut back to their Voronoi cells', 'cut back to the region nearest to its own point' in about)
    page.value("document.getElementById('about').close()")


def bars(page):
    """The barcode: the longest bars of each kind are those of GUDHI's persistence; a bar and a curve tell of themselves
    under the pointer."""
    import gudhi  # is there where the page was made
    tree = gudhi.SimplexTree()
    with open(page.work + '/drawn.steps', encoding='ascii') as file:
        text = file.read()
    for i in range(300):
        tree.insert([i], 0.0)
    for face, alpha in rows_of(text):
        tree.insert(face, float(alpha))
    tree.compute_persistence(homology_coeff_field=2)
    told, alphas = page.value('told.bars'), page.value('[...page.world.alphas]')
    for kind in range(3):
        ours = sorted((alphas[birth], alphas[death] if death < len(alphas) else math.inf)
                      for of, birth, death in told if of == kind)
        peers = [tuple(row) for row in tree.persistence_intervals_in_dimension(kind).tolist() if row[0] < row[1]]
        peers.sort(key=lambda bar: (bar[1] / max(bar[0], 1.0), -bar[0]), reverse=True)
        longest = sorted(peers[:len(ours)])
        ratios = [[bar[1] / max(bar[0], 1.0) for bar in some] for some in (ours, longest)]
        expect(f'bars of dimension {kind}: {ours[:3]}, {longest[:3]}', len(ours) == min(22, len(peers)) and
               sorted(ratios[0]) == sorted(ratios[1]) and set(ours) <= set(peers))
    page.key('b')
    shown = page.value("!document.getElementById('row-bars').hidden && page.bars.rows.length")
    expect(f'b shows them: {shown}', shown > 5)
    box = page.value("(b => [b.left, b.top, b.width])(page.bars.canvas.getBoundingClientRect())")
    row = page.value('page.bars.rows[page.bars.rows.length - 1]')
    page.moved(box[0] + box[2] / 2, box[1] + row['y'] + row['high'] / 2)
    tip = page.value("document.getElementById('tip').textContent")
    expect(f'a bar tells of itself: {tip}', tip.startswith('void from '))
    page.key('b')
    box = page.value("(b => [b.left, b.top, b.width, b.height])(page.curves[1].canvas.getBoundingClientRect())")
    page.moved(box[0] + box[2] / 2, box[1] + box[3] / 2)
    tip = page.value("document.getElementById('tip').textContent")
    number = page.value('page.world.numbers[1][page.axis.stopOf(0.5)]')
    expect(f'a curve tells of itself: {tip}, {number}', re.search(rf'^radius [\d.]+: {number:,} loops?$', tip))
    page.moved(3, 300)


def measures(page, work):
    """A cube of 2 steps, which are 2 mm: the bar of the scale is as long as it says, the axes are there, and so in
    steps where little is to move; a page without WebGL2 has its words alone, and logs no fault."""
    name, placing = os.path.join(work, 'scaled.html'), os.path.join(work, 'scaled.json')
    with open(placing, 'w', encoding='ascii') as file:
        file.write('{"origin": [0, 0, 0], "scale": 1.0, "radii": []}')
    steps = os.path.join(CASES, '04-cube.steps')
    status, _, err = tool('draw', steps, name, '--placing', placing, '--unit', 'mm')
    page.open(name, '#v=0,0,1,0,0&s=p')
    bar = page.value("[document.getElementById('scale').textContent.trim(), "
                     "document.getElementById('scale').firstElementChild.getBoundingClientRect().width]")
    across = page.value("""(() => { const [sx] = page.frameNow, {places: p} = page.world, t = page.view.turn;
        const at = i => [0, 1, 2].map(r => t[r] * p[3 * i] + t[3 + r] * p[3 * i + 1] + t[6 + r] * p[3 * i + 2]);
        const ends = [...Array(8).keys()].map(at).map(([x,, z]) => [x, z]);
        return sx * innerWidth / 2 * (Math.max(...ends.map(e => e[0])) - Math.min(...ends.map(e => e[0]))); })()""")
    length = float(bar[0].split()[0])
    expect(f'a scale in mm: {bar}, {across}, {err}', status == 0 and bar[0].endswith(' mm') and 40 < bar[1] <= 130.5
           and abs(bar[1] / length - across / 2) < 0.02 * across)
    axes = page.value("document.getElementById('cross').textContent")
    expect(f'axes: {axes}', sorted(axes) == ['x', 'y', 'z'])
    feature = {'name': 'prefers-reduced-motion', 'value': 'reduce'}
    page.call('Emulation.setEmulatedMedia', features=[feature])
    expect('little is to move', page.value('isStill()'))
    page.dark(False)
    script = "HTMLCanvasElement.prototype.getContext = function(kind) { return null; }"
    made = page.call('Page.addScriptToEvaluateOnNewDocument', source=script)
    page.open(name)
    told = page.value("[document.querySelector('.fault').textContent, document.getElementById('told').textContent, "
                      "document.getElementById('panel').offsetParent === null && "
                      "getComputedStyle(document.getElementById('panel')).display]")
    expect(f'without WebGL2: {told}', 'WebGL2' in told[0] and '8 points' in told[1] and told[2] == 'none')
    page.call('Page.removeScriptToEvaluateOnNewDocument', identifier=made['identifier'])


def small_screens(page, work):
    """On its side and at 320 pixels no control is cut, title and panel leave room for the shape, and what a finger
    presses is 44 pixels wide and high."""
    for wide, high in ((844, 390), (320, 568)):
        page.sized(wide, high, 2, touch=True)
        page.open(os.path.join(work, 'ring.html'))
        free = page.value("(s => [s[1] - s[2] - s[3], s[0] - s[4]])(page.sizes)")
        expect(f'room for the shape at {wide} by {high}: {free}', min(free) > 150)
        small = page.value("""[...document.querySelectorAll('button, select, #options > label')]
            .filter(e => e.offsetParent).map(e => [e.id, e.getBoundingClientRect()])
            .filter(([id, b]) => b.height < 43.5 || b.width < 43.5).map(([id]) => id)""")
        expect(f'at {wide} by {high} fingers have room: {small}', small == [])
        out = page.value(f"document.body.scrollWidth <= {wide} && document.getElementById('panel')"
                         f".getBoundingClientRect().bottom <= {high}")
        expect(f'nothing is cut at {wide} by {high}', out)
    page.sized(1280, 800)


def pointer(page, work):
    """Drags, wheel, slider and what is under the pointer, on the cube."""
    page.open(os.path.join(work, 'steps.html'), LINK.format(48))
    shot = scene(page, os.path.join(work, 'before.png'))
    page.dragged([(500, 300), (540, 310), (600, 330)])
    turned = page.value('[page.view.az, page.view.el]')
    other = scene(page, os.path.join(work, 'after.png'))
    expect(f'a drag turns: {turned}', abs(turned[0] + 0.8) < 0.01 and abs(turned[1] - 0.24) < 0.01
           and abs(shot - other).max() > 0.1)
    page.call('Input.dispatchMouseEvent', type='mouseWheel', x=640, y=300, deltaX=0, deltaY=-200)
    expect(f'the wheel makes larger: {page.value("page.view.zoom")}', page.value('page.view.zoom') > 1.1)
    page.value('page.view.reset(), page.view.az = page.view.el = 0, page.show(), 1')
    place = """(points => { const [sx, sy, ox, oy] = page.frameNow, p = page.world.places, t = page.view.turn;
        const at = points.map(i => { const [a, b, c] = p.subarray(3 * i, 3 * i + 3);
          const q = [0, 1, 2].map(r => t[r] * a + t[3 + r] * b + t[6 + r] * c), w = 1 - q[2] / 4;
          return [(q[0] * sx / w + ox + 1) / 2 * innerWidth, (1 - (q[1] * sy / w + oy)) / 2 * innerHeight]; });
        return [0, 1].map(d => at.reduce((sum, a) => sum + a[d], 0) / at.length); })"""
    for what, points, said in (('a corner', [7], 'point 7: 2  2  2'),
                               ('a side', [5, 6, 7], 'bounds a tetrahedron from 1.73')):
        page.moved(*page.value(f'{place}({points})'))
        until, tip = time.time() + 60, ''
        while said not in tip and time.time() < until:  # on a busy machine what was under it before comes late
            time.sleep(0.1)
            tip = page.value("document.getElementById('tip').hidden ? '' : document.getElementById('tip').textContent")
        expect(f'the pointer over {what} tells of it: {tip!r}', said in tip)
        page.moved(3, 300)
        page.value("new Promise(done => setTimeout(() => { $('tip').hidden = true; done(1); }, 300))")
    box = page.value("(b => [b.left, b.right, (b.top + b.bottom) / 2])($('radius').getBoundingClientRect())")
    page.dragged([(box[1] - 8, box[2]), ((box[0] + box[1]) / 2, box[2]), (box[0] + 2, box[2])])
    expect(f'the slider is dragged to its start: {page.value("page.view.stop")}', page.value('page.view.stop') == 0)


def keeping(page, work):
    """A link keeps the view; a picture is saved; dark and light; a phone and its fingers."""
    name = os.path.join(work, 'steps.html')
    page.open(name, '#a=32&v=1,0.5,1.5,0.1,-0.2&s=pe&c=y,0.4,-1&d=dark')
    link = page.value(SETTLED)
    expect(f'a link keeps the view: {link}', link == '#a=32&v=1,0.5,1.5,0.1,-0.2&s=pe&c=y,0.4,-1&d=dark'
           and page.value('location.hash') == link)
    expect('and the dark', pixels_of(page, os.path.join(work, 'dark.png'))[200, 5].max() < 0.2)
    page.open(name, '#a=none&v=1,2&c=w,9&d=no&f=x')
    expect('a link that is wrong is passed over', page.value('page.view.stop') == page.value('told.first'))
    page.dark(True)
    page.open(name)
    dark = pixels_of(page, os.path.join(work, 'dark.png'))[200, 5].max()
    page.value("document.getElementById('theme').click()")
    light = pixels_of(page, os.path.join(work, 'light.png'))[200, 5].min()
    page.dark(False)
    expect(f'dark where that is preferred, and light by the switch: {dark}, {light}', dark < 0.2 and light > 0.9)
    page.call('Page.setDownloadBehavior', behavior='allow', downloadPath=work)
    page.value('save(page), 1')
    until, saved = time.time() + 60, None
    while time.time() < until and not (saved and os.path.exists(os.path.join(work, saved))):
        saved = page.value('page.saved || null')
        time.sleep(0.1)
    expect(f'a picture is saved: {saved}', bool(saved) and
           open(os.path.join(work, saved), 'rb').read(4) == b'\x89PNG')


def phone(page, work):
    page.sized(390, 844, 2, touch=True)
    page.open(os.path.join(work, 'steps.html'))
    fits = page.value("""[...document.querySelectorAll('button, input, output')].filter(e => e.offsetParent)
        .every(e => {
        const b = e.getBoundingClientRect(); return b.left >= 0 && b.right <= 390 && b.bottom <= 844; })""")
    expect('on a phone all controls are on the screen', fits and page.value('document.body.scrollWidth') <= 390)
    names = page.value("""[...document.querySelectorAll('button, input, select, canvas[role]')]
        .filter(e => e.offsetParent || e.id === 'scene')
        .filter(e => !(e.getAttribute('aria-label') || e.textContent.trim() || e.labels?.length)).map(e => e.id)""")
    expect(f'each control has a name for those who do not see it: {names}', names == [])
    az, zoom = page.value('page.view.az'), page.value('page.view.zoom')
    page.touched([(200, 300)], [(240, 300)], [(280, 300)])
    expect('a finger turns', abs(page.value('page.view.az') - az) > 0.2)
    page.touched([(150, 300), (250, 300)], [(120, 300), (280, 300)], [(90, 300), (310, 300)])
    expect(f'two fingers make larger: {page.value("page.view.zoom")}', page.value('page.view.zoom') > 1.5 * zoom)
    page.sized(1280, 800)


EDITED = """mesh3 2
points
0 0 0
9000 0 0
0 9000 0
0 0 9000
9000 9000 9001
2000 3000 4000
edits
+ 5000 5000 1000
+ 5000 5000 1000
- 2000 3000 4000
= 5000 5000 1000 4000 4200 6000
- 1 1 1
radii
end
"""


def edits(page, work):
    """Edits are played: replies, tetrahedra that go and come as two reports have them, and numbers beside a page's."""
    if not is_built():
        return
    name, file_of = os.path.join(work, 'edited.html'), os.path.join(work, 'edited.mesh3')
    with open(file_of, 'w', encoding='ascii') as file:
        file.write(EDITED)
    status, out, err = tool('draw', file_of, name)
    expect(f'a page of edits: {err}', status == 0)
    page.open(name, '#f=0')
    lines, replies = EDITED.split('\n'), ('Inserted', 'Duplicate', 'Removed', 'Moved', 'Missing')
    shapes = []
    for count in range(6):
        text = '\n'.join(lines[:9 + count] + lines[14:])
        report = subprocess.run([PROGRAM, 'mesh'], input=text.encode(), capture_output=True, check=True).stdout.decode()
        rows = report.split('\n')
        at = next(i for i, row in enumerate(rows) if row.startswith('points '))
        points = rows[at + 1:at + 1 + int(rows[at].split()[1])]
        at += 1 + len(points)
        cells = rows[at + 1:at + 1 + int(rows[at].split()[1])]
        shapes.append({tuple(points[int(i)] for i in row.split()) for row in cells})
    for count in range(1, 6):
        page.key('.')
        told = page.value("document.getElementById('edit').textContent")
        went, came = len(shapes[count - 1] - shapes[count]), len(shapes[count] - shapes[count - 1])
        change = f'{went} tetrahedra went, {came} came' if went or came else 'nothing changes'
        wanted = f'line {9 + count}: {lines[8 + count]}, {replies[count - 1]}: {change}'
        expect(f'an edit is told: {told!r}, {wanted!r}', told == wanted)
        page.value('page.goTo(page.world.stops - 1), 1')
        cells = page.value('page.world.cells[page.view.stop]')
        expect('all tetrahedra are those of the report', cells == len(shapes[count]))
    page.key(',')
    expect('and back', page.value('page.view.frame') == 4)


def ring(page, work):
    """The ring of the README: its hole is seen, and is told at the first look."""
    if not is_built():
        return
    cloud, name = os.path.join(work, 'ring.xyz'), os.path.join(work, 'ring.html')
    with open(cloud, 'wb') as file:
        file.write(tool('example-surface')[1])
    status, out, err = tool('draw', cloud, name)
    expect(f'from a cloud to its page: {err}', status == 0 and '3000 points' in err)
    expect(f'of at most 1.2 MB: {os.path.getsize(name)}', os.path.getsize(name) < 1200000)
    page.open(name)
    told = [page.value(f"document.getElementById('{of}').textContent") for of in ('parts', 'loops', 'voids')]
    expect(f'it opens as a hollow ring: {told}', told == ['1', '2', '1'])
    box = page.value("""(() => { const u = page.world.low.map((l, i) => page.world.inUnits(l, i));
        return [...u, ...page.world.high.map((h, i) => page.world.inUnits(h, i))]; })()""")
    expect(f'in units of the scan: {box}', 5.7 < box[0] < 6 and 9 < box[3] < 9.3)
    holes = [size for size, at_rim in patches(is_bare(scene(page, os.path.join(work, 'ring.png')))) if not at_rim]
    expect(f'its hole is seen at the first look: {sorted(holes)[-3:]}', max(holes, default=0) > 4000)
    shown = page.value("[...document.querySelectorAll('#steady [aria-pressed=true]')].map(b => b.textContent)")
    expect(f'and told, with its radii: {shown}', len(shown) == 1 and
           re.fullmatch(r'1 part, 2 loops, 1 void 0\.\d+–0\.\d+', shown[0]))
    page.value('page.view.el = Math.PI / 2, page.view.points = false, page.show(), 1')
    pixels = scene(page, os.path.join(work, 'ring.png'))
    seen = is_of(pixels, BLUE) | is_of(pixels, ORANGE)
    high, wide = seen.shape
    rows = seen.any(axis=1).nonzero()[0]
    middle = int(rows.mean())
    hole = ~seen[middle - 20:middle + 20, wide // 2 - 20:wide // 2 + 20]
    expect(f'from above its hole is seen: {seen.mean()}', hole.all() and 0.1 < seen.mean() < 0.5)


def run(page, work):
    numbers(page, work)
    if os.path.exists(os.path.join(work, 'drawn.html')):
        curves(page)
        keys(page)
        page.work = work
        bars(page)
    pointer(page, work)
    keeping(page, work)
    phone(page, work)
    edits(page, work)
    ring(page, work)
    measures(page, work)
    if os.path.exists(os.path.join(work, 'ring.html')):
        small_screens(page, work)
