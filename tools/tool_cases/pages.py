"""Cases of the page of tools/draw: what a browser without a window or a network shows of it, says, and asks for."""
import json
import os
import re

from tool_cases import CASES, browser, expect, library, page_acts, refused, skip, tool
from tool_cases.betti import drawn_cloud, steps_by_gudhi
from tool_cases.seen import BLUE, LINK, ORANGE, WITHOUT_CONES, is_bare, is_of, patches, scene

CUBE = os.path.join(CASES, '04-cube.shape')
# Ten drawings in motion, each finished before the next.
DRAWINGS = """(() => { const gl = page.scene.gl, pixel = new Uint8Array(4);
    for (let k = 0; k < 10; k++) {
      page.view.az += 0.02, page.move(), page.draw(), gl.readPixels(0, 0, 1, 1, gl.RGBA, gl.UNSIGNED_BYTE, pixel);
    } return 1; })()"""


def torus(u_count, v_count):
    """A report of a torus of u_count times v_count points, whose shape has all its triangles, regular ones."""
    import numpy as np
    u, v = (np.arange(n) * 2 * np.pi / n for n in (u_count, v_count))
    u, v = (a.ravel() for a in np.meshgrid(u, v, indexing='ij'))
    ring = 5000 + 2000 * np.cos(v)
    points = np.rint(np.stack([8000 + ring * np.cos(u), 8000 + ring * np.sin(u), 8000 + 2000 * np.sin(v)], axis=1))
    i, j = (a.ravel() for a in np.meshgrid(np.arange(u_count), np.arange(v_count), indexing='ij'))
    at = [(i + a) % u_count * v_count + (j + b) % v_count for a, b in ((0, 0), (1, 0), (0, 1), (1, 1))]
    triangles = np.sort(np.concatenate([np.stack(at[:3], axis=1), np.stack(at[1:], axis=1)]), axis=1)
    rows = [f'mesh3-out 1\nreplies 0\npoints {len(points)}\n',
            *(f'{x} {y} {z}\n' for x, y, z in points.astype(int).tolist()),
            'cells 0\nhull 0\nshape 7\npoints 0\nedges 0\n', f'triangles {len(triangles)}\n',
            *(f'{a} {b} {c} regular\n' for a, b, c in triangles.tolist()), 'cells 0\nend\n']
    return ''.join(rows).encode()


def written(work):
    """Pages without a browser: how they are made, what they lack, and what is refused."""
    page, steps = os.path.join(work, 'cube.html'), os.path.join(CASES, '04-cube.steps')
    status, out, err = tool('draw', CUBE, page)
    text = open(page, encoding='utf-8').read() if status == 0 else ''
    loads = re.search(r'(src|href)=["\']|@import|url\(|https?:|import\(|fetch\(|XMLHttp', text)
    expect(f'a page that loads nothing: {err} {loads}', status == 0 and not loads)
    expect(f'a small page: {len(text)}', 0 < len(text) < 100000)
    large = os.path.join(work, 'large.html')
    status, out, err = tool('draw', '-', large, given=torus(512, 512))
    size = os.path.getsize(large) if status == 0 else 0
    expect(f'a page of 262,144 points and 524,288 triangles: {size} bytes, {err}', 0 < size < 8_000_000)
    page = os.path.join(work, 'steps.html')
    for what, words in (('the report is found beside', (steps,)), ('an edit file as the other input',
                        (os.path.join(CASES, '04-cube.in'), steps)),
                        ('a report by --points', (steps, '--points', os.path.join(CASES, '04-cube.mesh')))):
        status, out, err = tool('draw', words[0], *words[1:2], *words[2:], page)
        expect(f'steps, {what}: {err}', status == 0)
    with open(steps, 'rb') as file:
        given = file.read()
    refused('steps without points', 'draw', '-', page, given=given, said='--points')
    refused('points of another cloud', 'draw', '-', os.path.join(CASES, '01-tetrahedron.mesh'), page, given=given,
            said='not the points of the steps')
    refused('two reports', 'draw', CUBE, os.path.join(CASES, '04-cube.mesh'), page, said='a second report')
    refused('a picture of steps', 'draw', steps, os.path.join(work, 'x.png'), said='a cloud or of a report')
    refused('a program that is not there', 'draw', os.path.join(CASES, '04-cube.in'), page, '--program',
            os.path.join(work, 'none'), said='none')
    refused('a radius that is none', 'draw', steps, page, '--radius', 'wide', said='wide')


def thinned(work):
    """Of too many triangles a page keeps those of some radii, whole, and the numbers of all."""
    if library('gudhi') is None:
        return
    import numpy as np
    from mesh3 import drawn, pages
    from mesh3.filtration import of_steps
    from mesh3.reports import read_steps
    points, name = drawn_cloud(300, 31), os.path.join(work, 'many.steps')
    with open(name, 'w', encoding='ascii') as file:
        file.write(steps_by_gudhi(points))
    whole, few = (drawn.of_filtration(of_steps(read_steps(name)).with_points(points, name)) for _ in range(2))
    most, drawn.MOST_TRIANGLES = drawn.MOST_TRIANGLES, len(whole.triangles) * 2 // 3
    few.thinned()
    drawn.MOST_TRIANGLES, limit = most, drawn.MOST_TRIANGLES

    def seen(of, stop):
        stops = of.triangle_stops
        return {tuple(t) for t in of.triangles[(stops[:, 0] <= stop) & (stop < stops[:, 2])].tolist()}

    expect(f'of too many triangles {len(few.triangles)} are kept, at {len(few.chosen)} radii',
           100 < len(few.triangles) <= limit and len(few.chosen) > 8)
    expect('the shapes at these are whole', all(seen(few, stop) == seen(whole, stop) for stop in few.chosen))
    expect('the numbers are those of all', np.array_equal(few.numbers(), whole.numbers()))
    said, gone = pages.words_of(few, []), few.all_triangles - len(few.triangles)
    expect(f'it says what it leaves out: {said}', f'leaves out {gone:,} of {few.all_triangles:,} triangles' in said)


def cube(page, work):
    """The cube of edge 2: shapes by their pixels, alone seen along an axis, as each radius has it."""
    import numpy as np
    name, shot = os.path.join(work, 'steps.html'), os.path.join(work, 'cube.png')
    page.open(name, LINK.format(48))
    blue = is_of(scene(page, shot), BLUE)
    rows, columns = np.flatnonzero(blue.any(axis=1)), np.flatnonzero(blue.any(axis=0))
    high, wide = np.ptp(rows) + 1, np.ptp(columns) + 1
    expect(f'a cube seen along an axis is a square: {wide} by {high}, {blue.sum()} pixels',
           high > 200 and abs(high - wide) < 4 and blue.sum() > 0.98 * high * wide)
    page.open(name, LINK.format(32))
    orange = is_of(scene(page, shot), ORANGE)
    expect(f'at the face diagonals its sides are loose, {orange.sum()} pixels', orange.sum() > 0.9 * blue.sum())
    page.open(name, LINK.format(16))
    lines = scene(page, shot)
    orange = lines[:, :, 0] > lines[:, :, 2] + 0.2
    expect(f'at its edges it is twelve lines, {orange.sum()} pixels', 60 < orange.sum() < 0.1 * blue.sum())
    page.open(name, LINK.format(0))
    expect('at 0 there is nothing without points', is_bare(scene(page, shot)).all())
    page.open(name, '#a=0&v=0.5,0.3,1,0,0&s=pn')
    dots = patches(~is_bare(scene(page, shot)))
    expect(f'at 0 there are eight points: {dots}', len(dots) == 8)
    page.open(name, LINK.format(48) + '&c=z,0.5,1')
    cut = is_of(scene(page, shot), BLUE)
    expect(f'cut in the middle half of it is left, {cut.sum()} pixels', 0.45 < cut.sum() / blue.sum() < 0.62)


def colours():
    """The two colours of faces are told apart by eyes that lack one kind of cones, in light and in shade."""
    import numpy as np
    linear = [np.array(colour) ** 2.2 for colour in (BLUE, ORANGE)]
    for cones, rows in WITHOUT_CONES.items():
        blue, orange = (np.array(rows) @ colour for colour in linear)
        apart = min(np.linalg.norm(a * blue / blue.max() - b * orange / orange.max())
                    for a in np.linspace(0.3, 1, 8) for b in np.linspace(0.3, 1, 8))
        expect(f'blue and orange without the cones for {cones} waves: {apart:.2f}', apart > 0.2)


def surfaces(page, work):
    """A surface of half a million triangles without tetrahedra, and the boundary of a part."""
    page.open(os.path.join(work, 'large.html'), '#s=n')
    share = is_of(scene(page, os.path.join(work, 'large.png')), BLUE).mean()
    expect(f'a torus of half a million triangles is drawn: {share}', 0.1 < share < 0.7)
    name = os.path.join(work, 'part.html')
    status, out, err = tool('draw', os.path.join(CASES, '01-tetrahedron.boundary_48'), name)
    page.open(name, '#s=n')
    share = is_of(scene(page, os.path.join(work, 'part.png')), BLUE).mean()
    expect(f'the boundary of a part is drawn: {share}, {err}', status == 0 and 0.03 < share < 0.5)


def moving(page, work):
    """In motion a coarse copy is drawn of very many triangles, which covers what they do; points do not hide them."""
    page.open(os.path.join(work, 'large.html'))
    whole = is_of(scene(page, os.path.join(work, 'still.png')), BLUE)
    expect(f'of many points those alone are shown that nothing joins: {page.value("page.view.text")}',
           page.value('page.view.points') is None and whole.sum() > 0.9 * (whole | is_dark(page, work)).sum())
    page.value("""page.pace = () => 0, page.rest = () => 0, page.share = 1, page.most = 16384, page.move(),
        page.draw(), 1""")
    coarse = is_of(scene(page, os.path.join(work, 'moving.png')), BLUE)
    drawn = page.value('(page.scene.shapes.coarseSolid.count + page.scene.shapes.coarseLoose.count) / 3')
    expect(f'of half a million triangles {drawn} are drawn in motion', 4000 < drawn <= 1.5 * 16384)
    expect(f'which cover the same, but for {(whole ^ coarse).sum()} of {whole.sum()} pixels',
           (whole ^ coarse).sum() < 0.06 * whole.sum())
    spent = page.spent()
    page.value(DRAWINGS, 600)
    spent = (page.spent() - spent) / 10
    expect(f'a drawing takes {1e3 * spent:.0f} ms of all processors: ten a second go', spent < 0.1 * os.cpu_count())


def is_dark(page, work):
    """Which pixels are as dark as a point that is joined."""
    return scene(page, os.path.join(work, 'dark.png')).max(axis=2) < 0.3


def columns(page, work):
    """Columns come out of a page as they were put in: small and large, below 0, and sums of many small steps."""
    from mesh3.packing import Pack
    wanted = {'small': [0, 255, 3], 'below': [-70000, 5, 0], 'large': [(1 << 40) + 1, 0, 7],
              'climbing': list(range(0, 1 << 34, 1 << 23)), 'falling': list(range(0, -1 << 34, -1 << 22))}
    pack = Pack()
    for name, values in wanted.items():
        pack.put(name, values, steps=name in ('climbing', 'falling'))
    page.open(os.path.join(work, 'steps.html'))
    told = page.value(f"""bytesOf('{pack.text()}').then(bytes => Object.fromEntries(
        Object.entries({json.dumps(pack.told)}).map(([name, of]) => [name, [...columnOf(bytes, of)]])))""")
    for name, values in wanted.items():
        expect(f'a column of {name} numbers: {told[name][:9]} .. {told[name][-1]}', told[name] == values)


def run(work):
    written(work)
    thinned(work)
    colours()
    if browser() is None:
        skip('no chromium: the pages were not opened')
        return
    from tool_cases.browsing import Browser
    with Browser() as page:
        cube(page, work)
        surfaces(page, work)
        moving(page, work)
        columns(page, work)
        page_acts.run(page, work)
        others = [url for url in page.requests if not url.startswith(('file:///', 'blob:', 'about:'))]
        expect(f'no page asks for anything: {others}', others == [] and len(page.requests) > 0)
        expect(f'the console has no fault: {page.faults}', page.faults == [])
