"""Cases of surfaces that tools/export writes: those of solids that touch themselves, as they are and split."""
import collections
import os
import subprocess

from tool_cases import CASES, PROGRAM, expect, is_built, library, refused, tool, volume_of

# Cubes that touch: along an edge; at a point; and eight without two in the middle of three layers, which meet along an
# edge whose ends have one round of triangles each. Cut along its edges the last is a ring, whose Euler number is 0.
EDGE = {(0, 0, 0), (1, 1, 0)}
POINT = {(0, 0, 0), (1, 1, 1)}
RING = {(x, y, z) for x in range(2) for y in range(2) for z in range(3)} - {(0, 1, 1), (1, 0, 1)}


def squares_of(solid):
    """The squares between a cube of the solid and none, each by its corners counterclockwise from outside."""
    for cube in solid:
        for axis in range(3):
            for high in (0, 1):
                across = list(cube)
                across[axis] += 2 * high - 1
                if tuple(across) not in solid:
                    corners = []
                    for du, dv in ((0, 0), (1, 0), (1, 1), (0, 1)):
                        corner = list(cube)
                        corner[axis] += high
                        corner[(axis + 1) % 3] += du
                        corner[(axis + 2) % 3] += dv
                        corners.append(tuple(corner))
                    yield corners if high else corners[::-1]


def off_of(solid, wide=100):
    """The OFF of a solid of cubes, each so many steps of the grid wide."""
    numbers, lines = {}, []
    for corners in squares_of(solid):
        a, b, c, d = (numbers.setdefault(corner, len(numbers)) for corner in corners)
        lines += [f'3 {a} {b} {c}\n', f'3 {a} {c} {d}\n']
    points = ''.join('%d %d %d\n' % tuple(wide * x for x in corner) for corner in numbers)
    return (f'OFF\n{len(numbers)} {len(lines)} 0\n' + points + ''.join(lines)).encode()


def edges_of(triangles):
    return collections.Counter((t[i], t[(i + 1) % 3]) for t in triangles for i in range(3))


def is_manifold(triangles):
    """Whether each edge has two triangles, once in each direction, and each point one round of triangles."""
    edges = edges_of(triangles)
    around = collections.defaultdict(dict)
    for t in triangles:
        for i in range(3):
            around[t[i]][t[(i + 1) % 3]] = t[(i + 2) % 3]
    for arms in around.values():
        first = next(iter(arms))
        steps, at = 1, arms.get(first)
        while at not in (first, None) and steps < len(arms):
            steps, at = steps + 1, arms.get(at)
        if at != first or steps != len(arms):
            return False
    return all(count == 1 and edges[j, i] == 1 for (i, j), count in edges.items())


def euler_of(triangles):
    return len({i for t in triangles for i in t}) - len(edges_of(triangles)) // 2 + len(triangles)


def written(work, what, given, *words, suffix='ply'):
    """The triangles of a surface that is exported, its volume and its points."""
    name = os.path.join(work, f'surface.{suffix}')
    status, out, err = tool('export', '-', name, *words, given=given)
    expect(f'{what}: {status}, {err}', status == 0)
    volume, mesh = volume_of(name)
    return mesh.cells_dict['triangle'].tolist(), volume, mesh.points


def touching(work):
    for what, solid, euler, of_split in (('cubes that touch along an edge', EDGE, 3, 4),
                                         ('cubes that touch at a point', POINT, 3, 4),
                                         ('a ring that touches itself', RING, 1, 0), ('a cube', {(0, 0, 0)}, 2, 2)):
        given = off_of(solid)
        triangles, volume, _ = written(work, what, given, '--what', 'surface')
        manifold = len(solid) == 1
        expect(f'{what}, as it is: {euler_of(triangles)}', is_manifold(triangles) == manifold and
               abs(volume - 1e6 * len(solid)) < 1 and euler_of(triangles) == euler)
        triangles, near, points = written(work, f'{what}, split', given, '--what', 'surface', '--split')
        expect(f'{what}, split: {euler_of(triangles)}', is_manifold(triangles) and euler_of(triangles) == of_split)
        expect(f'{what}, split, encloses nearly as much: {near}', abs(near - volume) < 1e-2 * volume)
        expect(f'{what}: no two points at one place', len({tuple(p) for p in points.tolist()}) == len(points))
    name = os.path.join(work, 'x.ply')
    refused('a surface that is open', 'export', '-', name, '--what', 'surface', '--split',
            given=b'OFF\n3 1 0\n0 0 0\n0 0 1\n0 1 0\n3 0 1 2\n', said='not closed')
    refused('what is no surface', 'export', os.path.join(CASES, '04-cube.shape'), name, '--split',
            said='--split is for')


def watertight(what, name):
    """What trimesh says of a file, which joins points at one place."""
    trimesh = library('trimesh')
    if trimesh is not None:
        mesh = trimesh.load(name)
        expect(f'{what}: trimesh calls it watertight', mesh.is_watertight and mesh.is_winding_consistent)


def joined(points, triangles):
    """The triangles by the numbers of their places, as readers join points at one place."""
    numbers = {}
    of = [numbers.setdefault(tuple(p), len(numbers)) for p in points.tolist()]
    return [tuple(of[i] for i in t) for t in triangles]


def of_program(work):
    """The one part and the boundary of a shape of the drawn torus, as they are and split."""
    if not is_built():
        return
    placing = os.path.join(work, 'torus.json')
    drawn = tool('example-surface')[1]
    edits = tool('points', '--format', 'xyz', '--radius', '0.3', '--placing', placing, given=drawn)[1]
    for what, command, words in (('part', ['parts', '--most', '1', '--off', '0'], ('--what', 'surface')),
                                 ('shape', ['shape'], ('--what', 'boundary', '--radius', '0.3'))):
        made = subprocess.run([PROGRAM, *command], input=edits, capture_output=True, timeout=120, check=True).stdout
        triangles, volume, points = written(work, what, made, *words, '--placing', placing)
        edges = edges_of(triangles)
        crossed = sum(count > 1 for count in edges.values())
        expect(f'{what}: closed, with edges of four triangles: {crossed}', crossed > 0 and
               all(count == edges[j, i] for (i, j), count in edges.items()))
        corners = {i for t in triangles for i in t}
        expect(f'{what}: each point has a triangle', sorted(corners) == list(range(len(points))))
        for suffix in ('ply', 'stl', 'off'):
            parted, near, places = written(work, f'{what}, split', made, *words, '--placing', placing, '--split',
                                           suffix=suffix)
            parted = joined(places, parted)
            expect(f'{what}, split, to {suffix}: manifold, Euler number {euler_of(parted)}, before '
                   f'{euler_of(triangles)}', is_manifold(parted) and euler_of(parted) % 2 == 0)
            expect(f'{what}, split, to {suffix} encloses nearly as much: {near}, {volume}',
                   abs(near - volume) < 1e-3 * volume)
            watertight(f'{what}, split, to {suffix}', os.path.join(work, f'surface.{suffix}'))


def run(work):
    touching(work)
    of_program(work)
