"""Tests of the package. Expected values come from cases/, made by an independent program, from scipy and GUDHI."""
import collections
import itertools
import pathlib
import runpy
import threading
import unittest
import warnings

import numpy as np

import hanskup
from hanskup import _library

TOP = pathlib.Path(__file__).resolve().parents[2]
KINDS = {'singular': 0, 'regular': 1, 'interior': 2}


def has(name):
    """Whether a package is installed."""
    try:
        __import__(name)
    except ImportError:
        return False
    return True


def sections(path):
    """The sections of a text of words and counted rows: each word, its argument, and its rows."""
    found = []
    for line in path.read_text().splitlines():
        words = line.split()
        if words[0].isdigit():
            found[-1][2].append(words)
        else:
            found.append((words[0], words[1] if len(words) > 1 else None, []))
    return found


def clouds():
    """The cases without edits that are solid: the path without its ending, and the points."""
    for path in sorted((TOP / 'cases').glob('*.in')):
        parts = path.read_text().split('edits\n')
        if len(parts) == 2 and parts[1].startswith('radii'):
            rows = [line.split() for line in parts[0].splitlines()[2:]]
            yield path.with_suffix(''), np.array(rows, dtype=np.int64)


def rows_of(section):
    rows = [[_library.BEYOND if word == 'none' else word for word in row] for row in section[2]]
    return np.array(rows, dtype=np.int64)


def drawn(count, greatest=16383, seed=1):
    return np.random.default_rng(seed).integers(0, greatest + 1, (count, 3))


def cells_of(simplices):
    return {tuple(sorted(row)) for row in np.asarray(simplices).tolist()}


def by_sides(cells):
    """Across each corner the other cell with the other three, -1 where there is none: by all sides."""
    others = np.array([[1, 2, 3], [0, 2, 3], [0, 1, 3], [0, 1, 2]])
    first, across = {}, np.full(cells.shape, -1)
    for i, cell in enumerate(cells):
        for k in range(4):
            side = tuple(cell[others[k]])
            if side in first:
                j, m = first.pop(side)
                across[i, k], across[j, m] = j, i
            else:
                first[side] = (i, k)
    return across


class Cases(unittest.TestCase):
    def test_meshes(self):
        count = 0
        for path, points in clouds():
            text = path.with_suffix('.mesh')
            if not text.exists():
                continue
            told = {word: (word, size, rows) for word, size, rows in sections(text)}
            for order in (points, points[::-1], np.concatenate([points, points[:3]])):
                mesh = hanskup.delaunay(order)
                np.testing.assert_array_equal(mesh.grid, rows_of(told['points']), path.name)
                np.testing.assert_array_equal(mesh.cells, rows_of(told['cells']), path.name)
                np.testing.assert_array_equal(mesh.hull, rows_of(told['hull']), path.name)
                np.testing.assert_array_equal(mesh.across, by_sides(mesh.cells), path.name)
            count += 1
        self.assertGreater(count, 10)

    def test_shapes(self):
        count = 0
        for path, points in clouds():
            text = path.with_suffix('.shape')
            if not text.exists():
                continue
            mesh, radius = hanskup.delaunay(points), None
            # radii of the first two versions are squares, and later ones count sixteenths
            factor = 16 if path.with_suffix('.in').read_text()[6] in '12' else 1
            for word, size, rows in sections(text):
                if word == 'shape':
                    radius, part = int(size), {}
                elif radius is not None:
                    part[word] = rows
                    if word == 'cells':
                        self.same_shape(mesh, hanskup.Shape(mesh, factor * radius), part)
                        count += 1
        self.assertGreater(count, 10)

    def same_shape(self, mesh, shape, part):
        for word, faces, kinds in (('points', shape.points, shape.point_kinds),
                                   ('edges', shape.edges, shape.edge_kinds),
                                   ('triangles', shape.triangles, shape.triangle_kinds)):
            told = [([int(w) for w in row[:-1]], KINDS[row[-1]]) for row in part[word]]
            numbers = mesh._inverse[faces[:, None] if faces.ndim == 1 else faces].tolist()
            self.assertEqual(list(zip(numbers, kinds.tolist())), told)
        cells = [[int(w) for w in row] for row in part['cells']]
        self.assertEqual(mesh._inverse[shape.tetrahedra].tolist(), cells)

    def test_steps(self):
        count = 0
        for path, points in clouds():
            text = path.with_suffix('.steps')
            if not text.exists():
                continue
            mesh = hanskup.delaunay(points)
            told = {word: rows_of((word, size, rows)) for word, size, rows in sections(text) if rows}
            faces = mesh._faces
            for word, rows, alphas in (('edges', faces.edges, faces.edge_alphas[:, 0]),
                                       ('triangles', faces.triangles, faces.triangle_alphas[:, 0]),
                                       ('cells', mesh.cells, faces.cell_alphas)):
                least = np.minimum(alphas, _library.BEYOND).astype(np.int64)
                np.testing.assert_array_equal(np.column_stack([rows.astype(np.int64), least]), told[word])
            count += 1
        self.assertGreater(count, 0)


class Others(unittest.TestCase):
    @unittest.skipUnless(has('scipy'), 'scipy is not installed')
    def test_scipy(self):
        from scipy.spatial import Delaunay
        points = drawn(3000)
        mesh, other = hanskup.delaunay(points), Delaunay(points)
        self.assertEqual(cells_of(mesh.simplices), cells_of(other.simplices))
        self.assertEqual(cells_of(mesh.convex_hull), cells_of(other.convex_hull))
        there = {tuple(sorted(row)): i for i, row in enumerate(other.simplices.tolist())}
        places = [there[tuple(sorted(row))] for row in mesh.simplices.tolist()]
        for i, (row, across) in enumerate(zip(mesh.simplices, mesh.neighbors)):
            told = dict(zip(other.simplices[places[i]].tolist(), other.neighbors[places[i]].tolist()))
            for corner, j in zip(row.tolist(), across.tolist()):
                self.assertEqual(told[corner], places[j] if j >= 0 else -1)
        starts, around = mesh.vertex_neighbor_vertices
        others, theirs = other.vertex_neighbor_vertices
        for i in range(len(points)):
            self.assertEqual(around[starts[i]:starts[i + 1]].tolist(), sorted(theirs[others[i]:others[i + 1]].tolist()))

    @unittest.skipUnless(has('scipy'), 'scipy is not installed')
    def test_hull_as_scipy(self):
        from scipy.spatial import ConvexHull
        points = drawn(3000)
        mesh, other = hanskup.delaunay(points), ConvexHull(points)
        self.assertEqual(mesh.hull_vertices.tolist(), sorted(other.vertices.tolist()))
        there = {tuple(sorted(row)): i for i, row in enumerate(other.simplices.tolist())}
        places = [there[tuple(row)] for row in np.sort(mesh.convex_hull, axis=1).tolist()]
        np.testing.assert_allclose(mesh.hull_equations, other.equations[places], rtol=0, atol=1e-6)
        for i, (row, across) in enumerate(zip(mesh.convex_hull, mesh.hull_neighbors)):
            told = dict(zip(other.simplices[places[i]].tolist(), other.neighbors[places[i]].tolist()))
            self.assertEqual([told[corner] for corner in row], [places[j] for j in across])
        self.assertLess((mesh.points @ mesh.hull_equations[:, :3].T + mesh.hull_equations[:, 3]).max(), 1e-6)

    def test_hull_of_floats(self):
        mesh = hanskup.delaunay(np.random.default_rng(4).random((100, 3)) * 3 + 7)
        heights = mesh.points @ mesh.hull_equations[:, :3].T + mesh.hull_equations[:, 3]
        self.assertLess(heights.max(), 4 * mesh.rounding)
        self.assertTrue((np.sort(np.abs(heights), axis=0)[2] < 4 * mesh.rounding).all())

    @unittest.skipUnless(has('gudhi'), 'gudhi is not installed')
    def test_gudhi(self):
        import gudhi
        points = drawn(400, 200, 2)
        points = np.unique(points, axis=0)
        mesh = hanskup.delaunay(points)
        tree = gudhi.AlphaComplex(points=points.astype(float), precision='exact').create_simplex_tree()
        theirs = {tuple(sorted(face)): value for face, value in tree.get_filtration()}
        told = mesh.filtration()
        ours = dict(zip(map(tuple, np.sort(told.tetrahedra).tolist()), told.tetrahedron_alphas.tolist()))
        self.assertTrue(set(ours) and set(ours) <= set(map(tuple, np.sort(mesh.simplices).tolist())))
        shared = 0
        for faces, alphas in ((told.edges, told.edge_alphas[:, 0]), (told.triangles, told.triangle_alphas[:, 0]),
                              (told.tetrahedra, told.tetrahedron_alphas)):
            for face, alpha in zip(np.sort(faces).tolist(), alphas.tolist()):
                if tuple(face) in theirs:  # ties are broken otherwise there
                    value = theirs[tuple(face)]
                    self.assertTrue(-1e-6 * value <= alpha - value <= 1 / 16 + 1e-6 * value, (face, alpha, value))
                    shared += 1
        self.assertGreater(shared, 5000)


class Placed(unittest.TestCase):
    def test_floats(self):
        points = drawn(500) * 0.5 + 3.25
        mesh = hanskup.delaunay(points, unit=0.5)
        whole = hanskup.delaunay(drawn(500) - (drawn(500)).min(axis=0))
        np.testing.assert_array_equal(mesh.simplices, whole.simplices)
        self.assertEqual(mesh.rounding, 0.0)
        self.assertAlmostEqual(mesh.filtration().tetrahedron_alphas[0], whole.filtration().tetrahedron_alphas[0] / 4)

    def test_turns(self):
        mesh = hanskup.delaunay(np.random.default_rng(3).random((200, 3)))
        a, b, c, d = (mesh.points[mesh.simplices[:, i]] for i in range(4))
        self.assertTrue((np.einsum('ij,ij->i', np.cross(b - a, c - a), d - a) > 0).all())
        a, b, c = (mesh.points[mesh.convex_hull[:, i]] for i in range(3))
        middle = mesh.points.mean(axis=0)
        self.assertTrue((np.einsum('ij,ij->i', np.cross(b - a, c - a), middle - a) < 0).all())

    def test_warnings(self):
        points = np.random.default_rng(4).random((50, 3))
        with self.assertWarnsRegex(hanskup.RoundingWarning, 'fell together'):
            mesh = hanskup.delaunay(np.concatenate([points, points[:2]]))
        self.assertEqual(mesh.coplanar[:, [0, 2]].tolist(), [[50, 0], [51, 1]])
        for point, simplex, other in mesh.coplanar:
            self.assertIn(other, mesh.simplices[simplex])
        with self.assertWarnsRegex(hanskup.RoundingWarning, 'were moved'):
            hanskup.delaunay(points, unit=0.01)
        with warnings.catch_warnings():
            warnings.simplefilter('error')
            hanskup.delaunay(points)

    def test_radius(self):
        mesh = hanskup.delaunay(np.random.default_rng(5).random((300, 3)))
        told = mesh.filtration()
        for radius in (0.0, 0.05, 0.2, 10.0):
            shape = mesh.alpha(radius)
            self.assertEqual(len(shape.edges), (told.edge_alphas[:, 0] <= radius ** 2).sum())
            self.assertEqual(len(shape.tetrahedra), (told.tetrahedron_alphas <= radius ** 2).sum())
            rows = shape.tetrahedra.tolist()
            sides = [tuple(sorted(side)) for row in rows for side in itertools.combinations(row, 3)]
            once = {side for side, count in collections.Counter(sides).items() if count == 1}
            self.assertEqual(cells_of(shape.boundary()), once)
        self.assertRaises(ValueError, mesh.alpha, -1.0)


def flooded(rows, sides, outside=()):
    """The rows of indices in groups, those that share one of these sides in one; without those that have a side of the
    outside, nor what they share a side with."""
    known = collections.defaultdict(list)
    for i, row in enumerate(rows):
        for side in itertools.combinations(sorted(row), 3):
            known[side].append(i)
    group = {}
    for first in range(len(rows)):
        ahead = [] if first in group else [first]
        while ahead:
            i = ahead.pop()
            if i not in group:
                group[i] = first
                near = [side for side in itertools.combinations(sorted(rows[i]), 3) if side in sides]
                ahead += [k for side in near for k in known[side]]
    lost = {group[i] for i, row in enumerate(rows)
            if any(side in outside for side in itertools.combinations(sorted(row), 3))}
    return collections.Counter(frozenset(map(tuple, (sorted(rows[i]) for i in group if group[i] == first)))
                               for first in set(group.values()) - lost)


def grouped(rows, numbers):
    return collections.Counter(frozenset(tuple(sorted(row)) for row, number in zip(rows.tolist(), numbers)
                                         if number == one) for one in range(numbers.max(initial=-1) + 1))


@unittest.skipUnless(has('scipy'), 'scipy is not installed')
class Pieces(unittest.TestCase):
    def test_parts_and_voids(self):
        voids = 0
        for seed, radius in itertools.product(range(6), (0.05, 0.11, 0.14, 0.2, 10.0)):
            mesh = hanskup.delaunay(np.random.default_rng(seed).random((150, 3)))
            shape, told = mesh.alpha(radius), mesh.filtration()
            rows = shape.tetrahedra.tolist()
            every = {side for row in rows for side in itertools.combinations(sorted(row), 3)}
            self.assertEqual(grouped(shape.tetrahedra, shape.parts()), flooded(rows, every))
            beyond = told.triangle_alphas[:, 0] > radius ** 2
            passed = set(map(tuple, np.sort(told.triangles[beyond]).tolist()))
            out = [row for row, alpha in zip(told.tetrahedra.tolist(), told.tetrahedron_alphas) if alpha > radius ** 2]
            found = shape.voids()
            self.assertEqual(grouped(*found[:2]), flooded(out, passed, passed & cells_of(mesh.convex_hull)))
            voids += len(found.numbers)
        self.assertGreater(voids, 0)


class Refused(unittest.TestCase):
    def test_refusals(self):
        plane = np.array([[x, y, 0] for x in range(4) for y in range(4)])
        self.assertRaises(hanskup.Flat, hanskup.delaunay, plane)
        self.assertRaises(hanskup.Flat, hanskup.delaunay, np.zeros((0, 3), int))
        self.assertRaises(hanskup.Flat, hanskup.delaunay, np.zeros((0, 3)))
        self.assertRaises(hanskup.Flat, hanskup.delaunay, np.ones((9, 3)))
        for value in (-1, 16384, 2 ** 62):
            self.assertRaises(hanskup.OutOfRange, hanskup.delaunay, np.array([[value, 0, 0]] * 5))
        self.assertRaises(hanskup.OutOfRange, hanskup.delaunay, np.array([[2 ** 64 - 1, 0, 0]] * 5, np.uint64))
        self.assertRaises(hanskup.OutOfRange, hanskup.delaunay, np.eye(4, 3), unit=1e-6)
        self.assertRaises(hanskup.OutOfRange, hanskup.delaunay, np.eye(4, 3), unit=1e-320)
        self.assertRaises(hanskup.OutOfRange, hanskup.delaunay, np.array([[1e308, 0, 0], [-1e308, 0, 1]] * 3))
        self.assertRaises(ValueError, hanskup.delaunay, np.eye(4, 3) * 1j)
        self.assertRaises(ValueError, hanskup.delaunay, np.zeros((4, 2)))
        self.assertRaises(ValueError, hanskup.delaunay, np.array([[0.0, 0.0, np.nan]] * 4))
        self.assertRaises(ValueError, hanskup.delaunay, np.eye(4, 3), unit=0.0)
        self.assertRaises(ValueError, hanskup.delaunay, np.eye(4, 3, dtype=int), unit=1.0)

    def test_room(self):
        lines = [[i, 2 * i, 3 * i] for i in range(120)] + [[9000 - i, 100, 9000 - 2 * i] for i in range(120)]
        mesh = hanskup.delaunay(np.array(lines))  # more cells than the first room has rows
        self.assertGreater(len(mesh.cells), 7 * 240 + 64)
        self.assertEqual(len(mesh.cells), 119 * 119)
        np.testing.assert_array_equal(mesh.across, by_sides(mesh.cells))
        self.same_by_one(np.array(lines), mesh)

    def test_by_one_triangulation(self):
        for points in (drawn(300, seed=3), drawn(100, 20), np.random.default_rng(4).random((200, 3))):
            with warnings.catch_warnings():
                warnings.simplefilter('ignore')
                self.same_by_one(points, hanskup.delaunay(points))
        for refused in ([[i, i, i] for i in range(9)], np.zeros((0, 3), int)):
            self.assertRaises(hanskup.Flat, hanskup.delaunay, np.array(refused), faces=True)

    def same_by_one(self, points, mesh):
        """With its faces a mesh is the same, and so are they; an edit lets them go."""
        both = hanskup.delaunay(points, faces=True)
        for name in ('grid', 'cells', 'across', 'hull'):
            np.testing.assert_array_equal(getattr(both, name), getattr(mesh, name))
        for ours, theirs in zip(both.filtration(), mesh.filtration()):
            np.testing.assert_array_equal(ours, theirs)
        self.assertEqual(both.take([0, 1]).tolist(), mesh.take([0, 1]).tolist())
        for ours, theirs in zip(both.filtration(), mesh.filtration()):
            np.testing.assert_array_equal(ours, theirs)


class Threads(unittest.TestCase):
    def test_two(self):
        sets = [drawn(2000, seed=seed) for seed in range(6)]
        alone = [hanskup.delaunay(points) for points in sets]
        found = [None] * len(sets)

        def work(i):
            mesh = hanskup.delaunay(sets[i])
            found[i] = (mesh.cells, mesh.filtration().edge_alphas)

        workers = [threading.Thread(target=work, args=(i,)) for i in range(len(sets))]
        for worker in workers:
            worker.start()
        for worker in workers:
            worker.join()
        for mesh, (cells, alphas) in zip(alone, found):
            np.testing.assert_array_equal(mesh.cells, cells)
            np.testing.assert_array_equal(mesh.filtration().edge_alphas, alphas)


class Examples(unittest.TestCase):
    def test_surface(self):
        made = runpy.run_path(str(TOP / 'python/examples/surface.py'))
        triangles = made['triangles']
        edges = np.sort(triangles[:, [[0, 1], [1, 2], [2, 0]]].reshape(-1, 2))
        edges, counts = np.unique(edges, axis=0, return_counts=True)
        self.assertTrue((counts == 2).all())  # closed
        self.assertEqual(len(np.unique(triangles)) - len(edges) + len(triangles), 0)  # a torus

    @unittest.skipUnless(has('scipy'), 'scipy is not installed')
    def test_pockets(self):
        made = runpy.run_path(str(TOP / 'python/examples/pockets.py'))
        self.assertEqual(made['counts'], {'closed shell': 1, 'open shell': 0, 'two shells': 2})


if __name__ == '__main__':
    unittest.main()
