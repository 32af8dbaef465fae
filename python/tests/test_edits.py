"""Tests of edits and looks. Expected values come from the definitions by brute force, from a mesh of the points that
are left, and from scipy."""
import copy
import pathlib
import pickle
import sys
import unittest
from unittest import mock

import numpy as np

import hanskup
from hanskup import _edited, _edits
from hanskup._edited import ADD, MOVE, TAKE, Edited

sys.path.insert(0, str(pathlib.Path(__file__).resolve().parent))
from test_hanskup import TOP, cells_of, drawn, has, sections


def is_flat(places):
    """Whether no four places are independent."""
    places = np.asarray(places, float)
    return len(places) < 4 or np.linalg.matrix_rank(places[1:] - places[0]) < 3


class Plain:
    """What edits by index come to, by the definition of each reply."""

    def __init__(self, points):
        self.at = [tuple(map(int, p)) for p in points]

    def left(self, but=None):
        return {p for i, p in enumerate(self.at) if p is not None and i != but}

    def add(self, p):
        reply = 'duplicate' if p in self.left() else 'inserted'
        self.at.append(p)
        return reply

    def take(self, i):
        if self.at[i] is None:
            return 'missing'
        if is_flat(list(self.left(i))):
            return 'flat'
        self.at[i] = None
        return 'removed'

    def move(self, i, p):
        if self.at[i] is None:
            return 'missing'
        if p in self.left():
            return 'occupied'
        if is_flat(list(self.left(i) | {p})):
            return 'flat'
        self.at[i] = p
        return 'moved'


def inside(cell, q):
    """The sign of a place to the sphere of a tetrahedron: positive inside, exactly."""
    rows = [[int(v) for v in corner - q] for corner in cell]
    rows = [row + [sum(v * v for v in row)] for row in rows]

    def det(m):
        if len(m) == 1:
            return m[0][0]
        return sum((-1) ** k * v * det([r[:k] + r[k + 1:] for r in m[1:]]) for k, v in enumerate(m[0]) if v)

    turn = det([[int(v) for v in corner - cell[0]] for corner in cell[1:]])
    return -np.sign(det(rows)) * np.sign(turn) if turn else 0


def same_mesh(test, mesh):
    """The mesh is that of the points that are left."""
    fresh = hanskup.delaunay(mesh.points[mesh.living])
    for name in ('grid', 'cells', 'across', 'hull'):
        np.testing.assert_array_equal(getattr(mesh, name), getattr(fresh, name))
    here = np.flatnonzero(mesh.living)
    test.assertEqual(cells_of(mesh.simplices), cells_of(here[fresh.simplices]))
    test.assertEqual(cells_of(mesh.convex_hull), cells_of(here[fresh.convex_hull]))
    test.assertEqual(mesh.counts(), (len(fresh.grid), len(fresh.cells), len(fresh.hull)))


class Replies(unittest.TestCase):
    def test_cases(self):
        names = {'+': ADD, '-': TAKE, '=': MOVE}
        count = 0
        for path in sorted((TOP / 'cases').glob('*.in')):
            text = path.with_suffix('.mesh')
            parts = path.read_text().split('edits\n')
            if len(parts) != 2 or parts[1].startswith('radii') or not text.exists():
                continue
            points = [list(map(int, line.split())) for line in parts[0].splitlines()[2:]]
            edits = [line.split() for line in parts[1].split('radii')[0].splitlines()]
            told = [line.lower() for line in text.read_text().splitlines()]
            told = told[2:2 + int(told[1].split()[1])]
            mesh, replies = Edited(np.array(points)), []
            for edit in edits:
                made, status = mesh.edit(names[edit[0]], *np.array(edit[1:], int).reshape(-1, 1, 3))
                self.assertEqual(status, 0)
                replies += made
            self.assertEqual(replies, told[len(points):], path.name)
            rows = {word: [list(map(int, row)) for row in rows] for word, _, rows in sections(text)}
            self.assertEqual(mesh.rows().points.tolist(), rows['points'])
            self.assertEqual(mesh.rows().cells.tolist(), rows['cells'])
            self.assertEqual(mesh.rows().hull.tolist(), rows['hull'])
            self.assertEqual(mesh.counts(), tuple(len(rows[word]) for word in ('points', 'cells', 'hull')))
            count += 1
        self.assertGreater(count, 10)

    def test_drawn(self):
        for greatest, seed in ((3, 1), (9, 2), (16383, 3)):  # many ties, some, hardly any
            random = np.random.default_rng(seed)
            points = drawn(40, greatest, seed)
            mesh, plain = hanskup.delaunay(points), Plain(points)
            for step in range(120):
                i, p = int(random.integers(len(plain.at))), tuple(map(int, random.integers(0, greatest + 1, 3)))
                kind = random.integers(3)
                if kind == 0:
                    self.assertEqual(mesh.add(p).tolist(), [plain.add(p)])
                elif kind == 1:
                    self.assertEqual(mesh.take(i).tolist(), [plain.take(i)])
                else:
                    self.assertEqual(mesh.move(i, p).tolist(), [plain.move(i, p)])
                self.assertEqual([tuple(p) for p in mesh.points[mesh.living].tolist()],
                                 [p for p in plain.at if p is not None])
                if step % 10 == 9:
                    same_mesh(self, mesh)

    def test_many_at_once(self):
        # Pieces of several edits, with points that fall together and indices that come twice.
        for greatest, seed in ((3, 21), (9, 22), (16383, 23)):
            random = np.random.default_rng(seed)
            points = drawn(60, greatest, seed)
            with mock.patch.object(_edits, '_PIECE', 7):
                mesh, plain = hanskup.delaunay(points), Plain(points)
                for _ in range(6):
                    places = random.integers(0, greatest + 1, (20, 3))
                    self.assertEqual(mesh.add(places).tolist(), [plain.add(tuple(p)) for p in places.tolist()])
                    gone = random.integers(0, len(plain.at), 15)
                    self.assertEqual(mesh.take(gone).tolist(), [plain.take(i) for i in gone.tolist()])
                    at, places = random.integers(0, len(plain.at), 25), random.integers(0, greatest + 1, (25, 3))
                    told = [plain.move(i, tuple(p)) for i, p in zip(at.tolist(), places.tolist())]
                    self.assertEqual(mesh.move(at, places).tolist(), told)
                    self.assertEqual([tuple(p) for p in mesh.points[mesh.living].tolist()],
                                     [p for p in plain.at if p is not None])
                    same_mesh(self, mesh)

    def test_down_to_four(self):
        mesh = hanskup.delaunay(np.array([[0, 0, 0], [4, 0, 0], [0, 4, 0], [0, 0, 4], [1, 1, 1]]))
        self.assertEqual(mesh.take([4, 4, 0]).tolist(), ['removed', 'missing', 'flat'])
        self.assertEqual(mesh.move([0, 0, 0, 4], [[4, 4, 0], [0, 4, 0], [1, 1, 1], [2, 2, 2]]).tolist(),
                         ['moved', 'occupied', 'moved', 'missing'])
        self.assertEqual(mesh.move([3, 0], [[5, 5, 0], [1, 1, 1]]).tolist(), ['moved', 'occupied'])
        self.assertEqual(mesh.add([1, 1, 1]).tolist(), ['duplicate'])
        self.assertEqual(mesh.take([0, 5]).tolist(), ['removed', 'flat'])
        same_mesh(self, mesh)

    @unittest.skipUnless(has('scipy'), 'scipy is not installed')
    def test_scipy(self):
        from scipy.spatial import Delaunay
        points = drawn(900, seed=4)
        mesh = hanskup.delaunay(points[:600])
        self.assertEqual(set(mesh.add(points[600:800]).tolist()), {'inserted'})
        self.assertEqual(set(mesh.take(np.arange(0, 300, 3)).tolist()), {'removed'})
        self.assertEqual(set(mesh.move(np.arange(1, 300, 3), points[800:]).tolist()), {'moved'})
        here = np.flatnonzero(mesh.living)
        self.assertEqual(len(here), 700)
        other = Delaunay(mesh.points[here])
        self.assertEqual(cells_of(mesh.simplices), cells_of(here[other.simplices]))
        told, fresh = mesh.filtration(), hanskup.delaunay(mesh.points[here]).filtration()
        np.testing.assert_array_equal(told.triangle_alphas, fresh.triangle_alphas)
        np.testing.assert_array_equal(told.triangles, here[fresh.triangles])

    def test_floats(self):
        random = np.random.default_rng(5)
        mesh = hanskup.delaunay(random.random((200, 3)), unit=1 / 8192)
        low = mesh.placing.origin
        mesh.add(low + 0.5 * random.random((50, 3)))
        mesh.move([3, 4], low + [[0.1, 0.2, 0.3], [0.3, 0.2, 0.1]])
        np.testing.assert_allclose(mesh.points[3], low + [0.1, 0.2, 0.3])
        self.assertLessEqual(mesh.rounding, 0.5 / 8192 + 1e-12)
        self.assertEqual(mesh.nearest(low + [0.1, 0.2, 0.3]).tolist(), [3])
        self.assertEqual(len(mesh.grid), 250)


class Looks(unittest.TestCase):
    def meshes(self):
        for greatest, seed in ((5, 6), (200, 7)):
            mesh = hanskup.delaunay(drawn(60, greatest, seed))
            mesh.take([1, 2])
            mesh.add(drawn(5, greatest, seed + 1))
            yield mesh, np.concatenate([mesh.grid[::9], drawn(60, greatest, seed + 2),
                                        drawn(20, 2 * greatest, seed + 3)])

    def test_nearest(self):
        for mesh, places in self.meshes():
            found = mesh.nearest(places)
            for place, i in zip(places, found):
                self.assertTrue(mesh.living[i])
                key = lambda p: (int(((p - place) ** 2).sum()), *p.tolist())
                self.assertEqual(mesh.points[i].tolist(), min(mesh.grid, key=key).tolist())

    def test_first_nearest(self):
        # Of few places it does not make the library's mesh, and of many it does: the answers are the same.
        for greatest, seed in ((5, 16), (200, 17)):
            points, places = drawn(60, greatest, seed), drawn(50, greatest, seed + 1)
            mesh, other = hanskup.delaunay(points), hanskup.delaunay(points)
            found = mesh.nearest(places)
            self.assertIsNone(mesh._edited)
            self.assertEqual(other.nearest(np.concatenate([places] * 2)).tolist(), found.tolist() * 2)
            self.assertIsNotNone(other._edited)
            for place, i in zip(places, found):
                key = lambda p: (int(((p - place) ** 2).sum()), *p.tolist())
                self.assertEqual(mesh.points[i].tolist(), min(mesh.grid, key=key).tolist())
            self.assertEqual(mesh.nearest(places[:0]).tolist(), [])

    def test_locate(self):
        for mesh, places in self.meshes():
            at = {tuple(p) for p in mesh.grid.tolist()}
            cells, hull = cells_of(mesh.simplices), cells_of(mesh.convex_hull)
            located = mesh.locate(places)
            self.assertEqual(set(located.kinds.tolist()), {hanskup.POINT, hanskup.CELL, hanskup.BEYOND_HULL})
            for place, kind, corners in zip(places, located.kinds, located.corners):
                self.assertEqual(kind == hanskup.POINT, tuple(place.tolist()) in at)
                if kind == hanskup.POINT:
                    self.assertEqual(mesh.points[corners[0]].tolist(), place.tolist())
                elif kind == hanskup.CELL:
                    self.assertIn(tuple(sorted(corners.tolist())), cells)
                    self.assertGreaterEqual(inside(mesh.points[corners], place), 0)
                else:
                    self.assertIn(tuple(sorted(corners[:3].tolist())), hull)
                    a, b, c = mesh.points[corners[:3]]
                    side = np.sign(np.cross(b - a, c - a) @ (place - a))
                    rest = np.sign((mesh.grid - a) @ np.cross(b - a, c - a))
                    self.assertTrue((rest * side <= 0).all())

    def test_find_simplex(self):
        for mesh, places in self.meshes():
            found = mesh.find_simplex(places)
            for place, i in zip(places, found):
                has_it = np.array([[np.linalg.det(np.vstack([cell[:k], place[None], cell[k + 1:]])[1:]
                                                  - np.vstack([cell[:k], place[None], cell[k + 1:]])[0])
                                    for k in range(4)] for cell in mesh.points[mesh.simplices].astype(float)])
                has_it = (has_it > -1e-6).all(axis=1)
                self.assertEqual(i >= 0, has_it.any())
                self.assertTrue(i < 0 or has_it[i])


class Many(unittest.TestCase):
    @unittest.skipUnless(_edited.HAS_MANY, 'the library has no calls for many')
    def test_as_one_by_one(self):
        random = np.random.default_rng(31)
        places, kinds = random.integers(0, 12, (200, 3)), random.integers(0, 3, 20)
        found = []
        for has_many in (True, False):
            with mock.patch.object(_edited, 'HAS_MANY', has_many):
                mesh = Edited(places[:40])
                told = [mesh.edit(int(kind), places[40 + 8 * k:48 + 8 * k], places[:8]) for k, kind in enumerate(kinds)]
                outside = mesh.edit(ADD, np.array([[1, 2, 3], [0, 0, 16384], [4, 5, 6]]))
                kinds_at, corners = mesh.locate(places)
                found.append((told, outside, kinds_at.tolist(), corners.tolist(), mesh.nearest(places).tolist(),
                              mesh.rows().cells.tolist()))
        self.assertEqual(*found)
        self.assertEqual((len(found[0][1][0]), found[0][1][1]), (1, 2))


class Refused(unittest.TestCase):
    def test_refusals(self):
        mesh = hanskup.delaunay(drawn(50))
        cells = mesh.cells.copy()
        for call in (mesh.add, mesh.locate, mesh.nearest, mesh.find_simplex, lambda p: mesh.move(0, p)):
            if call != mesh.find_simplex:
                if call != mesh.nearest:
                    self.assertRaises(hanskup.OutOfRange, call, [0, 0, 16384])
                    self.assertRaises(hanskup.OutOfRange, call, [-1, 0, 0])
                self.assertRaises(ValueError, call, [0.5, 0, 0])
            self.assertRaises(ValueError, call, [1, 2])
        self.assertRaises(IndexError, mesh.take, 50)
        self.assertRaises(IndexError, mesh.take, -1)
        self.assertRaises(ValueError, mesh.take, 1.0)
        self.assertRaises(ValueError, mesh.move, [0, 1], [[1, 2, 3]])
        self.assertRaises(hanskup.OutOfRange, mesh.add, [[1, 2, 3], [0, 0, 16384]])
        np.testing.assert_array_equal(mesh.cells, cells)
        self.assertEqual(len(mesh.points), 50)
        same_mesh(self, mesh)

    def test_memory(self):
        for status, kind in ((1, hanskup.WantOfMemory), (6, hanskup.Full)):
            for name, call, points in (
                    ('add', lambda mesh: mesh.add([[1, 2, 3], [4, 5, 6], [7, 8, 9]]), 52),
                    ('take', lambda mesh: mesh.take([3, 4, 5]), 50),
                    ('move', lambda mesh: mesh.move([3, 4, 5], [[1, 2, 3], [4, 5, 6], [7, 8, 9]]), 50)):
                mesh = hanskup.delaunay(drawn(50))
                edit = mesh._handle.edit
                mesh._handle.edit = lambda kind, *places: (edit(kind, *(some[:2] for some in places))[0], status)
                with self.assertRaises(kind) as caught:
                    call(mesh)
                reply = {'add': 'inserted', 'take': 'removed', 'move': 'moved'}[name]
                self.assertEqual(caught.exception.replies.tolist(), [reply] * 2)
                self.assertEqual(len(mesh.points), points)
                self.assertEqual(mesh.living[3:6].tolist(), [name != 'take'] * 2 + [True])
                same_mesh(self, mesh)

    def interrupted(self, mesh, call, at):
        """Whether the call is over before the interrupt, which comes at this line of the package, counted from 1."""
        lines = 0

        def trace(frame, event, _):
            nonlocal lines
            if 'hanskup' not in frame.f_code.co_filename:
                return None
            if event == 'line':
                lines += 1
                if lines == at:
                    raise KeyboardInterrupt
            return trace

        sys.settrace(trace)
        try:
            call(mesh)
            return True
        except KeyboardInterrupt:
            return False
        finally:
            sys.settrace(None)

    def test_interrupt_at_each_line(self):
        # Whenever it comes the mesh is that of the points that it tells, and these are those after the first edits.
        points = np.concatenate([drawn(30), drawn(2)])
        for call, edits in ((lambda mesh: mesh.add([[1, 2, 3], [4, 5, 6], [7, 8, 9]]),
                             [('add', (1, 2, 3)), ('add', (4, 5, 6)), ('add', (7, 8, 9))]),
                            (lambda mesh: mesh.take([3, 0, 5]), [('take', 3), ('take', 0), ('take', 5)]),
                            (lambda mesh: mesh.move([3, 0, 5], [[1, 2, 3], [4, 5, 6], [7, 8, 9]]),
                             [('move', 3, (1, 2, 3)), ('move', 0, (4, 5, 6)), ('move', 5, (7, 8, 9))])):
            states, plain = [], Plain(points)
            states.append(list(plain.at))
            for name, *words in edits:
                getattr(plain, name)(*words)
                states.append(list(plain.at))
            at, over, seen = 0, False, set()
            while not over:
                at += 1
                mesh = hanskup.delaunay(points)
                mesh.locate([5, 5, 5])
                with mock.patch.object(_edits, '_PIECE', 1):
                    over = self.interrupted(mesh, call, at)
                told = [tuple(p) if there else None for p, there in zip(mesh.points.tolist(), mesh.living)]
                self.assertIn(told, states)
                seen.add(states.index(told))
                same_mesh(self, mesh)
                mesh.add([9, 9, 9])
                same_mesh(self, mesh)
            self.assertGreater(at, 50)
            self.assertEqual(seen, {0, 1, 2, 3})

    def test_interrupt_in_the_library(self):
        # It comes when the library has made the edits, and nothing tells them yet.
        for name, call in (('add', lambda mesh: mesh.add([[1, 2, 3], [4, 5, 6]])),
                           ('take', lambda mesh: mesh.take([3, 4])),
                           ('move', lambda mesh: mesh.move([3, 4], [[1, 2, 3], [4, 5, 6]]))):
            mesh, made = hanskup.delaunay(drawn(50)), []
            edit = mesh._handle.edit

            def interrupted(*words):
                made.append(edit(*words))
                if len(made) == 2:
                    raise KeyboardInterrupt
                return made[-1]

            mesh._handle.edit = interrupted
            with mock.patch.object(_edits, '_PIECE', 1):
                self.assertRaises(KeyboardInterrupt, call, mesh)
            self.assertEqual(len(mesh.grid), {'add': 51, 'take': 49, 'move': 50}[name])
            same_mesh(self, mesh)

    def test_copies(self):
        for look in (lambda mesh: None, lambda mesh: mesh.nearest([1, 2, 3]), lambda mesh: mesh.locate([1, 2, 3]),
                     lambda mesh: mesh.add([1, 2, 3])):
            for copied in (copy.copy, copy.deepcopy, lambda mesh: pickle.loads(pickle.dumps(mesh))):
                mesh = hanskup.delaunay(drawn(50))
                look(mesh)
                other = copied(mesh)
                other.take([0, 1])
                other.move(2, [9, 9, 9])
                mesh.add([[5, 5, 5], [6, 6, 6]])
                mesh.take(3)
                same_mesh(self, mesh)
                same_mesh(self, other)
                self.assertEqual((mesh.living.sum(), other.living.sum()), (len(mesh.points) - 1, len(other.points) - 2))

    def test_kinds_of_numbers(self):
        points = drawn(50, 200).astype(np.uint8)
        mesh = hanskup.delaunay(points)
        points[:] = 0  # the mesh has points of its own
        self.assertEqual(mesh.move(np.array([0], np.uint64), [300, 400, 500]).tolist(), ['moved'])
        self.assertEqual(mesh.points[0].tolist(), [300, 400, 500])
        mesh.add(np.array([[1000, 2, 3]], np.uint64))
        self.assertEqual(mesh.points[50].tolist(), [1000, 2, 3])
        self.assertEqual(mesh.points.dtype, np.int64)
        self.assertEqual(mesh.take([]).tolist(), [])
        same_mesh(self, mesh)
        for odd in (np.array([[1j, 0, 0]]), [['a', 'b', 'c']], np.array([['2020-01-01'] * 3], 'datetime64[D]'),
                    np.ma.array([[1, 2, 3]], mask=[[0, 1, 0]])):
            self.assertRaises(ValueError, mesh.add, odd)
            self.assertRaises(ValueError, hanskup.delaunay, odd)
        small = hanskup.delaunay(np.random.default_rng(3).random((50, 3)).astype(np.float16))
        self.assertEqual((small.points.dtype, small.points[small.simplices].dtype), (np.float64, np.float64))


if __name__ == '__main__':
    unittest.main()
