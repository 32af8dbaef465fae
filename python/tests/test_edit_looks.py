"""Tests of edits of real coordinates and of looks behind them: indices by a mesh that is made anew, and moves that are
made all at once beside those one after another."""
import copy
import pathlib
import sys
import time
import unittest
import warnings
from unittest import mock

import numpy as np

import hanskup
from hanskup import _edits, _held

sys.path.insert(0, str(pathlib.Path(__file__).resolve().parent))
from real_clouds import each, uniform
from test_hanskup import drawn


class AfterEdits(unittest.TestCase):
    def setUp(self):
        catcher = warnings.catch_warnings()
        catcher.__enter__()
        self.addCleanup(catcher.__exit__, None, None, None)
        warnings.simplefilter('ignore', hanskup.RoundingWarning)

    def judge(self, mesh):
        """The first indices of all places are those of a mesh of the points that are there."""
        here = np.flatnonzero(mesh.living)
        places = mesh._places[here]
        _, first, numbers = np.unique(places, axis=0, return_index=True, return_inverse=True)
        wanted = here[first[numbers.reshape(-1)]]
        np.testing.assert_array_equal(mesh._index_at(places), wanted)
        kinds, corners = mesh.locate(mesh.points[here])
        self.assertEqual(set(kinds.tolist()), {hanskup.POINT})
        np.testing.assert_array_equal(corners[:, 0], wanted)
        np.testing.assert_array_equal(mesh._given[mesh._inverse[here]], wanted)

    def test_drawn_edits(self):
        for greatest, long in ((4, 4096), (9, 8), (200, 4096), (16383, 30)):
            random = np.random.default_rng(greatest)
            with mock.patch.object(_held, '_LONG', long):
                mesh = hanskup.delaunay(drawn(80, greatest, seed=1))
                for step in range(60):
                    count = int(random.integers(1, 12))
                    at = random.integers(0, len(mesh.points), count)
                    places = random.integers(0, greatest + 1, (count, 3))
                    made = (lambda: mesh.add(places), lambda: mesh.take(at), lambda: mesh.move(at, places))
                    made[step % 3]()
                    self.judge(mesh)

    def test_clouds(self):
        for name, points, random in each(300):
            with self.subTest(name):
                mesh = hanskup.delaunay(points, margin=0.1)
                mesh.add(points[:40] + random.normal(size=(40, 3)) * 1e-4)
                self.judge(mesh)
                mesh.take(np.arange(0, 300, 3))
                self.judge(mesh)
                self.assertEqual(mesh.take([0, 1, 3, 4, 6]).tolist(), ['missing', 'removed'] * 2 + ['missing'])
                mesh.move(np.arange(200), points[:200] * 0.999 + points[0] * 0.001)
                self.judge(mesh)

    def test_arrays_that_were_handed_out_stay(self):
        mesh = hanskup.delaunay(uniform(100, np.random.default_rng(1)), margin=0.2)
        other, kept = copy.copy(mesh), []
        for k in range(50):
            kept.append((mesh.points, mesh.points.copy()))
            mesh.add(mesh.points[k] + 1e-2)
            if k % 9 == 0:
                other = copy.copy(mesh)
                mesh.move([k], mesh.points[k] + 2e-3)
                other.add(other.points[3] + 3e-3)
        for array, before in kept:
            np.testing.assert_array_equal(array, before)
            self.assertFalse(array.flags.writeable)
        self.judge(mesh)
        self.judge(other)

    def test_no_rows_are_made_for_a_look(self):
        mesh = hanskup.delaunay(uniform(2000, np.random.default_rng(2)), margin=0.1)
        mesh.locate(mesh.points[0])
        with mock.patch.object(type(mesh._edited), 'rows', side_effect=AssertionError):
            mesh.add(mesh.points[:3] + 1e-3)
            mesh.take([5, 6])
            mesh.move([7], mesh.points[7] + 1e-3)
            mesh.locate(mesh.points[9])
            repr(mesh), mesh.nsimplex, mesh.counts()
        self.assertEqual(mesh.counts(), (len(mesh.grid), len(mesh.cells), len(mesh.hull)))

    def test_a_look_after_an_edit_costs_no_rebuild(self):
        mesh = hanskup.delaunay(uniform(20_000, np.random.default_rng(3)), margin=0.1)
        mesh.add(mesh.points[0] + 1e-3), mesh.locate(mesh.points[0])
        begun = time.process_time()
        for k in range(20):
            mesh.add(mesh.points[k] + 2e-3)
            mesh.locate(mesh.points[k])
        edits = time.process_time() - begun
        begun = time.process_time()
        hanskup.delaunay(mesh.points)
        self.assertLess(edits / 20, (time.process_time() - begun) / 10)


class AllAtOnce(unittest.TestCase):
    def both(self, mesh, at, places):
        """Moves made at once, and one after another: the same replies, and the same mesh."""
        other = copy.copy(mesh)
        with mock.patch.object(_edits, '_FEW', 1 << 60):
            wanted = other.move(at, places)
        with mock.patch.object(_edits, '_FEW', 0):
            told = mesh._moved_anew(mesh._indices(at), *mesh._to_places(places))
        if told is None:
            return None
        np.testing.assert_array_equal(told, wanted)
        np.testing.assert_array_equal(mesh.points, other.points)
        for name in ('simplices', 'neighbors', 'convex_hull'):
            np.testing.assert_array_equal(getattr(mesh, name), getattr(other, name))
        np.testing.assert_array_equal(mesh.locate(mesh.points[::3]).corners, other.locate(mesh.points[::3]).corners)
        return told

    def test_steps_of_a_simulation(self):
        random = np.random.default_rng(4)
        mesh = hanskup.delaunay(uniform(400, random), margin=0.3)
        for _ in range(4):
            at = np.flatnonzero(mesh.living)
            places = mesh.points[at] + random.normal(size=(len(at), 3)) * 0.02
            self.assertEqual(set(self.both(mesh, at, places).tolist()), {'moved'})
            mesh.take(random.integers(0, 400, 3))
            at = np.flatnonzero(mesh.living)[::2]
            self.assertIsNotNone(self.both(mesh, at, mesh.points[at] + 1e-3))

    def test_places_that_others_leave(self):
        random = np.random.default_rng(5)
        for greatest in (12, 40):
            points = np.unique(drawn(300, greatest, 6), axis=0)
            mesh = hanskup.delaunay(points)
            self.assertEqual(set(self.both(mesh, np.arange(len(points)), random.permutation(points)).tolist()),
                             {'occupied'})
            steps = np.unique(points + [1, 0, 0], axis=0)[::-1]  # the next one's place, from the last one on
            replies = self.both(mesh, np.lexsort(points.T[::-1])[::-1], steps)
            self.assertTrue((replies == 'moved').all())
            shuffled = random.permutation(len(points))
            replies = self.both(mesh, shuffled, mesh.points[shuffled] + [0, 1, 0])
            self.assertEqual(set(replies.tolist()) if greatest == 12 else {'moved', 'occupied'}, {'moved', 'occupied'})
            near = np.unique(np.minimum(mesh.points + random.integers(0, 2, mesh.points.shape), greatest), axis=0)
            self.both(mesh, np.arange(len(near)), near)

    def test_where_it_is_not_plain(self):
        points = np.unique(drawn(300, 40, 7), axis=0)
        mesh = hanskup.delaunay(points)
        count = len(points)
        self.assertIsNone(self.both(mesh, np.zeros(count, int), points + 1))
        self.assertIsNone(self.both(mesh, np.arange(count), np.repeat(points[:1] + 50, count, axis=0)))
        flat = points.copy()
        flat[:, 2] = np.arange(count) % 2
        line = np.unique(flat * [1, 1, 0] + [[k, 0, 0] for k in range(count)], axis=0)[:count]
        self.assertIsNone(self.both(mesh, np.arange(count), line))
        mesh.take([3])
        self.assertIsNone(self.both(mesh, np.arange(count), points + 1))
        mesh.add(points[4:5])
        self.assertIsNone(self.both(mesh, np.arange(4, count), points[4:] + 1))

    def test_moving_all_costs_no_more_than_starting_anew(self):
        random = np.random.default_rng(8)
        mesh = hanskup.delaunay(uniform(5000, random), margin=0.2)
        moved = anew = 0.0
        for _ in range(5):
            places = mesh.points + random.normal(size=(5000, 3)) * 1e-3
            begun = time.process_time()
            mesh.move(np.arange(5000), places)
            first = mesh.simplices
            between = time.process_time()
            second = hanskup.delaunay(places, placing=mesh.placing).simplices
            moved, anew = moved + between - begun, anew + time.process_time() - between
            np.testing.assert_array_equal(first, second)
        self.assertLess(moved, 1.3 * anew)


if __name__ == '__main__':
    unittest.main()
