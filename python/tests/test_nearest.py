"""Tests of nearest points beside scipy's cKDTree and by the definition."""
import pathlib
import sys
import unittest
import warnings
from unittest import mock

import numpy as np

import hanskup
from hanskup import _looks

sys.path.insert(0, str(pathlib.Path(__file__).resolve().parent))
from real_clouds import each, uniform
from test_hanskup import drawn, has


@unittest.skipUnless(has('scipy'), 'scipy is not installed')
class AsTree(unittest.TestCase):
    def setUp(self):
        catcher = warnings.catch_warnings()
        catcher.__enter__()
        self.addCleanup(catcher.__exit__, None, None, None)
        warnings.simplefilter('ignore', hanskup.RoundingWarning)

    def judge(self, mesh, places, k=3, bound=np.inf):
        """Distances and indices are the tree's; where two points are as near either will do."""
        from scipy.spatial import cKDTree
        at = np.flatnonzero(mesh.living)
        given = mesh.points[at].astype(float)
        far, near = cKDTree(given).query(places, k, distance_upper_bound=bound)
        near = np.append(at, len(mesh.points))[near]
        told, found = mesh.nearest(places, k=k, distance_upper_bound=bound)
        np.testing.assert_allclose(told, far, rtol=1e-14, atol=0)
        other = found != near
        there = np.append(mesh.points, [[np.inf] * 3], axis=0)
        apart = np.linalg.norm(there[found] - places.reshape(-1, 1, 3), axis=2)
        np.testing.assert_allclose(apart[other], far[other], rtol=1e-12)
        self.assertTrue((np.diff(np.sort(found, axis=1), axis=1)[np.sort(found, axis=1)[:, :-1] < len(mesh.points)] > 0)
                        .all())
        first = mesh.nearest(places)
        self.assertTrue(mesh.living[first].all())
        np.testing.assert_allclose(np.linalg.norm(mesh.points[first] - places, axis=1),
                                   cKDTree(given).query(places)[0], rtol=1e-12)

    def test_clouds(self):
        for name, points, random in each(1500):
            with self.subTest(name):
                mesh, size = hanskup.delaunay(points), points.std(axis=0)
                near = points[:300] + random.normal(size=(300, 3)) * size * 0.01
                far = points[:50] + random.normal(size=(50, 3)) * size * 10
                self.judge(mesh, np.concatenate([near, far, points[:50]]))
                self.judge(mesh, near, 5, float(size.max()) * 0.01)
                spacing = mesh.rounding.spacing
                self.judge(mesh, near, 2, spacing)

    def test_after_edits(self):
        random = np.random.default_rng(1)
        for points in (uniform(400, random), drawn(400, 900, seed=2)):
            mesh, size = hanskup.delaunay(points, **({'margin': 0.2} if points.dtype == float else {})), np.ptp(points)
            places = points[:100] + random.normal(size=(100, 3)) * size * 0.05
            places = places if points.dtype == float else np.rint(places)
            made = lambda count: points[random.integers(0, 400, count)] + random.integers(1, 9, (count, 3)) * (
                1 if points.dtype == int else 0.01)
            for step in range(25):
                act = (lambda: mesh.take(random.integers(0, len(mesh.points), 4)), lambda: mesh.add(made(3)),
                       lambda: mesh.move(random.integers(0, len(mesh.points), 3), made(3)))
                act[step % 3]()
                self.judge(mesh, places)
            mesh.take(np.arange(300))
            self.judge(mesh, places, 4)

    def test_shapes_as_scipy(self):
        from scipy.spatial import cKDTree
        points = uniform(50, np.random.default_rng(3))
        mesh, tree = hanskup.delaunay(points), cKDTree(points)
        for places in (points[3] + 0.01, points[:4] + 0.01, points[:6].reshape(2, 3, 3) + 0.01, points[:0]):
            for k in (1, 2, [1], [2], [1, 3], 60):
                for ours, theirs in zip(mesh.query(places, k), tree.query(places, k)):
                    self.assertEqual(np.shape(ours), np.shape(theirs))
                    np.testing.assert_allclose(ours, theirs, rtol=1e-14)

    def test_refusals(self):
        mesh = hanskup.delaunay(uniform(50, np.random.default_rng(3)))
        for words in ({'k': 0}, {'k': -1}, {'k': 1.5}, {'k': []}, {'k': [0, 1]}, {'distance_upper_bound': 'a'}):
            self.assertRaises(ValueError, mesh.nearest, [[0, 0, 0]], **words)
        self.assertRaises(ValueError, mesh.nearest, [[np.nan, 0, 0]])
        self.assertRaises(ValueError, mesh.query, [[np.inf, 0, 0]])
        self.assertRaises(ValueError, mesh.nearest, [[0, 0]])


class ByDefinition(unittest.TestCase):
    def test_few_places_and_places_outside(self):
        random = np.random.default_rng(4)
        for points in (uniform(200, random) * 7 - 3, drawn(200, seed=5)):
            mesh = hanskup.delaunay(points)
            size = np.ptp(points)
            for count in (1, 20, 200):
                places = random.uniform(points.min() - size, points.max() + size, (count, 3))
                places = places if mesh.placing else np.rint(places).astype(int)
                found = mesh.nearest(places)
                self.assertEqual(found.dtype, np.int32)
                for place, i in zip(places, found):
                    square = ((points - place) ** 2).sum(axis=1)
                    self.assertEqual(square[i], square.min())

    def test_without_scipy_it_is_the_grid_that_tells(self):
        points = uniform(300, np.random.default_rng(6))
        mesh, places = hanskup.delaunay(points), uniform(500, np.random.default_rng(7)) * 1.2 - 0.1
        with mock.patch.object(_looks, 'has_scipy', return_value=False):
            found = mesh.nearest(places)
        least = np.sqrt(((points[None] - places[:, None]) ** 2).sum(axis=2)).min(axis=1)
        inside = ((places >= points.min(axis=0)) & (places <= points.max(axis=0))).all(axis=1)
        apart = np.linalg.norm(points[found] - places, axis=1)
        self.assertTrue((apart[inside] <= least[inside] + 4 * mesh.placing.unit).all())


if __name__ == '__main__':
    unittest.main()
