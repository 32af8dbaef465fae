"""Tests of what a mesh tells of places: simplices, barycentric coordinates, interpolation. Expected values come from
scipy, from its half spaces, and from the definitions."""
import copy
import itertools
import pathlib
import pickle
import sys
import unittest
from unittest import mock

import numpy as np

import hanskup
from hanskup import _natural

sys.path.insert(0, str(pathlib.Path(__file__).resolve().parent))
from test_hanskup import drawn, has


def lattice(side):
    return np.array(list(itertools.product(range(0, 4 * side, 4), repeat=3)))


class Fields(unittest.TestCase):
    def test_scalars(self):
        mesh = hanskup.delaunay(drawn(60))
        mesh.take([3])
        mesh.add(mesh.points[5])
        self.assertEqual((mesh.npoints, mesh.ndim, mesh.nsimplex), (61, 3, len(mesh.simplices)))
        self.assertEqual(mesh.vertex_to_simplex[[3, 60]].tolist(), [-1, -1])
        for point, simplex in enumerate(mesh.vertex_to_simplex.tolist()):
            self.assertTrue(point in (3, 60) or point in mesh.simplices[simplex])

    def test_numbers_are_small_and_read_only(self):
        mesh = hanskup.delaunay(drawn(60))
        for name in ('simplices', 'neighbors', 'convex_hull', 'cells', 'across', 'hull', 'vertex_to_simplex'):
            self.assertEqual(getattr(mesh, name).dtype, np.int32, name)
        for name in ('simplices', 'neighbors', 'points', 'cells', 'living', 'grid', 'transform'):
            array = getattr(mesh, name)
            with self.assertRaises(ValueError, msg=name):
                array[0] = 0
        mesh.nearest(mesh.points[:1])
        mesh.locate(mesh.points[:1])
        mesh.add([1, 2, 3])
        mesh.move([0], [[4, 5, 6]])
        mesh.take([1])
        for other in (mesh, copy.copy(mesh), copy.deepcopy(mesh), pickle.loads(pickle.dumps(mesh))):
            for array in (other.points, other.living, other.grid):
                self.assertFalse(array.flags.writeable)

    def test_transform_has_the_corners(self):
        for mesh in (hanskup.delaunay(drawn(60, 300)), hanskup.delaunay(np.random.default_rng(1).random((60, 3)))):
            where = mesh.placing.to_user(mesh._places) if mesh.placing else mesh.points
            for matrix, row in zip(mesh.transform, mesh.simplices):
                told = (where[row] - matrix[3]) @ matrix[:3].T
                np.testing.assert_allclose(told, np.eye(4)[:, :3], atol=1e-6)

    @unittest.skipUnless(has('scipy'), 'scipy is not installed')
    def test_transform_as_scipy(self):
        from scipy.spatial import Delaunay
        points = drawn(500, seed=3)
        mesh, other = hanskup.delaunay(points), Delaunay(points)
        places = np.random.default_rng(4).integers(2000, 14000, (300, 3))

        def coordinates(made):
            at = made.find_simplex(places)
            first = np.einsum('ijk,ik->ij', made.transform[at, :3], places - made.transform[at, 3])
            values = np.column_stack([first, 1 - first.sum(axis=1)])
            return [dict(zip(row.tolist(), value)) for row, value in zip(made.simplices[at], values)]

        for ours, theirs in zip(coordinates(mesh), coordinates(other)):
            self.assertEqual(set(ours), set(theirs))
            for corner, value in ours.items():
                self.assertAlmostEqual(value, theirs[corner], 6)


class Found(unittest.TestCase):
    @unittest.skipUnless(has('scipy'), 'scipy is not installed')
    def test_find_simplex_as_scipy(self):
        from scipy.spatial import Delaunay
        points = drawn(2000, 9000, seed=5)
        mesh, other = hanskup.delaunay(points), Delaunay(points)
        places = np.random.default_rng(6).integers(-3000, 20000, (3000, 3))
        ours, theirs = mesh.find_simplex(places), other.find_simplex(places)
        np.testing.assert_array_equal(ours < 0, theirs < 0)
        here = np.flatnonzero(ours >= 0)
        self.assertGreater(len(here), 100)
        np.testing.assert_array_equal(np.sort(mesh.simplices[ours[here]]), np.sort(other.simplices[theirs[here]]))

    def test_beyond_the_grid(self):
        mesh = hanskup.delaunay(np.random.default_rng(1).random((50, 3)))
        self.assertEqual(mesh.find_simplex([[9, 9, 9], [1e300, 0, 0], [-1e300, 1e9, 0]]).tolist(), [-1, -1, -1])
        whole = hanskup.delaunay(drawn(50))
        self.assertEqual(whole.find_simplex([[16384, 0, 0], [-1, 5, 5], [2 ** 62, 0, 0]]).tolist(), [-1, -1, -1])
        self.assertEqual(whole.find_simplex(np.array([[2 ** 64 - 1, 0, 0]], np.uint64)).tolist(), [-1])
        self.assertEqual(mesh.find_simplex([[np.nan, 0, 0], [0, np.inf, 0]]).tolist(), [-1, -1])
        self.assertRaises(ValueError, mesh.find_simplex, [0, 0])

    def test_on_sides_and_in_lattices(self):
        mesh = hanskup.delaunay(lattice(5))
        places = np.array(list(itertools.product(range(-1, 19), repeat=3)))
        found = mesh.find_simplex(places)
        np.testing.assert_array_equal(found >= 0, ((places >= 0) & (places <= 16)).all(axis=1))
        here = np.flatnonzero(found >= 0)
        corners = mesh.points[mesh.simplices[found[here]]]
        turns = np.array([np.linalg.det(np.where(np.arange(4)[:, None] == k, places[here, None], corners)[:, 1:]
                                        - np.where(np.arange(4)[:, None] == k, places[here, None], corners)[:, :1])
                          for k in range(4)])
        self.assertGreater(turns.min(), -1e-6)


@unittest.skipUnless(has('scipy'), 'scipy is not installed')
class Linear(unittest.TestCase):
    def test_as_scipy(self):
        from scipy.interpolate import LinearNDInterpolator
        random = np.random.default_rng(7)
        points = drawn(1000, seed=8)
        mesh, values = hanskup.delaunay(points), random.random((1000, 2))
        places = random.random((5000, 3)) * 18000 - 800
        ours, theirs = mesh.interpolate(values)(places), LinearNDInterpolator(points, values)(places)
        np.testing.assert_array_equal(np.isnan(ours), np.isnan(theirs))
        self.assertTrue(100 < np.isnan(ours[:, 0]).sum() < 4900)
        np.testing.assert_allclose(ours, theirs, atol=1e-9)

    def test_floats_as_scipy_on_the_places_of_the_grid(self):
        from scipy.interpolate import LinearNDInterpolator
        random = np.random.default_rng(9)
        mesh, values = hanskup.delaunay(random.random((800, 3)) * 3 - 1), random.random(800) * 1j + random.random(800)
        other = LinearNDInterpolator(mesh.placing.to_user(mesh._places), values, fill_value=7)
        places = random.random((20, 30, 3)) * 3 - 1
        ours = mesh.interpolate(values, fill_value=7)(places)
        self.assertEqual(ours.shape, (20, 30))
        np.testing.assert_allclose(ours, other(places), atol=1e-9)

    def test_after_edits(self):
        from scipy.interpolate import LinearNDInterpolator
        random = np.random.default_rng(10)
        mesh = hanskup.delaunay(drawn(300, seed=11))
        before, values = mesh.interpolate(np.arange(300)), random.random(320)
        places = random.random((500, 3)) * 16000
        told = before(places)
        mesh.add(drawn(20, seed=12))
        mesh.take(np.arange(30))
        here = mesh.living
        other = LinearNDInterpolator(mesh.points[here], values[here])
        np.testing.assert_allclose(mesh.interpolate(values)(places), other(places), atol=1e-9)
        np.testing.assert_array_equal(before(places), told)  # it has what it was made of

    def test_refusals(self):
        mesh = hanskup.delaunay(drawn(50))
        self.assertRaises(ValueError, mesh.interpolate, np.zeros(49))
        self.assertRaises(ValueError, mesh.interpolate, np.zeros(50), 'cubic')
        self.assertRaises(ValueError, mesh.interpolate, ['a'] * 50)
        self.assertRaises(ValueError, mesh.interpolate(np.zeros(50)), [1.0, 2.0])
        self.assertTrue(np.isnan(mesh.interpolate(np.zeros(50))([[np.nan, 0, 0], [np.inf, 0, 0]])).all())


def region(place, points):
    """The corners of the places that are nearer to a place than to any of the points, by scipy's half spaces."""
    from scipy.spatial import HalfspaceIntersection
    normals = points - place
    lengths = np.linalg.norm(normals, axis=1)
    offsets = ((points ** 2).sum(axis=1) - (place ** 2).sum()) / 2
    spaces = np.column_stack([normals, -offsets]) / lengths[:, None]
    return spaces, HalfspaceIntersection(spaces, place).intersections


def natural_value(place, points, values):
    """Sibson's interpolant by the definition: the volumes that a place's region takes of those of the points."""
    from scipy.spatial import ConvexHull, HalfspaceIntersection, QhullError
    spaces, _ = region(place, points)
    total = weighted = 0.0
    for i in range(len(points)):
        others = np.delete(points, i, axis=0) - points[i]
        lengths = np.linalg.norm(others, axis=1)
        middles = points[i] + others / 2
        nearer = np.column_stack([others, -(others * middles).sum(axis=1)]) / lengths[:, None]
        both = np.concatenate([spaces, nearer])
        inner = inside_of(both)
        if inner is not None:
            volume = ConvexHull(HalfspaceIntersection(both, inner).intersections).volume
            total, weighted = total + volume, weighted + volume * values[i]
    return weighted / total


def inside_of(spaces):
    """A place well inside of half spaces, or None where there is none."""
    from scipy.optimize import linprog
    rows = np.column_stack([spaces[:, :3], np.ones(len(spaces))])
    found = linprog([0, 0, 0, -1], rows, -spaces[:, 3], bounds=[(None, None)] * 3 + [(None, 100)])
    return found.x[:3] if found.status == 0 and found.x[3] > 1e-4 else None


class Natural(unittest.TestCase):
    def test_shares_fill_a_tetrahedron(self):
        corners = np.random.default_rng(13).random((200, 4, 3))
        turned = np.linalg.det(corners[:, 1:] - corners[:, :1]) < 0
        corners[turned] = corners[turned][:, [1, 0, 2, 3]]
        volumes = np.linalg.det(corners[:, 1:] - corners[:, :1]) / 6
        np.testing.assert_allclose(_natural.shares(corners).sum(axis=1), volumes, rtol=1e-6, atol=1e-9)

    @unittest.skipUnless(has('scipy'), 'scipy is not installed')
    def test_by_the_definition(self):
        random = np.random.default_rng(14)
        points, values = drawn(60, 100, 15), random.random(60)
        points, first = np.unique(points, axis=0, return_index=True)
        mesh, values = hanskup.delaunay(points), values[first]
        places = random.random((25, 3)) * 50 + 25
        told = mesh.interpolate(values, method='natural')(places)
        for place, value in zip(places, told):
            self.assertAlmostEqual(value, natural_value(place, points.astype(float), values), 5)

    def test_linear_functions_and_bounds(self):
        random = np.random.default_rng(16)
        for points in (drawn(500, 300, 17), lattice(6), drawn(400, 16383, 18)):
            points = np.unique(points, axis=0)
            mesh = hanskup.delaunay(points)
            extent = points.max()
            places = np.concatenate([random.random((2000, 3)) * extent, random.integers(0, extent + 1, (2000, 3)),
                                     points[::7], points[::5] + 1e-9])
            linear = mesh.interpolate(points @ [1.0, -2.0, 0.5], 'natural')(places)
            inside = ~np.isnan(linear)
            self.assertGreater(inside.sum(), 1000)
            np.testing.assert_allclose(linear[inside], (places @ [1.0, -2.0, 0.5])[inside], atol=1e-3 * extent / 100)
            values = random.random(len(points))
            told = mesh.interpolate(values, 'natural')(places)[inside]
            self.assertTrue((told > -1e-6).all() and (told < 1 + 1e-6).all())
            np.testing.assert_allclose(mesh.interpolate(values, 'natural')(points), values, atol=1e-6)

    def test_in_halves(self):
        # Where all points are on a sphere each place's cavity has most cells.
        random = np.random.default_rng(19)
        directions = random.normal(size=(150, 3))
        mesh = hanskup.delaunay(directions / np.linalg.norm(directions, axis=1)[:, None])
        places, values = random.random((40, 3)) - 0.5, random.random(150)
        whole = mesh.interpolate(values, 'natural')(places)
        with mock.patch.object(_natural, '_MOST', 400):
            np.testing.assert_array_equal(mesh.interpolate(values, 'natural')(places), whole)
        told = mesh.interpolate(mesh.placing.to_user(mesh._places), 'natural')(places)
        np.testing.assert_allclose(told, places, atol=1e-5)

    def test_smoother_than_linear(self):
        # Along a line over a side of a lattice's cells the slope jumps for the linear one alone.
        points = lattice(5)
        points = points[(points != 8).any(axis=1)]
        mesh = hanskup.delaunay(points)
        values = np.cos(points @ [0.3, 0.2, 0.1])
        line = np.linspace([5.1, 6.3, 7.2], [10.7, 9.1, 8.8], 4001)

        def jump(method):
            return np.abs(np.diff(mesh.interpolate(values, method)(line), 2)).max()

        self.assertLess(jump('natural'), jump('linear') / 10)


if __name__ == '__main__':
    unittest.main()
