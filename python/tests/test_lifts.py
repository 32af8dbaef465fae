"""Tests of the planes of lifted cells, beside scipy's and the definition of a sphere."""
import pathlib
import sys
import unittest
from fractions import Fraction

import numpy as np

import hanskup

sys.path.insert(0, str(pathlib.Path(__file__).resolve().parent))
from test_hanskup import drawn, has


def in_sphere(corners, place):
    """1 where a place lies inside the sphere of a tetrahedron, 0 on it, -1 outside: by the determinant, exactly."""
    def determinant(rows):
        if len(rows) == 1:
            return rows[0][0]
        return sum((-1) ** k * rows[0][k] * determinant([row[:k] + row[k + 1:] for row in rows[1:]])
                   for k in range(len(rows)))
    apart = [[int(x) - int(y) for x, y in zip(corner, place)] for corner in corners]
    lifted = [row + [sum(x * x for x in row)] for row in apart]
    turn = determinant([[x - y for x, y in zip(row, apart[0])] for row in apart[1:]])
    return int(np.sign(determinant(lifted))) * (-1 if turn > 0 else 1)


class Lifted(unittest.TestCase):
    def test_sides_by_the_determinant(self):
        mesh = hanskup.delaunay(drawn(40, 60, seed=2))
        places = np.concatenate([drawn(30, 80, seed=3), mesh.points[:10]])
        told = mesh.plane_distance(places)
        self.assertEqual(told.shape, (40, mesh.nsimplex))
        found = set()
        for place, row in zip(places, told):
            for corners, distance in zip(mesh.points[mesh.simplices], row):
                side = in_sphere(corners.tolist(), place.tolist())
                found.add(side)
                if side:
                    self.assertGreater(distance * side, 0)
                else:
                    self.assertAlmostEqual(distance, 0, 9)
        self.assertEqual(found, {-1, 0, 1})

    def test_corners_lie_on_their_planes(self):
        for mesh in (hanskup.delaunay(drawn(60, 300)), hanskup.delaunay(np.random.default_rng(1).random((60, 3)))):
            where = mesh.placing.to_user(mesh._places) if mesh.placing else mesh.points
            extent = np.abs(where).max()
            for k, row in enumerate(mesh.simplices):
                np.testing.assert_allclose(mesh.plane_distance(where[row])[:, k] / extent, 0, atol=1e-9)
        np.testing.assert_allclose(np.linalg.norm(mesh.equations[:, :4], axis=1), 1)

    def test_lift_by_fractions(self):
        mesh = hanskup.delaunay(drawn(20))
        place = [3, 500, 16000]
        lifted = mesh.lift_points(place)
        self.assertEqual(lifted[:3].tolist(), place)
        square = Fraction(sum(x * x for x in place))
        wanted = square * Fraction(mesh.paraboloid_scale) + Fraction(mesh.paraboloid_shift)
        self.assertAlmostEqual(lifted[3] / float(wanted), 1, 12)

    @unittest.skipUnless(has('scipy'), 'scipy is not installed')
    def test_as_scipy(self):
        from scipy.spatial import Delaunay
        for points in (drawn(400, seed=7), np.random.default_rng(8).random((400, 3)) * [9, 5, 2] - 4):
            mesh = hanskup.delaunay(points)
            other = Delaunay(mesh.placing.to_user(mesh._places) if mesh.placing else points)
            self.assertAlmostEqual(mesh.paraboloid_scale / other.paraboloid_scale, 1, 9)
            self.assertAlmostEqual(mesh.paraboloid_shift, other.paraboloid_shift, 6)
            np.testing.assert_allclose(mesh.min_bound, other.min_bound, atol=mesh.rounding)
            np.testing.assert_allclose(mesh.max_bound, other.max_bound, atol=mesh.rounding)
            self.assertIs(mesh.furthest_site, other.furthest_site)
            places = np.random.default_rng(9).random((2, 5, 3)) * np.ptp(points, axis=0) + points.min(axis=0)
            np.testing.assert_allclose(mesh.lift_points(places), other.lift_points(places), rtol=1e-9, atol=1e-6)
            ours = {tuple(sorted(row)): k for k, row in enumerate(mesh.simplices.tolist())}
            theirs = {tuple(sorted(row)): k for k, row in enumerate(other.simplices.tolist())}
            both = sorted(set(ours) & set(theirs))
            self.assertGreater(len(both), 0.99 * len(theirs))
            here, there = [ours[cell] for cell in both], [theirs[cell] for cell in both]
            np.testing.assert_allclose(mesh.equations[here], other.equations[there], rtol=1e-5, atol=1e-5
                                       * np.abs(other.equations).max())
            np.testing.assert_allclose(mesh.plane_distance(places)[..., here], other.plane_distance(places)[..., there],
                                       atol=1e-6 * np.abs(points).max())
            self.assertEqual(mesh.plane_distance(places[0, 0]).shape, (mesh.nsimplex,))

    def test_after_edits(self):
        mesh = hanskup.delaunay(drawn(50, seed=5))
        mesh.equations, mesh.paraboloid_scale
        mesh.take(range(20))
        anew = hanskup.delaunay(mesh.points[20:])
        np.testing.assert_array_equal(mesh.equations, anew.equations)
        np.testing.assert_array_equal(mesh.lift_points(mesh.points), anew.lift_points(mesh.points))
        np.testing.assert_array_equal([mesh.min_bound, mesh.max_bound], [anew.min_bound, anew.max_bound])

    def test_refusals(self):
        mesh = hanskup.delaunay(drawn(10))
        for places in ([1, 2], [[1, 2, 3, 4]], 5):
            self.assertRaises(ValueError, mesh.lift_points, places)
            self.assertRaises(ValueError, mesh.plane_distance, places)
        self.assertRaises(ValueError, mesh.lift_points, ['a', 'b', 'c'])


if __name__ == '__main__':
    unittest.main()
