"""Tests of the Voronoi diagram, beside scipy and by the definition."""
import itertools
import pathlib
import sys
import unittest

import numpy as np

import hanskup

sys.path.insert(0, str(pathlib.Path(__file__).resolve().parent))
from test_hanskup import drawn, has


def rounded(vertices, row):
    return tuple(sorted(tuple(np.round(vertices[v], 3).tolist()) for v in row if v >= 0)), -1 in row


def turned(row):
    """The corners around a ridge from the least on, in the one direction or the other."""
    at = row.index(min(row))
    return min(tuple(row[at:] + row[:at]), tuple((row[at:] + row[:at])[:1] + (row[at:] + row[:at])[:0:-1]))


@unittest.skipUnless(has('scipy'), 'scipy is not installed')
class Beside(unittest.TestCase):
    def compare(self, ours, theirs):
        def ridges(made):
            rows = zip(np.sort(made.ridge_points).tolist(), made.ridge_vertices)
            return {tuple(pair): rounded(made.vertices, row) for pair, row in rows if len(row) > 2}

        told, wanted = ridges(ours), ridges(theirs)
        self.assertEqual(set(told), set(wanted))
        self.assertEqual(told, wanted)
        for point in range(len(theirs.points)):
            self.assertEqual(rounded(ours.vertices, ours.regions[ours.point_region[point]]),
                             rounded(theirs.vertices, theirs.regions[theirs.point_region[point]]))

    def test_scipy(self):
        from scipy.spatial import Voronoi
        for count, greatest, seed in ((5, 100, 1), (40, 300, 2), (600, 2000, 3)):
            points = np.unique(drawn(count, greatest, seed), axis=0)
            ours, theirs = hanskup.delaunay(points).voronoi(), Voronoi(points)
            self.compare(ours, theirs)
            for name in ('ndim', 'npoints', 'furthest_site'):
                self.assertEqual(getattr(ours, name), getattr(theirs, name))
            np.testing.assert_array_equal([ours.min_bound, ours.max_bound], [theirs.min_bound, theirs.max_bound])

    def test_ridges_go_around(self):
        from scipy.spatial import Voronoi
        points = drawn(200, 16383, 4)
        ours, theirs = hanskup.delaunay(points).voronoi(), Voronoi(points)
        where = {tuple(np.round(place, 1).tolist()): v for v, place in enumerate(ours.vertices)}
        wanted = {tuple(sorted(pair)): row for pair, row in zip(theirs.ridge_points.tolist(), theirs.ridge_vertices)}
        count = 0
        for pair, row in zip(ours.ridge_points.tolist(), ours.ridge_vertices):
            if -1 not in row:
                corners = theirs.vertices[wanted[tuple(sorted(pair))]]
                there = [where.get(tuple(np.round(corner, 1).tolist())) for corner in corners]
                if None not in there:
                    self.assertEqual(turned(row), turned(there))
                    count += 1
        self.assertGreater(count, 500)

    def test_lattice(self):
        from scipy.spatial import Voronoi
        points = np.array(list(itertools.product(range(0, 20, 4), repeat=3)))
        ours = hanskup.delaunay(points).voronoi()
        self.compare(ours, Voronoi(points))
        self.assertEqual(len(ours.vertices), 4 ** 3)
        inner = ((points > 0) & (points < 16)).all(axis=1)
        np.testing.assert_allclose(ours.volumes, np.where(inner, 64, np.inf))

    def test_many(self):
        # So many that products of numbers of points and of vertices take more than 32 bits.
        points = drawn(20000, seed=9)
        mesh = hanskup.delaunay(points)
        made = mesh.voronoi()
        corners = [set() for _ in points]
        for vertex, simplex in zip(made.simplex_vertices.tolist(), mesh.simplices.tolist()):
            for point in simplex:
                corners[point].add(vertex)
        told = [set(made.regions[region]) - {-1} for region in made.point_region]
        self.assertEqual(told, corners)

    def test_ridge_dict(self):
        from scipy.spatial import Voronoi
        points = drawn(200, seed=10)
        ours, theirs = hanskup.delaunay(points).voronoi(), Voronoi(points)
        found = {tuple(sorted(pair)): len(row) for pair, row in ours.ridge_dict.items()}
        told = {tuple(sorted(pair)): len(row) for pair, row in theirs.ridge_dict.items()}
        self.assertEqual(found | told, found)
        self.assertTrue(all(found[pair] == 2 for pair in found.keys() - told.keys()))  # those with one vertex

    def test_large_lattice(self):
        side = 37  # the squares of whose cube take more than 32 bits
        points = np.array(list(itertools.product(range(side), repeat=3)))
        made = hanskup.delaunay(points).voronoi()
        self.assertEqual(len(made.vertices), (side - 1) ** 3)
        first, second = (points[made.ridge_points[:, end]] for end in (0, 1))
        self.assertTrue((np.abs(first - second).sum(axis=1) == 1).all())
        self.assertEqual(len(made.ridge_points), 3 * side ** 2 * (side - 1))

    def test_cube(self):
        points = np.array(list(itertools.product((0, 2), repeat=3)))
        ours = hanskup.delaunay(points).voronoi()
        self.assertEqual(ours.vertices.tolist(), [[1, 1, 1]])
        edges = {tuple(pair) for pair in np.sort(ours.ridge_points).tolist()}
        wanted = {(i, j) for j in range(8) for i in range(j) if np.abs(points[i] - points[j]).sum() == 2}
        self.assertEqual(edges, wanted)
        self.assertEqual(ours.ridge_vertices, [[-1, 0]] * 12)

    def test_volumes(self):
        from scipy.spatial import ConvexHull, Voronoi
        random = np.random.default_rng(5)
        points = random.random((400, 3))
        mesh = hanskup.delaunay(points)
        ours, theirs = mesh.voronoi(), Voronoi(mesh.placing.to_user(mesh._places))
        for point, volume in enumerate(ours.volumes):
            corners = theirs.regions[theirs.point_region[point]]
            if -1 in corners:
                self.assertEqual(volume, np.inf)
            else:
                self.assertAlmostEqual(volume / ConvexHull(theirs.vertices[corners]).volume, 1, 6)

    def test_areas(self):
        mesh = hanskup.delaunay(drawn(300, seed=6))
        made = mesh.voronoi()
        for row, area in zip(made.ridge_vertices, made.ridge_areas):
            if -1 in row:
                self.assertEqual(area, np.inf)
            else:
                corners = made.vertices[row] - made.vertices[row[0]]
                fan = np.cross(corners[1:-1], corners[2:]).sum(axis=0)
                self.assertAlmostEqual(area / max(np.linalg.norm(fan) / 2, 1e-9), 1, 4)


class Alone(unittest.TestCase):
    def test_vertices_are_as_near_to_all_corners(self):
        mesh = hanskup.delaunay(np.random.default_rng(7).random((200, 3)))
        made = mesh.voronoi()
        places = mesh.placing.to_user(mesh._places)
        apart = np.linalg.norm(places[mesh.simplices] - made.vertices[made.simplex_vertices][:, None], axis=2)
        np.testing.assert_allclose(apart / apart[:, :1], 1, rtol=1e-6)

    def test_points_that_went_or_fell_together(self):
        mesh = hanskup.delaunay(drawn(100, seed=8))
        mesh.add(mesh.points[7])
        mesh.take([3])
        made = mesh.voronoi()
        self.assertEqual(made.point_region[3], -1)
        self.assertEqual(made.point_region[100], made.point_region[7])
        self.assertTrue(np.isnan(made.volumes[3]))
        fresh = hanskup.delaunay(mesh.points[mesh.living][:-1]).voronoi()
        np.testing.assert_array_equal(made.volumes[np.delete(np.arange(100), 3)], fresh.volumes)
        self.assertEqual(made.ridge_vertices, fresh.ridge_vertices)
        self.assertNotIn(3, made.ridge_points)
        self.assertNotIn(100, made.ridge_points)


if __name__ == '__main__':
    unittest.main()
