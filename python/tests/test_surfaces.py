"""Tests of surfaces: closed, manifold, with the volume and the area of the shape, and written as others read them."""
import itertools
import os
import pathlib
import sys
import tempfile
import unittest
import warnings

import numpy as np

import hanskup

sys.path.insert(0, str(pathlib.Path(__file__).resolve().parent))
from real_clouds import each, uniform
from test_hanskup import has


def counts_of(triangles):
    """How many triangles each edge has."""
    sides = np.sort(np.concatenate([triangles[:, [0, 1]], triangles[:, [1, 2]], triangles[:, [2, 0]]]), axis=1)
    return np.unique(sides, axis=0, return_counts=True)[1]


def rounds(triangles):
    """How many rounds of triangles there are about each point."""
    told = {}
    for triangle in triangles.tolist():
        for k, point in enumerate(triangle):
            told.setdefault(point, []).append({triangle[k - 1], triangle[k - 2]})
    for edges in told.values():
        groups = []
        for edge in edges:
            near = [group for group in groups if group & edge]
            groups = [group for group in groups if not group & edge] + [set().union(edge, *near)]
        yield len(groups)


@unittest.skipUnless(has('scipy'), 'scipy is not installed')
class Surfaces(unittest.TestCase):
    def setUp(self):
        catcher = warnings.catch_warnings()
        catcher.__enter__()
        self.addCleanup(catcher.__exit__, None, None, None)
        warnings.simplefilter('ignore', hanskup.RoundingWarning)

    def shapes(self):
        for name, points, _ in each(600):
            mesh = hanskup.delaunay(points)
            alphas = mesh.filtration().tetrahedron_alphas
            for part in (0.2, 0.5, 0.9):
                yield f'{name}, {part}', mesh.alpha(float(np.sqrt(np.quantile(alphas, part))))

    def test_clouds(self):
        touching = 0
        for name, shape in self.shapes():
            with self.subTest(name):
                plain, split, boundary = shape.surface(), shape.surface(split=True), shape.boundary()
                np.testing.assert_array_equal(plain.points[plain.triangles], shape.mesh.points[boundary])
                np.testing.assert_array_equal(plain.indices[plain.triangles], boundary)
                self.assertEqual(len(plain.points), len(np.unique(boundary)))
                self.assertTrue(plain.is_watertight and split.is_watertight and split.is_manifold)
                self.assertTrue((counts_of(split.triangles) == 2).all())
                self.assertEqual(set(rounds(split.triangles)), {1})
                self.assertEqual(plain.is_manifold, set(rounds(plain.triangles)) == {1}
                                 and (counts_of(plain.triangles) == 2).all())
                touching += not plain.is_manifold
                unit, size = shape.mesh.placing.unit, np.ptp(shape.mesh.points, axis=0).max()
                for made in (plain, split):
                    self.assertLess(abs(made.volume - shape.volume()), 3 * unit * shape.area())
                    self.assertLess(abs(made.area - shape.area()), 30 * unit * size + 0.05 * shape.area())
                known = split.indices >= 0
                away = split.points[known] - shape.mesh.points[split.indices[known]]
                self.assertLess(np.abs(away).max(), unit)
                self.assertEqual(len(np.unique(split.points, axis=0)), len(split.points))
        self.assertGreater(touching, 5)

    def test_a_torus_has_the_genus_of_one(self):
        random = np.random.default_rng(1)
        a, b = random.random((2, 4000)) * 2 * np.pi
        ring = 3 + np.cos(b)
        shape = hanskup.delaunay(np.column_stack([ring * np.cos(a), ring * np.sin(a), np.sin(b)])).alpha(1.3)
        made = shape.surface(split=True)
        self.assertEqual(len(made.points) - len(counts_of(made.triangles)) + len(made.triangles), 0)
        self.assertAlmostEqual(made.volume / (2 * np.pi ** 2 * 3), 1, 1)
        self.assertAlmostEqual(made.area / (4 * np.pi ** 2 * 3), 1, 1)

    def test_two_cubes_at_an_edge_and_at_a_point(self):
        cube = np.array(list(itertools.product((0, 2), repeat=3)))
        for step, points, edges in (((2, 2, 0), 16, 36), ((2, 2, 2), 16, 36)):
            mesh = hanskup.delaunay(np.concatenate([cube, cube + step]))
            shape = mesh.alpha(1.75)
            if shape.volume() == 16:
                made = shape.surface(split=True)
                self.assertTrue(made.is_manifold)
                self.assertFalse(shape.surface().is_manifold)

    def test_nothing(self):
        empty = hanskup.delaunay(uniform(20, np.random.default_rng(2))).alpha(0)
        for made in (empty.surface(), empty.surface(split=True)):
            self.assertEqual((len(made.points), len(made.triangles), made.volume, made.area), (0, 0, 0.0, 0.0))
            self.assertTrue(made.is_watertight and made.is_manifold)

    @unittest.skipUnless(has('meshio'), 'meshio is not installed')
    def test_files(self):
        import meshio
        made = hanskup.delaunay(uniform(400, np.random.default_rng(3))).alpha(0.12).surface(split=True)
        with tempfile.TemporaryDirectory() as folder:
            for name in ('x.ply', 'x.obj', 'x.off', 'x.stl', 'x.vtu', 'x.VTK'):
                path = os.path.join(folder, name)
                made.save(path)
                read = meshio.read(path)
                corners = read.points[read.cells_dict['triangle']]
                np.testing.assert_allclose(corners, made.points[made.triangles], atol=1e-6 if '.stl' in name else 1e-12)
                if '.stl' not in name:
                    self.assertEqual(len(read.points), len(made.points))
            self.assertRaises(ValueError, made.save, os.path.join(folder, 'x.nothing'))
            self.assertRaises(OSError, made.save, os.path.join(folder, 'nowhere', 'x.stl'))


@unittest.skipUnless(has('scipy'), 'scipy is not installed')
class VoidsOfAtoms(unittest.TestCase):
    def test_volumes(self):
        # A shell of atoms on a sphere of 10: one void, whose volume is between those of two balls.
        random = np.random.default_rng(4).normal(size=(1500, 3))
        mesh = hanskup.delaunay(10 * random / np.linalg.norm(random, axis=1)[:, None])
        voids = mesh.alpha(3.0).voids()
        self.assertEqual(len(voids.volumes), 1)
        self.assertTrue(4 / 3 * np.pi * 9.0 ** 3 < voids.volumes[0] < 4 / 3 * np.pi * 10 ** 3)
        corners = mesh.placing.to_user(mesh._places)[voids.tetrahedra]
        sizes = np.abs(np.linalg.det(corners[:, 1:] - corners[:, :1])) / 6
        self.assertAlmostEqual(sizes.sum() / voids.volumes[0], 1, 9)
        self.assertRegex(repr(voids), r'^<hanskup.Voids: 1, of volumes [\d.e+]+>$')


if __name__ == '__main__':
    unittest.main()
