"""Tests of what other packages take and of what they have: meshio, trimesh, pyvista and GUDHI, the program's parts, and
volumes. Where a package is not installed, a stand-in checks the arrays that it is given."""
import collections
import itertools
import math
import os
import pathlib
import subprocess
import sys
import tempfile
import types
import unittest
from unittest import mock

import numpy as np

import hanskup

sys.path.insert(0, str(pathlib.Path(__file__).resolve().parent))
from test_hanskup import TOP, cells_of, drawn, flooded, has


class Stand:
    """In the place of a class: it keeps what it is made of."""

    def __init__(self, *arrays, **words):
        self.arrays, self.words = arrays, words


def instead_of(name, *kinds):
    return mock.patch.dict(sys.modules, {name: types.SimpleNamespace(**{kind: Stand for kind in kinds})})


class Adapters(unittest.TestCase):
    def setUp(self):
        self.mesh = hanskup.delaunay(drawn(200, seed=1))
        self.shape = self.mesh.alpha(2500)
        self.assertTrue(0 < len(self.shape.tetrahedra) < len(self.mesh.simplices))

    @unittest.skipUnless(has('meshio'), 'meshio is not installed')
    def test_meshio(self):
        import meshio
        for made, kinds in ((self.mesh.to_meshio(), {'tetra': self.mesh.simplices}),
                            (self.shape.to_meshio(),
                             {'tetra': self.shape.tetrahedra, 'triangle': self.shape.boundary()})):
            with tempfile.TemporaryDirectory() as folder:
                path = os.path.join(folder, 'made.vtu')
                made.write(path)
                read = meshio.read(path)
            np.testing.assert_array_equal(read.points, self.mesh.points)
            self.assertEqual({block.type for block in read.cells}, set(kinds))
            for kind, rows in kinds.items():
                np.testing.assert_array_equal(read.cells_dict[kind], rows)

    def test_trimesh(self):
        boundary = self.shape.boundary()
        if has('trimesh'):
            made = self.shape.to_trimesh()
            self.assertAlmostEqual(made.volume / self.shape.volume(), 1, 9)
            vertices, faces = made.vertices, made.faces
        else:
            with instead_of('trimesh', 'Trimesh'):
                made = self.shape.to_trimesh()
            self.assertEqual(made.words, {'process': False})
            vertices, faces = made.arrays
        self.assertEqual(faces.shape, boundary.shape)
        np.testing.assert_array_equal(vertices[faces], self.mesh.points[boundary])
        self.assertEqual(len(vertices), len(np.unique(boundary)))

    def test_pyvista(self):
        boundary, simplices = self.shape.boundary(), self.mesh.simplices
        with instead_of('pyvista', 'PolyData', 'UnstructuredGrid'):
            surface, solid = self.shape.to_pyvista(), self.mesh.to_pyvista()
        points, faces = surface.arrays
        np.testing.assert_array_equal(points, self.mesh.points)
        np.testing.assert_array_equal(faces.reshape(-1, 4), np.column_stack([np.full(len(boundary), 3), boundary]))
        cells, kinds, points = solid.arrays
        np.testing.assert_array_equal(points, self.mesh.points)
        np.testing.assert_array_equal(cells.reshape(-1, 5), np.column_stack([np.full(len(simplices), 4), simplices]))
        self.assertEqual(set(kinds.tolist()), {10})  # VTK_TETRA

    def test_open3d(self):
        boundary, simplices = self.shape.boundary(), self.mesh.simplices
        made = types.SimpleNamespace(
            geometry=types.SimpleNamespace(TriangleMesh=Stand, TetraMesh=Stand),
            utility=types.SimpleNamespace(Vector3dVector=self.doubles, Vector3iVector=self.numbers(3),
                                          Vector4iVector=self.numbers(4)))
        with mock.patch.dict(sys.modules, {'open3d': made}):
            surface, solid = self.shape.to_open3d(), self.mesh.to_open3d()
        vertices, faces = surface.arrays
        np.testing.assert_array_equal(vertices[faces], self.mesh.points[boundary])
        self.assertEqual(len(vertices), len(np.unique(boundary)))
        vertices, tetras = solid.arrays
        np.testing.assert_array_equal(vertices, self.mesh.points)
        np.testing.assert_array_equal(tetras, simplices)

    def doubles(self, array):
        """What open3d documents of Vector3dVector: float64, (n, 3)."""
        self.assertEqual((array.dtype, array.shape[1:]), (np.float64, (3,)))
        return array

    def numbers(self, columns):
        """What it documents of Vector3iVector and Vector4iVector: int32, (n, 3) and (n, 4)."""
        def made(array):
            self.assertEqual((array.dtype, array.shape[1:]), (np.int32, (columns,)))
            return array
        return made

    @unittest.skipUnless(has('open3d'), 'open3d is not installed')
    def test_real_open3d(self):
        import open3d
        surface, solid = self.shape.to_open3d(), self.mesh.to_open3d()
        self.assertAlmostEqual(surface.get_surface_area() / self.shape.area(), 1, 9)
        np.testing.assert_array_equal(solid.vertices, self.mesh.points)
        np.testing.assert_array_equal(solid.tetras, self.mesh.simplices)
        cloud = open3d.geometry.PointCloud(open3d.utility.Vector3dVector(self.mesh.points.astype(float)))
        theirs = open3d.geometry.TriangleMesh.create_from_point_cloud_alpha_shape(
            cloud, 2500, solid, list(range(len(self.mesh.points))))
        corners = np.asarray(theirs.vertices)[np.asarray(theirs.triangles)].astype(int)
        self.assertEqual({frozenset(map(tuple, triangle)) for triangle in corners.tolist()},
                         {frozenset(map(tuple, triangle))
                          for triangle in self.mesh.points[self.shape.boundary()].tolist()})

    @unittest.skipUnless(has('pyvista'), 'pyvista is not installed')
    def test_real_pyvista(self):
        self.assertEqual(self.shape.to_pyvista().n_cells, len(self.shape.boundary()))
        self.assertAlmostEqual(self.mesh.to_pyvista().volume / self.mesh.volume(), 1, 6)


@unittest.skipUnless(has('gudhi'), 'gudhi is not installed')
class Gudhi(unittest.TestCase):
    def test_same_tree(self):
        import gudhi
        points = np.unique(drawn(300, 16383, 2), axis=0)
        ours = hanskup.delaunay(points).filtration().to_gudhi()
        theirs = gudhi.AlphaComplex(points=points.astype(float), precision='exact').create_simplex_tree()
        self.assertEqual(ours.num_simplices(), theirs.num_simplices())
        self.assertEqual(ours.dimension(), 3)
        told = {tuple(face): value for face, value in theirs.get_filtration()}
        for face, value in ours.get_filtration():
            self.assertTrue(-1e-6 * value <= value - told[tuple(face)] <= 1 / 16 + 1e-6 * value)  # whole sixteenths

    def test_same_persistence_at_all_levels(self):
        import gudhi
        random = np.random.default_rng(3)
        turn, height = random.random((2, 400)) * 2 * np.pi
        points = np.column_stack([(3 + np.cos(height)) * np.cos(turn), (3 + np.cos(height)) * np.sin(turn),
                                  np.sin(height)])
        mesh = hanskup.delaunay(points, unit=1 / 1024)
        ours = mesh.filtration().to_gudhi()
        places = mesh.placing.to_user(mesh.grid)
        theirs = gudhi.AlphaComplex(points=places, precision='exact').create_simplex_tree()
        step = mesh.placing.unit ** 2 / 16
        counts = set()
        ours.compute_persistence(homology_coeff_field=2)
        theirs.compute_persistence(homology_coeff_field=2)
        values = np.unique([value for _, value in theirs.get_filtration()])
        # Between two values of theirs that are more than a rounding apart both are at the same complex.
        levels = (values[:-1] + 1.5 * step)[np.diff(values) > 3 * step]
        self.assertGreater(len(levels), 300)
        for level in levels.tolist() + [1e6]:
            told = ours.persistent_betti_numbers(level, level)
            self.assertEqual(told, theirs.persistent_betti_numbers(level, level), level)
            counts.add(tuple(told))
        self.assertIn((1, 2, 1), [(told + (0, 0, 0))[:3] for told in counts])  # the torus

    def test_indices_are_those_of_the_points(self):
        mesh = hanskup.delaunay(drawn(60, seed=4))
        mesh.take([0, 1])
        mesh.add(mesh.points[5])
        tree = mesh.filtration().to_gudhi()
        named = {face[0] for face, _ in tree.get_skeleton(0)}
        self.assertEqual(named, set(range(2, 60)))
        self.assertEqual({tuple(sorted(face)) for face, _ in tree.get_skeleton(3) if len(face) == 4},
                         cells_of(mesh.simplices))


def program():
    """The program, where it is built."""
    named = os.environ.get('DELAUNAY')
    built = [pathlib.Path(named)] if named else [TOP / 'crates/delaunay/out/delaunay']
    return next((path for path in built if path.is_file()), None)


def sixteenths_by_program(points, most):
    """The alpha that `delaunay parts --most` finds."""
    text = 'mesh3 3\npoints\n' + ''.join(f'{x} {y} {z}\n' for x, y, z in points.tolist()) + 'edits\nradii\nend\n'
    done = subprocess.run([program(), 'parts', '--most', str(most)], input=text, capture_output=True, text=True)
    return done


@unittest.skipUnless(has('scipy'), 'scipy is not installed')
class Optimal(unittest.TestCase):
    def clouds(self):
        random = np.random.default_rng(5)
        two = np.concatenate([random.integers(0, 400, (60, 3)), random.integers(0, 400, (60, 3)) + [3000, 0, 0]])
        for points in (drawn(120, 500, 6), two, drawn(80, 12, 7)):
            yield np.unique(points, axis=0)

    def test_by_the_definition(self):
        for points, most in itertools.product(self.clouds(), (1, 2, 3)):
            mesh = hanskup.delaunay(points)
            told, faces = mesh.filtration(), mesh._faces
            wanted = math.inf
            for level in np.unique(faces.cell_alphas):
                rows = told.tetrahedra[faces.cell_alphas <= level].tolist()
                every = {side for row in rows for side in itertools.combinations(sorted(row), 3)}
                if len(np.unique(rows)) == len(points) and sum(flooded(rows, every).values()) <= most:
                    wanted = math.sqrt(level) / 4
                    break
            found = mesh.optimal_alpha(most)
            self.assertAlmostEqual(found, wanted, 9)
            shape = mesh.alpha(found)
            self.assertEqual(len(np.unique(shape.tetrahedra)), len(points))
            self.assertLessEqual(shape.parts().max() + 1, most)

    def test_solid_parts(self):
        for points in self.clouds():
            mesh = hanskup.delaunay(points)
            for level in np.unique(mesh._faces.cell_alphas)[::40].tolist() + [0, 1 << 60]:
                shape = hanskup.Shape(mesh, level, level / 16)
                told = mesh.solid_parts(math.sqrt(level) / 4 * (1 + 1e-15))
                wanted = {frozenset(map(tuple, np.sort(shape.tetrahedra[shape.parts() == part], axis=1).tolist()))
                          for part in np.unique(shape.parts())}
                count = int(told.numbers.max()) + 1 if len(told.numbers) else 0
                found = [np.sort(told.tetrahedra[told.numbers == part], axis=1).tolist() for part in range(count)]
                self.assertEqual({frozenset(map(tuple, part)) for part in found}, wanted)
                self.assertEqual(len(found), len(wanted))
                # points ascend in these clouds, so that indices are numbers: cells in order, and parts by the first
                self.assertEqual(found, sorted(sorted(part) for part in found))

    def test_no_least_alpha(self):
        # The one cell that has the farthest point has a sphere that is larger than all alphas.
        points = [[0, 0, 0], [1, 0, 0], [0, 1, 0], [8191, 8191, 1]]
        self.assertEqual(hanskup.delaunay(points).optimal_alpha(1), math.inf)

    def test_by_both_ways(self):
        from hanskup import _parts
        for points, most in itertools.product(self.clouds(), (1, 2, 3)):
            mesh = hanskup.delaunay(points)
            sixteenths = _parts.least_alpha(mesh, most)
            self.assertEqual(mesh.optimal_alpha(most), _parts.radius_of(sixteenths, mesh._square))

    def test_refusals(self):
        mesh = hanskup.delaunay(drawn(50))
        self.assertRaises(ValueError, mesh.optimal_alpha, 0)
        self.assertRaises(ValueError, mesh.solid_parts, -1)
        self.assertRaises(ValueError, mesh.solid_parts, math.nan)

    def test_floats(self):
        mesh = hanskup.delaunay(np.random.default_rng(8).random((300, 3)) * 0.37)
        found = mesh.optimal_alpha(1)
        self.assertEqual(len(np.unique(mesh.alpha(found).tetrahedra)), 300)
        self.assertEqual(mesh.alpha(found).parts().max(), 0)
        less = mesh.alpha(found * (1 - 1e-9))
        self.assertTrue(len(np.unique(less.tetrahedra)) < 300 or less.parts().max() > 0)

    @unittest.skipUnless(program(), 'the program is not built')
    def test_beside_the_program(self):
        for points, most in itertools.product(self.clouds(), (1, 2)):
            done = sixteenths_by_program(points, most)
            self.assertEqual(done.returncode, 0, done.stderr)
            told = dict(line.split() for line in done.stdout.splitlines() if line.startswith(('alpha', 'parts')))
            mesh = hanskup.delaunay(points)
            shape = mesh.alpha(mesh.optimal_alpha(most))
            self.assertEqual(shape.sixteenths, int(told['alpha']))
            self.assertEqual(shape.parts().max() + 1, int(told['parts']))
            sizes = sorted(int(line.split()[1]) for line in done.stdout.splitlines() if line.startswith('part '))
            self.assertEqual(sorted(collections.Counter(shape.parts().tolist()).values()), sizes)


class Measured(unittest.TestCase):
    def test_cube(self):
        mesh = hanskup.delaunay(np.array(list(itertools.product((0, 3), repeat=3))))
        self.assertEqual((mesh.volume(), mesh.area()), (27.0, 54.0))
        shape = mesh.alpha(10)
        self.assertEqual((shape.volume(), shape.area()), (27.0, 54.0))
        self.assertEqual((mesh.alpha(0).volume(), mesh.alpha(0).area()), (0.0, 0.0))

    @unittest.skipUnless(has('scipy'), 'scipy is not installed')
    def test_hull_as_scipy(self):
        from scipy.spatial import ConvexHull
        for mesh in (hanskup.delaunay(drawn(300, seed=9)),
                     hanskup.delaunay(np.random.default_rng(10).random((300, 3)) * 50 - 7)):
            other = ConvexHull(mesh.placing.to_user(mesh._places) if mesh.placing else mesh.points)
            self.assertAlmostEqual(mesh.volume() / other.volume, 1, 9)
            self.assertAlmostEqual(mesh.area() / other.area, 1, 9)

    def test_shape(self):
        mesh = hanskup.delaunay(np.random.default_rng(11).random((300, 3)))
        shape = mesh.alpha(0.15)
        places = mesh.placing.to_user(mesh._places)
        a, b, c, d = (places[shape.tetrahedra[:, k]] for k in range(4))
        volume = np.einsum('ij,ij->i', np.cross(b - a, c - a), d - a).sum() / 6
        self.assertAlmostEqual(abs(shape.volume() / np.abs(np.einsum('ij,ij->i', np.cross(b - a, c - a), d - a) / 6)
                                   .sum()), 1, 9)
        self.assertNotEqual(volume, 0)
        a, b, c = (places[shape.boundary()[:, k]] for k in range(3))
        self.assertAlmostEqual(shape.area() / (np.linalg.norm(np.cross(b - a, c - a), axis=1).sum() / 2), 1, 9)
        # The boundary encloses the volume: by the divergence theorem.
        self.assertAlmostEqual(np.einsum('ij,ij->i', a, np.cross(b, c)).sum() / 6 / shape.volume(), 1, 6)

    def test_alpha_shape(self):
        points = np.random.default_rng(12).random((200, 3))
        shape, other = hanskup.alpha_shape(points, 0.2), hanskup.delaunay(points).alpha(0.2)
        np.testing.assert_array_equal(shape.tetrahedra, other.tetrahedra)
        with self.assertWarns(hanskup.RoundingWarning):
            self.assertEqual(hanskup.alpha_shape(points, 0.2, unit=0.01).mesh.placing.unit, 0.01)

    def test_a_shape_stays_when_its_mesh_is_edited(self):
        mesh = hanskup.delaunay(drawn(200, seed=13))
        shape = mesh.alpha(2500)
        before = (shape.boundary(), shape.volume(), shape.area())
        mesh.take(np.arange(50))
        np.testing.assert_array_equal(shape.boundary(), before[0])
        self.assertEqual((shape.volume(), shape.area()), before[1:])


class Shown(unittest.TestCase):
    def test_repr(self):
        mesh = hanskup.delaunay(np.array(list(itertools.product((0, 2), repeat=3))))
        mesh.take(0)
        self.assertEqual(repr(mesh), f'<hanskup.Mesh: 7 points, {len(mesh.simplices)} simplices>')
        self.assertEqual(repr(mesh.alpha(2)), '<hanskup.Shape: radius 2, %d edges, %d triangles, %d tetrahedra>' % (
            len(mesh.alpha(2).edges), len(mesh.alpha(2).triangles), len(mesh.alpha(2).tetrahedra)))
        self.assertRegex(repr(hanskup.delaunay(np.eye(4, 3))),
                         r'^<hanskup.Mesh: 4 points, 1 simplices, unit 0.000122>$')
        self.assertEqual(repr(hanskup.delaunay(np.eye(4, 3, dtype=int)).voronoi()),
                         '<hanskup.Voronoi: 1 vertices, 6 ridges>')


if __name__ == '__main__':
    unittest.main()
