"""Tests with clouds of real coordinates, as people have them, beside scipy and by the definitions."""
import pathlib
import sys
import unittest
import warnings

import numpy as np

import hanskup

sys.path.insert(0, str(pathlib.Path(__file__).resolve().parent))
from real_clouds import each, uniform
from test_hanskup import has


class Real(unittest.TestCase):
    def setUp(self):
        # What rounding does is the matter of these tests, and not whether it is told.
        catcher = warnings.catch_warnings()
        catcher.__enter__()
        self.addCleanup(catcher.__exit__, None, None, None)
        warnings.simplefilter('ignore', hanskup.RoundingWarning)


class AtThePoints(Real):
    def test_own_points_have_their_values(self):
        for name, points, random in each(2000, range(1, 5)):
            with self.subTest(name):
                mesh, values = hanskup.delaunay(points), random.normal(size=(len(points), 2))
                np.testing.assert_array_equal(mesh.interpolate(values)(points), values)
                self.assertTrue((mesh.find_simplex(points) >= 0).all())

    def test_natural_neighbours_too(self):
        for name, points, random in each(300):
            with self.subTest(name):
                values = random.normal(size=len(points))
                told = hanskup.delaunay(points).interpolate(values, 'natural')(points)
                np.testing.assert_array_equal(told, values)

    @unittest.skipUnless(has('scipy'), 'scipy is not installed')
    def test_nothing_is_missing_inside(self):
        from scipy.spatial import Delaunay
        for name, points, random in each(1500, range(1, 5)):
            with self.subTest(name):
                mesh, other, places = hanskup.delaunay(points), Delaunay(points), []
                for rows in (other.simplices, other.convex_hull):  # inside, and on the hull
                    parts = random.dirichlet([1] * rows.shape[1], len(rows))
                    places.append(np.einsum('ij,ijk->ik', parts, points[rows]))
                places = np.concatenate(places)
                told = mesh.interpolate(np.ones(len(points)))(places)
                np.testing.assert_allclose(told, 1, rtol=0, atol=1e-9)
                self.assertTrue((mesh.find_simplex(places) >= 0).all())
                away = places[::7] + (places[::7] - places.mean(axis=0)) * 3
                np.testing.assert_array_equal(mesh.find_simplex(away) < 0,
                                              np.isnan(mesh.interpolate(np.ones(len(points)))(away)))

    def test_less_than_a_step_beyond_the_hull(self):
        points = np.concatenate([uniform(500, np.random.default_rng(3)), np.indices((2, 2, 2)).reshape(3, -1).T])
        mesh = hanskup.delaunay(points, unit=1e-3 * (1 + 1e-7))
        step, ones = mesh.placing.unit, np.ones(len(points))
        faces = np.random.default_rng(4).uniform(0.01, 0.99, (200, 3))
        for axis in range(3):
            places = faces.copy()
            for beyond, has_it in ((0.9, True), (2.1, False)):
                for edge, sign in ((0.0, -1), (1.0, 1)):
                    places[:, axis] = edge + sign * beyond * step
                    self.assertEqual(set((mesh.find_simplex(places) >= 0).tolist()), {has_it})
                    self.assertEqual(set(np.isfinite(mesh.interpolate(ones)(places)).tolist()), {has_it})

    @unittest.skipUnless(has('scipy'), 'scipy is not installed')
    def test_where_nothing_is_rounded_it_is_as_scipy(self):
        # Places less than half a step from points are no points there.
        from scipy.interpolate import LinearNDInterpolator
        random = np.random.default_rng(5)
        points = np.unique(random.integers(0, 9, (200, 3)), axis=0).astype(float)
        points = np.concatenate([points, random.uniform(size=(50, 3)).round(3) * 8])
        values = random.random(len(points))
        mesh = hanskup.delaunay(points, unit=0.001)
        self.assertLess(mesh.rounding, 1e-12)
        places = random.uniform(-0.01, 8, (2000, 3))
        linear = points @ [1.0, 2.0, -3.0]
        told, theirs = mesh.interpolate(linear)(places), LinearNDInterpolator(points, linear)(places)
        np.testing.assert_array_equal(np.isnan(told), np.isnan(theirs))
        np.testing.assert_allclose(told, theirs, atol=1e-9)
        np.testing.assert_array_equal(mesh.interpolate(values)(points), values)

    def test_points_that_fell_together_keep_their_values(self):
        points = np.array([[0, 0, 0], [1, 0, 0], [0, 1, 0], [0, 0, 1], [.4, .4, .4], [.4 + 1e-6, .4, .4], [.4, .4, .4]])
        mesh = hanskup.delaunay(points)
        self.assertEqual(len(mesh.grid), 5)
        self.assertEqual(mesh.interpolate(np.arange(7.0))(points).tolist(), [0, 1, 2, 3, 4, 5, 4])
        mesh.take([4])
        self.assertEqual(mesh.interpolate(np.arange(7.0))(points[4:]).tolist(), [6, 5, 6])


class AsScipyReads(Real):
    @unittest.skipUnless(has('scipy'), 'scipy is not installed')
    def test_tuples_are_coordinates(self):
        from scipy.interpolate import LinearNDInterpolator
        random = np.random.default_rng(6)
        points, values = random.uniform(size=(200, 3)), random.random(200)
        ours, theirs = hanskup.delaunay(points).interpolate(values), LinearNDInterpolator(points, values)
        line = np.linspace(0.2, 0.8, 3)
        for places in ((line, line[::-1], line), np.meshgrid(line, line, line), (0.5, 0.4, line), (0.3, 0.4, 0.5)):
            given = tuple(places)
            self.assertEqual(ours(given).shape, np.squeeze(theirs(given)).shape)
            np.testing.assert_allclose(ours(given), np.squeeze(theirs(given)), atol=1e-3)
            np.testing.assert_array_equal(ours(*given), ours(given))
        self.assertRaises(ValueError, ours, (line, line))


    @unittest.skipUnless(has('scipy'), 'scipy is not installed')
    def test_find_simplex_has_the_shapes_of_scipy(self):
        from scipy.spatial import Delaunay
        random = np.random.default_rng(7)
        points = random.integers(0, 3000, (300, 3)) / 1000
        ours, theirs = hanskup.Delaunay(points), Delaunay(points)
        places = random.uniform(-0.5, 3.5, (4, 5, 3))
        places[0, :3, 1] = np.nan, np.inf, -np.inf
        for given in (places, places[1], places[1, 2], places[:0], places.tolist(), points[:9] * 0.5 + 0.7):
            told, other = ours.find_simplex(given), theirs.find_simplex(given)
            self.assertEqual(np.shape(told), np.shape(other))
            np.testing.assert_array_equal(np.asarray(told) < 0, np.asarray(other) < 0)
            np.testing.assert_array_equal(ours.find_simplex(given, bruteforce=True), told)
        for wrong in ([1.0, 2.0], 3.0, ['a', 'b', 'c'], [1j, 0, 0]):
            self.assertRaises(ValueError, ours.find_simplex, wrong)

    def test_tolerance(self):
        mesh = hanskup.delaunay(np.indices((3, 3, 3)).reshape(3, -1).T.astype(float))
        places = np.array([[1.2, 1.1, 2 + beyond] for beyond in (0.01, 0.09, 0.11, 3)])
        for tol, count in ((None, 0), (0, 0), (0.1, 2), (np.float16(1), 3), (9, 4)):
            self.assertEqual((mesh.find_simplex(places, tol=tol) >= 0).sum(), count)
        self.assertRaises(ValueError, mesh.find_simplex, places, tol=-1)
        self.assertRaises(ValueError, mesh.find_simplex, places, tol=np.nan)

    @unittest.skipUnless(has('scipy'), 'scipy is not installed')
    def test_delaunay_of_scipy_can_be_swapped(self):
        import copy
        import pickle
        from scipy.spatial import Delaunay
        points = uniform(300, np.random.default_rng(8)).round(4)
        more = np.random.default_rng(9).uniform(-1, 2, (40, 3)).round(4)
        made = [kind(points, incremental=True) for kind in (hanskup.Delaunay, Delaunay)]
        cells = lambda tri: {tuple(sorted(row)) for row in np.asarray(tri.simplices).tolist()}
        self.assertEqual(*map(cells, made))
        for tri in made:
            tri.add_points(points[:5] * 0.5 + 0.2)
            tri.add_points(more)
            tri.add_points(more[:3] + 0.01, restart=True)
            tri.close()
        self.assertEqual(*(tri.npoints for tri in made))
        self.assertGreater(len(cells(made[0]) & cells(made[1])) / len(cells(made[1])), 0.97)
        for other in (copy.copy(made[0]), pickle.loads(pickle.dumps(made[0]))):
            self.assertIs(type(other), hanskup.Delaunay)
            np.testing.assert_array_equal(other.simplices, made[0].simplices)
        self.assertIsInstance(made[0], hanskup.Mesh)
        self.assertEqual(hanskup.Delaunay(np.concatenate([points, points[:2]])).coplanar.dtype, np.int32)
        for words in ({'furthest_site': True}, {'qhull_options': 'Qbb Qu'}):
            self.assertRaises(ValueError, hanskup.Delaunay, points, **words)
        whole = hanskup.Delaunay(np.random.default_rng(1).integers(0, 99, (50, 3)), qhull_options='Qbb Qc Qz')
        self.assertRaises(hanskup.OutOfRange, whole.add_points, [[20000, 0, 0]])
        made[0].take([3])
        self.assertRaises(hanskup.OutOfRange, made[0].add_points, [[9.0, 9, 9]])


class Numbers(Real):
    def test_a_radius_of_a_small_type(self):
        mesh = hanskup.delaunay(np.random.default_rng(1).integers(0, 400, (60, 3)))
        for radius in (np.uint8(20), np.int8(100), np.int16(200), np.uint16(300), np.float16(300),
                       np.float32(363.67172), np.uint64(300), np.array(200), 200, True, np.bool_(True)):
            shape, other = mesh.alpha(radius), mesh.alpha(float(radius))
            self.assertEqual(shape.sixteenths, int(16 * float(radius) ** 2))
            np.testing.assert_array_equal(shape.tetrahedra, other.tetrahedra)
            parts, others = mesh.solid_parts(radius), mesh.solid_parts(float(radius))
            np.testing.assert_array_equal(parts.tetrahedra, others.tetrahedra)
            self.assertEqual(hanskup.alpha_shape(mesh.points, radius).sixteenths, shape.sixteenths)

    def test_what_is_no_radius(self):
        mesh = hanskup.delaunay(np.random.default_rng(1).integers(0, 400, (60, 3)))
        for radius in ('3', b'3', 3j, None, [], np.nan, -1, np.float16(-0.5), -np.inf, object()):
            self.assertRaises(ValueError, mesh.alpha, radius)
            self.assertRaises(ValueError, mesh.solid_parts, radius)
        with self.assertRaisesRegex(ValueError, 'weights'):
            mesh.alpha(np.ones(60))
        with self.assertRaisesRegex(ValueError, 'weights'):
            hanskup.alpha_shape(mesh.points, np.ones(60))
        for parts in (0, -1, 1.5, 'a', np.nan):
            self.assertRaises(ValueError, mesh.optimal_alpha, parts)
        self.assertEqual(mesh.optimal_alpha(np.inf), mesh.optimal_alpha(10 ** 30))
        self.assertEqual(mesh.optimal_alpha(np.uint8(2)), mesh.optimal_alpha(2.0))
        for unit in (0, -1, np.nan, np.inf, '1', [1.0]):
            self.assertRaises(ValueError, hanskup.delaunay, np.eye(4, 3), unit)
        self.assertEqual(hanskup.delaunay(np.eye(4, 3), np.uint8(1)).placing.unit, 1.0)

    def test_objects_are_the_numbers_that_they_are(self):
        points = np.random.default_rng(2).integers(0, 6, (60, 3))
        mesh = hanskup.delaunay(points.astype(object))
        self.assertIsNone(mesh.placing)
        np.testing.assert_array_equal(mesh.simplices, hanskup.delaunay(points).simplices)
        self.assertEqual(mesh.add(np.array([[7, 8, 9]], object)).tolist(), ['inserted'])
        floats = np.random.default_rng(3).random((60, 3))
        np.testing.assert_array_equal(hanskup.delaunay(floats.astype(object)).simplices,
                                      hanskup.delaunay(floats).simplices)
        for wrong in ('a', None, 1j):
            self.assertRaises(ValueError, hanskup.delaunay, np.array([[wrong, 0, 0]] * 5, object))
        self.assertRaises(hanskup.OutOfRange, hanskup.delaunay, np.array([[2 ** 40, 0, 0]] * 5, object))


class AllRadii(Real):
    def test_infinity_admits_everything(self):
        for name, points, _ in each(700):
            with self.subTest(name):
                mesh = hanskup.delaunay(points)
                shape, told = mesh.alpha(np.inf), mesh.filtration()
                self.assertEqual(len(shape.tetrahedra), mesh.nsimplex)
                self.assertEqual(shape.volume(), mesh.volume())
                self.assertAlmostEqual(shape.area() / mesh.area(), 1, 12)
                np.testing.assert_array_equal(np.unique(np.sort(shape.boundary(), axis=1), axis=0),
                                              np.unique(np.sort(mesh.convex_hull, axis=1), axis=0))
                for alphas in (told.point_alphas, told.edge_alphas, told.triangle_alphas):
                    self.assertTrue(np.isfinite(alphas[:, :2]).all())
                    self.assertTrue((np.diff(alphas[:, :2], axis=1) >= 0).all())
                self.assertEqual(np.isinf(told.triangle_alphas[:, 2]).sum(), len(mesh.hull))
                self.assertEqual((shape.triangle_kinds == hanskup.REGULAR).sum(), len(mesh.hull))
                self.assertEqual((shape.edge_kinds == hanskup.REGULAR).sum(), len(mesh.hull) * 3 // 2)
                self.assertEqual((shape.point_kinds == hanskup.REGULAR).sum(), len(mesh.hull) // 2 + 2)
                if has('scipy'):
                    self.assertEqual(len(mesh.solid_parts(np.inf).tetrahedra), mesh.nsimplex)
                # and above the library's count by the radius itself
                for radius in np.sqrt(np.quantile(told.tetrahedron_alphas, (0.5, 0.9, 0.99, 0.999))) * 1.001:
                    self.assertEqual(len(mesh.alpha(radius).tetrahedra), (told.tetrahedron_alphas <= radius ** 2).sum())

    @unittest.skipUnless(has('gudhi'), 'gudhi is not installed')
    def test_as_gudhi_beyond_the_count_too(self):
        import gudhi
        beyond = 0
        for name, points, _ in each(400):
            with self.subTest(name):
                mesh = hanskup.delaunay(points)
                told, step = mesh.filtration(), mesh.placing.unit ** 2 / 16
                complex_ = gudhi.AlphaComplex(points=mesh.placing.to_user(mesh.grid), precision='exact')
                theirs = {tuple(sorted(face)): value for face, value in complex_.create_simplex_tree().get_filtration()}
                for faces, alphas in ((told.edges, told.edge_alphas[:, 0]),
                                      (told.triangles, told.triangle_alphas[:, 0]),
                                      (told.tetrahedra, told.tetrahedron_alphas)):
                    values = np.array([theirs[tuple(face)] for face in np.sort(mesh._inverse[faces], axis=1).tolist()])
                    self.assertTrue((np.abs(alphas - values) <= step + 1e-6 * values).all())
                    beyond += int((values > 2 ** 34 * step).sum())
        self.assertGreater(beyond, 500)


class Told(unittest.TestCase):
    def turned(self, points, simplices):
        a, b, c, d = (points[simplices[:, k]] for k in range(4))
        return (np.linalg.det(np.stack([b - a, c - a, d - a], axis=1)) <= 0).sum()

    def warned(self, points, **words):
        with warnings.catch_warnings(record=True) as said:
            warnings.simplefilter('always')
            mesh = hanskup.delaunay(points, **words)
        self.assertTrue(all(one.category is hanskup.RoundingWarning and one.filename == __file__ for one in said))
        return mesh, [str(one.message) for one in said]

    @unittest.skipUnless(has('scipy'), 'scipy is not installed')
    def test_numbers(self):
        from scipy.spatial import cKDTree
        for name, points, _ in each(2000):
            with self.subTest(name):
                mesh, _ = self.warned(points)
                told, places = mesh.rounding, np.unique(mesh._places, axis=0)
                self.assertEqual(told, np.abs(mesh.placing.to_user(mesh._places) - points).max())
                self.assertEqual(told.together, len(points) - len(places))
                self.assertLessEqual(abs(told.turned - self.turned(points, mesh.simplices)), 3)  # flat but for rounding
                self.assertEqual(told.simplices, len(mesh.simplices))
                spacing = np.median(cKDTree(points).query(points, 2)[0][:, 1])
                self.assertTrue(0.85 < told.spacing / spacing < 1.2, (told.spacing, spacing))

    def test_warned_by_what_it_does(self):
        said = {name.split()[0]: ' '.join(self.warned(points)[1]) for name, points, _ in each(5000)}
        self.assertEqual(said['uniform'], '')
        self.assertRegex(said['wing'], r'simplices \(1?\d%\) turn over .*on_grid=True')
        self.assertRegex(said['clusters'], 'moved by up to .* nearest neighbour')
        self.assertRegex(said['tails'], 'fell together .* nearest neighbour')
        mesh, told = self.warned(uniform(60_000, np.random.default_rng(1)))  # by a part of the simplices
        self.assertEqual((told, mesh.rounding.words), ([], []))
        exact, told = self.warned(np.random.default_rng(2).integers(0, 9000, (3000, 3)) / 1000)
        self.assertEqual((told, exact.rounding.turned, exact.rounding.words), ([], 0, []))

    def test_of_whole_numbers(self):
        mesh, told = self.warned(np.random.default_rng(2).integers(0, 9, (300, 3)))
        self.assertEqual((float(mesh.rounding), mesh.rounding.turned, told), (0.0, 0, []))
        self.assertEqual(mesh.rounding.together, 300 - len(mesh.grid))
        self.assertEqual(repr(mesh.rounding), '<hanskup.Rounding: 0, 0 of the median distance to the nearest '
                         f'neighbour 1; 0 of {mesh.nsimplex} simplices turn over, '
                         f'{300 - len(mesh.grid)} points fell together>')

    def test_after_edits_copies_and_pickles(self):
        import copy
        import pickle
        mesh = hanskup.delaunay(uniform(100, np.random.default_rng(3)), margin=0.1)
        before = mesh.rounding
        self.assertEqual(vars(pickle.loads(pickle.dumps(before))), vars(copy.deepcopy(before)))
        mesh.add(mesh.points[:3])
        self.assertEqual((before.together, mesh.rounding.together), (0, 3))

    def test_where_the_grid_has_the_points_all_cells_are_positive(self):
        made = hanskup._adapters.to_meshio if has('meshio') else None
        for name, points, _ in each(2000):
            with self.subTest(name):
                mesh, _ = self.warned(points)
                places = mesh._points_of(True)
                self.assertEqual(self.turned(places, mesh.simplices), 0)
                self.assertLessEqual(np.abs(places - points).max(), float(mesh.rounding))
                if made:
                    written = mesh.to_meshio(on_grid=True)
                    np.testing.assert_array_equal(written.points, places)
                    np.testing.assert_array_equal(mesh.to_meshio().points, points)

    def test_flat(self):
        random = np.random.default_rng(1)
        for points, words in ((np.concatenate([uniform(200, random), [[1e6, 0, 0]]]),
                               'step is 61.* fell together.*1e\\+06'),
                              (uniform(200, random) * [1, 1, 1e-5], 'though as given they do not'),
                              (uniform(200, random) * [1, 1, 0], 'all 200 points lie in one plane'),
                              (np.eye(3), 'fewer than four points: 3'),
                              (np.eye(3, dtype=int), 'fewer than four points: 3'),
                              (np.zeros((0, 3)), 'fewer than four points'),
                              (np.repeat(np.eye(3), 3, axis=0), 'fewer than four different points: 3 of 9'),
                              (np.array([[1, 2, 3]] * 5 + [[1, 2, 4]] * 9), 'on the grid all lie in one plane')):
            with self.assertRaisesRegex(hanskup.Flat, words):
                hanskup.delaunay(points)


class Placed(Real):
    def test_what_is_exact_stays_exact(self):
        random = np.random.default_rng(1)
        thousandths = random.uniform(0, 10, (1000, 3)).round(3)  # as a PDB has them
        for points, unit in ((thousandths, 0.001), (thousandths + [5e5, 4e6, -100], 0.001),
                             ((thousandths * 0.3).round(3), 0.00025),
                             (random.integers(0, 11, (300, 3)).astype(float), 2.0 ** -10),
                             (random.integers(0, 11, (300, 3)) / 10, 1e-4),
                             (random.integers(0, 16384, (99, 3)) / 7, None),
                             (random.integers(0, 5000, (200, 3)) * 2.0 ** -20, 2.0 ** -21),
                             (random.integers(-3000, 3000, (200, 3)) * 0.005, 0.0025),
                             (random.integers(0, 16384, (300, 3)) * 0.01, 0.01),
                             (random.integers(0, 16383, (300, 3)).astype(np.float32) / 100, 0.01)):
            mesh = hanskup.delaunay(points)
            if unit is None:
                self.assertGreater(mesh.rounding, 0.01 * mesh.placing.unit)
                continue
            self.assertAlmostEqual(mesh.placing.unit / unit, 1, 12)
            self.assertLess(mesh.rounding, unit * (1e-3 if points.dtype == np.float32 else 1e-5))
            steps = (points.astype(float) - points.min(axis=0)) / mesh.placing.unit
            self.assertLess(np.abs(steps - np.rint(steps)).max(), 1e-3)

    def test_what_is_not_takes_the_whole_grid(self):
        for name, points, _ in each(300):
            with self.subTest(name):
                extent = np.ptp(points, axis=0).max()
                self.assertAlmostEqual(hanskup.delaunay(points).placing.unit / (extent / 16383), 1, 12)
        tenths = np.random.default_rng(2).integers(0, 10 ** 6, (300, 3)) / 10  # the grid has not enough of them
        self.assertAlmostEqual(hanskup.delaunay(tenths).placing.unit / (np.ptp(tenths, axis=0).max() / 16383), 1, 12)

    @unittest.skipUnless(has('scipy'), 'scipy is not installed')
    def test_a_lattice_of_floats_has_regions_of_1(self):
        lattice = np.indices((6, 6, 6)).reshape(3, -1).T.astype(float)
        told = hanskup.delaunay(lattice).voronoi().volumes
        np.testing.assert_allclose(told[np.isfinite(told)], 1, rtol=1e-9)
        self.assertEqual(np.isfinite(told).sum(), 64)

    def test_a_simulation_with_a_margin(self):
        random = np.random.default_rng(3)
        points = random.uniform(size=(300, 3))
        for words in ({'margin': 0.2}, {'box': ((-0.3, -0.3, -0.3), (1.3, 1.3, 1.3))}, {'unit': 1e-4, 'margin': 0.2},
                      {'placing': hanskup.Placing([-0.3] * 3, 1e-4)}):
            mesh, places = hanskup.delaunay(points, **words), points.copy()
            for _ in range(5):
                places += random.normal(size=places.shape) * 1e-2
                self.assertEqual(set(mesh.move(np.arange(300), places).tolist()), {'moved'})
            np.testing.assert_array_equal(mesh.points, places)
            self.assertTrue(((places < points.min(axis=0)) | (places > points.max(axis=0))).any())
            other = hanskup.delaunay(places, placing=mesh.placing)
            np.testing.assert_array_equal(mesh.simplices, other.simplices)

    def test_boxes(self):
        random = np.random.default_rng(4)
        for decimals in (2, 16):
            points = random.uniform(size=(50, 3)).round(decimals)
            for low, high in (((-1, -1, -1), (2, 3, 2)), ((0, 0, 0), (1, 1, 1)), ((-7.3, -0.1, 0), (1, 1.01, 1))):
                mesh = hanskup.delaunay(points, box=(low, high))
                corners = np.array(np.meshgrid(*zip(low, high))).reshape(3, -1).T
                self.assertFalse(set(mesh.add(corners).tolist()) - {'inserted', 'duplicate'})
                self.assertTrue(decimals != 2 or hanskup.delaunay(points, box=(low, high)).rounding < 1e-12)
        with self.assertRaisesRegex(hanskup.OutOfRange, r'place 1 of 2 lies outside .* box=.*margin='):
            hanskup.delaunay(points).move([0, 1], [[0.5, 0.5, 0.5], [3, 0, 0]])

    def test_refusals_of_boxes(self):
        points = np.random.default_rng(5).uniform(size=(50, 3))
        for words in ({'margin': -1}, {'margin': np.nan}, {'margin': np.inf}, {'box': 1}, {'box': ((0, 0), (1, 1))},
                      {'box': ((1, 1, 1), (0, 0, 0))}, {'box': ((0, 0, 0), (1, 1, np.inf))}, {'placing': 3},
                      {'placing': hanskup.Placing([0, 0, 0], 1), 'unit': 1}):
            self.assertRaises(ValueError, hanskup.delaunay, points, **words)
        self.assertRaises(hanskup.OutOfRange, hanskup.delaunay, points, box=((0, 0, 0), (1, 1, 0.5)))
        self.assertRaises(hanskup.OutOfRange, hanskup.delaunay, points, placing=hanskup.Placing([0.5] * 3, 1e-4))
        self.assertRaises(hanskup.OutOfRange, hanskup.delaunay, points, margin=0.5, unit=1 / 16383)
        for words in ({'margin': 1}, {'box': ((0, 0, 0), (9, 9, 9))}, {'placing': hanskup.Placing([0, 0, 0], 1)}):
            with self.assertRaisesRegex(ValueError, 'astype'):
                hanskup.delaunay(np.eye(4, 3, dtype=int), **words)
        for origin, unit in (([0, 0], 1), ([0, 0, np.nan], 1), ([0, 0, 0], 0), ([0, 0, 0], np.inf)):
            self.assertRaises(ValueError, hanskup.Placing, origin, unit)

    def test_whole_numbers_are_told_the_way_out(self):
        for points in ([[-5, 0, 0]] * 5, [[20000, 0, 0]] * 5):
            with self.assertRaisesRegex(hanskup.OutOfRange, r'astype\(float\)'):
                hanskup.delaunay(np.array(points))
        mesh = hanskup.delaunay(np.random.default_rng(6).integers(0, 99, (50, 3)))
        self.assertEqual(mesh.add([[1.0, 2.0, 300.0]]).tolist(), ['inserted'])
        self.assertEqual(mesh.points.dtype, np.int64)
        with self.assertRaisesRegex(ValueError, r'astype\(float\)'):
            mesh.add([[1.5, 2.0, 3.0]])


if __name__ == '__main__':
    unittest.main()
