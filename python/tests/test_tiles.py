"""Tests of clouds in tiles: their cells and hulls beside those of the whole, the test of spheres beside its definition,
and workers that are lost. dask.distributed and pyarrow are left out, or stood in for, where they are missing."""
import contextlib
import glob
import io
import os
import pathlib
import signal
import sys
import tempfile
import threading
import types
import unittest
from fractions import Fraction
from unittest import mock

import numpy as np

import hanskup
from hanskup import _tile, tiles
from hanskup._boxes import Spheres
from hanskup._left import lone_facets
from hanskup._tile import Left

sys.path.insert(0, str(pathlib.Path(__file__).resolve().parent))
from test_hanskup import cells_of, drawn, has


def clusters(count, seed):
    random = np.random.default_rng(seed)
    centres = random.integers(2000, 14000, (12, 3))
    return np.clip(centres[random.integers(0, 12, count)] + random.normal(0, 900, (count, 3)).astype(int), 0, 16383)


def torus(count, seed):
    a, b = np.random.default_rng(seed).random((2, count)) * 2 * np.pi
    ring = 5500 + 2500 * np.cos(b)
    return np.rint(8191 + np.stack([ring * np.cos(a), ring * np.sin(a), 2500 * np.sin(b)], axis=1)).astype(int)


def terrain(count, seed):
    random = np.random.default_rng(seed)
    x, y = random.integers(0, 16384, (2, count))
    hills = (700 * np.sin(x / 900) * np.cos(y / 1300)).astype(int)
    return np.stack([x, y, 2000 + hills + random.integers(0, 40, count)], axis=1)


def lattice(side, step):
    return np.stack(np.meshgrid(*[np.arange(side) * step] * 3), axis=-1).reshape(-1, 3)


class Here:
    """An engine that does each task itself, in an order of its own."""

    def each(self, task, asked):
        for words in reversed(asked):
            yield task(*words)


def sphere_of(corners):
    """The centre and the squared radius of the sphere through four points, as fractions."""
    a = [Fraction(int(x)) for x in corners[0]]
    rows = [[2 * (int(x) - y) for x, y in zip(b, a)] + [sum(int(x) ** 2 - y ** 2 for x, y in zip(b, a))]
            for b in corners[1:]]
    for k in range(3):
        pivot = next(i for i in range(k, 3) if rows[i][k])
        rows[k], rows[pivot] = rows[pivot], rows[k]
        rows[k] = [x / rows[k][k] for x in rows[k]]
        rows = [rows[i] if i == k else [x - rows[i][k] * y for x, y in zip(rows[i], rows[k])] for i in range(3)]
    centre = [row[3] for row in rows]
    return centre, sum((x - y) ** 2 for x, y in zip(centre, a))


def is_inside(corners, low, high):
    """By the definition: the first planes of points outside the box lie beyond the sphere."""
    centre, square = sphere_of(corners)
    return all((k == 0 or (x > k - 1 and (x - k + 1) ** 2 > square))
               and (m == 16383 or (x < m + 1 and (m + 1 - x) ** 2 > square)) for x, k, m in zip(centre, low, high))


class InBoxes(unittest.TestCase):
    def judge(self, corners, low, high):
        spheres = Spheres(np.array(corners), np.arange(4)[None])
        told = len(spheres.inside(np.array(low), np.array(high), np.arange(1))) == 1
        self.assertEqual(told, is_inside(corners, low, high), (corners, low, high))
        return told

    def test_touching_planes(self):
        c, r = 5000, 1234
        corners = [(c + r, c, c), (c - r, c, c), (c, c + r, c), (c, c, c + r)]
        for axis in range(3):
            for end, away in ((0, -1), (1, 1)):
                box = [[0] * 3, [16383] * 3]
                box[end][axis] = c + away * r  # the plane behind it touches no point of the sphere
                self.assertTrue(self.judge(corners, *box))
                box[end][axis] -= away  # and now the plane touches it
                self.assertFalse(self.judge(corners, *box))
                self.assertFalse(self.judge(corners[::-1], *box))

    def test_drawn(self):
        random, told = np.random.default_rng(2), []
        for _ in range(400):
            width = int(random.choice([3, 40, 700, 16383]))
            start = random.integers(0, 16384 - width, 3)
            corners = start + random.integers(0, width + 1, (4, 3))
            if np.linalg.matrix_rank(corners[1:] - corners[0]) < 3:
                continue
            centre, square = sphere_of(corners)
            radius = float(square) ** 0.5
            low, high = (np.array([min(max(int(float(x) + sign * radius + random.integers(-1, 2)), 0), 16383)
                                   for x in centre]) for sign in (-1, 1))
            told.append(self.judge(corners, low, high))
        self.assertTrue(20 < sum(told) < len(told) - 20)

    def test_greatest_numbers(self):
        for corners in ([(0, 0, 0), (16383, 0, 0), (0, 16383, 0), (0, 0, 16383)],
                        [(0, 0, 0), (16383, 16383, 16382), (16383, 16382, 16383), (16382, 16383, 16383)],
                        [(0, 0, 0), (16383, 0, 1), (16383, 16383, 0), (0, 16383, 0)]):
            for low, high in (([1, 0, 0], [16383] * 3), ([0, 0, 0], [16383, 16382, 16383]), ([1] * 3, [16382] * 3)):
                self.judge(corners, low, high)


class Facets(unittest.TestCase):
    def test_lone_facets(self):
        # Facets (1, 2, 3) with the apexes 4, told by both tiles that find the cell, and 5, by one of two; of 6 and 7
        # on the two sides of a facet; and of 8, which one tile tells.
        facets = np.array([[1, 2, 3], [3, 2, 1], [1, 2, 9], [4, 6, 8], [8, 4, 6], [5, 6, 7]])
        told = Left(facets, np.array([4, 4, 5, 6, 7, 8]), np.array([2, 2, 2, 1, 1, 1]), *[np.empty((0, 3), int)] * 4)
        self.assertEqual(sorted(map(tuple, np.sort(facets[lone_facets(told)], axis=1))), [(1, 2, 3), (5, 6, 7)])


class Tiled(unittest.TestCase):
    def setUp(self):
        room = tempfile.TemporaryDirectory()
        self.addCleanup(room.cleanup)
        self.folder, self.points, self.whole = os.path.join(room.name, 'tiles'), None, None

    def judge(self, points, made):
        """The cells and the hull are those of the whole, each once, turned as there."""
        if self.points is not points:
            self.points, self.whole = points, hanskup.delaunay(points, made.plan.placing and made.plan.placing.unit)
        whole, cells = self.whole, made.simplices()
        self.assertEqual(len(cells), len(whole.simplices))
        self.assertEqual(cells_of(cells), cells_of(whole.simplices))
        corners = whole.points[cells].astype(float)
        if made.plan.placing is None:
            self.assertTrue((np.linalg.det(corners[:, 1:] - corners[:, :1]) > 0).all())
        turned = lambda rows: {tuple(np.roll(row, -int(np.argmin(row)))) for row in rows.tolist()}
        self.assertEqual(len(made.convex_hull()), len(whole.convex_hull))
        self.assertEqual(turned(made.convex_hull()), turned(whole.convex_hull))
        self.assertEqual(made.counts.found + made.counts.missing, len(cells))

    def run_of(self, points, count=8, halo=1.0, engine=None, **words):
        made = tiles.delaunay(points, self.folder, count, halo, engine=engine or Here(), **words)
        self.judge(points, made)
        return made


class Whole(Tiled):
    def test_drawn(self):
        points = drawn(20_000, seed=4)
        left = [self.run_of(points, halo=halo).counts.left for halo in (0, 1, 2)]
        self.assertTrue(0.4 * len(points) > left[0] > 2 * left[1] > 2.4 * left[2], left)

    def test_kinds(self):
        for points in (clusters(4000, 1), torus(4000, 2), terrain(4000, 3), lattice(16, 1000), lattice(12, 1)):
            for count in (1, 5, 8):
                self.run_of(points, count)

    def test_convex(self):
        # On a ball a tile tells triangles of the hull by itself.
        random = np.random.default_rng(3).normal(size=(4000, 3))
        points = np.rint(8191 + 7000 * random / np.linalg.norm(random, axis=1)[:, None]).astype(int)
        self.run_of(np.concatenate([points, drawn(2000, seed=6) // 4 + 6000]))

    def test_few(self):
        self.run_of(lattice(2, 9), 3)
        self.run_of(np.concatenate([drawn(300, seed=1)] * 2), 4)
        line = np.stack([np.arange(500), np.zeros(500, int), np.arange(500) ** 2 % 7], axis=1)
        self.run_of(np.concatenate([line, [[3, 5, 2]]]), 4)
        with self.assertRaises(hanskup.Flat):
            tiles.delaunay(line * [1, 1, 0], self.folder, 4, engine=Here())

    def test_floats(self):
        random = np.random.default_rng(8)
        for points in (random.random((3000, 3)) * [4, 2, 1] - 1, random.random((500, 3)).astype(np.float32)):
            made = self.run_of(points, 4)
            self.assertEqual(made.plan.placing.unit, hanskup.delaunay(points).placing.unit)

    def test_refusals(self):
        for points, words, kind in ((np.zeros((3, 2), int), {}, ValueError), (np.zeros((0, 3)), {}, hanskup.Flat),
                                    ([[0, 0, 16384]], {}, hanskup.OutOfRange), ([[0., np.nan, 1]], {}, ValueError),
                                    *((lattice(2, 1), words, ValueError)
                                      for words in ({'count': 0}, {'halo': -1}, {'unit': 1.0}))):
            with self.assertRaises(kind):
                tiles.cut(points, self.folder, **words)
        with self.assertRaises(FileNotFoundError):
            tiles.finish(self.folder, Here())

    def test_files_of_others_stay(self):
        names, cloud = ['0001.npy', '2024.csv', '17', 'left.png', 'left', 'plan.json', 'scan.npy'], drawn(200, seed=1)
        os.makedirs(os.path.join(self.folder, '2025'))
        for name in names:
            with open(os.path.join(self.folder, name), 'wb') as file:
                np.save(file, cloud)
        for made in (lambda: tiles.delaunay(cloud, self.folder, count=2, engine=Here()),
                     lambda: tiles.cut(cloud, self.folder, 1),
                     lambda: tiles.main([os.path.join(self.folder, 'scan.npy'), self.folder])):
            with self.assertRaises((FileExistsError, SystemExit)):
                made()
        self.assertEqual(sorted(os.listdir(self.folder)), sorted(names + ['2025']))
        for name in names:
            np.testing.assert_array_equal(np.load(os.path.join(self.folder, name)), cloud)

    def test_a_second_run_takes_the_files_of_the_first_alone(self):
        self.run_of(drawn(400, seed=1), 5)
        for name in ('0001.npy', '00001.txt', 'left.png', '123456.cells.npy', 'notes'):
            pathlib.Path(self.folder, name).write_text('mine', encoding='utf8')
        os.mkdir(os.path.join(self.folder, '00009.mesh'))
        self.run_of(drawn(300, seed=2), 2)
        self.assertFalse(os.path.exists(os.path.join(self.folder, '00003.places')))
        self.assertEqual({name for name in os.listdir(self.folder) if not name.startswith(('00000', '00001.', 'plan'))},
                         {'0001.npy', 'left.png', '123456.cells.npy', 'notes', '00009.mesh', 'left.cells.npy',
                          'left.hull.npy', 'hanskup-tiles'})
        self.assertEqual(pathlib.Path(self.folder, '00001.txt').read_text(encoding='utf8'), 'mine')

    def test_processes_and_more_of_them(self):
        made = self.run_of(drawn(3000, seed=9), engine=2)
        os.remove(made.paths[3])  # as a run leaves it that was cut off
        again = tiles.finish(self.folder, 2)
        self.assertEqual(again.counts, made.counts)
        with self.assertRaises(ValueError):
            list(tiles.Processes(1).each(int, [('x',)]))
        with self.assertRaises(tiles.LostWorkers):
            list(tiles.Processes(1).each(os._exit, [(1,)]))

    def test_threads(self):
        points = drawn(5000, seed=10)
        made = self.run_of(points, count=4, engine=tiles.Threads(3))
        self.assertEqual(len(made.plan.boxes), 4)
        with self.assertRaises(ValueError):
            list(tiles.Threads(2).each(int, [('1',), ('x',)]))

    def test_workers(self):
        points = drawn(600, seed=11)
        made = tiles.delaunay(points, self.folder, 2, workers=2, progress=False)
        self.judge(points, made)
        self.assertEqual(tiles.finish(self.folder, workers=np.int64(1)).counts, made.counts)
        for words in ({'workers': 0}, {'workers': 1.5}, {'workers': 2, 'engine': Here()}):
            self.assertRaises(ValueError, tiles.finish, self.folder, **words)

    def test_processes_that_wait_are_killed(self):
        others, engine = set(Lost.children(self)), tiles.Processes(2)
        engine.begin(2)
        children = set(Lost.children(self)) - others
        self.assertEqual(len(children), 2)
        for process in children:
            os.kill(process, signal.SIGKILL)
        self.assertEqual(sorted(engine.each(len, [('a',), ('ab',), ('abc',)])), [1, 2, 3])
        engine.close()
        self.assertLessEqual(set(Lost.children(self)), others)

    def test_complex_of_a_lost_worker(self):
        points = drawn(2000, seed=5)
        tiles.cut(points, self.folder, 2)
        with mock.patch.object(_tile, 'Spheres', side_effect=MemoryError), self.assertRaises(MemoryError):
            _tile.find(self.folder, 0)
        with mock.patch.object(_tile, 'mesh_rows', side_effect=AssertionError):
            _tile.find(self.folder, 0)  # its complex stands
        self.judge(points, tiles.finish(self.folder, Here()))
        self.assertEqual(glob.glob(os.path.join(self.folder, '*.mesh')), [])

    def test_parquet(self):
        made, kept = self.run_of(drawn(500, seed=2), 2), {}
        parquet = types.SimpleNamespace(write_table=lambda columns, path: kept.update({path: columns}))
        pyarrow = types.SimpleNamespace(table=dict, parquet=parquet)
        if has('pyarrow'):
            import pyarrow.parquet as parquet
            paths = made.to_parquet(self.folder)
            kept = {path: parquet.read_table(path).to_pydict() for path in paths}
        else:
            with mock.patch.dict(sys.modules, {'pyarrow': pyarrow, 'pyarrow.parquet': parquet}):
                paths = made.to_parquet(self.folder)
        self.assertEqual(paths, list(kept))
        for path, cells in zip(paths, made.parts()):
            np.testing.assert_array_equal(np.column_stack([kept[path][name] for name in 'abcd']), cells)
        self.assertEqual(len(kept), 3)

    def test_command(self):
        path, said, legend = self.folder + '.npy', io.StringIO(), io.StringIO()
        np.save(path, drawn(400, seed=3))
        with contextlib.redirect_stdout(said), contextlib.redirect_stderr(legend):
            tiles.main([path, self.folder, '--count', '3', '--workers', '2'])
            tiles.main(['-', self.folder, '--threads', '1'])
        first, second = said.getvalue().splitlines()
        self.assertEqual(first, second)
        self.assertRegex(first, f'^points 400 seen .* cells {len(hanskup.delaunay(np.load(path)).simplices)} ')
        self.assertEqual([line.split()[0] for line in legend.getvalue().splitlines()], first.split()[::2] * 2)

    def test_command_that_is_refused(self):
        path = self.folder + '.xyz'
        for text, words in ((None, 'no such file'), ('nothing\n', 'no line with three numbers'),
                            ('1 2 3\n4 5 6\n', 'lie in one plane, or fewer than four')):
            if text is not None:
                pathlib.Path(path).write_text(text, encoding='utf8')
            with self.assertRaisesRegex(SystemExit, words):
                tiles.main([path, self.folder, '--threads', '1'])

    def test_files(self):
        points = np.random.default_rng(4).uniform(-5, 5, (300, 3)).round(3)
        rows = [' '.join(map(str, point)) for point in points.tolist()]
        texts = {'plain.xyz': rows, 'header.csv': ['x,y,z,i', *(row.replace(' ', ',') + ',7' for row in rows)],
                 'atoms.xyz': ['300', 'a shell', *('C ' + row for row in rows)], 'semicolon.txt': [
                     row.replace(' ', ';') for row in rows], 'a.ply': [
                     'ply', 'format ascii 1.0', 'element vertex 300', 'property double x', 'property double y',
                     'property double z', 'property uchar red', 'element face 0', 'property list uchar int n',
                     'end_header', *(row + ' 9' for row in rows)]}
        os.mkdir(self.folder)
        for name, lines in texts.items():
            pathlib.Path(self.folder, name).write_text('\n'.join(lines) + '\n', encoding='utf8')
        head = 'ply\nformat binary_big_endian 1.0\nelement vertex 300\nproperty float i\nproperty double x\n' \
            'property double y\nproperty double z\nend_header\n'
        packed = np.zeros(300, np.dtype([('i', '>f4'), ('p', '>f8', 3)]))
        packed['p'] = points
        pathlib.Path(self.folder, 'b.ply').write_bytes(head.encode() + packed.tobytes())
        header = bytearray(227)
        header[:4], header[24:26], header[96:100] = b'LASF', b'\1\2', (227).to_bytes(4, 'little')
        header[104:111] = bytes([0]) + (20).to_bytes(2, 'little') + (300).to_bytes(4, 'little')
        header[131:179] = np.array([0.001] * 3 + [-5.0] * 3).tobytes()
        records = np.zeros(300, np.dtype([('p', '<i4', 3), ('rest', 'V8')]))
        records['p'] = np.rint((points + 5) * 1000)
        pathlib.Path(self.folder, 'c.las').write_bytes(bytes(header) + records.tobytes())
        np.save(os.path.join(self.folder, 'd.npy'), points)
        names = sorted(os.listdir(self.folder))
        self.assertEqual(len(names), 8)
        for name in names:
            np.testing.assert_allclose(hanskup.read_points(os.path.join(self.folder, name)), points, atol=1e-12)
        for name, kept in (('c.las', 500), ('b.ply', 300)):
            path = pathlib.Path(self.folder, name)
            path.write_bytes(path.read_bytes()[:kept])
            self.assertRaisesRegex(ValueError, 'ends before', hanskup.read_points, path)
        self.assertRaises(FileNotFoundError, hanskup.read_points, 'nowhere.xyz')


class ByThreads(unittest.TestCase):
    """hanskup.delaunay(workers=N): the same mesh."""

    def same(self, points, workers, **words):
        from hanskup import _woven
        with mock.patch.object(_woven, 'FEW', 4):
            mesh, other = hanskup.delaunay(points, workers=workers, **words), hanskup.delaunay(points, **words)
        for name in ('grid', 'cells', 'hull', 'simplices', 'convex_hull', 'across', 'neighbors', 'coplanar'):
            np.testing.assert_array_equal(getattr(mesh, name), getattr(other, name), name)
        for ours, theirs in zip(mesh.vertex_neighbor_vertices, other.vertex_neighbor_vertices):
            np.testing.assert_array_equal(ours, theirs)
        return mesh

    def test_clouds(self):
        for points in (drawn(3000, seed=1), torus(2000, 2), terrain(2000, 3), lattice(10, 1500), clusters(2000, 4)):
            for workers in (2, 4):
                self.same(points, workers)
        self.same(np.concatenate([drawn(500, seed=5)] * 2), 3)

    def test_floats_edits_and_copies(self):
        import pickle
        mesh = self.same(np.random.default_rng(6).random((1500, 3)), 4, margin=0.1)
        again = pickle.loads(pickle.dumps(mesh))
        np.testing.assert_array_equal(again.neighbors, mesh.neighbors)
        mesh.add(mesh.points[:5] + 1e-3)
        mesh.take([7, 8])
        other = hanskup.delaunay(mesh.points[mesh.living], placing=mesh.placing)
        np.testing.assert_array_equal(mesh.cells, other.cells)
        self.assertGreater(len(mesh.alpha(0.1).tetrahedra), 0)

    def test_many(self):
        points = np.random.default_rng(7).random((25_000, 3))
        mesh, other = hanskup.delaunay(points, workers=2), hanskup.delaunay(points)
        np.testing.assert_array_equal(mesh.simplices, other.simplices)
        np.testing.assert_array_equal(mesh.neighbors, other.neighbors)

    def test_refusals(self):
        from hanskup import _woven
        for workers in (0, -1, 1.5, 'a'):
            self.assertRaises(ValueError, hanskup.delaunay, drawn(50), workers=workers)
        with mock.patch.object(_woven, 'FEW', 4), self.assertRaises(hanskup.Flat):
            hanskup.delaunay(drawn(50) * [1, 1, 0], workers=2)


class Lost(Tiled):
    """Runs in which a worker is killed once a tile is done."""

    def kill_one(self, found):
        """In a thread: once some tile's file is there, ends a process of those that are found."""
        def wait_and_kill():
            while not over.wait(0.01):
                for process in found() if glob.glob(os.path.join(self.folder, '*.cells.npy')) else []:
                    with contextlib.suppress(ProcessLookupError):
                        os.kill(process, signal.SIGKILL)
                        self.killed.append(process)
                        return
        self.killed, over = [], threading.Event()
        thread = threading.Thread(target=wait_and_kill)
        thread.start()
        self.addCleanup(thread.join)
        self.addCleanup(over.set)  # done before the one above

    def children(self):
        """The processes of this one that do tasks."""
        found = []
        for status in glob.glob('/proc/[0-9]*/stat'):
            with contextlib.suppress(OSError), open(status, encoding='utf8') as file:
                number, rest = file.read().split(' (', 1)
                if int(rest.rsplit(') ', 1)[1].split()[1]) == os.getpid():
                    found.append(int(number))
        return found

    def test_process_is_killed(self):
        points = drawn(20_000, seed=7)
        self.kill_one(self.children)
        self.run_of(points, engine=2)
        self.assertEqual(len(self.killed), 1)

    @unittest.skipUnless(has('distributed'), 'dask.distributed is not installed')
    def test_worker_of_dask_is_killed(self):
        from distributed import Client, LocalCluster
        points = drawn(20_000, seed=7)
        with LocalCluster(n_workers=2, threads_per_worker=1, dashboard_address=None, silence_logs=50) as cluster, \
                Client(cluster) as client:
            workers = list(client.run(os.getpid).values())
            self.kill_one(lambda: workers[:1])
            self.run_of(points, engine=client)
        self.assertEqual(len(self.killed), 1)


if __name__ == '__main__':
    unittest.main()
