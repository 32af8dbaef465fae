"""Tests of threads and of progress: meshes of their own side by side, the interpreter's lock, bars."""
import io
import os
import pathlib
import signal
import sys
import threading
import time
import types
import unittest
from unittest import mock

import numpy as np

import hanskup
from hanskup import _edited, _edits, _library, _looks, _progress, _walk

sys.path.insert(0, str(pathlib.Path(__file__).resolve().parent))
from test_hanskup import drawn


def side_by_side(work, count):
    """What work answers to 0, 1, .., each in a thread of its own."""
    found = [None] * count

    def one(i):
        found[i] = work(i)

    workers = [threading.Thread(target=one, args=(i,)) for i in range(count)]
    for worker in workers:
        worker.start()
    for worker in workers:
        worker.join()
    return found


class Threads(unittest.TestCase):
    def test_many_meshes(self):
        def work(seed):
            mesh, random = hanskup.delaunay(drawn(400, 300, seed)), np.random.default_rng(seed)
            replies = [mesh.add(random.integers(0, 301, (200, 3))), mesh.take(random.integers(0, 600, 200)),
                       mesh.move(random.integers(0, 600, 200), random.integers(0, 301, (200, 3)))]
            places = random.integers(0, 301, (99, 3))
            values = mesh.interpolate(np.arange(600.0))(places)
            told = mesh.filtration()
            return (np.concatenate(replies), mesh.cells, mesh.nearest(places), mesh.locate(places).corners,
                    mesh.find_simplex(places), values, told.edge_alphas, mesh.alpha(40).boundary())

        alone = [work(seed) for seed in range(12)]
        for ours, theirs in zip(side_by_side(work, 12), alone):
            for one, other in zip(ours, theirs):
                np.testing.assert_array_equal(one, other)

    def test_one_mesh_by_turns(self):
        mesh, lock = hanskup.delaunay(drawn(100)), threading.Lock()

        def work(i):
            for place in drawn(20, seed=i + 2):
                with lock:
                    mesh.add(place)

        side_by_side(work, 6)
        self.assertEqual(len(mesh.points), 220)
        np.testing.assert_array_equal(mesh.cells, hanskup.delaunay(mesh.points).cells)

    def test_no_lock_is_shared(self):
        # Two threads come to the filtration of meshes of their own at one time: neither waits for the other.
        gate, faces = threading.Barrier(2, timeout=60), _library.face_rows

        def both(*words):
            gate.wait()
            return faces(*words)

        meshes = [hanskup.delaunay(drawn(50, seed=seed)) for seed in (1, 2)]
        with mock.patch.object(_library, 'face_rows', both):
            found = side_by_side(lambda i: len(meshes[i].filtration().edges), 2)
        self.assertEqual(found, [len(hanskup.delaunay(mesh.points).filtration().edges) for mesh in meshes])

    def test_interpreter_runs_on(self):
        # While a call of the library takes its time, other threads go on: with the lock kept they would not once.
        points, mesh = drawn(30_000), hanskup.delaunay(drawn(30_000))
        handle = mesh._handle
        for call in (lambda: _library.mesh_rows(points), lambda: _library.face_rows(mesh.grid, *mesh.counts()[1:]),
                     lambda: _edited.Edited(points), handle.rows):
            begun, done = threading.Event(), threading.Event()

            def work():
                begun.set()
                call()
                done.set()

            worker = threading.Thread(target=work)
            worker.start()
            begun.wait()
            turns = 0
            while not done.is_set():
                time.sleep(0.001)
                turns += 1
            worker.join()
            self.assertGreater(turns, 5)


class Bar:
    """In the place of tqdm: it keeps what is shown."""
    made = []

    def __init__(self, **words):
        self.words, self.steps, self.closed = words, [], False
        Bar.made.append(self)

    def update(self, step):
        self.steps.append(step)

    def refresh(self):
        self.steps.append(0)

    def close(self):
        self.closed = True

    def __enter__(self):
        return self

    def __exit__(self, *_):
        self.close()


class Terminal(io.StringIO):
    def isatty(self):
        return True


class Progress(unittest.TestCase):
    def setUp(self):
        Bar.made = []
        for patch in (mock.patch.dict(sys.modules, tqdm=types.SimpleNamespace(tqdm=Bar)),
                      mock.patch.object(_edits, '_PIECE', 3), mock.patch.object(_looks, '_PIECE', 4),
                      mock.patch.object(_walk, '_PIECE', 5)):
            patch.start()
            self.addCleanup(patch.stop)
        self.mesh = hanskup.delaunay(drawn(40))

    def told(self):
        self.assertTrue(all(bar.closed and bar.words['delay'] == 1 and bar.words['disable'] is None
                            for bar in Bar.made))
        return [(bar.words['total'], bar.words['unit'], bar.steps) for bar in Bar.made]

    def test_edits(self):
        self.mesh.add(drawn(7, seed=8))
        self.mesh.take([0, 1, 2, 3])
        self.mesh.move([4, 5, 6, 7], drawn(4, seed=9), progress=False)
        self.mesh.add([1, 2, 3])  # too few for a bar
        self.assertEqual(self.told(), [(7, 'edit', [3, 3, 1]), (4, 'edit', [3, 1])])

    def test_looks(self):
        places = self.mesh.points[:6]
        self.mesh.nearest(places)
        self.mesh.locate(places)
        self.mesh.find_simplex(places)
        self.mesh.find_simplex(places, progress=False)
        self.assertEqual(self.told(), [(6, 'place', [4, 2])] * 2 + [(6, 'place', [5, 1])])

    def test_none_without_tqdm(self):
        with mock.patch.dict(sys.modules, tqdm=None):  # so that it cannot be imported
            self.assertEqual(self.mesh.add(drawn(7, seed=8)).tolist(), ['inserted'] * 7)
        self.assertEqual(Bar.made, [])

    def test_it_ends_with_an_error(self):
        with mock.patch.object(self.mesh._handle, 'edit', side_effect=KeyboardInterrupt):
            self.assertRaises(KeyboardInterrupt, self.mesh.add, drawn(7, seed=8))
        self.assertEqual(self.told(), [(7, 'edit', [])])

    def test_time_of_one_call(self):
        with mock.patch.object(sys, 'stderr', Terminal()) as told:
            with _progress.waiting('filtration'):
                time.sleep(2)
            with _progress.waiting('short'):
                pass
            with _progress.waiting('unwanted', progress=False):
                time.sleep(1.2)
            lines = [line.strip() for line in told.getvalue().split('\r') if line.strip()]
        self.assertTrue(lines)
        for line in lines:
            self.assertRegex(line, r'^filtration, [12] s$')
        with mock.patch.object(sys, 'stderr', io.StringIO()) as told:  # no terminal
            with _progress.waiting('filtration'):
                time.sleep(1.2)
            self.assertEqual(told.getvalue(), '')

    def test_a_line_of_its_own_with_a_fraction(self):
        with mock.patch.dict(sys.modules, tqdm=None), mock.patch.object(_progress, '_DELAY', 0), \
                mock.patch.object(_progress, '_EVERY', 0), mock.patch.object(sys, 'stderr', Terminal()) as told:
            self.mesh.add(drawn(7, seed=8))
            lines = [line.strip() for line in told.getvalue().split('\r')]
            self.assertEqual(lines, ['', '43% of 7 edits, 0 s', '86% of 7 edits, 0 s', '100% of 7 edits, 0 s', '', ''])
            with mock.patch.object(sys, 'stderr', io.StringIO()) as silent:
                self.mesh.add(drawn(7, seed=9))
            self.assertEqual(silent.getvalue(), '')
            self.mesh.add(drawn(7, seed=10), progress=False)
            self.assertEqual(len(told.getvalue().split('\r')), 6)


class Interrupted(unittest.TestCase):
    """A key is heard within a fifth of a second, whatever the library does; and no mesh is wrong after it."""

    def after(self, call, seconds):
        """How long an interrupt of a call is not heard, or None where it ended before."""
        told = []

        def ask():
            told.append(time.monotonic())
            os.kill(os.getpid(), signal.SIGINT)

        timer = threading.Timer(seconds, ask)
        timer.start()
        try:
            call()
        except KeyboardInterrupt:
            return time.monotonic() - told[0]
        timer.cancel()
        timer.join()
        self.assertFalse(told)
        return None

    def test_calls_over_many_points(self):
        points = np.random.default_rng(1).random((120_000, 3))
        mesh, heard = hanskup.delaunay(points), []
        for call in (lambda: hanskup.delaunay(points), lambda: hanskup.delaunay(points, workers=2), mesh.filtration,
                     lambda: mesh.locate(points[:5]), lambda: mesh.optimal_alpha(1),
                     lambda: mesh.add(points * 0.9 + 0.05), lambda: mesh.interpolate(points)(points)):
            heard += [self.after(call, 0.15)]
        heard = [late for late in heard if late is not None]
        self.assertGreater(len(heard), 3)
        self.assertLess(sorted(heard)[len(heard) // 2], 0.2)  # the machine may do other work as well
        self.assertLess(max(heard), 2.0)
        there = int(mesh.living.sum())
        self.assertEqual(mesh.counts()[0], len(np.unique(mesh._places, axis=0)))
        self.assertEqual(len(mesh.locate(mesh.points[:3]).kinds), 3)
        self.assertEqual(there, len(mesh.points))


if __name__ == '__main__':
    unittest.main()
