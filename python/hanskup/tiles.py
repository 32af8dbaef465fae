"""The Delaunay triangulation of a cloud in tiles: each by a process of its own, on one machine or on many.

    from hanskup import tiles
    made = tiles.delaunay(points, folder, count=8, workers=4)         # by processes of this machine
    made = tiles.delaunay(points, folder, count=4, engine=tiles.Threads(4))   # by threads: delaunay(workers=4) in files
    made = tiles.delaunay(points, folder, count=512, engine=client)   # of a dask.distributed.Client
    for cells in made.parts(): ...                                    # (c, 4), by indices of points
    made.simplices(), made.convex_hull(), made.to_parquet(folder)

    python3 -m hanskup.tiles scan.las OUT --count 8 --workers 4     # --threads; --scheduler ADDRESS: dask's; --parquet

The cells are those of `hanskup.delaunay(points)`, each once, in files. A tile is a box of the grid with its points; it
sees the points of a halo around it too. Its own complex, by the proved library, has cells whose circumscribing spheres
lie inside the box that it sees: these are cells of the whole cloud, and found. What no tile finds is in the complex of
the few points that are left. Both laws are proved, in exact whole numbers and also at ties (docs/SCALE.md of the
repository). What applies them here is Python: it is tested, and not proved.

A tile is a task of a function and two words, which reads and writes files of one folder, that all workers see. So it
can be done again: a worker that is lost loses nothing that was written, and a run that was cut off goes on by `finish`.
"""
from __future__ import annotations

import argparse
import os
import sys
from typing import Any, Iterator, NamedTuple

import numpy as np

from . import _left, _tile
from ._adapters import module
from ._cuts import Plan, cut
from ._engines import Dask, Engine, LostWorkers, Processes, Threads, engine_of
from ._errors import Flat, HanskupError
from ._files import read_points
from ._kinds import ArrayLike, Rows
from ._numbers import whole
from ._progress import counting

__all__ = ['delaunay', 'cut', 'finish', 'Tiles', 'Counts', 'Plan', 'Engine', 'Processes', 'Threads', 'Dask',
           'LostWorkers']


class Counts(NamedTuple):
    """How much a run had to do."""
    seen: int  #: points over all tiles, with those of the halos
    found: int  #: cells that tiles found
    left: int  #: points that were left
    missing: int  #: cells that came from these
    hull: int  #: triangles of the hull


class Tiles:
    """The cells of a cloud, by tiles, in the files of a folder.

    Attributes:
        folder: where they are.
        plan: the boxes, and how the points were placed.
        counts: what the run had to do, if this is what it told.
    """

    def __init__(self, folder: str, counts: Counts | None = None) -> None:
        self.folder, self.plan, self.counts = folder, Plan.load(folder), counts

    def __repr__(self) -> str:
        return f'<hanskup.tiles.Tiles: {self.plan.points} points in {len(self.plan.boxes)} tiles, {self.folder}>'

    @property
    def paths(self) -> list[str]:
        """The files of the cells: of each tile those that no earlier one found, and of those that no tile did."""
        return [_tile.found_path(self.folder, tile) for tile in range(len(self.plan.boxes))] + [
            _left.cells_path(self.folder)]

    def parts(self) -> Iterator[Rows]:
        """Of each file the cells, (c, 4), by indices of points, turned positively; read from the file as they are used.
        Each cell of the cloud is in one of them."""
        for path in self.paths:
            yield np.load(path, mmap_mode='r')

    def simplices(self) -> Rows:
        """All cells, (c, 4): as `simplices` of hanskup.delaunay, in another order."""
        return np.concatenate(list(self.parts()))

    def convex_hull(self) -> Rows:
        """The triangles of the hull, (h, 3), by indices of points, turned outwards."""
        hull: Rows = np.load(_left.hull_path(self.folder))
        return hull

    def to_parquet(self, folder: str) -> list[str]:
        """The cells as files of Parquet with the columns a, b, c, d, one for each of `paths`, and theirs. It needs
        pyarrow."""
        pyarrow, parquet = module('pyarrow'), module('pyarrow.parquet')
        os.makedirs(folder, exist_ok=True)
        written = []
        for path, cells in zip(self.paths, self.parts()):
            written.append(os.path.join(folder, os.path.basename(path).replace('.cells.npy', '.parquet')))
            columns = {name: np.ascontiguousarray(cells[:, k]) for k, name in enumerate('abcd')}
            parquet.write_table(pyarrow.table(columns), written[-1])
        return written


def _doers(engine: Any, workers: int | None) -> Engine:
    if workers is not None:
        if engine is not None:
            raise ValueError('workers are processes of this machine: they come without an engine')
        workers = whole(workers, 'the number of workers')
        if workers < 1:
            raise ValueError('there is one worker at least')
    return engine_of(engine if workers is None else workers)


def finish(folder: str, engine: Engine | int | Any = None, progress: bool = True, workers: int | None = None) -> Tiles:
    """Does what is not done of a cloud that was cut into a folder: the tiles without files, and then the last step.

    Args:
        folder: where `cut` put the points; each worker finds it by this path.
        engine: tiles.Threads(4), a dask.distributed.Client, or whatever has `each`; None for processes.
        progress: with a bar, where a terminal is there.
        workers: how many processes, in place of an engine; None for one a processor.

    Raises:
        FileNotFoundError: no cloud was cut into the folder.
        LostWorkers: the worker of one task was lost as often as it was begun. With dask it is dask's KilledWorker.
        Flat, WantOfMemory, Full: as hanskup.delaunay, of the whole or of a tile.
    """
    folder = os.path.abspath(folder)
    plan, doers = Plan.load(folder), _doers(engine, workers)
    asked = [(folder, tile) for tile in range(len(plan.boxes)) if not _is_done(folder, tile)]
    for _ in counting(doers.each(_tile.find, asked), len(asked), 'tiles', progress):
        pass
    try:
        (left, missing, hull), = doers.each(_left.complete, [(folder,)])
    except Flat:
        step = f', whose step is {plan.placing.unit:.3g},' if plan.placing else ''
        raise Flat(f'on the grid{step} all {plan.points} points lie in one plane, or fewer than four differ') from None
    made = Tiles(folder)
    found = sum(len(cells) for cells in made.parts()) - missing
    return Tiles(folder, Counts(_tile.seen(folder, plan), found, left, missing, hull))


def _is_done(folder: str, tile: int) -> bool:
    # The cells are written last.
    return os.path.exists(_tile.found_path(folder, tile))


def delaunay(points: ArrayLike, folder: str, count: int = 8, halo: float = 1.0, unit: float | None = None,
             engine: Engine | int | Any = None, progress: bool = True, workers: int | None = None) -> Tiles:
    """The Delaunay triangulation of a cloud in tiles: `cut`, then `finish`. Its arguments and errors are theirs.

    >>> import tempfile, hanskup
    >>> points = np.random.default_rng(1).random((500, 3))
    >>> with tempfile.TemporaryDirectory() as folder:
    ...     made = delaunay(points, folder, count=2, engine=Threads(2))
    ...     len(made.simplices()) == len(hanskup.delaunay(points).simplices)
    True
    """
    doers = _doers(engine, workers)
    if isinstance(doers, Processes):
        doers.begin(count)  # so that they are ready once the points are cut
    cut(points, folder, count, halo, unit)
    return finish(folder, doers, progress)


_LEGEND = """\
points   that were given
seen     by all tiles, with those of their halos: one in several tiles counts for each
left     to the last step, as tiles alone do not tell their cells
cells    of the whole, in the files *.cells.npy
missing  of these, which the last step found
hull     triangles of the hull, in left.hull.npy"""


def main(words: list[str] | None = None) -> None:
    """The command: cuts the points of a file into a folder, does all tiles, and tells what came of it."""
    parser = argparse.ArgumentParser(prog='python3 -m hanskup.tiles', description='The Delaunay cells of a cloud in '
                                     'tiles, as files of numpy or Parquet in a folder.', epilog='The last line has:\n'
                                     + _LEGEND, formatter_class=argparse.RawDescriptionHelpFormatter)
    parser.add_argument('points', help='.npy, .xyz, .csv, .las, .ply, or what meshio reads; - to go on with what was '
                        'cut into the folder')
    parser.add_argument('folder', help='for the files of the run and the cells: new, empty, or of an earlier run')
    parser.add_argument('--count', type=int, default=8, help='how many tiles (8)')
    parser.add_argument('--halo', type=float, default=1.0, help='how far each sees beyond its box, in spacings (1)')
    parser.add_argument('--unit', type=float, help='a step of the grid, for floats; else the least that fits')
    parser.add_argument('--workers', type=int, help='processes side by side; else one a processor')
    parser.add_argument('--threads', type=int, help='threads of this process in place of processes')
    parser.add_argument('--scheduler', help="the address of dask's scheduler, whose workers do the tiles")
    parser.add_argument('--parquet', action='store_true', help='write the cells as Parquet too (pyarrow)')
    given = parser.parse_args(words)
    try:
        made = _made(given)
    except (OSError, ValueError, HanskupError, ImportError) as refused:
        sys.exit(f'hanskup.tiles: {refused}')
    counts: Any = made.counts
    print(_LEGEND, file=sys.stderr)
    print(f'points {made.plan.points} seen {counts.seen} left {counts.left} cells {counts.found + counts.missing} '
          f'missing {counts.missing} hull {counts.hull}')


def _made(given: argparse.Namespace) -> Tiles:
    # What the command is asked for.
    engine: Any = Threads(given.threads) if given.threads else None
    if given.scheduler:
        engine = module('distributed').Client(given.scheduler)
        print(f'progress: {engine.dashboard_link}', file=sys.stderr)
    workers = None if engine else given.workers
    if given.points == '-':
        made = finish(given.folder, engine, workers=workers)
    else:
        points = read_points(given.points)
        made = delaunay(points, given.folder, given.count, given.halo, given.unit, engine, workers=workers)
    if given.parquet:
        made.to_parquet(given.folder)
    return made


if __name__ == '__main__':
    main()
