"""The mesh of a cloud by threads of this process: in tiles, whose cells are woven into the rows of the whole. That they
are these is proved, as of hanskup.tiles; what weaves them is Python over the proved rows, and tested."""
from __future__ import annotations

import os
import shutil
import tempfile

import numpy as np

from . import _left, _tile
from ._cuts import cut
from ._engines import Threads
from ._grid import OTHERS, keys
from ._kinds import Ints, Numbers, Rows
from ._library import NONE, MeshRows, Unsigned, mesh_rows
from ._progress import counting

_MOST = 1 << 21  # of so many points three numbers fit into one of 63 bits
FEW = 20_000  #: of so many points one thread has the mesh sooner


class Woven(MeshRows):
    """The rows of a mesh, whose neighbours are made when they are first asked for."""

    @property
    def neighbours(self) -> Unsigned:
        """(c, 4) uint32, numbers of cells, or NONE."""
        made: Unsigned | None = self.__dict__.get('made')
        if made is None:
            made = self.__dict__['made'] = _neighbours_of(self.cells)
        return made


def _packed(rows: Numbers) -> Ints:
    numbers = rows.astype(np.int64)
    packed: Ints = numbers[:, 0] << 42 | numbers[:, 1] << 21 | numbers[:, 2]
    return packed


def _neighbours_of(cells: Unsigned) -> Unsigned:
    # Across each corner of each cell the other one that has the three others.
    sides = np.concatenate([_packed(cells[:, others]) for others in OTHERS])
    order = np.argsort(sides)
    there = sides[order]
    first = np.flatnonzero(there[1:] == there[:-1])
    across = np.full(len(sides), NONE, np.uint32)
    one, other = order[first], order[first + 1]
    across[one], across[other] = other % len(cells), one % len(cells)
    return np.ascontiguousarray(across.reshape(4, -1).T)


def _ascending(rows: Rows) -> Unsigned:
    # Rows of numbers as the library has them: each ascending, and so are they.
    sorted_rows = np.sort(rows, axis=1).astype(np.uint32)
    order = np.argsort(_packed(sorted_rows))
    sorted_rows = sorted_rows[order]
    if rows.shape[1] == 4:  # of two with the first three points the same the last one tells
        packed = _packed(sorted_rows)
        twice = np.flatnonzero((packed[1:] == packed[:-1]) & (sorted_rows[1:, 3] < sorted_rows[:-1, 3]))
        sorted_rows[twice], sorted_rows[twice + 1] = sorted_rows[twice + 1], sorted_rows[twice].copy()
    return sorted_rows


def rows_by_threads(places: Ints, workers: int, progress: bool = True) -> MeshRows:
    """The rows of the mesh of places, (n, 3), as mesh_rows has them; by so many threads where the points are many.

    Raises WantOfMemory, Flat or Full.
    """
    numbers, first, inverse = np.unique(keys(places), return_index=True, return_inverse=True)
    if workers == 1 or not FEW <= len(numbers) < _MOST:
        return mesh_rows(places)
    engine = Threads(workers)
    room = tempfile.mkdtemp(dir='/dev/shm' if os.access('/dev/shm', os.W_OK) else None)
    folder = os.path.join(room, 'tiles')
    try:
        cut(places, folder, workers)
        asked = [(folder, tile) for tile in range(workers)]
        for _ in counting(engine.each(_tile.find, asked), workers, 'tiles', progress):
            pass
        list(engine.each(_left.complete, [(folder,)]))
        paths = [_tile.found_path(folder, tile) for tile in range(workers)] + [_left.cells_path(folder)]
        cells = np.concatenate([np.load(path) for path in paths])
        hull = np.load(_left.hull_path(folder))
    finally:
        shutil.rmtree(room, ignore_errors=True)
    index = inverse.reshape(-1).astype(np.int32)
    return Woven(places[first], _ascending(index[cells]), np.empty((0, 4), np.uint32), _ascending(index[hull]))
