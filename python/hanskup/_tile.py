"""What a tile finds: cells of its own points that are cells of the whole cloud, and what is left of it."""
from __future__ import annotations

import contextlib
import os
from typing import Any, NamedTuple

import numpy as np

from ._boxes import Spheres, corners_of, lie_behind
from ._cuts import Plan, paths_of, points_of
from ._errors import Flat
from ._grid import OTHERS, outwards
from ._kinds import Bools, Ints, Rows
from ._library import NONE, MeshRows, mesh_rows


class Left(NamedTuple):
    """What a tile tells of its found cells to the last step. Points are indices of those that were given."""
    facets: Ints  #: (f, 3) facets that lie in one found cell of the tile alone, turned away from it
    apexes: Ints  #: (f,) the cell's fourth point
    times: Ints  #: (f,) how many tiles find that cell
    hull: Ints  #: (h, 3) triangles of the hull that are of the whole cloud's, turned outwards
    numbers: Ints  #: (m,) points of these facets, of one found cell, and of the core's that no found cell has
    places: Ints  #: (m, 3) where they stand
    points: Ints  #: (k,) those of the last two kinds alone: they are left whatever other tiles find


def kept_at(path: str, *rows: Any) -> None:
    """Writes arrays into a file, at once: another worker that does the same task puts the same file there."""
    made = f'{path}.{os.getpid()}'
    with open(made, 'wb') as file:
        for one in rows:
            np.save(file, one)
    os.replace(made, path)


def read_at(path: str, count: int) -> list[Any]:
    """So many arrays of a file that `kept_at` wrote. Raises FileNotFoundError where it is not there."""
    with open(path, 'rb') as file:
        return [np.load(file) for _ in range(count)]


def found_path(folder: str, tile: int) -> str:
    """The file of the cells that a tile found, and not one before it."""
    return os.path.join(folder, f'{tile:05}.cells.npy')


def left_path(folder: str, tile: int) -> str:
    """The file of what a tile leaves to the last step."""
    return os.path.join(folder, f'{tile:05}.left')


def _mesh_of(folder: str, tile: int, places: Ints) -> MeshRows:
    """The mesh of a tile's places: as a worker left it that made it and was lost then, or made, and put there until
    the tile is done."""
    path = _mesh_path(folder, tile)
    with contextlib.suppress(FileNotFoundError):
        return MeshRows(places, *read_at(path, 3))
    rows = mesh_rows(places)
    kept_at(path, *rows[1:])
    return rows


def _mesh_path(folder: str, tile: int) -> str:
    return os.path.join(folder, f'{tile:05}.mesh')


def seen(folder: str, plan: Plan) -> int:
    """How many points the tiles see, those in several of them as often."""
    return sum(os.path.getsize(paths_of(folder, tile)[0]) for tile in range(len(plan.boxes))) // 6


def _also(spheres: Spheres, found: Ints, plan: Plan, tile: int) -> tuple[Bools, Ints]:
    """Of each cell whether a tile finds it, and none before, and how many do that find it: those whose boxes have its
    sphere. The numbers are those of the cells that this tile finds."""
    first, times = np.zeros(len(spheres.turned), bool), np.zeros(len(spheres.turned), np.int64)
    first[found], times[found] = True, 1
    own = plan.boxes[tile]
    for other, (low, high) in enumerate(plan.boxes):
        if other == tile or (low > own[1]).any() or (high < own[0]).any():
            continue
        also = spheres.inside(low, high, found)
        times[also] += 1
        if other < tile:
            first[also] = False
    return first, times


def _hull_of_whole(places: Ints, rows: MeshRows, cells: Ints, corners: Ints, plan: Plan,
                   tile: int) -> tuple[Rows, Bools]:
    """The triangles across from corners of cells, where the tile's hull is, turned outwards; and which of these are of
    the whole cloud's hull: all boxes of points that other tiles have in their cores lie behind them."""
    triangles = rows.cells[cells[:, None], OTHERS[corners]].astype(np.int64)
    turned = outwards(places, triangles, places[rows.cells[cells, corners]])
    others = np.delete(plan.held, tile, axis=0)
    others = others[(others[:, 0] <= others[:, 1]).all(axis=1)]
    return turned, lie_behind(places, turned, corners_of(others))


def find(folder: str, tile: int) -> None:
    """Does a tile: writes what it leaves, and then the cells that it finds and no earlier one does. A task: done again
    it writes the same."""
    plan = Plan.load(folder)
    places, numbers = points_of(folder, tile, plan)
    core = plan.cores[tile]
    own = ((places >= core[0]) & (places <= core[1])).all(axis=1)
    try:
        rows = _mesh_of(folder, tile, places)
    except Flat:
        nothing = np.empty((0, 3), np.int64)
        kept_at(left_path(folder, tile), nothing, nothing[:, 0], nothing[:, 0], nothing, numbers[own], places[own],
                numbers[own])
        kept_at(found_path(folder, tile), np.empty((0, 4), plan.kind))
        return
    spheres = Spheres(places, rows.cells)
    low, high = plan.boxes[tile]
    found = spheres.inside(low, high, np.arange(len(rows.cells)))
    first, times = _also(spheres, found, plan, tile)
    kept_at(left_path(folder, tile), *_left(places, numbers, rows, found, times, own, plan, tile))
    kept_at(found_path(folder, tile), turned_cells(numbers, rows.cells[first], spheres.turned[first], plan.kind))
    with contextlib.suppress(FileNotFoundError):
        os.remove(_mesh_path(folder, tile))


def turned_cells(numbers: Ints, cells: Rows, turned: Bools, kind: Any) -> Rows:
    """Cells by the indices of their points, turned positively; some are not so."""
    made: Rows = numbers.astype(kind)[cells]
    made[turned, :2] = made[turned, 1::-1]
    return made


def _left(places: Ints, numbers: Ints, rows: MeshRows, found: Ints, times: Ints, own: Bools, plan: Plan,
          tile: int) -> Left:
    # A cell beside which there is none in the tile has the place behind all others, where nothing is found.
    are = np.zeros(len(rows.cells) + 1, bool)
    are[found] = True
    at, corners = np.nonzero(~are.take(rows.neighbours[found], mode='clip'))
    cells = found[at]
    ends = rows.neighbours[cells, corners] == NONE
    turned = np.empty((len(cells), 3), np.int64)
    turned[~ends] = outwards(places, rows.cells[cells[~ends, None], OTHERS[corners[~ends]]].astype(np.int64),
                             places[rows.cells[cells[~ends], corners[~ends]]])
    turned[ends], behind = _hull_of_whole(places, rows, cells[ends], corners[ends], plan, tile)
    whole = ends.copy()
    whole[ends] = behind
    covered = np.zeros(len(places), bool)
    covered[rows.cells[found]] = True
    always = own & ~covered
    always[rows.cells[found[:1]]] = True  # so that what is left is never flat
    told = always.copy()
    told[turned[~whole]] = True
    return Left(numbers[turned[~whole]], numbers[rows.cells[cells[~whole], corners[~whole]]], times[cells[~whole]],
                numbers[turned[whole]], numbers[told], places[told], numbers[always])
