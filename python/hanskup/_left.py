"""The last step of a cloud in tiles: the cells that no tile has found, from the complex of the points that are left."""
from __future__ import annotations

import os
from typing import Sequence

import numpy as np

from ._cuts import Plan
from ._grid import OTHERS, cross, dot, outwards, volumes
from ._kinds import Bools, Ints, Rows
from ._library import NONE, MeshRows, mesh_rows
from ._tile import Left, found_path, kept_at, left_path, read_at, turned_cells


def cells_path(folder: str) -> str:
    """The file of the cells that no tile found."""
    return os.path.join(folder, 'left.cells.npy')


def hull_path(folder: str) -> str:
    """The file of the triangles of the hull."""
    return os.path.join(folder, 'left.hull.npy')


def _told(folder: str, tiles: int) -> Left:
    # What all tiles tell, one behind the other.
    told = [read_at(left_path(folder, tile), len(Left._fields)) for tile in range(tiles)]
    return Left(*(np.concatenate(rows) for rows in zip(*told)))


def _groups(columns: Sequence[Ints]) -> tuple[Ints, Ints]:
    """The order of rows by columns, the last one first, and where in it a group of equal ones begins."""
    order = np.lexsort(columns)
    sorted_columns = [column[order] for column in columns]
    differs = np.zeros(len(order), bool)
    differs[:1] = True
    for column in sorted_columns:
        differs[1:] |= column[1:] != column[:-1]
    return order, np.flatnonzero(differs)


def lone_facets(told: Left) -> Ints:
    """Of what is told the rows of the facets that lie in one found cell alone of all tiles, one row for each.

    That is so where each tile that found the cell tells the facet, and none tells it of a cell on its other side.
    """
    a, b, c = np.sort(told.facets, axis=1).T
    few = max(c.max(initial=0), told.apexes.max(initial=0)) < 1 << 31  # so that two numbers are one of 62 bits
    order, starts = _groups((c << 31 | told.apexes, a << 31 | b) if few else (told.apexes, c, b, a))
    reports = np.diff(np.append(starts, len(order)))
    rows = order[starts]  # one for each facet and apex
    by_all = reports == told.times[rows]
    a, b, c = a[rows], b[rows], c[rows]
    again = (a[1:] == a[:-1]) & (b[1:] == b[:-1]) & (c[1:] == c[:-1])
    both = np.zeros(len(rows), bool)
    both[1:] |= again
    both[:-1] |= again
    lone: Ints = rows[by_all & ~both]
    return lone


def _ranks(rows: Ints, count: int) -> Ints:
    """A number for each row of three ascending numbers below a count, the same for the same rows."""
    pairs = rows[:, 0] * count + rows[:, 1]
    if count >= 1 << 21:  # so that no number leaves 63 bits
        pairs = np.unique(pairs, return_inverse=True)[1].reshape(-1)
    ranks: Ints = pairs * count + rows[:, 2]
    return ranks


class _Walls:
    """The lone facets among those of the cells of the points left, by which no walk goes."""

    def __init__(self, places: Ints, mesh: MeshRows, facets: Ints) -> None:
        cells = mesh.cells.astype(np.int64)
        sides = cells[:, OTHERS]  # (c, 4, 3): of each cell the facets across from its corners
        ranks = _ranks(np.concatenate([sides.reshape(-1, 3), np.sort(facets, axis=1)]), len(places))
        order = np.argsort(ranks[4 * len(cells):])
        lone = ranks[4 * len(cells):][order]
        at = np.minimum(np.searchsorted(lone, ranks[:4 * len(cells)]), max(len(lone) - 1, 0))
        #: (c, 4) whether the facet is lone, and which
        self.are = (lone[at] == ranks[:4 * len(cells)]).reshape(-1, 4) if len(lone) else np.zeros((len(cells), 4), bool)
        self.which = order[at].reshape(-1, 4) if len(lone) else np.zeros((len(cells), 4), np.int64)
        self.places, self.cells, self.facets = places, cells, facets

    def beyond(self) -> tuple[Ints, Ints]:
        """The cells on the far sides of lone facets, and the facets."""
        cells, corners = np.nonzero(self.are)
        facets = self.which[cells, corners]
        a, b, c = (self.places[self.facets[facets, k]] for k in range(3))
        far = dot(cross(b - a, c - a), self.places[self.cells[cells, corners]] - a) > 0
        return cells[far], facets[far]


def _reached(mesh: MeshRows, walls: Bools, starts: Ints) -> Bools:
    """The cells that some are reached from, across facets that are no walls."""
    reached = np.zeros(len(mesh.cells), bool)
    fresh = np.unique(starts)
    while len(fresh):
        reached[fresh] = True
        across = mesh.neighbours[fresh][~walls[fresh]]
        across = np.unique(across[across != NONE])
        fresh = across[~reached[across]]
    return reached


def complete(folder: str) -> tuple[int, int, int]:
    """Writes the cells that no tile found, and the hull, and tells how many points were left and how many cells and
    triangles these are. A task: done again it writes the same."""
    plan = Plan.load(folder)
    told = _told(folder, len(plan.boxes))
    lone = lone_facets(told)
    numbers, first = np.unique(told.numbers, return_index=True)
    chosen = np.isin(numbers, np.concatenate([told.points, told.facets[lone].reshape(-1)]))
    numbers, places = numbers[chosen], told.places[first[chosen]]
    mesh = mesh_rows(places)  # its points are numbered in the order of their places
    order = np.lexsort(places.T[::-1])
    numbers, places = numbers[order], places[order]
    back = np.argsort(numbers)
    facets = back[np.searchsorted(numbers[back], told.facets[lone])]
    walls = _Walls(places, mesh, facets)
    starts, passed = walls.beyond()
    # Where no cell was found at all the points left are all points.
    some = any(len(np.load(found_path(folder, tile), mmap_mode='r')) for tile in range(len(plan.boxes)))
    taken = _reached(mesh, walls.are, starts) if some else np.ones(len(mesh.cells), bool)
    open_facets = np.delete(facets, passed, axis=0)
    ends = np.nonzero(taken[:, None] & (mesh.neighbours == NONE) & ~walls.are)
    sides = outwards(places, mesh.cells[ends[0][:, None], OTHERS[ends[1]]].astype(np.int64), places[mesh.cells[ends]])
    hull = np.concatenate([told.hull, numbers[open_facets], numbers[sides]])
    _, once = np.unique(np.sort(hull, axis=1), axis=0, return_index=True)
    kept_at(hull_path(folder), hull[once].astype(plan.kind))
    cells = mesh.cells[taken]
    kept_at(cells_path(folder), turned_cells(numbers, cells, volumes(places, cells) < 0, plan.kind))
    return len(places), int(taken.sum()), len(once)
