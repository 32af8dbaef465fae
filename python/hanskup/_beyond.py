"""Alphas above those that the library counts: of cells whose spheres have a radius of more than 32,768 steps of the
grid, and of the faces around which there are such. Python over the proved rows, in floating point; tested beside GUDHI.

The library tells where an alpha is beyond its count, and where it is not its number is proved. All faces of which it
tells so are faces of these cells, or never come.
"""
from __future__ import annotations

import itertools
from typing import TYPE_CHECKING, Sequence

import numpy as np

from ._grid import centres, cross, dot
from ._kinds import Bools, Floats, Ints, Numbers, Rows
from ._library import BEYOND, FaceRows

if TYPE_CHECKING:
    from ._arrays import Arrays

_EDGES = list(itertools.combinations(range(4), 2))
_SIDES = list(itertools.combinations(range(4), 3))


def _numbers(rows: Rows, count: int) -> Ints:
    # A number for each row of up to three points below a count; for more than 2^21 points a row of bytes would do.
    numbers = np.zeros(len(rows), np.int64)
    for column in rows.T:
        numbers = numbers * count + column
    return numbers


def _rows_of(faces: Rows, wanted: Rows, count: int) -> Ints:
    """Where rows of points stand among faces, which ascend."""
    if faces.shape[1] == 1:
        return wanted[:, 0].astype(np.int64)
    if count < 1 << 21:
        return np.searchsorted(_numbers(faces, count), _numbers(wanted, count))
    both = np.concatenate([faces, wanted.astype(faces.dtype)])
    _, number = np.unique(both, axis=0, return_inverse=True)
    rows: Ints = number.reshape(-1)[len(faces):]
    return rows


class Beyond:
    """The least alphas, in sixteenths as the library has them but as floats, of the faces of a mesh around which cells
    are whose alphas are beyond the library's count.

    Attributes:
        cells, points, edges, triangles: each the rows, and their alphas.
    """

    def __init__(self, mesh: Arrays, faces: FaceRows) -> None:
        self._mesh, self._grid = mesh, mesh.grid
        at = np.flatnonzero(faces.cell_alphas >= BEYOND)
        self._cells = mesh.cells[at]
        away = centres(self._grid, self._cells) - self._grid[self._cells[:, 0]]
        told = np.maximum(16 * dot(away, away), float(BEYOND))
        self.cells: tuple[Ints, Floats] = (at, told)
        every = np.arange(len(self._grid), dtype=np.uint32)[:, None]
        self.points = self._around(every, faces.point_alphas, [(k,) for k in range(4)])
        self.triangles = self._around(faces.triangles, faces.triangle_alphas, _SIDES)
        self._own(faces)
        self.edges = self._around(faces.edges, faces.edge_alphas, _EDGES)
        self._attached(faces)

    def _around(self, faces: Rows, alphas: Numbers, corners: Sequence[tuple[int, ...]]) -> tuple[Ints, Floats]:
        # Of faces of these cells the rows, and the alphas: the least and the greatest of the cells around.
        wanted = np.concatenate([self._cells[:, list(chosen)] for chosen in corners])
        rows, which = np.unique(_rows_of(faces, wanted, len(self._grid)), return_inverse=True)
        which, of_cells = which.reshape(-1), np.tile(self.cells[1], len(corners))
        least, most = np.full(len(rows), np.inf), np.zeros(len(rows))
        np.minimum.at(least, which, of_cells)
        np.maximum.at(most, which, of_cells)
        told = alphas[rows].astype(float)
        beyond = told >= BEYOND
        told[:, 0] = np.where(beyond[:, 0], least, told[:, 0])
        told[:, 1] = np.where(beyond[:, 1], least, told[:, 1])
        told[:, 2] = np.where(self._on_hull(faces[rows]), np.inf, np.where(beyond[:, 2], most, told[:, 2]))
        return rows, told

    def _on_hull(self, faces: Rows) -> Bools:
        hull, count = self._mesh.hull, len(self._grid)
        size = faces.shape[1]
        sides = np.concatenate([hull[:, list(chosen)] for chosen in itertools.combinations(range(3), size)])
        if count < 1 << 21:
            return np.isin(_numbers(faces, count), _numbers(sides, count))
        known = set(map(tuple, sides.tolist()))
        return np.array([tuple(row) in known for row in faces.tolist()], bool)

    def _own(self, faces: FaceRows) -> None:
        # A triangle whose own sphere has none of the corners across comes at the alpha of this one.
        rows, told = self.triangles
        asked = np.flatnonzero(faces.triangle_alphas[rows, 0] >= BEYOND)
        corners = self._grid[faces.triangles[rows[asked]].astype(np.int64)]
        u, v = corners[:, 1] - corners[:, 0], corners[:, 2] - corners[:, 0]
        normal = cross(u, v).astype(float)
        square = dot(normal, normal)
        with np.errstate(invalid='ignore'):
            out = dot(u, u)[:, None] * cross(v, normal) + dot(v, v)[:, None] * cross(normal, u)
            out = out / (2 * square)[:, None]
        own = dot(out, out)
        free = np.ones(len(asked), bool)
        place = np.full(len(faces.triangles), -1)
        place[rows[asked]] = np.arange(len(asked))
        for corner, chosen in zip((3, 2, 1, 0), _SIDES):
            at = place[_rows_of(faces.triangles, self._cells[:, list(chosen)], len(self._grid))]
            here = np.flatnonzero(at >= 0)
            apart = self._grid[self._cells[here, corner]] - corners[at[here], 0] - out[at[here]]
            inside = dot(apart, apart) < own[at[here]] * (1 - 1e-12)
            free[at[here[inside]]] = False
        told[asked[free], 0] = np.minimum(told[asked[free], 0], np.maximum(16 * own[free], float(BEYOND)))

    def _attached(self, faces: FaceRows) -> None:
        # An edge beyond the count is in the sphere of a triangle: it comes with the first of those around it.
        rows, told = self.edges
        asked = faces.edge_alphas[rows, 0] >= BEYOND
        place = np.full(len(faces.edges), -1)
        place[rows[asked]] = np.flatnonzero(asked)
        told[asked, 0] = np.inf
        sides = faces.triangles[self.triangles[0]]
        for chosen in itertools.combinations(range(3), 2):
            at = place[_rows_of(faces.edges, sides[:, list(chosen)], len(self._grid))]
            np.minimum.at(told[:, 0], at[at >= 0], self.triangles[1][at >= 0, 0])
