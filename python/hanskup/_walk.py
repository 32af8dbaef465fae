"""Walks over the simplices of a mesh: which one has a place. Python over the proved rows; tested."""
from __future__ import annotations

import numpy as np

from ._errors import GREATEST
from ._grid import OTHERS, cross, cubes_of, dot
from ._kinds import Bools, Floats, Ints, Numbers, Rows
from ._progress import pieces

_PIECE = 65536
_ROUNDS = 64  # so often a place beyond the hull is put onto the plane of a side of it


def weights(corners: Numbers) -> Numbers:
    """(k, 4) six times the volumes of tetrahedra with the origin in place of each of their corners, (k, 4, 3).

    Of one that is turned positively and has the origin none is negative; they are its barycentric coordinates, but for
    a factor. For whole numbers of 15 bits they are exact.
    """
    a, b, c, d = (corners[:, i] for i in range(4))
    first, second = cross(a, b), cross(c, d)
    return np.stack([dot(b, second), -dot(a, second), dot(d, first), -dot(c, first)], axis=1)


def nearest_on(triangles: Floats, places: Floats) -> Floats:
    """(k, 3) the places of triangles, (k, 3, 3), that are nearest to places, one each."""
    a = triangles[:, 0]
    normal = cross(triangles[:, 1] - a, triangles[:, 2] - a)
    foot = places - (dot(places - a, normal) / dot(normal, normal))[:, None] * normal
    beyond = np.zeros(len(places), bool)
    nearest, least = np.empty_like(places), np.full(len(places), np.inf)
    for k in range(3):
        start, edge = triangles[:, k], triangles[:, (k + 1) % 3] - triangles[:, k]
        beyond |= dot(cross(edge, foot - start), normal) < 0
        along = np.clip(dot(places - start, edge) / dot(edge, edge), 0, 1)
        there = start + along[:, None] * edge
        square = dot(there - places, there - places)
        nearer = square < least
        nearest[nearer], least[nearer] = there[nearer], square[nearer]
    return np.where(beyond[:, None], nearest, foot)


class Walk:
    """The arrays of a mesh by which places are found in it, in steps of its grid.

    Attributes:
        grid: (m, 3) floats, where the points are.
        cells: (c, 4) the tetrahedra, by numbers of points, turned positively.
        neighbours: (c, 4) the cells across from each corner, -1 outside.
    """

    def __init__(self, grid: Ints, cells: Rows, neighbours: Rows, some: Ints) -> None:
        """Of a mesh with this grid, its cells, what is across from them, and a cell for each point."""
        self.grid, self.cells, self.neighbours = grid.astype(float), cells, neighbours
        self.low, self.high = grid.min(axis=0), grid.max(axis=0)
        # How far behind a side of a cell a place that is no whole number has to be to count so: where rounding may
        # tell nothing else, the side has it. Volumes of whole numbers are exact.
        self._slack = float((self.high - self.low).max()) ** 3 * 2.0 ** -46
        # Cubes along an axis, some two points each; and of each cube a cell of a point in it, or in one before it.
        self._count = max(1, round((len(grid) / 2) ** (1 / 3)))
        cubes = cubes_of(grid, self._count)
        last = np.zeros(self._count ** 3, np.int64)
        last[cubes] = np.arange(len(cubes))
        has = np.zeros(len(last), bool)
        has[cubes] = True
        behind = np.maximum.accumulate(np.where(has, np.arange(len(last)), 0))
        self._starts = some[last[behind]]

    def find(self, places: Floats, reach: float = 0.0, progress: bool = True) -> tuple[Ints, Floats]:
        """(k,) the cell that has each place, (k, 3), in steps of the grid; -1 outside of the hull. Where several have
        it, in a shared side, one of them. A place that lies less than the reach beyond the hull is taken as on it.

        And (k, 3) the places, those that were beyond the hull where they are taken to lie.
        """
        found, there = np.full(len(places), -1), places
        with np.errstate(invalid='ignore'):
            near = np.flatnonzero(((places >= self.low - reach) & (places <= self.high + reach)).all(axis=1))
        near = near[np.argsort(self._cubes(places[near]), kind='stable')]
        for piece in pieces(len(near), _PIECE, 'place', progress):
            here = near[piece]
            at, cell, side = self._walked(places[here], self._starts[self._cubes(places[here])])
            out = np.flatnonzero(at < 0)
            if reach and len(out):
                at[out], brought = self._brought(places[here[out]], cell[out], side[out], reach)
                there = there.copy() if there is places else there
                there[here[out]] = brought
            found[here] = at
        return found, there

    def _cubes(self, places: Floats) -> Ints:
        return cubes_of(np.clip(places, 0, GREATEST), self._count)

    def _walked(self, places: Floats, starts: Ints) -> tuple[Ints, Ints, Ints]:
        # The cells that have places, from some on, or -1; and the last cells and sides that were gone through.
        slack = np.where((places == np.rint(places)).all(axis=1), 0.0, self._slack)
        at: Ints = starts.astype(np.int64)
        cells, through = at.copy(), np.zeros(len(at), np.int64)
        going = np.arange(len(places))
        while len(going):  # through a side behind which the place lies: in a Delaunay complex no cell comes twice
            sides = weights(self.grid[self.cells[at[going]]] - places[going, None])
            side = sides.argmin(axis=1)
            behind = sides[np.arange(len(going)), side] < -slack[going]
            going, side = going[behind], side[behind]
            cells[going], through[going] = at[going], side
            at[going] = self.neighbours[at[going], side]
            going = going[at[going] >= 0]
        return at, cells, through

    def _brought(self, places: Floats, cells: Ints, sides: Ints, reach: float) -> tuple[Ints, Floats]:
        """Of places beyond the hull, which walks left through sides of cells, the cells of those that are brought onto
        it, or -1, and where they come to: onto the side, where that is near enough; else onto its plane, and on."""
        at, there, going = np.full(len(places), -1), places.copy(), np.arange(len(places))
        for _ in range(_ROUNDS):
            triangles = self.grid[self.cells[cells[:, None], OTHERS[sides]]]
            foot = nearest_on(triangles, places[going])
            near = self._are_near(foot, places[going], reach)
            at[going[near]], there[going[near]] = cells[near], foot[near]
            normal = cross(triangles[:, 1] - triangles[:, 0], triangles[:, 2] - triangles[:, 0])
            normal /= np.sqrt(dot(normal, normal))[:, None]
            height = dot(there[going] - triangles[:, 0], normal)
            left = ~near & (np.abs(height) < reach)
            going, cells = going[left], cells[left]
            if not len(going):
                break
            there[going] -= (height + 1e-9 * np.sign(height))[left, None] * normal[left]
            inside, cells, sides = self._walked(there[going], cells)
            within = (inside >= 0) & self._are_near(there[going], places[going], 2 * reach)
            at[going[within]] = inside[within]
            out = inside < 0
            going, cells, sides = going[out], cells[out], sides[out]
        return at, there

    @staticmethod
    def _are_near(there: Floats, places: Floats, reach: float) -> Bools:
        near: Bools = dot(there - places, there - places) < reach * reach
        return near

    def barycentric(self, at: Ints, places: Floats) -> Floats:
        """(k, 4) the barycentric coordinates of places in the cells that have them."""
        told = np.maximum(weights(self.grid[self.cells[at]] - places[:, None]), 0)
        coordinates: Floats = told / told.sum(axis=1, keepdims=True)
        return coordinates
