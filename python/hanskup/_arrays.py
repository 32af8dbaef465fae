"""What a mesh has, as numpy has it."""
from __future__ import annotations

import math
from typing import Any

import numpy as np
import numpy.typing as npt

from . import _library
from ._beyond import Beyond
from ._grid import Placing, by_number, cross, dot, edge_ends, keys, outwards, volumes
from ._kept import forget, kept, sealed
from ._kinds import Bools, Floats, Ints, Numbers, Rows
from ._library import BEYOND, NONE
from ._numbers import real
from ._progress import waiting
from ._rounding import Rounding, spacing_of, turned_over
from ._shape import Filtration, Shape
from ._walk import Walk

_SMALL = 1 << 31  # numbers below this are int32
_PIECE = 1 << 16  # rows at a time that are written anew where they stand


def _signed(rows: npt.NDArray[np.uint32], count: int) -> Rows:
    """The rows of numbers below a count as signed numbers, and -1 for NONE; int32, without a copy, where they fit."""
    if count < _SMALL:
        return rows.view(np.int32)
    return np.where(rows == NONE, -1, rows.astype(np.int64))


def _indices_of(rows: npt.NDArray[np.uint32], given: Rows) -> Rows:
    """The points of rows of numbers of the grid, in the room of these where they fit."""
    if given.dtype != np.int32:
        return sealed(given[rows])
    numbers = rows.view(np.int32)
    for start in range(0, len(rows), _PIECE):
        piece = slice(start, start + _PIECE)
        numbers[piece] = given[numbers[piece]]
    return sealed(numbers)


def _in_unit(alphas: npt.NDArray[np.uint64], square: float) -> Floats:
    """Alphas of the library by a square in a unit, in the room of these; infinity where there is none."""
    numbers, made = alphas.view(np.int64), alphas.view(np.float64)
    for start in range(0, len(alphas), _PIECE):
        piece = numbers[start:start + _PIECE]
        told = piece * square
        told[piece >= BEYOND] = np.inf
        made[start:start + _PIECE] = told
    return made


class Arrays:
    """The arrays of a mesh: made from the rows of the library, and kept until the mesh is edited. They are read-only.

    Whoever inherits has points, living, placing and _places, and makes the rows.
    """
    points: Numbers
    living: Bools
    placing: Placing | None
    _places: Ints

    @kept
    def _rows(self) -> _library.MeshRows:
        raise NotImplementedError

    def _forget(self) -> None:
        forget(self)

    @property
    def _kind(self) -> Any:
        # The type of indices of points.
        return np.int32 if len(self.points) < _SMALL else np.int64

    # ---- what the grid has

    @property
    def grid(self) -> Ints:
        """(m, 3) int64, the places of the points on the grid, each once, ascending by x, then y, then z. Proved."""
        return sealed(self._rows.points)

    @property
    def _user_grid(self) -> Floats:
        # (m, 3) where the points of the grid lie, in the unit of the points.
        return self.placing.to_user(self.grid) if self.placing else self.grid.astype(float)

    @kept
    def _keys(self) -> Ints:
        return keys(self.grid)

    @kept
    def cells(self) -> Rows:
        """(c, 4) int32, the tetrahedra by numbers of rows of grid, ascending. Proved."""
        return _signed(self._rows.cells, len(self._rows.points))

    @kept
    def hull(self) -> Rows:
        """(h, 3) int32, the triangles of the hull by numbers of rows of grid, ascending. Proved."""
        return _signed(self._rows.hull, len(self._rows.points))

    @kept
    def across(self) -> Rows:
        """(c, 4) int32, the cells across from the points of each cell, -1 where a triangle of the hull is. Proved."""
        return _signed(self._rows.neighbours, len(self._rows.cells))

    @kept
    def rounding(self) -> Rounding:
        """How the points were rounded: as a number the greatest difference of a coordinate and its place on the grid,
        in the unit of the points. Its `spacing` is the median distance of a point to its nearest neighbour, `turned`
        how many simplices turn over in the given coordinates, `together` how many points fell together with others.

        >>> import hanskup
        >>> mesh = hanskup.delaunay([[0., 0., 0.], [1, 0, 0], [0, 1, 0], [0, 0, 1], [.3, .3, .4], [1, 0, 0]], unit=0.01)
        >>> mesh.rounding < 1e-12, mesh.rounding.together, mesh.rounding.turned, round(mesh.rounding.spacing, 3)
        (True, 1, 0, 0.583)
        """
        together, count = int(self.living.sum()) - len(self.grid), len(self.cells)
        turned = turned_over(self) if self._shift else 0
        return Rounding(self._shift, self._spacing, turned, together, count)

    @kept
    def _spacing(self) -> float:
        return spacing_of(self)

    @kept
    def _shift(self) -> float:
        # The greatest difference of a coordinate and its place on the grid.
        if not self.placing:
            return 0.0
        here = self.living
        return float(np.abs(self.placing.to_user(self._places[here]) - self.points[here]).max())

    @kept
    def _given(self) -> Rows:
        # (m,) the first living point of each point of the grid.
        here = np.flatnonzero(self.living)
        numbers = self._inverse[here]
        first = np.zeros(len(self.grid), self._kind)
        first[numbers[::-1]] = here[::-1]
        return first

    @kept
    def _inverse(self) -> Ints:
        # (n,) the number on the grid of each point, -1 if it went.
        here = np.flatnonzero(self.living)
        order = np.lexsort(self._places[here].T[::-1].astype(np.uint16))  # of 16 bits, so by radix
        there = keys(self._places[here[order]])
        fresh = np.ones(len(there), bool)
        fresh[1:] = there[1:] != there[:-1]
        numbers = np.full(len(self.points), -1)
        numbers[here[order]] = np.cumsum(fresh) - 1
        return numbers

    # ---- what the points have

    @property
    def npoints(self) -> int:
        """The number of points, as scipy names it: those that came, also those that went."""
        return len(self.points)

    @property
    def nsimplex(self) -> int:
        """The number of simplices."""
        return self._counts[1]

    @property
    def _counts(self) -> tuple[int, int, int]:
        # How many points of the grid, simplices and triangles of the hull there are.
        return len(self._rows.points), len(self._rows.cells), len(self._rows.hull)

    @property
    def ndim(self) -> int:
        """3."""
        return 3

    @kept
    def _turned(self) -> Bools:
        return volumes(self.grid, self.cells) < 0

    def _turn(self, rows: Rows) -> Rows:
        # The columns of cells or of what is across from them, exchanged so that the cells are turned positively.
        turned = rows.copy()
        turned[self._turned] = rows[self._turned][:, [1, 0, 2, 3]]
        return turned

    @kept
    def simplices(self) -> Rows:
        """(c, 4) int32, the tetrahedra, by indices of points, turned positively on the grid. In the coordinates that
        were given some may be turned over, or flat, as `rounding.turned` counts."""
        return self._given[self._turn(self.cells)]

    @kept
    def neighbors(self) -> Rows:
        """(c, 4) int32, the simplex across from each corner of each simplex, -1 outside."""
        return self._turn(self.across)

    @kept
    def vertex_neighbor_vertices(self) -> tuple[Ints, Rows]:
        """(n + 1,) and (k,): the points that share a simplex with point i, ascending, are
        indices[indptr[i]:indptr[i + 1]].

        A point that fell together with an earlier one, or that went, has none.
        """
        count, given = len(self.points), self._given
        ends = [given[end] for end in edge_ends(self.cells, self._rows.neighbours)]
        lower, upper = np.minimum(*ends), np.maximum(*ends)
        both = np.sort(lower.astype(np.uint64) << 32 | upper.astype(np.uint64))
        fresh = np.ones(len(both), bool)
        fresh[1:] = both[1:] != both[:-1]
        both = both[fresh]
        lower, upper = (both >> 32).astype(given.dtype), both.astype(np.uint32).astype(given.dtype)
        # Of each point first those below it, which the pairs have in the order of their upper ends, then those above.
        below, above = np.bincount(upper, minlength=count), np.bincount(lower, minlength=count)
        is_above = np.repeat(np.tile([False, True], count), np.column_stack([below, above]).reshape(-1))
        around = np.empty(len(is_above), given.dtype)
        around[is_above] = upper
        around[~is_above] = lower[by_number(upper)]
        return np.concatenate([[0], np.cumsum(below + above)]), around

    @kept
    def vertex_to_simplex(self) -> Rows:
        """(n,) int32, some simplex that has each point; -1 where it fell together with an earlier one, or went."""
        simplex = np.full(len(self.points), -1, self.cells.dtype)
        simplex[self._given] = self._some
        return simplex

    @kept
    def transform(self) -> Floats:
        """(c, 4, 3) floats, as scipy's: transform[i, :3] times (place - transform[i, 3]) are the first three
        barycentric coordinates of a place in simplex i, the places in the unit of the points; the fourth is what is
        missing to 1.

        The points stand where the grid has them, so that no simplex is flat.
        """
        corners = self._user_grid[self._turn(self.cells)]
        a, b, c = (corners[:, k] - corners[:, 3] for k in range(3))
        made: Floats = np.stack([cross(b, c), cross(c, a), cross(a, b), corners[:, 3]], axis=1)
        made[:, :3] /= dot(a, made[:, 0])[:, None, None]  # the inverse of the matrix of a, b, c
        return made

    @kept
    def convex_hull(self) -> Rows:
        """(h, 3) int32, the triangles of the hull, by indices of points, turned outwards, in the order of `hull`."""
        corners = self.grid[self.cells[0]]  # of a simplex: the mean of them lies inside
        return self._given[outwards(self.grid * len(corners), self.hull, corners.sum(axis=0))]

    @property
    def hull_vertices(self) -> Rows:
        """(k,) the points on the hull, ascending: of those that fell together the first. As scipy's
        ConvexHull.vertices, but that points within a face or an edge of the hull, which it leaves out, are among
        them."""
        return np.unique(self.convex_hull)

    @kept
    def hull_neighbors(self) -> Rows:
        """(h, 3) int32, the triangle of `convex_hull` across from each corner of each, as ConvexHull.neighbors."""
        corners = self.convex_hull
        ends = np.sort(corners[:, [[1, 2], [0, 2], [0, 1]]].reshape(-1, 2), axis=1).astype(np.int64)
        pairs = np.argsort(ends[:, 0] << 32 | ends[:, 1], kind='stable').reshape(-1, 2)  # an edge is in two triangles
        across = np.empty(len(ends), corners.dtype)
        across[pairs] = pairs[:, ::-1] // 3
        return across.reshape(-1, 3)

    @kept
    def hull_equations(self) -> Floats:
        """(h, 4) floats, a normal of length 1 and an offset for each triangle of `convex_hull`: of a place of the hull,
        in the unit of the points, normal * place + offset is not above 0 but for rounding. As ConvexHull.equations."""
        grid = self._user_grid
        a, b, c = (grid[self._inverse[self.convex_hull[:, corner]]] for corner in range(3))
        normals = cross(b - a, c - a)
        normals /= np.sqrt(dot(normals, normals))[:, None]
        return np.column_stack([normals, -dot(normals, a)])

    @kept
    def coplanar(self) -> Rows:
        """(k, 3) int32, the points that fell together with an earlier one: its index, a simplex that has the other, the
        other.

        No other points are left out, as scipy may leave out nearly coplanar ones.
        """
        stands = self._given[self._inverse]
        others = np.flatnonzero(self.living & (stands != np.arange(len(stands))))
        return np.column_stack([others, self._some[self._inverse[others]], stands[others]]).astype(self._kind)

    @kept
    def _some(self) -> Ints:
        # (m,) some simplex that has each point of the grid
        some = np.zeros(len(self.grid), np.int64)
        some[self.cells.reshape(-1)] = np.repeat(np.arange(len(self.cells)), 4)
        return some

    @kept
    def _walk(self) -> Walk:
        return Walk(self.grid, self._turn(self.cells), self.neighbors, self._some)

    # ---- alpha complexes

    @kept
    def _faces(self) -> _library.FaceRows:
        # As the library has them; the filtration takes their room.
        with waiting('filtration'):
            return _library.face_rows(self.grid, len(self._rows.cells), len(self._rows.hull))

    @property
    def _square(self) -> float:
        return (self.placing.unit if self.placing else 1.0) ** 2 / 16

    @kept
    def _filtration(self) -> Filtration:
        faces, given, square = self._faces, self._given, self._square
        self.__dict__.pop('_faces')
        beyond = Beyond(self, faces)  # before their room is taken
        of_points, of_edges, of_sides, of_cells = (_in_unit(alphas, square) for alphas in (
            faces.point_alphas, faces.edge_alphas, faces.triangle_alphas, faces.cell_alphas))
        for made, (rows, alphas) in ((of_points, beyond.points), (of_edges, beyond.edges), (of_sides, beyond.triangles),
                                     (of_cells, beyond.cells)):
            made[rows] = alphas * square
            sealed(made)
        edges, sides = (_indices_of(rows, given) for rows in (faces.edges, faces.triangles))
        return Filtration(given, of_points, edges, of_edges, sides, of_sides, sealed(given[self.cells]), of_cells)

    def filtration(self) -> Filtration:
        """All faces with their least alphas, as GUDHI's AlphaComplex has them. The arrays are read-only, and the same
        ones until the mesh is edited.

        On the grid alphas are whole sixteenths: that of a face is its squared radius, rounded up to one. These are
        proved. The library counts up to a radius of 32,768 steps of the grid, twice its longest side; of spheres
        beyond this, as of nearly flat cells at the hull, the alphas are Python's, in floating point, and tested.

        Raises:
            WantOfMemory: there was no memory for the faces.
        """
        return self._filtration

    def alpha(self, radius: float) -> Shape:
        """The alpha complex at a radius, in the unit of the points; at infinity it is all of the mesh.

        What is admitted at a radius of up to 32,768 steps of the grid is proved; beyond this it is Python, in floating
        point, and tested.

        Raises:
            ValueError: the radius is negative or not one number.
            WantOfMemory: there was no memory for the faces.
        """
        length = self._checked_radius(radius)
        return Shape(self, self._sixteenths(length), length * length)

    @staticmethod
    def _checked_radius(radius: float) -> float:
        if np.ndim(radius):
            raise ValueError('a radius is one number for all points: balls of several sizes, as of atoms, want a '
                             'triangulation with weights, which is not here')
        length = real(radius, 'a radius')
        if not length >= 0:
            raise ValueError(f'a radius is 0 or more, and not {length:g}')
        return length

    def _sixteenths(self, radius: float) -> int:
        sixteenths = radius * radius / self._square
        return math.floor(sixteenths) if sixteenths < BEYOND else BEYOND
