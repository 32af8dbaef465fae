"""The Voronoi diagram of a mesh, in floating point over its exact cells. Python over the proved rows; tested."""
from __future__ import annotations

from typing import TYPE_CHECKING

import numpy as np
import numpy.typing as npt

from ._graphs import joined
from ._grid import EDGES, by_number, centres, cross, dot, volumes
from ._kept import kept
from ._kinds import Bools, Floats, Ints, Numbers, Rows

if TYPE_CHECKING:
    from ._arrays import Arrays
    from ._lifts import Lifts

_CLOSED = 1 << 62  # more than every number that _begins tells of an edge of the hull

class Voronoi:
    """The regions of the points: of each the places that are as near to it as to any other. Fields with names of
    scipy.spatial.Voronoi mean what they mean there. Which regions meet is exact; where, is floating point.

    Attributes:
        points: (n, 3) the points of the mesh.
        vertices: (v, 3) floats, the centres of the spheres of the simplices, in the unit of the points; simplices of
            one sphere that hang together have one.
        simplex_vertices: (c,) the vertex of each simplex of the mesh.
        min_bound, max_bound: (3,) the least and the greatest coordinates of the points that are there.
        ridge_points: (r, 2) indices of the points between whose regions each ridge lies. scipy leaves out those that
            have just one vertex, which are without bounds; here they are among them.
    """

    ndim = 3
    furthest_site = False  #: as of scipy.spatial.Voronoi: it is never that of the furthest points

    def __init__(self, mesh: Lifts) -> None:
        grid, cells = mesh.grid, mesh.cells
        self.min_bound, self.max_bound = mesh.min_bound, mesh.max_bound
        self.points: Numbers = mesh.points
        self._given, self._inverse, self._grid = mesh._given, mesh._inverse, grid
        self._unit = mesh.placing.unit if mesh.placing else 1.0
        self._cells, middles = cells, centres(grid, cells)
        self.simplex_vertices, first = _vertices(grid, cells, mesh.across, middles)
        self._centres = middles[first]
        self.vertices: Floats = mesh.placing.to_user(self._centres) if mesh.placing else self._centres
        self._pairs, self._starts, self._around, self._open = _ridges(mesh, self.simplex_vertices)
        self._unbounded = np.zeros(len(grid), bool)
        self._unbounded[mesh.hull] = True
        self.ridge_points: Rows = self._given[self._pairs]

    @property
    def npoints(self) -> int:
        """The number of points."""
        return len(self.points)

    def __repr__(self) -> str:
        return f'<hanskup.Voronoi: {len(self.vertices)} vertices, {len(self.ridge_points)} ridges>'

    @kept
    def ridge_vertices(self) -> list[list[int]]:
        """r lists of vertices, the corners of each ridge one after another around it; with -1 at the front where it
        reaches beyond all bounds."""
        return _lists(self._around, self._starts, self._open)

    @property
    def ridge_dict(self) -> dict[tuple[int, int], list[int]]:
        """The vertices of each ridge, by its pair of points."""
        return {(one, other): corners for (one, other), corners in zip(self.ridge_points.tolist(), self.ridge_vertices)}

    @kept
    def regions(self) -> list[list[int]]:
        """Lists of vertices, the corners of the region of each point of the grid in ascending order; with -1 at the
        front where it reaches beyond all bounds."""
        corners = self._cells.reshape(-1)
        vertex = self.simplex_vertices[by_number(corners) // 4]  # of each point those of its cells
        region = np.repeat(np.arange(len(self._grid)), np.bincount(corners, minlength=len(self._grid)))
        if len(self.vertices) < len(self._cells):
            region, vertex = np.divmod(np.unique(region * len(self.vertices) + vertex), len(self.vertices))
        return _lists(vertex, np.searchsorted(region, np.arange(len(self._grid) + 1)), self._unbounded)

    @kept
    def point_region(self) -> Ints:
        """(n,) the region of each point; points that fell together have one, and those that went have -1."""
        return self._inverse.copy()

    @kept
    def ridge_areas(self) -> Floats:
        """(r,) the area of each ridge, in the square of the unit of the points; infinity where it has no bounds."""
        ridge = np.repeat(np.arange(len(self._pairs)), np.diff(self._starts))
        middle = self._grid[self._pairs].mean(axis=1)
        ahead = np.arange(len(self._around)) + 1
        ahead[self._starts[1:] - 1] = self._starts[:-1]
        here = self._centres[self._around] - middle[ridge]
        across = cross(here, here[ahead])
        sums = np.stack([np.bincount(ridge, across[:, axis], len(self._pairs)) for axis in range(3)], axis=1)
        return np.where(self._open, np.inf, np.sqrt(dot(sums, sums)) / 2 * self._unit ** 2)

    @kept
    def volumes(self) -> Floats:
        """(n,) the volume of the region of each point, in the cube of the unit of the points; infinity where it has no
        bounds. Points that fell together have one region, and those that went have nothing."""
        first, second = (self._grid[self._pairs[:, side]] for side in (0, 1))
        apart = np.sqrt(dot(first - second, first - second)) * self._unit
        cones = np.where(self._open, 0, self.ridge_areas) * apart / 6
        sums = np.bincount(self._pairs.reshape(-1), np.repeat(cones, 2), len(self._grid))
        of_grid = np.where(self._unbounded, np.inf, sums)
        return np.where(self._inverse < 0, np.nan, of_grid[self._inverse])


def _lists(numbers: Ints, starts: Ints, are_open: Bools) -> list[list[int]]:
    """The numbers from each start to the next, with -1 at the front of those that are open."""
    flat, ends = numbers.tolist(), starts.tolist()
    lists = [flat[start:end] for start, end in zip(ends, ends[1:])]
    for number in np.flatnonzero(are_open).tolist():
        lists[number].insert(0, -1)
    return lists


def _vertices(grid: Ints, cells: Rows, across: Rows, middles: Floats) -> tuple[Ints, Ints]:
    """The vertex of each cell, and the first cell of each vertex. Cells side by side with one sphere have one vertex:
    this is exact."""
    i, k = np.nonzero(across > np.arange(len(cells), dtype=across.dtype)[:, None])
    beside = across[i, k]
    # Where the spheres are one the centres, exact fractions that were rounded, differ by less than this.
    slack = 1e-9 + 1e-14 * np.abs(middles).max(axis=1)
    near = np.flatnonzero(np.abs(middles[i, 0] - middles[beside, 0]) <= slack[i] + slack[beside])
    i, k, beside = i[near], k[near], beside[near]
    far = np.argmax(across[beside] == i[:, None], axis=1)  # the corner of the other cell that this one has not
    same = _on_sphere(grid, cells[i], grid[cells[beside, far]])
    if not same.any():
        return np.arange(len(cells)), np.arange(len(cells))
    groups = joined(len(cells), i[same], beside[same])
    _, first, numbers = np.unique(groups, return_index=True, return_inverse=True)
    return numbers.reshape(-1), first


def _on_sphere(grid: Ints, cells: Rows, places: Ints) -> Bools:
    """Whether places lie on the spheres of cells, exactly: a number below 2^78 is 0 where it is so modulo 2^64, and
    its value in floating point, which is right to 2^32, is small."""
    a, b, c, d = (grid[cells[:, i]] - places for i in range(4))
    ab, cd = cross(a, b), cross(c, d)
    terms = [(dot(a, a), -dot(b, cd)), (dot(b, b), dot(a, cd)), (dot(c, c), -dot(d, ab)), (dot(d, d), dot(c, ab))]
    with np.errstate(over='ignore'):
        exact = sum(x * y for x, y in terms)
    rough = sum(x.astype(float) * y for x, y in terms)
    on: Bools = (exact == 0) & (np.abs(rough) < 2.0 ** 62)
    return on


def _ridges(mesh: Arrays, vertex: Ints) -> tuple[Rows, Ints, Ints, Bools]:
    """The pairs of points with a ridge, by their numbers; the starts of each one's vertices, which go around it; these
    vertices; and whether it has no bounds."""
    pairs, sizes, cell, is_open = _rings(mesh.cells, mesh.across)
    at = vertex[cell]
    if vertex.max() + 1 < len(vertex):  # of cells with one vertex side by side the first counts
        ends = np.cumsum(sizes)
        firsts = ends - sizes
        behind = np.roll(at, 1)
        behind[firsts] = np.where(is_open, -1, at[ends - 1])  # a ring that is closed comes back to its first
        stands = at != behind
        at, sizes = at[stands], np.add.reduceat(stands, firsts, dtype=np.int64)
    ridge = np.where(is_open, sizes > _in_planes(mesh, pairs, is_open), sizes > 2)
    if not ridge.all():
        at = at[np.repeat(ridge, sizes)]
    return pairs[ridge], np.concatenate([[0], np.cumsum(sizes[ridge])]), at, is_open[ridge]


def _in_planes(mesh: Arrays, pairs: Rows, is_open: Bools) -> Ints:
    """1 for the edges of the hull both of whose triangles lie in one plane, else 0."""
    sides = np.concatenate([mesh.hull[:, [0, 1, 2]], mesh.hull[:, [0, 2, 1]], mesh.hull[:, [1, 2, 0]]])
    order = np.argsort(sides[:, 0].astype(np.int64) << 32 | sides[:, 1], kind='stable')
    twice = sides[order].reshape(-1, 2, 3)  # each edge of the hull is in two of its triangles
    flat = np.zeros(len(pairs), np.int64)
    flat[is_open] = volumes(mesh.grid, np.column_stack([twice[:, 0], twice[:, 1, 2]])) == 0
    return flat


def _rings(cells: Rows, across: Rows) -> tuple[Rows, Ints, Ints, Bools]:
    """The edges of a mesh, ascending; how many cells are around each; the cells around one after another, of all edges;
    and of each edge whether it is one of the hull, where they go from one end to the other."""
    edge, begin = _begins(cells, across)
    order = np.argsort(edge)
    edge, begin = edge[order], begin[order]
    fresh = np.ones(len(edge), bool)
    fresh[1:] = edge[1:] != edge[:-1]
    begin = np.minimum.reduceat(begin, np.flatnonzero(fresh))
    pairs = np.stack([edge[fresh] >> 32, edge[fresh] & 0xFFFFFFFF], axis=1).astype(cells.dtype)
    is_open = begin < _CLOSED
    sizes, cell = _around(cells, across, *np.divmod(begin & (_CLOSED - 1), len(EDGES)))
    return pairs, sizes, cell, is_open


def _begins(cells: Rows, across: Rows) -> tuple[Ints, Ints]:
    """Edges, and cells where a way around each can begin: of an edge of the hull those with a side of the hull, of
    another those from which both next ones have greater numbers. Of an edge the least number tells where it does: the
    cell, and which of its edges it is, and _CLOSED more where no side of the hull is at hand."""
    numbers = np.arange(len(cells))
    ends = cells.T.astype(np.int64)
    outside = [across[:, corner] < 0 for corner in range(4)]
    greater = [out | (across[:, corner] > numbers) for corner, out in enumerate(outside)]
    edges, begins = [], []
    for number, (lower, upper, one, other) in enumerate(EDGES):
        out = outside[one] | outside[other]
        at = np.flatnonzero(out | greater[one] & greater[other])
        edges.append(ends[lower, at] << 32 | ends[upper, at])
        begins.append(at * len(EDGES) + number + np.where(out[at], 0, _CLOSED))
    return np.concatenate(edges), np.concatenate(begins)


def _around(cells: Rows, across: Rows, start: Ints, edge: Ints) -> tuple[Ints, Ints]:
    """How many cells are around each of some edges, and these, one after another: from a first cell on, of which it is
    that edge, all edges at once."""
    far = _fars(cells, across)
    through, other = EDGES[edge, 2].astype(np.int8), EDGES[edge, 3].astype(np.int8)
    back = across[start, through] < 0  # a side of the hull: the other way
    through[back], other[back] = other[back], through[back]
    beside, far = across.reshape(-1), far.reshape(-1)
    going, at, first = np.arange(len(start)), start, start
    sizes, steps = np.zeros(len(start), np.int64), []
    while len(going):
        steps.append((going, at))
        sizes[going] += 1
        side = at * 4 + through
        at = beside[side]
        on = np.flatnonzero((at >= 0) & (at != first))
        going, at, first, side, other = going[on], at[on], first[on], side[on], other[on] - (other > through)[on]
        # The corners that both cells have stand in one order in each.
        through, other = other + (other >= far[side]), far[side]
    ends = np.cumsum(sizes)
    around = np.empty(ends[-1], at.dtype)
    for number, (going, at) in enumerate(steps):
        around[(ends - sizes)[going] + number] = at
    return sizes, around


def _fars(cells: Rows, across: Rows) -> npt.NDArray[np.int8]:
    """(c, 4) which corner of the cell across from each corner is the one that both have not."""
    sums = cells.sum(axis=1, dtype=np.int64)
    far = np.empty(cells.shape, np.int8)
    for corner in range(4):
        there = sums[across[:, corner]] - sums + cells[:, corner]  # that point; outside it is none
        far[:, corner] = sum((there > cells[:, k]).astype(np.int8) for k in range(4) if k != corner)
    return far
