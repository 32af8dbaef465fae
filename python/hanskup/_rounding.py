"""What the grid does to a cloud of real coordinates, told by what it changes. Python over the proved rows; tested."""
from __future__ import annotations

from typing import TYPE_CHECKING, Any

import numpy as np

from ._grid import EDGES, Placing, cross, dot, volumes
from ._kinds import Bools, Floats, Ints, Numbers

if TYPE_CHECKING:
    from ._arrays import Arrays

_SURE = 1 << 16  # simplices by which it is told whether many turn over
_SAMPLE = 512  # points by which the median distance is told, spread over all
_PIECE = 1 << 14
_PAIRS = 1 << 11  # so many points at one place are compared with each other
CLOSE = 1 / 50  #: of the median distance to the nearest neighbour: a shift above this is warned of
MANY = 1 / 100  #: of the cells: where more turn over it is warned of


class Rounding(float):
    """How the points were rounded: as a number, the greatest difference of a coordinate and its place on the grid, in
    the unit of the points; and what that comes to.

    Attributes:
        spacing: the median distance of a point to its nearest neighbour, as given; of at most 512 points.
        turned: how many simplices are turned over, or flat, in the coordinates that were given.
        together: how many points fell together with an earlier one.
        simplices: how many simplices there are.
    """
    spacing: float
    turned: int
    together: int
    simplices: int

    def __new__(cls, shift: float, spacing: float, turned: int, together: int, simplices: int) -> Rounding:
        made = super().__new__(cls, shift)
        made.spacing, made.turned, made.together, made.simplices = spacing, turned, together, simplices
        return made

    def __reduce__(self) -> tuple[Any, ...]:
        return Rounding, (float(self), self.spacing, self.turned, self.together, self.simplices)

    def __repr__(self) -> str:
        part = f'{float(self) / self.spacing:.2g} of' if self.spacing > 0 else 'beside'
        return (f'<hanskup.Rounding: {float(self):.3g}, {part} the median distance to the nearest neighbour '
                f'{self.spacing:.3g}; {self.turned} of {self.simplices} simplices turn over, {self.together} points '
                'fell together>')

    @property
    def words(self) -> list[str]:
        """What is to be warned of."""
        told = []
        if self.together:
            told.append(f'{self.together} points fell together with others')
        if float(self) > CLOSE * self.spacing:
            told.append(f'coordinates were moved by up to {float(self):.3g}, where the median distance of a point to '
                        f'its nearest neighbour is {self.spacing:.3g}')
        if self.turned > MANY * self.simplices:
            told.append(f'{self.turned} of {self.simplices} simplices ({self.turned / self.simplices:.0%}) turn over '
                        'or are flat in the given coordinates; where the grid has the points none does '
                        '(to_meshio(on_grid=True))')
        return told


def turned_over(mesh: Arrays, every: int = 1) -> int:
    """How many of the simplices, or of every second or so, are not turned in the coordinates that were given as they
    are on the grid."""
    count, cells, places = 0, mesh.cells[::every], mesh.points[mesh._given]
    for start in range(0, len(cells), _PIECE):
        piece = cells[start:start + _PIECE]
        a, b, c, d = (places[piece[:, k]] for k in range(4))
        given = dot(cross(b - a, c - a), d - a)
        count += int((np.where(volumes(mesh.grid, piece) > 0, given, -given) <= 0).sum())
    return count


def warnings_of(mesh: Arrays) -> list[str]:
    """What is to be warned of, by a part of the simplices where they are many and this part is beyond doubt."""
    every = max(1, len(mesh.cells) // _SURE)
    if every > 1 and mesh._shift and len(mesh.grid) == int(mesh.living.sum()):
        few = turned_over(mesh, every) * every < MANY / 2 * len(mesh.cells)
        if few and mesh._shift <= CLOSE * mesh._spacing:
            return []
    return mesh.rounding.words


def spacing_of(mesh: Arrays) -> float:
    """The median distance of a point to its nearest neighbour: this is across an edge of the mesh, or at its place."""
    here = np.flatnonzero(mesh.living)
    numbers = mesh._inverse[here]
    order = here[np.argsort(numbers, kind='stable')]
    chosen = order[np.unique(np.linspace(0, len(order) - 1, _SAMPLE).astype(int))]
    of_chosen = mesh._inverse[chosen]
    asked: Bools = np.zeros(len(mesh.grid), bool)
    asked[of_chosen] = True
    near = _across_edges(mesh, asked)[of_chosen]
    starts = np.searchsorted(mesh._inverse[order], np.arange(len(mesh.grid) + 1))
    for k in np.flatnonzero(np.diff(starts)[of_chosen] > 1):
        group = order[starts[of_chosen[k]]:starts[of_chosen[k] + 1]][:_PAIRS]
        apart = (mesh.points[group[group != chosen[k]]] - mesh.points[chosen[k]]).astype(float)
        near[k] = min(near[k], dot(apart, apart).min(initial=np.inf))
    return float(np.median(np.sqrt(near)))


def _across_edges(mesh: Arrays, asked: Bools) -> Floats:
    # Of the points of the grid that are asked for the least squared length of an edge, as given.
    near, cells = np.full(len(asked), np.inf), mesh.cells[asked[mesh.cells].any(axis=1)]
    for one, other, _, _ in EDGES:
        ends = cells[:, one], cells[:, other]
        apart = (mesh.points[mesh._given[ends[0]]] - mesh.points[mesh._given[ends[1]]]).astype(float)
        for end in ends:
            np.minimum.at(near, end, dot(apart, apart))
    return near


def why_flat(points: Numbers, placing: Placing, places: Ints) -> str:
    """What is so where floats come to lie in one plane on the grid."""
    count, distinct = len(points), len(np.unique(points, axis=0))
    if count < 4:
        return f'fewer than four points: {count}'
    if distinct < 4:
        return f'fewer than four different points: {distinct} of {count}'
    away = points - points.mean(axis=0)
    sizes = np.linalg.svd(away / max(np.abs(away).max(), np.finfo(float).tiny), compute_uv=False)
    if sizes[2] < 1e-13 * sizes[0]:
        return f'all {count} points lie in one plane: they have no tetrahedra'
    together = distinct - len(np.unique(places, axis=0))
    return (f'on the grid, whose step is {placing.unit:.3g}, all points come to lie in one plane, though as given they '
            f'do not: {together} of {count} fell together with others, and the extent is '
            f'{np.ptp(points, axis=0).max():.3g}. Leave far points out, take a part, or stretch them across that '
            'plane')
