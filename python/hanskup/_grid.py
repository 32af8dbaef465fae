"""Places of the grid, and how points are placed on it."""
from __future__ import annotations

from dataclasses import dataclass

import numpy as np
import numpy.typing as npt

from ._errors import GREATEST
from ._kinds import Floats, Ints, Numbers, Rows
from ._numbers import numbers_of, real

# The three other corners of each corner of a tetrahedron.
OTHERS = np.array([[1, 2, 3], [0, 2, 3], [0, 1, 3], [0, 1, 2]])

# The two corners of each edge of a tetrahedron, and the two others: across from these are the next cells around it.
EDGES = np.array([[0, 1, 2, 3], [0, 2, 1, 3], [0, 3, 1, 2], [1, 2, 0, 3], [1, 3, 0, 2], [2, 3, 0, 1]])


@dataclass(frozen=True)
class Placing:
    """How real points lie on the grid: grid = round((point - origin) / unit), with one unit for all axes. Places of the
    grid are 0 to 16383 along each.

    >>> placing = Placing(np.array([-1.0, -1.0, -1.0]), 0.001)
    >>> placing.to_grid(np.array([[0.0, 0.5, 1.0]]))
    array([[1000, 1500, 2000]])
    >>> placing.to_user(np.array([[1000, 1500, 2000]]))
    array([[0. , 0.5, 1. ]])
    """
    origin: Floats  #: (3,) the point at the grid's (0, 0, 0)
    unit: float  #: the length of a step of the grid, in the unit of the points

    def __post_init__(self) -> None:
        origin, unit = numbers_of(self.origin).astype(float), real(self.unit, 'a unit')
        if origin.shape != (3,) or not np.isfinite(origin).all() or not 0 < unit < np.inf:
            raise ValueError('a placing has three finite numbers as its origin, and a finite unit above 0')
        object.__setattr__(self, 'origin', origin)
        object.__setattr__(self, 'unit', unit)

    def __repr__(self) -> str:
        return f'<hanskup.Placing: from {tuple(self.origin.tolist())} in steps of {self.unit:g}>'

    def on_grid(self, points: Numbers) -> Floats:
        """Where points, (n, 3), lie in steps of the grid: (n, 3) floats."""
        steps: Floats = (points - self.origin) / self.unit
        return steps

    def to_grid(self, points: Numbers) -> Ints:
        """The nearest place of the grid to each point, (n, 3) int64."""
        return np.rint(self.on_grid(points)).astype(np.int64)

    def to_user(self, grid: Numbers) -> Floats:
        """Where places of the grid lie, (n, 3) floats."""
        points: Floats = grid * self.unit + self.origin
        return points


def keys(places: Ints) -> Ints:
    """Numbers that stand in the order of places."""
    numbers: Ints = (places[:, 0] << 28) + (places[:, 1] << 14) + places[:, 2]
    return numbers


def cubes_of(places: Numbers, count: int) -> Ints:
    """The number of the cube that has each place of the grid, of count along each axis."""
    x, y, z = (places.astype(np.int64) * count // (GREATEST + 1)).T
    numbers: Ints = (x * count + y) * count + z
    return numbers


def by_number(numbers: Rows) -> Ints:
    """The order of numbers that are not negative, equal ones as they come: by radix, 16 bits at a time."""
    order = np.argsort(numbers.astype(np.uint16), kind='stable')
    for shift in range(16, int(numbers.max(initial=0)).bit_length(), 16):
        order = order[np.argsort((numbers >> shift).astype(np.uint16)[order], kind='stable')]
    return order


def edge_ends(cells: Rows, across: npt.NDArray[np.uint32]) -> tuple[Rows, Rows]:
    """The lower and the upper ends of all edges of a mesh, each edge once or a few times: of the cells around it those
    from which both next ones have greater numbers, or are outside."""
    numbers = np.arange(len(cells), dtype=np.uint32)
    greater = [across[:, corner] > numbers for corner in range(4)]
    found = [np.flatnonzero(greater[one] & greater[other]) for _, _, one, other in EDGES]
    lower, upper = (np.concatenate([cells[at, edge[end]] for at, edge in zip(found, EDGES)]) for end in (0, 1))
    return lower, upper


def cross(a: Numbers, b: Numbers) -> Numbers:
    """The vector products of rows of three."""
    (a0, a1, a2), (b0, b1, b2) = a.T, b.T
    return np.stack([a1 * b2 - a2 * b1, a2 * b0 - a0 * b2, a0 * b1 - a1 * b0], axis=1)


def dot(a: Numbers, b: Numbers) -> Numbers:
    """The scalar products of rows of three."""
    product: Numbers = np.einsum('ij,ij->i', a, b)
    return product


def volumes(grid: Ints, cells: Rows) -> Ints:
    """Six times the signed volumes of cells, exact: below 2^45."""
    made = np.empty(len(cells), np.int64)
    for start in range(0, len(cells), 1 << 14):  # the places of all corners never stand side by side
        piece = slice(start, start + (1 << 14))
        a, b, c, d = (grid[cells[piece, i]] for i in range(4))
        made[piece] = dot(cross(b - a, c - a), d - a)
    return made


def centres(grid: Ints, cells: Rows) -> Floats:
    """(c, 3) the centres of the spheres of cells, in steps of the grid."""
    a, b, c, d = (grid[cells[:, i]] for i in range(4))
    b, c, d = b - a, c - a, d - a
    bc, cd, db = cross(b, c), cross(c, d), cross(d, b)
    # How far a centre is from the first corner: whole numbers of 63 bits, divided by others.
    above = dot(b, b)[:, None] * cd + dot(c, c)[:, None] * db + dot(d, d)[:, None] * bc
    return np.asarray(a + above / (2 * dot(b, cd))[:, None], float)


def outwards(grid: Ints, triangles: Rows, inner: Ints) -> Rows:
    """The triangles, turned so that an inner point, or one of each, lies behind them."""
    a, b, c = (grid[triangles[:, i]] for i in range(3))
    turned = dot(cross(b - a, c - a), inner - a) > 0
    triangles = triangles.copy()
    triangles[turned] = triangles[turned][:, [1, 0, 2]]
    return triangles
