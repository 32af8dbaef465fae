"""Which cells and which triangles of the hull of a tile are those of the whole cloud: tests in whole numbers.

That what passes is of the whole is proved, by the crate tile_cells of the repository; so is the test of spheres as the
library has it for programs, `small_spheres::sphere_inside`. What is here computes the same over numpy, and is tested
beside the definition. No number leaves 64 bits: of places with coordinates 0 to 16383 the gaps are below 2^61, and
squares of these are taken in two parts.
"""
from __future__ import annotations

import numpy as np

from ._errors import GREATEST
from ._grid import cross, dot, keys
from ._kinds import Bools, Floats, Ints, Numbers, Rows

_PIECE = 1 << 14  # cells at a time, whose numbers then stay in the processor's cache
_CORNERS = np.array([[i, k, m] for i in (0, 1) for k in (0, 1) for m in (0, 1)])

Square = tuple[Ints, Ints]  # a number in two parts: so many 2^62, and what is left, below 2^62


def _carried(above: Ints, below: Ints) -> Square:
    # Numbers of which what is below may be up to 2^63.
    return above + (below >> 62), below & ((1 << 62) - 1)


def _square(numbers: Ints) -> Square:
    """The squares of numbers between -2^61 and 2^61, exact."""
    size = np.abs(numbers)
    high, low = size >> 31, size & ((1 << 31) - 1)
    both = high * low  # stands twice, at 2^31
    return _carried(high * high + (both >> 30), ((both & ((1 << 30) - 1)) << 32) + low * low)


def _sum(first: Square, second: Square) -> Square:
    return _carried(first[0] + second[0], first[1] + second[1])


def _exceeds(first: Square, second: Square) -> Bools:
    answer: Bools = (first[0] > second[0]) | ((first[0] == second[0]) & (first[1] > second[1]))
    return answer


def _coordinates(numbers: Ints) -> Ints:
    return np.stack([numbers >> 28, (numbers >> 14) & GREATEST, numbers & GREATEST])


def _cross(u: Numbers, v: Numbers) -> Numbers:
    # Of vectors by rows of coordinates, whose numbers lie side by side.
    return np.stack([u[1] * v[2] - u[2] * v[1], u[2] * v[0] - u[0] * v[2], u[0] * v[1] - u[1] * v[0]])


def _dot(u: Numbers, v: Numbers) -> Numbers:
    product: Numbers = u[0] * v[0] + u[1] * v[1] + u[2] * v[2]
    return product


def _are_inside(numbers: Ints, cells: Rows, low: Ints, high: Ints) -> Bools:
    # In whole numbers alone; of places as one number each, so that one look fetches it.
    a, *others = (_coordinates(numbers.take(cells[:, k])) for k in range(4))
    u, v, w = (point - a for point in others)
    vw = _cross(v, w)
    o = _dot(u, vw)
    n = _dot(u, u) * vw + _dot(v, v) * _cross(w, u) + _dot(w, w) * _cross(u, v)
    n *= np.sign(o)  # the centre is a + n / 2 |o|
    twice = 2 * np.abs(o)
    square = _sum(_sum(_square(n[0]), _square(n[1])), _square(n[2]))
    answer = np.ones(len(cells), bool)
    for axis in range(3):
        gaps = []
        if low[axis] > 0:
            gaps.append(n[axis] - twice * (low[axis] - 1 - a[axis]))
        if high[axis] < GREATEST:
            gaps.append(twice * (high[axis] + 1 - a[axis]) - n[axis])
        for gap in gaps:
            answer &= (gap > 0) & _exceeds(_square(gap), square)
    return answer


class Spheres:
    """The circumscribing spheres of cells of places of the grid, in either orientation, made once to be tested in
    several boxes. The tests are exact: in floating point, and where that leaves a doubt in whole numbers.

    Attributes:
        turned: (c,) whether the cell is turned negatively.
    """

    def __init__(self, places: Ints, cells: Rows) -> None:
        self._numbers, self._cells, count = keys(places), cells, len(cells)
        self._centres, self.turned = np.empty((3, count)), np.empty(count, bool)
        self._least, self._most = np.empty((2, count))  # between which the radii are, and what centres are off
        columns = np.ascontiguousarray(places.T, float)
        for start in range(0, count, _PIECE):
            piece = slice(start, start + _PIECE)
            corners = columns.take(np.ascontiguousarray(cells[piece].T, np.intp), axis=1)
            a, u, v, w = (corners[:, k] for k in range(4))
            u, v, w = u - a, v - a, w - a
            squares, vw = (_dot(u, u), _dot(v, v), _dot(w, w)), _cross(v, w)
            o = _dot(u, vw)  # exact, as all before
            with np.errstate(divide='ignore', invalid='ignore'):  # of what is flat, and lies in no box
                half = 0.5 / o
                away = (squares[0] * vw + squares[1] * _cross(w, u) + squares[2] * _cross(u, v)) * half
                radii = np.sqrt(_dot(away, away))
                # The sum of the three products is below a third of this one's square, and is rounded some three times.
                sizes = squares[0] + squares[1] + squares[2]
                off = (radii + 2.0 ** 15) * 2.0 ** -48 + sizes * sizes * np.abs(half) * 2.0 ** -49
            self._centres[:, piece], self.turned[piece] = a + away, o < 0
            self._least[piece], self._most[piece] = radii - off, radii + off

    def inside(self, low: Ints, high: Ints, chosen: Ints) -> Ints:
        """Those of chosen cells, by their numbers, whose spheres lie strictly inside a box: away from all points
        outside it. The box has the points from the corner low to the corner high, both its own, and is open to 0 and
        to 16383, as no point lies beyond."""
        sure = np.ones(len(chosen), bool)
        for axis in np.argsort(high - low, kind='stable'):
            if low[axis] <= 0 and high[axis] >= GREATEST:
                continue
            gap = self._gaps(axis, int(low[axis]), int(high[axis]), chosen)
            there = np.flatnonzero(gap > self._least.take(chosen))
            chosen = chosen.take(there)
            sure = sure.take(there) & (gap.take(there) > self._most.take(chosen))
        doubtful = np.flatnonzero(~sure)
        for start in range(0, len(doubtful), _PIECE):
            piece = doubtful[start:start + _PIECE]
            sure[piece] = _are_inside(self._numbers, self._cells[chosen[piece]], low, high)
        inside: Ints = chosen[sure]
        return inside

    def _gaps(self, axis: int, low: int, high: int, chosen: Ints) -> Floats:
        # How far their centres are from the planes behind the nearer end of the box, where it has an end.
        centres = self._centres[axis].take(chosen)
        gap = np.full(len(chosen), np.inf)
        if low > 0:
            gap = centres - (low - 1)
        if high < GREATEST:
            gap = np.minimum(gap, (high + 1) - centres)
        return gap


def corners_of(boxes: Ints) -> Ints:
    """The eight corners of boxes (k, 2, 3), each a low and a high corner: (8 k, 3)."""
    low, high = boxes[:, 0, None], boxes[:, 1, None]
    corners: Ints = np.where(_CORNERS, high, low).reshape(-1, 3)
    return corners


def lie_behind(places: Ints, triangles: Rows, corners: Numbers) -> Bools:
    """Of each triangle, turned outwards, whether all corners lie strictly behind its plane. Exact for places and
    corners of the grid."""
    answer = np.empty(len(triangles), bool)
    for start in range(0, len(triangles), 256):
        piece = slice(start, start + 256)
        a, b, c = (places[triangles[piece, k]] for k in range(3))
        normals = cross(b - a, c - a)
        answer[piece] = (normals @ corners.T < dot(normals, a)[:, None]).all(axis=1)
    return answer
