"""How a cloud of real coordinates comes to be placed on the grid, where nothing or not all of it is told."""
from __future__ import annotations

import math
from typing import Any

import numpy as np

from ._errors import GREATEST, OutOfRange
from ._grid import Placing
from ._kinds import Floats, Numbers
from ._numbers import numbers_of, real

_PIECE = 1 << 16  # points at a time
_DOUBT = 0.01  # of a step: where floating point leaves more of it open, no step is known to be the data's own


def own_unit(points: Numbers, low: Floats, extent: float) -> float | None:
    """The finest unit that the grid has room for, of which all coordinates are multiples, but for floating point: a
    power of two, or a decimal step, 1, 2 or 5 times a power of ten, or a half, a quarter or an eighth of it. None where
    there is none."""
    least = extent / GREATEST
    if not 1e-290 < least < 1e290:
        return None
    binary = 2.0 ** math.ceil(math.log2(least) - 1e-9)
    if binary * GREATEST >= extent and _are_multiples(points - 0.0, low, binary, 0.0):
        return binary
    slack = 4 * float(np.finfo(points.dtype).eps) * float(np.abs([low, low + extent]).max())
    for digit in (1, 2, 5):
        step = digit * math.pow(10.0, math.ceil(math.log10(least / digit) - 1e-9))
        could = step * GREATEST >= extent and slack / step < _DOUBT
        if could and _are_multiples(points, 0.0 * low, step, slack / step):
            return step / (1 << math.floor(math.log2(GREATEST * step / extent)))
    return None


def _are_multiples(points: Numbers, low: Floats, unit: float, slack: float) -> bool:
    # In pieces, the first of them small: of most clouds it tells at once that they are not.
    first, last = 0, min(len(points), 64)
    while first < last:
        steps = (points[first:last] - low) / unit
        if not (np.abs(steps - np.rint(steps)) <= slack).all():
            return False
        first, last = last, min(len(points), last + _PIECE)
    return True


def corners_of(box: Any) -> tuple[Floats, Floats]:
    """The least and the greatest corner of a box, as it is given. Raises ValueError."""
    corners = numbers_of(box).astype(float)
    if corners.shape != (2, 3) or not np.isfinite(corners).all() or not (corners[0] <= corners[1]).all():
        raise ValueError('a box is its least and its greatest corner, ((x, y, z), (x, y, z))')
    return corners[0], corners[1]


def placed(points: Numbers, unit: float | None, box: Any = None, margin: float = 0.0) -> Placing:
    """The placing of points, (n, 3) finite floats: by the given unit, or by the finest by which nothing is rounded, or
    by the least that fits them all; from their least coordinates on, or so that a box fits too, or a margin around
    them, of so many of their greatest extent."""
    ends = np.stack([points.min(axis=0), points.max(axis=0)]).astype(float)
    margin = real(margin, 'a margin')
    if not 0 <= margin < math.inf:
        raise ValueError(f'a margin is 0 or more and finite, and not {margin:g}')
    with np.errstate(over='ignore', invalid='ignore'):
        low, high = corners_of(box) if box is not None else (ends[0], ends[1])
        if (ends[0] < low).any() or (ends[1] > high).any():
            raise OutOfRange('a point lies outside of the box')
        room = margin * float((high - low).max())
        low, high = low - room, high + room
        extent = float((high - low).max())
    if not np.isfinite(extent):
        raise OutOfRange('the points lie too far apart for floats')
    unit = _unit_of(points, unit, ends[0], extent)
    # The points' least coordinates are on the grid, and so what is exact beside them stays so.
    before = np.ceil((ends[0] - low) / unit - 1e-9)
    after = np.ceil((high - ends[0]) / unit - 0.5 - 1e-9)
    if (before + after > GREATEST).any():
        before = np.minimum(before, np.maximum(GREATEST - after, 0))
    return Placing(ends[0] - before * unit, unit)


def _unit_of(points: Numbers, unit: float | None, low: Floats, extent: float) -> float:
    if unit is None:
        if not extent > 0:
            return 1.0
        return own_unit(points, low, extent) or max(extent / GREATEST, float(np.finfo(float).tiny))
    unit = real(unit, 'a unit')
    if not 0 < unit < math.inf:
        raise ValueError(f'a unit is more than 0 and finite, and not {unit:g}')
    if not extent < (GREATEST + 0.5) * unit:
        raise OutOfRange(f'the points reach over {extent:g}, but the grid over {GREATEST} steps of {unit:g}: a unit of '
                         f'{extent / GREATEST:.4g} or more fits them, and so does one that is left out')
    return unit
