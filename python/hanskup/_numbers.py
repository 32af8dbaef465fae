"""Numbers from outside: each is Python's own, or an array of whole numbers or floats, before anything is made of it."""
from __future__ import annotations

import math
import operator
from typing import Any

import numpy as np

from ._kinds import ArrayLike, Floats, Numbers

_WIDE = 1 << 63


def real(number: Any, what: str) -> float:
    """A number as Python's own float, so that nothing is computed in a small type of numpy. Raises ValueError."""
    if np.ndim(number) or isinstance(number, (str, bytes, complex)) or np.iscomplexobj(number):
        raise ValueError(f'{what} is one real number, and not {number!r}')
    try:
        return float(number)
    except (TypeError, ValueError):
        raise ValueError(f'{what} is one real number, and not {number!r}') from None
    except OverflowError:
        return math.inf if number > 0 else -math.inf


def whole(number: Any, what: str) -> int:
    """A whole number as Python's own, also of a float without a fraction. Raises ValueError."""
    try:
        return operator.index(number)
    except TypeError:
        told = real(number, what)
        if math.isinf(told):
            return _WIDE if told > 0 else -_WIDE
        if not told.is_integer():
            raise ValueError(f'{what} is a whole number, and not {number!r}') from None
        return int(told)


def _of_objects(array: Numbers) -> Numbers:
    # Whole numbers stay so, as pandas gives them.
    try:
        if all(hasattr(value, '__index__') for value in array.reshape(-1).tolist()):
            return array.astype(np.int64)
        return array.astype(float)
    except OverflowError:
        return array.astype(float)
    except (TypeError, ValueError):
        raise ValueError('coordinates are real numbers') from None


def numbers_of(points: ArrayLike) -> Numbers:
    """Coordinates as an array of whole numbers or of floats. Raises ValueError for anything else."""
    if isinstance(points, np.ma.MaskedArray) and points.mask.any():
        raise ValueError('a coordinate is masked')
    array = np.asarray(points)
    if array.dtype.kind == 'O':
        array = _of_objects(array)
    if array.dtype.kind not in 'iuf':
        raise ValueError(f'coordinates are real numbers, and not {array.dtype}')
    return array


def places_of(places: ArrayLike) -> Numbers:
    """Places, (..., 3), as they are given. Raises ValueError."""
    array = numbers_of(places)
    if array.ndim < 1 or array.shape[-1] != 3:
        raise ValueError(f'places are an array of shape (..., 3), and not {array.shape}')
    return array


def coordinates_of(*given: Any) -> Numbers:
    """Places, (..., 3), of one array of them, or of arrays of their x, y and z, which may be a tuple, as scipy's
    interpolators take them. Raises ValueError."""
    arrays = given[0] if len(given) == 1 else given
    if not isinstance(arrays, tuple):
        return places_of(arrays)
    if len(arrays) != 3:
        raise ValueError(f'places have three coordinates, and not {len(arrays)}')
    return np.stack(np.broadcast_arrays(*map(numbers_of, arrays)), axis=-1)


def floats_of(places: Numbers) -> Floats:
    """(k, 3) floats, the places one after another."""
    return np.ascontiguousarray(places.reshape(-1, 3), float)
