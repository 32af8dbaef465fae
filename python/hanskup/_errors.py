"""What the library refuses."""
from __future__ import annotations

from ._kinds import Words

GREATEST = 16383  #: the greatest coordinate

BEYOND_GRID = (f'a coordinate is not 0 to {GREATEST}: whole numbers are places of the grid, and taken as they are; '
               'points.astype(float) is placed on it')


class HanskupError(Exception):
    """The library refused. Each kind of refusal has a class of its own.

    Attributes:
        replies: where a call made several edits, what those before the refused one did; they stay made.
    """

    replies: Words | None = None


class WantOfMemory(HanskupError, MemoryError):
    """There was no memory for the answer."""


class Full(HanskupError, OverflowError):
    """There are more points, cells or edits than 32 bits count. A copy of the mesh has made no edits yet."""


class OutOfRange(HanskupError, ValueError):
    """A coordinate on the grid is not 0 to 16383."""


class Flat(HanskupError, ValueError):
    """No four of the points are independent: on the grid all lie in one plane, or there are fewer than four."""


_REFUSALS: dict[int, tuple[type[HanskupError], str]] = {
    1: (WantOfMemory, 'want of memory'),
    2: (OutOfRange, f'a coordinate is not 0 to {GREATEST}'),
    3: (Flat, 'no four of the points are independent: on the grid all lie in one plane'),
    6: (Full, 'more points, cells or edits than 32 bits count'),
}


def check(status: int) -> None:
    """Raises what a status of the library says, but for 0."""
    if status in _REFUSALS:
        kind, text = _REFUSALS[status]
        raise kind(text)
    if status != 0:
        raise HanskupError(f'status {status}')
