"""Which points stand at which places of the grid, kept through edits: a look after one needs no rows of the mesh."""
from __future__ import annotations

import bisect
from typing import Iterable

import numpy as np

from ._grid import keys
from ._kinds import Ints

_LONG = 4096  # so many places may have changed before all are sorted anew


class Held:
    """The points that are there by the keys of their places.

    Attributes:
        several: of each place that has several points their indices, ascending.
    """

    def __init__(self, places: Ints, indices: Ints) -> None:
        """Of the places, (k, 3), of points that are there, by their ascending indices."""
        of_points = keys(places)
        order = np.argsort(of_points, kind='stable')
        there = of_points[order]
        fresh = np.ones(len(there), bool)
        fresh[1:] = there[1:] != there[:-1]
        self._keys, self._first = there[fresh], indices[order[fresh]]
        self._later: dict[int, int] = {}  # of places that changed since the first index, or -1
        starts = np.flatnonzero(fresh)
        ends = np.append(starts[1:], len(there))
        self.several = {int(there[start]): indices[order[start:end]].tolist()
                        for start, end in zip(starts[ends - starts > 1], ends[ends - starts > 1])}

    @property
    def is_long(self) -> bool:
        """Whether so much has changed that it is better made anew."""
        return len(self._later) > max(_LONG, len(self._keys) // 4)

    def first(self, asked: Ints) -> Ints:
        """(k,) the least index at each place, by its key; -1 where no point is."""
        at = np.minimum(np.searchsorted(self._keys, asked), len(self._keys) - 1)
        found: Ints = np.where(self._keys[at] == asked, self._first[at], -1)
        if self._later:
            later = self._later
            known = [(k, later[key]) for k, key in enumerate(asked.tolist()) if key in later]
            if known:
                changed = np.array(known)
                found[changed[:, 0]] = changed[:, 1]
        return found

    def come(self, where: Iterable[int], indices: Iterable[int]) -> None:
        """Points come to places, by their keys, at which there was none."""
        self._later.update(zip(where, indices))

    def joins(self, key: int, index: int) -> None:
        """A point comes to a place that has some."""
        if key not in self.several:
            self.several[key] = [int(self.first(np.array([key]))[0])]
        bisect.insort(self.several[key], index)
        self._later[key] = self.several[key][0]

    def go(self, where: Iterable[int]) -> None:
        """The points of places, by their keys, that stood there alone are there no more."""
        self._later.update(dict.fromkeys(where, -1))

    def leaves(self, key: int, index: int) -> None:
        """One of several points of a place goes."""
        left = self.several[key]
        left.remove(index)
        self._later[key] = left[0]
        if len(left) == 1:
            del self.several[key]
