"""Where places lie in a mesh, in the unit of its points: in which simplex, and at which point. Python over the proved
rows; tested."""
from __future__ import annotations

import numpy as np

from ._errors import GREATEST
from ._grid import Placing, keys
from ._kinds import Bools, Floats, Ints, Numbers
from ._walk import Walk

_EXACT = 1e-6  # of a step: points that are moved by no more are where the grid has them, but for floating point
_PAIRS = 1 << 20  # so many pairs of a place and a point are looked at at once


class Ground:
    """A mesh as it is when it is asked; an edit later on changes none of this.

    Where the placing rounds, a place cannot be told from a point to whose place it rounds, nor from the hull where it
    lies less than a step beyond: then it is taken as there. Where the placing is exact, so is this.
    """

    def __init__(self, walk: Walk, placing: Placing | None, rounding: float, numbers: Ints, points: Numbers) -> None:
        """Of the walk of a mesh, how its points were placed and by how much they were moved, and the numbers and the
        coordinates of those that are there."""
        self.walk, self.placing, self._points = walk, placing, points
        exact = placing is None or rounding <= _EXACT * placing.unit
        self._snap, self.reach = (_EXACT, _EXACT) if exact else (0.5, 1.0)
        if placing is None:
            self._snap = self.reach = 0.0
        self._keys = keys(walk.grid.astype(np.int64))
        self._order = np.argsort(numbers, kind='stable')
        self._starts = np.searchsorted(numbers[self._order], np.arange(len(walk.grid) + 1))

    def steps_of(self, places: Numbers) -> tuple[Floats, Ints]:
        """Where places, (k, 3), lie in steps of the grid, (k, 3), and the numbers of the points at which they are taken
        to be, (k,), or -1."""
        steps = self.placing.on_grid(places) if self.placing else places.astype(float)
        number = np.full(len(steps), -1)
        if self.placing is None and len(self._order) == len(self._keys):
            return steps, number  # where nothing is rounded a place of a point is in a cell that has the point
        with np.errstate(invalid='ignore', over='ignore'):
            near = np.rint(steps)
            could = ((near >= 0) & (near <= GREATEST) & (np.abs(steps - near) <= self._snap)).all(axis=1)
        asked = np.flatnonzero(could)
        wanted = keys(near[asked].astype(np.int64))
        at = np.minimum(np.searchsorted(self._keys, wanted), len(self._keys) - 1)
        there = self._keys[at] == wanted
        number[asked[there]] = at[there]
        snapped: Bools = number >= 0
        if self.placing:
            steps[snapped] = near[snapped]
        return steps, number

    def find(self, places: Numbers, progress: bool = True, tolerance: float = 0.0) -> tuple[Ints, Floats, Ints]:
        """(k,) the simplex of each place, -1 outside; where it is taken to be, in steps; and the number of the point at
        which it is taken to be, or -1."""
        steps, number = self.steps_of(places)
        reach = min(max(self.reach, tolerance / (self.placing.unit if self.placing else 1.0)), 1e9)
        at, there = self.walk.find(steps, reach, progress)
        return at, there, number

    def several(self, number: Ints) -> Ints:
        """Which places are at points of which several stand at one place of the grid."""
        counts = np.diff(self._starts)
        return np.flatnonzero((number >= 0) & (counts[number] > 1))

    def nearest_of(self, number: Ints, places: Floats) -> Ints:
        """(k,) of the points that stand at each place of the grid, by its number, the one that is nearest to a place
        by the coordinates that were given; the first of those as near. It is counted among those that are there."""
        counts = np.diff(self._starts)[number]
        found, first = np.empty(len(number), np.int64), 0
        ends = np.cumsum(counts)
        while first < len(number):  # so many that the pairs are few, or one
            last = max(int(np.searchsorted(ends, (ends[first - 1] if first else 0) + _PAIRS)), first + 1)
            sizes = counts[first:last]
            begins = np.cumsum(sizes) - sizes
            pair = np.arange(int(sizes.sum())) - np.repeat(begins - self._starts[number[first:last]], sizes)
            points = self._order[pair]
            apart = self._points[points] - np.repeat(places[first:last], sizes, axis=0)
            square = np.einsum('ij,ij->i', apart, apart)
            least = np.repeat(np.minimum.reduceat(square, begins), sizes)
            found[first:last] = np.minimum.reduceat(np.where(square == least, points, len(self._points)), begins)
            first = last
        return found
