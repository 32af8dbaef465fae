"""Interpolation of values of points. Python over the proved rows, in floating point; tested beside scipy."""
from __future__ import annotations

from typing import Any

import numpy as np

from ._ground import Ground
from ._kinds import Floats, Ints, Numbers
from ._natural import natural_weights
from ._numbers import coordinates_of, floats_of
from ._progress import pieces


class Interpolator:
    """Values at places, from those of the points of a mesh."""
    _piece = 65536

    def __init__(self, ground: Ground, values: Numbers, first: Ints, fill_value: complex) -> None:
        """Of values of the points that are there, and of each point of the grid the first of these."""
        self._ground, self._walk, self._fill = ground, ground.walk, fill_value
        self._shape, self._each = values.shape[1:], values.reshape(len(values), -1)
        self._values = self._each[first]

    def __repr__(self) -> str:
        return f'<hanskup.{type(self).__name__} interpolator: {len(self._values)} points, values of {self._shape}>'

    def __call__(self, *places: Any, progress: bool = True) -> Numbers:
        """(...) or, where a value is an array, (..., its shape): the values at places.

        At a point that was given it is the value of this point. A place that the grid cannot tell from a point is taken
        as there, and one that lies less than a step of the grid beyond the hull as on it.

        Args:
            places: (..., 3) floats or whole numbers, in the unit of the points; they may lie anywhere. Or arrays of
                their x, y and z, one by one or as a tuple, as scipy's interpolators take them.
            progress: with a bar, where a terminal is there and it takes more than a second.
        Raises:
            ValueError: the shape is another, or they are not real numbers.
        """
        array = coordinates_of(*places)
        there = floats_of(array)
        told = np.full((len(there), self._values.shape[1]), self._fill, np.result_type(self._values, float))
        at, steps, number = self._ground.find(there, progress)
        within = np.flatnonzero(at >= 0)
        for piece in pieces(len(within), self._piece, 'place', progress):
            here = within[piece]
            told[here] = self._told(at[here], steps[here])
        several = self._ground.several(number)
        if len(several):
            told[several] = self._each[self._ground.nearest_of(number[several], there[several])]
        return told.reshape(array.shape[:-1] + self._shape)

    def _told(self, at: Ints, steps: Floats) -> Numbers:
        # The values at places of which the cells are known.
        raise NotImplementedError


class Linear(Interpolator):
    """Linear over each simplex."""

    def _told(self, at: Ints, steps: Floats) -> Numbers:
        told: Numbers = np.einsum('ij,ijk->ik', self._walk.barycentric(at, steps), self._values[self._walk.cells[at]])
        return told


class Natural(Linear):
    """By natural neighbours: each counts as much as the place's Voronoi region, were it a point, takes of its own."""
    _piece = 8192

    def _told(self, at: Ints, steps: Floats) -> Numbers:
        told = super()._told(at, steps)
        place, point, weight, good = natural_weights(self._walk, at, steps)
        for column in range(self._values.shape[1]):
            values = weight * self._values[point, column]
            summed = np.bincount(place, values.real, len(at))
            if np.iscomplexobj(values):
                summed = summed + 1j * np.bincount(place, values.imag, len(at))
            told[good, column] = summed[good]
        return told
