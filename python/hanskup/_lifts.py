"""The cells of a mesh as planes below a paraboloid, as scipy has them. Python over the proved rows, in floating point;
tested beside scipy."""
from __future__ import annotations

import numpy as np

from ._arrays import Arrays
from ._grid import centres, dot
from ._kept import kept
from ._kinds import ArrayLike, Floats, Numbers
from ._numbers import places_of


class Lifts(Arrays):
    """Points lifted onto a paraboloid, below which the complex is the lower side of a hull."""
    furthest_site = False  #: as of scipy.spatial.Delaunay: it is never that of the furthest points

    @property
    def min_bound(self) -> Floats:
        """(3,) the least coordinates of the points that are there."""
        least: Floats = self.points[self.living].min(axis=0).astype(float)
        return least

    @property
    def max_bound(self) -> Floats:
        """(3,) the greatest coordinates of the points that are there."""
        most: Floats = self.points[self.living].max(axis=0).astype(float)
        return most

    @kept
    def _paraboloid(self) -> tuple[float, float]:
        # As scipy scales it: the lifted points and one above them reach from 0 to the greatest coordinate.
        points = self._user_grid
        squares = dot(points, points)
        low, high = float(squares.min()), 1.1 * float(squares.max())
        scale = float(np.abs(points).max()) / (high - low)
        return scale, -low * scale

    @property
    def paraboloid_scale(self) -> float:
        """What the squared length of a place is multiplied by to lift it."""
        return self._paraboloid[0]

    @property
    def paraboloid_shift(self) -> float:
        """What is added to that."""
        return self._paraboloid[1]

    @kept
    def equations(self) -> Floats:
        """(c, 5) floats, a normal of length 1 in four dimensions and an offset for each simplex: of a lifted place,
        normal * place + offset is 0 at the corners, above 0 inside the sphere of the simplex and below 0 outside.

        The points stand where the grid has them.
        """
        scale, shift = self._paraboloid
        middle = centres(self.grid, self.cells)
        first = self._user_grid[self.cells[:, 0]]
        if self.placing:
            middle = self.placing.to_user(middle)
        made = np.empty((len(middle), 5))
        made[:, :3], made[:, 3] = 2 * scale * middle, -1
        made[:, 4] = shift - scale * dot(first, 2 * middle - first)
        made /= np.sqrt(dot(made[:, :4], made[:, :4]))[:, None]
        return made

    def lift_points(self, x: ArrayLike) -> Floats:
        """(..., 4) places, (..., 3), in the unit of the points, lifted onto the paraboloid: behind the coordinates
        stands the squared length, scaled and shifted.

        Raises:
            ValueError: the shape is another, or they are not real numbers.
        """
        places = places_of(x).astype(float)
        squares = np.einsum('...i,...i->...', places, places)
        return np.concatenate([places, squares[..., None] * self.paraboloid_scale + self.paraboloid_shift], axis=-1)

    def plane_distance(self, xi: ArrayLike) -> Floats:
        """(..., c) how far places, (..., 3), in the unit of the points, lie from the plane of each simplex when they
        are lifted: above 0 inside its sphere, below 0 outside, and 0 on it, but for rounding.

        Raises:
            ValueError: as of lift_points.
        """
        told: Floats = self.lift_points(xi) @ self.equations[:, :4].T + self.equations[:, 4]
        return told
