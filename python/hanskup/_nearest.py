"""The nearest points of places by the coordinates that were given, by scipy's cKDTree. It is Python, and tested."""
from __future__ import annotations

from typing import TYPE_CHECKING, Any

import numpy as np

from ._adapters import module
from ._grid import cubes_of, dot
from ._kinds import Bools, Floats, Ints
from ._progress import pieces

if TYPE_CHECKING:
    from ._edits import Edits

_PIECE = 1 << 16  # places at a time
_CHANGED = 64  # so many points, or a hundredth of all, may have changed before the tree is made anew
_SHARES = 64  # along each axis: places are looked for cube by cube, so that what is read is at hand


class Tree:
    """A tree of the points of a mesh that are there, and those that came, went or moved since it was made."""

    def __init__(self, mesh: Edits) -> None:
        self._points, self._living = mesh.points, mesh.living
        self._at = np.flatnonzero(mesh.living)
        self._given = mesh.points[self._at].astype(float)
        self._tree = module('scipy.spatial').cKDTree(self._given)
        self._gone: Bools = np.zeros(len(self._at), bool)
        self._came: Ints = self._at[:0]
        self._came_at: Floats = self._given[:0]

    def is_of(self, mesh: Edits) -> bool:
        """Whether it can tell of a mesh as it is now; it takes note of what changed."""
        if mesh.points is self._points and mesh.living is self._living:
            return True
        now = mesh.points[self._at]
        gone = ~mesh.living[self._at] | (now != self._given).any(axis=1)
        fresh = mesh.living.copy()
        fresh[self._at[~gone]] = False
        came = np.flatnonzero(fresh)
        if len(came) + int(gone.sum()) > max(_CHANGED, len(self._at) // 100):
            return False
        self._points, self._living = mesh.points, mesh.living
        self._gone, self._came, self._came_at = gone, came, mesh.points[came].astype(float)
        return True

    def query(self, places: Floats, k: int, bound: float, progress: bool) -> tuple[Floats, Ints]:
        """(q, k) the distances of the k nearest points of places, (q, 3), below a bound, ascending, and their indices;
        infinity and the number of all points where there are fewer."""
        far, near = np.full((len(places), k), np.inf), np.full((len(places), k), len(self._points))
        order = _in_order(places)
        for piece in pieces(len(places), _PIECE, 'place', progress):
            at = order[piece]
            far[at], near[at] = self._queried(places[at], k, bound)
        return far, near

    def _queried(self, places: Floats, k: int, bound: float) -> tuple[Floats, Ints]:
        far, found = self._of_tree(places, k, bound)
        again = np.flatnonzero(np.append(self._gone, False)[found].any(axis=1)) if self._gone.any() else self._at[:0]
        if len(again):
            more, others = self._of_tree(places[again], k + int(self._gone.sum()), bound)
            more[np.append(self._gone, False)[others]] = np.inf
            order = np.argsort(more, axis=1, kind='stable')[:, :k]
            far[again], found[again] = np.take_along_axis(more, order, 1), np.take_along_axis(others, order, 1)
        near = np.append(self._at, len(self._points))[np.where(np.isinf(far), len(self._at), found)]
        if len(self._came):
            apart = places[:, None] - self._came_at
            new = np.sqrt(np.einsum('ijk,ijk->ij', apart, apart))
            new[new >= bound] = np.inf
            far = np.concatenate([far, new], axis=1)
            near = np.concatenate([near, np.where(np.isinf(new), len(self._points), self._came)], axis=1)
            order = np.argsort(far, axis=1, kind='stable')[:, :k]
            far, near = np.take_along_axis(far, order, 1), np.take_along_axis(near, order, 1)
        return far, near

    def _of_tree(self, places: Floats, k: int, bound: float) -> tuple[Floats, Ints]:
        far, found = self._tree.query(places, k, distance_upper_bound=bound)
        return far.reshape(len(places), k), found.reshape(len(places), k)


def _in_order(places: Floats) -> Ints:
    # Places that are near to each other come together.
    low, high = places.min(axis=0, initial=np.inf), places.max(axis=0, initial=-np.inf)
    with np.errstate(all='ignore'):
        share = np.nan_to_num((places - low) / np.maximum(high - low, 1e-300), posinf=1)
    return np.argsort(cubes_of(np.clip(share, 0, 1) * 16383, _SHARES), kind='stable')


def by_definition(mesh: Any, places: Floats) -> Ints:
    """(q,) the indices of the nearest points of a few places: the first of the least distances."""
    at = np.flatnonzero(mesh.living)
    given = mesh.points[at].astype(float)
    return at[[int(dot(given - place, given - place).argmin()) for place in places]] if len(places) else at[:0]
