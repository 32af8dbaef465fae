"""The least alpha at which few solid parts have all points. Python over the proved rows, and tested."""
from __future__ import annotations

import math
from typing import TYPE_CHECKING

import numpy as np

from ._adapters import module
from ._library import BEYOND

if TYPE_CHECKING:
    from ._arrays import Arrays


def least_alpha(mesh: Arrays, parts: int) -> int | None:
    """In sixteenths, or None: the least at which each point is in an admitted tetrahedron and these have at most so
    many parts."""
    faces = mesh._faces
    covered = int(faces.point_alphas[:, 1].max())  # from here on each point is regular
    if covered >= BEYOND:
        return None
    # As alpha grows there are the more parts the more cells come, and the fewer the more of them are joined: these are
    # as many as edges of a least spanning forest of the cells, each edge at the greater alpha of its two.
    levels, rank = np.unique(faces.cell_alphas, return_inverse=True)
    i, k = np.nonzero(mesh.across > np.arange(len(mesh.cells))[:, None])
    beside = mesh.across[i, k]
    when = np.maximum(rank[i], rank[beside]) + 1.0  # no weight is 0, which would be no edge
    sparse, graphs = module('scipy.sparse'), module('scipy.sparse.csgraph')
    forest = graphs.minimum_spanning_tree(sparse.csr_matrix((when, (i, beside)), [len(rank)] * 2))
    joins = np.bincount(forest.data.astype(np.int64) - 1, minlength=len(levels))
    count = np.cumsum(np.bincount(rank.reshape(-1), minlength=len(levels)) - joins)
    right = np.flatnonzero((count <= parts) & (levels >= covered) & (levels < BEYOND))
    return int(levels[right[0]]) if len(right) else None


def radius_of(sixteenths: int, square: float) -> float:
    """The least radius whose alpha on the grid is these sixteenths, of a square of a unit each."""
    radius = math.sqrt(sixteenths * square)
    while math.floor(radius * radius / square) < sixteenths:
        radius = float(np.nextafter(radius, math.inf))
    return radius
