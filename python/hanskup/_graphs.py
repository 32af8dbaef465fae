"""Groups of what is joined by pairs."""
from __future__ import annotations

import numpy as np

from ._adapters import module
from ._kinds import Ints, Numbers


def joined(count: int, first: Numbers, second: Numbers) -> Ints:
    """(count,) the groups of numbers that these pairs join. It needs scipy."""
    sparse, graphs = module('scipy.sparse'), module('scipy.sparse.csgraph')
    pairs = sparse.coo_matrix((np.ones(len(first), np.int8), (first, second)), [count, count])
    groups: Ints = graphs.connected_components(pairs, directed=False)[1]
    return groups
