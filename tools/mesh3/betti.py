"""How many parts, loops and voids the alpha complexes of a filtration have: their Betti numbers, at every stop."""
import numpy as np
from mesh3 import Trouble


def spanning(n, edges, weights):
    """The weights of a least spanning forest of a graph of n nodes; weights are whole and not below 0.

    `edges` (m, 2) has each pair of nodes at most once.
    """
    try:
        from scipy.sparse import coo_matrix
        from scipy.sparse.csgraph import minimum_spanning_tree
    except ImportError:
        raise Trouble('scipy is wanted: apt-get install python3-scipy') from None
    graph = coo_matrix((weights + 1.0, (edges[:, 0], edges[:, 1])), [n, n]).tocsr()
    return minimum_spanning_tree(graph).data.astype(np.int64) - 1


def forest(n, edges, weights):
    """The weights of such a forest, ascending."""
    return np.sort(spanning(n, edges, weights))


def tree_of(n, edges, ranks):
    """Which edges are in such a forest, as indices; no two have one rank."""
    order = np.argsort(ranks)
    return order[np.searchsorted(ranks[order], spanning(n, edges, ranks))]


def reached(stops, count):
    """How many of these stops are reached at each of `count` stops, shape (count,)."""
    return np.cumsum(np.bincount(np.minimum(stops, count), minlength=count + 1))[:count]


def across(filtration):
    """For each triangle the pair of cells across it, the outside being a cell behind all; each pair once.

    Gives the pairs (m, 2) and the stop at which the last triangle between the two comes in.
    """
    outside = len(filtration.cells)
    at = filtration.sides.ravel()
    order = np.argsort(at, kind='stable')
    owner, triangle = np.repeat(np.arange(outside), 4)[order], at[order]
    first = np.flatnonzero(np.diff(triangle, prepend=-1))
    behind = np.append(first[1:], len(triangle)) - 1
    pairs = np.column_stack([owner[first], np.where(behind > first, owner[behind], outside)])
    stops = filtration.triangle_stops[triangle[first]]
    order = np.lexsort((-stops, pairs[:, 1], pairs[:, 0]))  # of two sides outside the one that comes in last
    kept = order[np.append(True, (np.diff(pairs[order], axis=0) != 0).any(axis=1))]
    return pairs[kept], stops[kept]


def betti_numbers(filtration):
    """Parts, loops and voids at each stop, shape (3, stops), whole numbers.

    Parts are those of the graph of edges. Voids are parts of what is outside of the complex, but for the unbounded one:
    tetrahedra that are not in, joined across triangles that are not in (Alexander's duality). Loops are what Euler's
    formula leaves. Where there are no tetrahedra, None.
    """
    if filtration.sides is None:
        return None
    f, count = filtration, filtration.never
    in_ = f.edge_stops < count
    parts = f.n - reached(forest(f.n, f.edges[in_], f.edge_stops[in_]), count)
    pairs, stops = across(f)
    joins = count - forest(len(f.cells) + 1, pairs, count - stops)  # open until this stop, the longest first
    cells = reached(f.cell_stops, count)
    voids = len(f.cells) - cells - (len(joins) - reached(joins, count))
    euler = f.n - reached(f.edge_stops, count) + reached(f.triangle_stops, count) - cells
    return np.stack([parts, parts + voids - euler, voids])


def persistence_pairs(filtration):
    """When each part, loop and void comes and goes: rows (dimension, stop of birth, stop of death).

    What never goes has the number of stops as its death; what goes where it comes is left out. By dimension and birth.
    """
    from mesh3.bars import all_bars
    rows, are_all = all_bars(filtration)
    return np.array(sorted(rows)).reshape(-1, 3) if are_all else pairs_by_gudhi(filtration)


def pairs_by_gudhi(f):
    """The same rows, by GUDHI, of a cloud whose loops are too much work here."""
    try:
        import gudhi
    except ImportError:
        raise Trouble('GUDHI is wanted for so large a cloud: apt-get install python3-gudhi') from None
    tree = gudhi.SimplexTree()
    for i in range(f.n):
        tree.insert([i], 0.0)
    for faces, stops in ((f.edges, f.edge_stops), (f.triangles, f.triangle_stops), (f.cells, f.cell_stops)):
        for face, stop in zip(faces[stops < f.never].tolist(), stops[stops < f.never].tolist()):
            tree.insert(face, float(stop))
    tree.compute_persistence(homology_coeff_field=2)
    rows = []
    for dimension in range(3):
        spans = tree.persistence_intervals_in_dimension(dimension).reshape(-1, 2)
        ends = np.where(np.isfinite(spans[:, 1]), spans[:, 1], f.never)
        rows.append(np.column_stack([np.full(len(spans), dimension), spans[:, 0], ends]).astype(np.int64))
    rows = np.concatenate(rows)
    return rows[np.lexsort((rows[:, 2], rows[:, 1], rows[:, 0]))]
