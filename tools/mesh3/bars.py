"""When each part, loop and void of a filtration comes and goes: its persistence pairs, for the barcode of a page.

Faces come in by their stops, and of one stop in the order of their indices: that order tells which face makes something
new and which one ends it. Parts are found by a least spanning forest of the edges, voids by one of the cells outside,
the last triangles first (Alexander's duality), and loops by reducing the other triangles over the other edges.
"""
import numpy as np
from mesh3.betti import tree_of

MOST_WORK = 20_000_000  # entries that are added up for loops; where more were needed they are left out
KEPT = 22  # bars of a dimension that a page is given


def ranks_of(stops):
    """The place of each face in the order in which faces come in."""
    ranks = np.empty(len(stops), dtype=np.int64)
    ranks[np.argsort(stops, kind='stable')] = np.arange(len(stops))
    return ranks


def parts(f):
    """The bars of parts, (birth, death) in stops, and which edges end one."""
    ends = np.zeros(len(f.edges), dtype=bool)
    in_ = np.flatnonzero(f.edge_stops < f.never)
    ends[in_[tree_of(f.n, f.edges[in_], ranks_of(f.edge_stops[in_]))]] = True
    deaths = np.sort(f.edge_stops[ends])
    left = f.n - len(deaths)
    return [(0, int(stop)) for stop in deaths] + [(0, f.never)] * left, ends


def dual(f):
    """The graph of cells across triangles, the outside behind all: of each triangle the two, shape (t, 2)."""
    outside = len(f.cells)
    pairs = np.full((len(f.triangles), 2), outside)
    at = f.sides.ravel()
    order = np.argsort(at, kind='stable')
    owner, triangle = np.repeat(np.arange(outside), 4)[order], at[order]
    first = np.flatnonzero(np.diff(triangle, prepend=-1))
    behind = np.append(first[1:], len(triangle)) - 1
    pairs[triangle[first], 0] = owner[first]
    two = behind > first
    pairs[triangle[behind[two]], 1] = owner[behind[two]]
    return pairs


def voids(f):
    """The bars of voids, and which triangles make one: the joins of what is outside, the last triangles first."""
    pairs, ranks = dual(f), ranks_of(f.triangle_stops)
    count, by_rank = len(f.triangles), np.argsort(-ranks)
    pairs = np.sort(pairs, axis=1)
    _, first = np.unique(pairs[by_rank], axis=0, return_index=True)  # of two sides outside the one that comes in last
    kept = by_rank[first]
    joins = kept[tree_of(len(f.cells) + 1, pairs[kept], count - ranks[kept])]
    joins = joins[np.argsort(-ranks[joins])]
    # Of what is joined the one that is filled last stays; each root knows when that is.
    filled = [*ranks_of(f.cell_stops).tolist(), len(f.cells)]
    stops = [*f.cell_stops.tolist(), f.never]
    order = np.argsort(ranks_of(f.cell_stops)).tolist()
    root, bars = list(range(len(filled))), []
    for triangle, (one, other) in zip(joins.tolist(), pairs[joins].tolist()):
        while root[one] != one:
            root[one] = one = root[root[one]]
        while root[other] != other:
            root[other] = other = root[root[other]]
        if filled[one] > filled[other]:
            one, other = other, one
        root[one] = other
        birth, death = int(f.triangle_stops[triangle]), stops[order[filled[one]]]
        if birth < death:
            bars.append((birth, death))
    makes = np.zeros(count, dtype=bool)
    makes[joins] = True
    return bars, makes


def loops(f, ends_part, makes_void):
    """The bars of loops, or None where they take too much work."""
    edges = edge_places(f)
    ranks = ranks_of(f.edge_stops)
    ranks = np.where(ends_part, -1, ranks)  # what ends a part makes no loop
    stop_of = np.sort(f.edge_stops).tolist()
    those = np.flatnonzero(~makes_void & (f.triangle_stops < f.never))
    those = those[np.argsort(f.triangle_stops[those], kind='stable')]
    columns, bars, work = {}, [], 0
    for stop, row in zip(f.triangle_stops[those].tolist(), ranks[edges[those]].tolist()):
        column = {rank for rank in row if rank >= 0}
        last = max(column)
        while last in columns:
            work += len(columns[last])
            column ^= columns[last]
            last = max(column)
        if work > MOST_WORK:
            return None
        columns[last] = column
        if stop_of[last] < stop:
            bars.append((stop_of[last], stop))
    made = np.sort(ranks[(ranks >= 0) & (f.edge_stops < f.never)])
    return bars + [(stop_of[rank], f.never) for rank in made.tolist() if rank not in columns]


def edge_places(f):
    """The three edges of each triangle, shape (t, 3)."""
    keys = f.edges[:, 0] * f.n + f.edges[:, 1]
    order = np.argsort(keys, kind='stable')
    wanted = np.stack([f.triangles[:, i] * f.n + f.triangles[:, j] for i, j in ((0, 1), (0, 2), (1, 2))], axis=1)
    return order[np.searchsorted(keys[order], wanted)]


def all_bars(f):
    """Rows (dimension, stop of birth, stop of death) of all that lasts; the number of stops for what never goes. And
    whether that is all: loops are left out where they take too much work.

    Where there are no tetrahedra, no rows.
    """
    if f.sides is None:
        return [], True
    of_parts, ends_part = parts(f)
    of_voids, makes_void = voids(f)
    of_loops = loops(f, ends_part, makes_void)
    found = (of_parts, of_loops or [], of_voids)
    rows = [(kind, *bar) for kind, bars in enumerate(found) for bar in bars if bar[0] < bar[1]]
    return rows, of_loops is not None


def longest(f):
    """The bars that last longest, by the ratio of their radii, a few of each dimension."""
    alphas = np.append(f.alphas.astype(float), np.inf)

    def lasts(bar):
        return alphas[bar[2]] / max(alphas[bar[1]], 1.0), -bar[1]
    bars = sorted(all_bars(f)[0], key=lasts, reverse=True)
    return [bar for kind in range(3) for bar in [bar for bar in bars if bar[0] == kind][:KEPT]]
