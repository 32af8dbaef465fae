"""Closed surfaces whose edges may have four triangles or more, made manifold: each edge with two, each point with one
round of triangles.

The triangles at such an edge are paired through the solid: two are a pair where a wedge of the solid is between them.
Then a point stands once for each round of paired triangles about it, and an edge that still has several pairs, since
its ends have one round each, gets a point in its middle for each pair but one.
"""
import math

import numpy as np
from mesh3 import Trouble

MOVE = 1 / 8  # of a step of the grid: how far points that stood at one place are moved into the solid


def sides_of(triangles):
    """The three sides (i, j) of each triangle as it is turned, shape (3 n, 2): side s begins at corner s."""
    return np.stack([triangles, np.roll(triangles, -1, axis=1)], axis=2).reshape(-1, 2)


def grouped(sides):
    """The places of the sides by their edges: a list of arrays, one an edge."""
    low, high = sides.min(axis=1), sides.max(axis=1)
    order = np.lexsort((high, low))
    new = np.flatnonzero((np.diff(low[order]) != 0) | (np.diff(high[order]) != 0)) + 1
    return np.split(order, new)


def turned_about(edge, arms):
    """For each arm from the first point of an edge its angle about the edge from the first arm, 0 to 2 pi.

    All are whole numbers, and so are the products, so that arms that differ have angles that do.
    """
    first = [int(x) for x in arms[0]]
    u = [int(x) for x in edge]
    square = sum(x * x for x in u)
    angles = []
    for arm in arms:
        w = [int(x) for x in arm]
        cross = (first[1] * w[2] - first[2] * w[1], first[2] * w[0] - first[0] * w[2],
                 first[0] * w[1] - first[1] * w[0])
        up = sum(x * y for x, y in zip(u, cross))
        along = square * sum(x * y for x, y in zip(first, w)) - sum(x * y for x, y in zip(u, first)) * sum(
            x * y for x, y in zip(u, w))
        angles.append(math.atan2(math.sqrt(square) * up, along) % (2 * math.pi))
    return angles


def pairs_at(points, triangles, sides, places):
    """The sides at one edge in pairs through the solid: (one, other) places, the second of the way from i to j."""
    i, j = sorted(sides[places[0]])
    against = triangles[places // 3, (places + 2) % 3]
    angles = turned_about(points[j] - points[i], points[against] - points[i])
    order = [places[k] for k in np.argsort(angles)]
    forth = [sides[place][0] == i for place in order]
    if any(forth[k] == forth[k - 1] for k in range(len(order))):
        raise Trouble(f'the triangles at the edge of the points {i} and {j} do not bound a solid')
    begin = forth.index(False)  # the solid is behind a side that goes from j to i, and before one from i to j
    order = order[begin:] + order[:begin]
    return list(zip(order[::2], order[1::2]))


def paired(points, triangles):
    """The sides of all triangles in pairs, shape (k, 2): two of an edge, or at an edge with more through the solid."""
    sides = sides_of(triangles)
    pairs = []
    for places in grouped(sides):
        if len(places) == 2:
            pairs.append(tuple(places))
        elif len(places) % 2:
            raise Trouble(f'the surface is not closed: an edge has {len(places)} triangles')
        else:
            pairs += pairs_at(points, triangles, sides, places)
    return np.array(pairs)


def rounds_of(pairs, triangles):
    """For each corner of each triangle the number of its round of paired triangles, shape (n, 3)."""
    try:
        from scipy.sparse import coo_matrix
        from scipy.sparse.csgraph import connected_components
    except ImportError:
        raise Trouble('--split wants scipy: apt-get install python3-scipy') from None
    one, other = pairs.T
    ends = 3 * (np.arange(triangles.size) // 3) + (np.arange(triangles.size) + 1) % 3  # the corner a side ends at
    rows, columns = np.concatenate([one, ends[one]]), np.concatenate([ends[other], other])
    joined = coo_matrix((np.ones(len(rows)), (rows, columns)), shape=(triangles.size, triangles.size))
    return connected_components(joined, directed=False)[1].reshape(-1, 3)


def inwards(points, triangles):
    """The directions into the solid, away from where each triangle is turned, each of length 1."""
    a, b, c = (points[triangles[:, k]].astype(float) for k in range(3))
    out = np.cross(b - a, c - a)
    return -out / np.maximum(np.linalg.norm(out, axis=1, keepdims=True), 1e-300)


def moved(places, directions, crowded):
    """The places, those that are crowded moved along their directions, each by a length of its own."""
    long = np.linalg.norm(directions, axis=1, keepdims=True)
    unit = np.where(long > 1e-9, directions / np.maximum(long, 1e-300), [1.0, 0.0, 0.0])
    turn = np.cumsum(crowded) % 16
    return places + np.where(crowded, MOVE * (1 - turn / 32), 0.0)[:, None] * unit


def bisected(triangle, middles):
    """A triangle in parts, with a point in the middle of each side where `middles` has one, else None."""
    for side in range(3):
        if middles[side] is not None:
            a, b, c = (triangle[(side + k) % 3] for k in range(3))
            of_b, of_c = middles[(side + 1) % 3], middles[(side + 2) % 3]
            return [*bisected((a, middles[side], c), (None, None, of_c)),
                    *bisected((middles[side], b, c), (None, of_b, None))]
    return [triangle]


def split(points, triangles):
    """The points and triangles of a manifold surface that is this one but for points that stood at one place: these are
    moved by at most MOVE into the solid. `points` are whole, and the triangles turned outwards."""
    pairs = paired(points, triangles)
    rounds = rounds_of(pairs, triangles)
    inner = inwards(points, triangles)
    count = int(rounds.max()) + 1
    of_round = np.zeros(count, dtype=np.int64)
    of_round[rounds.ravel()] = triangles.ravel()
    into = np.zeros((count, 3))
    np.add.at(into, rounds.ravel(), np.repeat(inner, 3, axis=0))
    crowded = np.bincount(of_round, minlength=len(points))[of_round] > 1
    places = moved(points[of_round].astype(float), into, crowded)
    pair_of = np.empty(triangles.size, dtype=np.int64)
    pair_of[pairs.ravel()] = np.repeat(np.arange(len(pairs)), 2)
    middles, more, sides = {}, [], sides_of(rounds)
    for edge in grouped(sides):
        for pair in np.unique(pair_of[edge])[1:] if len(edge) > 2 else ():
            one, other = pairs[pair]
            middles[one] = middles[other] = count + len(more)
            more.append((places[sides[one]].mean(axis=0), inner[one // 3] + inner[other // 3]))
    if not more:
        return places, rounds
    added = moved(*(np.array(part) for part in zip(*more)), np.full(len(more), True))
    cut = {side // 3 for side in middles}
    parts = [part for t in sorted(cut)
             for part in bisected(tuple(rounds[t]), tuple(middles.get(3 * t + side) for side in range(3)))]
    kept = np.delete(rounds, sorted(cut), axis=0)
    return np.concatenate([places, added]), np.concatenate([kept, np.array(parts)])
