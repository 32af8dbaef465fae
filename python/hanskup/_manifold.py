"""Closed surfaces whose edges may have four triangles or more, made manifold: each edge with two, each point with one
round of triangles.

The triangles at such an edge are paired through the solid: two are a pair where a wedge of the solid is between them.
Then a point stands once for each round of paired triangles about it, and an edge that still has several pairs, since
its ends have one round each, gets a point in its middle for each pair but one.
"""
from __future__ import annotations

import math
from typing import Sequence

import numpy as np

from ._graphs import joined
from ._kinds import Bools, Floats, Ints, Numbers


MOVE = 1 / 8  # of a step of the grid: how far points that stood at one place are moved into the solid


def sides_of(triangles: Ints) -> Ints:
    """The three sides (i, j) of each triangle as it is turned, shape (3 n, 2): side s begins at corner s."""
    sides: Ints = np.stack([triangles, np.roll(triangles, -1, axis=1)], axis=2).reshape(-1, 2)
    return sides


def grouped(sides: Ints) -> list[Ints]:
    """The places of the sides by their edges: a list of arrays, one an edge."""
    low, high = sides.min(axis=1), sides.max(axis=1)
    order = np.lexsort((high, low))
    new = np.flatnonzero((np.diff(low[order]) != 0) | (np.diff(high[order]) != 0)) + 1
    return np.split(order, new)


def turned_about(edge: Ints, arms: Ints) -> list[float]:
    """For each arm from the first point of an edge its angle about the edge from the first arm, 0 to 2 pi.

    All are whole numbers, and so are the products, so that arms that differ have angles that do.
    """
    first = [int(x) for x in arms[0]]
    u = [int(x) for x in edge]
    square = sum(x * x for x in u)
    angles = []
    for arm in arms:
        w = [int(x) for x in arm]
        cross = (first[1] * w[2] - first[2] * w[1], first[2] * w[0] - first[0] * w[2],
                 first[0] * w[1] - first[1] * w[0])
        up = sum(x * y for x, y in zip(u, cross))
        along = square * sum(x * y for x, y in zip(first, w)) - sum(x * y for x, y in zip(u, first)) * sum(
            x * y for x, y in zip(u, w))
        angles.append(math.atan2(math.sqrt(square) * up, along) % (2 * math.pi))
    return angles


def pairs_at(points: Ints, triangles: Ints, sides: Ints, places: Ints) -> list[tuple[int, int]]:
    """The sides at one edge in pairs through the solid: (one, other) places, the second of the way from i to j."""
    i, j = sorted(sides[places[0]])
    against = triangles[places // 3, (places + 2) % 3]
    angles = turned_about(points[j] - points[i], points[against] - points[i])
    order = [places[k] for k in np.argsort(angles)]
    forth = [sides[place][0] == i for place in order]
    if any(forth[k] == forth[k - 1] for k in range(len(order))):
        raise ValueError(f'the triangles at the edge of the points {i} and {j} do not bound a solid')
    begin = forth.index(False)  # the solid is behind a side that goes from j to i, and before one from i to j
    order = order[begin:] + order[:begin]
    return list(zip(order[::2], order[1::2]))


def paired(points: Ints, triangles: Ints) -> Ints:
    """The sides of all triangles in pairs, shape (k, 2): two of an edge, or at an edge with more through the solid."""
    sides = sides_of(triangles)
    pairs = []
    for places in grouped(sides):
        if len(places) == 2:
            pairs.append(tuple(places))
        elif len(places) % 2:
            raise ValueError(f'the surface is not closed: an edge has {len(places)} triangles')
        else:
            pairs += pairs_at(points, triangles, sides, places)
    return np.array(pairs)


def rounds_of(pairs: Ints, triangles: Ints) -> Ints:
    """For each corner of each triangle the number of its round of paired triangles, shape (n, 3)."""
    one, other = pairs.T
    ends = 3 * (np.arange(triangles.size) // 3) + (np.arange(triangles.size) + 1) % 3  # the corner a side ends at
    rows, columns = np.concatenate([one, ends[one]]), np.concatenate([ends[other], other])
    return joined(triangles.size, rows, columns).reshape(-1, 3)


def inwards(points: Ints, triangles: Ints) -> Floats:
    """The directions into the solid, away from where each triangle is turned, each of length 1."""
    a, b, c = (points[triangles[:, k]].astype(float) for k in range(3))
    out = np.cross(b - a, c - a)
    into: Floats = -out / np.maximum(np.linalg.norm(out, axis=1, keepdims=True), 1e-300)
    return into


def moved(places: Floats, directions: Floats, crowded: Bools) -> Floats:
    """The places, those that are crowded moved along their directions, each by a length of its own."""
    long = np.linalg.norm(directions, axis=1, keepdims=True)
    unit = np.where(long > 1e-9, directions / np.maximum(long, 1e-300), [1.0, 0.0, 0.0])
    turn = np.cumsum(crowded) % 16
    there: Floats = places + np.where(crowded, MOVE * (1 - turn / 32), 0.0)[:, None] * unit
    return there


def bisected(triangle: Sequence[int], middles: Sequence[int | None]) -> list[Sequence[int]]:
    """A triangle in parts, with a point in the middle of each side where `middles` has one, else None."""
    for side in range(3):
        middle = middles[side]
        if middle is not None:
            a, b, c = (triangle[(side + k) % 3] for k in range(3))
            of_b, of_c = middles[(side + 1) % 3], middles[(side + 2) % 3]
            return [*bisected((a, middle, c), (None, None, of_c)),
                    *bisected((middle, b, c), (None, of_b, None))]
    return [triangle]


def split(points: Ints, triangles: Ints) -> tuple[Floats, Ints]:
    """The points and triangles of a manifold surface that is this one but for points that stood at one place: these are
    moved by at most MOVE into the solid. `points` are whole, and the triangles turned outwards."""
    pairs = paired(points, triangles)
    rounds = rounds_of(pairs, triangles)
    inner = inwards(points, triangles)
    count = int(rounds.max()) + 1
    of_round = np.zeros(count, dtype=np.int64)
    of_round[rounds.ravel()] = triangles.ravel()
    inside = np.zeros((count, 3))
    np.add.at(inside, rounds.ravel(), np.repeat(inner, 3, axis=0))
    crowded = np.bincount(of_round, minlength=len(points))[of_round] > 1
    places = moved(points[of_round].astype(float), inside, crowded)
    pair_of = np.empty(triangles.size, dtype=np.int64)
    pair_of[pairs.ravel()] = np.repeat(np.arange(len(pairs)), 2)
    middles: dict[int, int] = {}
    more: list[tuple[Floats, Floats]] = []
    sides = sides_of(rounds)
    for edge in grouped(sides):
        for pair in np.unique(pair_of[edge])[1:] if len(edge) > 2 else ():
            one, other = pairs[pair]
            middles[one] = middles[other] = count + len(more)
            more.append((places[sides[one]].mean(axis=0), inner[one // 3] + inner[other // 3]))
    if not more:
        return places, rounds
    between, into = (np.array(part) for part in zip(*more))
    added = moved(between, into, np.full(len(more), True))
    cut = {side // 3 for side in middles}
    parts = [part for t in sorted(cut)
             for part in bisected(tuple(rounds[t]), tuple(middles.get(3 * t + side) for side in range(3)))]
    kept = np.delete(rounds, sorted(cut), axis=0)
    return np.concatenate([places, added]), np.concatenate([kept, np.array(parts)])


def origins(points: Ints, places: Floats) -> Ints:
    """(k,) the number of the point, whole, that each of the places of `split` stood at, or -1 of one in the middle of
    an edge."""
    near = np.rint(places)
    rows = np.concatenate([points, near.astype(np.int64)])
    _, first, which = np.unique(rows, axis=0, return_index=True, return_inverse=True)
    number = first[which.reshape(-1)[len(points):]]
    close = (np.abs(places - near) <= MOVE).all(axis=1)
    return np.where((number < len(points)) & close, number, -1)
