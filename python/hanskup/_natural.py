"""Natural neighbours of places (Sibson). Python over the proved rows, in floating point; tested.

Were a place a point of the mesh, its Voronoi region would take some of those of the points around it: what it takes of
each, as a part of the whole, is the weight of that point. A tetrahedron has a share in the region of each of its
corners, bounded by the planes half way to the others and by those through the centres of its sides and its own, with a
sign; the shares of the tetrahedra around a point sum up to its region. So what is taken of a point is the sum of its
shares in the cells that the place would take away, its cavity, less those in the cells that would come.
"""
from __future__ import annotations

import numpy as np

from ._grid import OTHERS, cross, dot
from ._kinds import Bools, Floats, Ints
from ._walk import Walk, weights

_NUDGES = (0.0, 1e-6, 1e-4)  # so far towards the middle of its cell a place goes, where nothing else comes out
_CLOSE = 1e-7
_MOST = 1 << 19  # so many cells of cavities are looked at at once, or those of one place


class _TooMany(Exception):
    """The cavities of several places have too many cells."""


def shares(corners: Floats) -> Floats:
    """(k, 4) of tetrahedra, (k, 4, 3), turned positively: the share of each in the Voronoi region of each corner."""
    a, b, c, d = (corners[:, i] for i in range(4))
    centre = _centres(a, b, c, d)
    told = np.zeros((len(corners), 4))
    for opposite, others in enumerate(OTHERS):
        normal = cross(corners[:, others[1]] - corners[:, others[0]], corners[:, others[2]] - corners[:, others[0]])
        inwards = np.sign(dot(normal, corners[:, opposite] - corners[:, others[0]]))
        height = inwards * dot(centre - corners[:, others[0]], normal) / dot(normal, normal)
        for k in range(3):  # the edges of the side, each with the third corner
            third, first, second = others[k], others[k - 1], others[k - 2]
            edge = corners[:, first] - corners[:, second]
            angle = dot(corners[:, first] - corners[:, third], corners[:, second] - corners[:, third])
            part = dot(edge, edge) * angle * height / 24
            told[:, first] += part
            told[:, second] += part
    return told


def _centres(a: Floats, b: Floats, c: Floats, d: Floats) -> Floats:
    """The centres of the spheres of tetrahedra."""
    b, c, d = b - a, c - a, d - a
    bc, cd, db = cross(b, c), cross(c, d), cross(d, b)
    sum_ = dot(b, b)[:, None] * cd + dot(c, c)[:, None] * db + dot(d, d)[:, None] * bc
    centres: Floats = a + sum_ / (2 * dot(b, cd))[:, None]
    return centres


def _cavities(walk: Walk, at: Ints, places: Floats) -> tuple[Ints, Ints]:
    """The cells whose spheres have places inside, and those that have the places: rows of a place and a cell."""
    count = len(walk.cells)
    front = np.arange(len(places)) * count + at
    found = front
    seen = front
    while len(front):
        if len(found) > _MOST and len(places) > 1:
            raise _TooMany
        place, cell = np.divmod(front, count)
        beside = walk.neighbours[cell]
        near = np.unique((place[:, None] * count + beside)[beside >= 0])
        near = near[~np.isin(near, seen, assume_unique=True)]
        seen = np.union1d(seen, near)
        place, cell = np.divmod(near, count)
        front = near[_has_inside(walk.grid[walk.cells[cell]] - places[place, None])]
        found = np.concatenate([found, front])
    return np.divmod(np.sort(found), count)


def _has_inside(corners: Floats) -> Bools:
    """Whether the origin is inside of the spheres of tetrahedra that are turned positively; on a sphere it is not."""
    volumes, squares = weights(corners), np.einsum('ijk,ijk->ij', corners, corners)
    terms = volumes * squares
    inside: Bools = terms.sum(axis=1) > 1e-13 * np.abs(terms).sum(axis=1)
    return inside


def _taken(walk: Walk, at: Ints, places: Floats) -> tuple[Ints, Ints, Floats, Bools]:
    """Rows of a place, a point and its weight; and of each place whether they are right: then the points, weighted,
    have it as their middle. Else it is on a plane of cells, or so near to the hull that rounding tells too much."""
    place, cell = _cavities(walk, at, places)
    corners = walk.grid[walk.cells[cell]] - places[place, None]
    count, points = len(walk.cells), len(walk.grid)
    beside = walk.neighbours[cell]
    inner = np.isin(place[:, None] * count + beside, place * count + cell) & (beside >= 0)
    i, k = np.nonzero(~inner)  # the sides of the cavity
    came = corners[i]
    came[np.arange(len(i)), k] = 0
    with np.errstate(all='ignore'):
        lost, won = shares(corners), shares(came)
    won[np.arange(len(i)), k] = 0
    keys = np.concatenate([(place[:, None] * points + walk.cells[cell]).reshape(-1),
                           (place[i, None] * points + walk.cells[cell[i]]).reshape(-1)])
    keys, where = np.unique(keys, return_inverse=True)
    taken = np.bincount(where.reshape(-1), np.concatenate([lost.reshape(-1), -won.reshape(-1)]), len(keys))
    place, point = np.divmod(keys, points)
    with np.errstate(all='ignore'):
        weight = taken / np.bincount(place, taken, len(places))[place]
        return place, point, weight, _are_right(walk, places, place, point, weight)


def _are_right(walk: Walk, places: Floats, place: Ints, point: Ints, weight: Floats) -> Bools:
    away = (walk.grid[point] - places[place]) * weight[:, None]
    middle = np.stack([np.bincount(place, away[:, axis], len(places)) for axis in range(3)], axis=1)
    least = np.full(len(places), np.inf)
    np.minimum.at(least, place, weight)
    right: Bools = (np.abs(middle).max(axis=1) < 1e-6 * (walk.high - walk.low).max()) & (least > -1e-6)
    return right


def natural_weights(walk: Walk, at: Ints, places: Floats) -> tuple[Ints, Ints, Floats, Bools]:
    """The natural neighbours of places of which the cells are known.

    Returns:
        Rows of a place, a point and its weight, and of each place whether it has any: where a place is a point, or on
        the hull, it has none, and linear interpolation says the same there.
    """
    try:
        return _weights(walk, at, places)
    except _TooMany:
        half = len(places) // 2
        first, second = (natural_weights(walk, at[part], places[part]) for part in (slice(half), slice(half, None)))
    place, point, weight, good = (np.concatenate(pair) for pair in zip(first, second))
    place[len(first[0]):] += half
    return place, point, weight, good


def _weights(walk: Walk, at: Ints, places: Floats) -> tuple[Ints, Ints, Floats, Bools]:
    corners = walk.grid[walk.cells[at]]
    good = np.zeros(len(places), bool)
    rows: list[tuple[Ints, Ints, Floats]] = []
    apart = walk.barycentric(at, places).max(axis=1) < 1 - _CLOSE
    for nudge in _NUDGES:
        left = np.flatnonzero(apart & ~good)
        if not len(left):
            break
        moved = places[left] + nudge * (corners[left].mean(axis=1) - places[left])
        place, point, weight, right = _taken(walk, at[left], moved)
        kept = right[place]
        rows.append((left[place[kept]], point[kept], weight[kept]))
        good[left[right]] = True
    if not rows:
        return np.zeros(0, np.int64), np.zeros(0, np.int64), np.zeros(0), good
    place, point, weight = (np.concatenate(column) for column in zip(*rows))
    return place, point, weight, good
