"""Faces of lists of cells: triples of corners, neighbours, and triangles that are turned outwards."""
import numpy as np
from mesh3 import Trouble


def triangles_of(cells):
    """The four triples of each cell, ascending, with the place of the cell and of the corner against each."""
    corners = np.array([[1, 2, 3], [0, 2, 3], [0, 1, 3], [0, 1, 2]])
    triples = cells[:, corners].reshape(-1, 3)
    return triples, np.repeat(np.arange(len(cells)), 4), np.tile(np.arange(4), len(cells))


def keys_of(triples, n):
    """One number for each ascending triple of indices below n."""
    return (triples[:, 0] * n + triples[:, 1]) * n + triples[:, 2]


def neighbours_of(cells, n):
    """For each cell and corner the cell across the triple against the corner, or -1."""
    triples, cell, corner = triangles_of(cells)
    keys = keys_of(triples, n)
    order = np.argsort(keys, kind='stable')
    same = np.flatnonzero(keys[order][1:] == keys[order][:-1])
    one, other = order[same], order[same + 1]
    across = np.full((len(cells), 4), -1, dtype=np.int64)
    across[cell[one], corner[one]] = cell[other]
    across[cell[other], corner[other]] = cell[one]
    return across


def turned_outwards(points, triangles, inner):
    """The triangles, each with its corners counterclockwise as seen from the side away from its inner point."""
    a, b, c = (points[triangles[:, i]] for i in range(3))
    side = np.einsum('ij,ij->i', np.cross(b - a, c - a), points[inner] - a)
    turned = triangles.copy()
    turned[side > 0] = turned[side > 0][:, [0, 2, 1]]
    return turned


def against(cells, triangles, n):
    """For each triangle a point of a cell on it that is none of its own; each is to be one of a cell of the list."""
    triples, cell, corner = triangles_of(cells)
    keys = keys_of(triples, n)
    order = np.argsort(keys, kind='stable')
    places = np.searchsorted(keys[order], keys_of(triangles, n))
    places = np.minimum(places, len(order) - 1)
    found = order[places]
    if len(triangles) and not (keys[found] == keys_of(triangles, n)).all():
        raise Trouble('the report has a triangle that is on no cell')
    return cells[cell[found], corner[found]]


def boundary_of(report, shape):
    """The triangles between an admitted cell and one that is not, turned away from the admitted cell."""
    triangles = shape.triangles[shape.triangle_kinds == 1]
    return turned_outwards(report.points, triangles, against(shape.cells, triangles, len(report.points)))


def used(triangles):
    """Which points triangles have, ascending, and the triangles by the places of these."""
    kept, places = np.unique(triangles, return_inverse=True)
    return kept, places.reshape(triangles.shape)


def hull_of(report):
    """The triangles of the hull, turned outwards."""
    return turned_outwards(report.points, report.hull, against(report.cells, report.hull, len(report.points)))
