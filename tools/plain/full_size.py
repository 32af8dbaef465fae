"""Makes what every command is to write of one file at full size, from the definitions, and prints the texts' sums.

    tools/make full-size > cases/full-size.sums     the sums, which tools/cases compares
    tools/make full-size FOLDER                     the texts: input.mesh3, mesh, shape, steps, parts, near, check
    tools/make full-size --cloud > cases/full-cloud.sums     the same of points alone, by `mesh` with several workers
    tools/make full-size --edited > cases/full-edited.sums   of many points and some edits, in the same way

The file is that of `tools/make full-file`. The replies go by the set of points that the lines leave. The cells are
those of CGAL (by GUDHI); that their hull is convex, each is empty beside its neighbours, and no five points lie on a
sphere and no four of the hull in a plane, is judged in whole numbers, so that the complex is the only one. All least
alphas, kinds, parts and squares are computed in whole numbers of any size (numpy, scipy). It takes some minutes.
"""
import hashlib
import os
import sys
from itertools import combinations

import gudhi
import numpy
from scipy.sparse import coo_matrix
from scipy.sparse.csgraph import connected_components
from scipy.spatial import cKDTree

from plain.full_file import DRAWN, RADIUS, drawn_file, text

BEYOND = 1 << 34
PIECE = 1 << 16
ALPHA = 16 * 120_000
KINDS = numpy.array(['singular', 'regular', 'interior'])


def replies_of(points, edits):
    """The reply to each line, and the points that are left, ascending. A set of so many is never flat."""
    there, replies = set(), []
    for adds, p, *to in [(True, p) for p in points] + edits:
        if to:
            replies.append('Missing' if p not in there else 'Occupied' if to[0] in there else 'Moved')
            if replies[-1] == 'Moved':
                there.discard(p)
                there.add(to[0])
        elif adds:
            replies.append('Duplicate' if p in there else 'Inserted')
            there.add(p)
        else:
            replies.append('Removed' if p in there else 'Missing')
            there.discard(p)
    return replies, numpy.array(sorted(there), dtype=object)


def cross(u, v):
    return numpy.stack([u[:, 1] * v[:, 2] - u[:, 2] * v[:, 1], u[:, 2] * v[:, 0] - u[:, 0] * v[:, 2],
                        u[:, 0] * v[:, 1] - u[:, 1] * v[:, 0]], axis=1)


def dot(u, v):
    return (u * v).sum(axis=1)


def orientation(a, b, c, d):
    return dot(b - a, cross(c - a, d - a))


def square(u):
    return dot(u, u)


def in_sphere(a, b, c, d, e):
    """Positive where e lies outside the sphere of four points of positive orientation."""
    u, v, w, t = (p - e for p in (a, b, c, d))
    turn = lambda p, q, r: dot(p, cross(q, r))
    return (square(u) * turn(v, w, t) - square(v) * turn(u, w, t)
            + square(w) * turn(u, v, t) - square(t) * turn(u, v, w))


def pieces(count):
    """The numbers below a count, some at a time: numbers of any size take much memory."""
    return (slice(start, start + PIECE) for start in range(0, count, PIECE))


def complex_of(points):
    """The cells, ascending, their neighbours behind each point, and the triangles of the hull; judged exactly."""
    tree = gudhi.AlphaComplex(points=points.tolist()).create_simplex_tree(default_filtration_value=True)
    cells = numpy.array(sorted(sorted(face) for face, _ in tree.get_skeleton(3) if len(face) == 4))
    beside = neighbours(cells)
    for piece in pieces(len(cells)):
        judge_cells(points, cells, beside, piece)
    hull = numpy.concatenate([numpy.delete(cells[beside[:, k] < 0], k, axis=1) for k in range(4)])
    hull = hull[numpy.lexsort(hull.T[::-1])]
    judge_hull(points, hull)
    return cells, beside, hull


def judge_cells(points, cells, beside, piece):
    """That cells of a piece are solid, and empty beside their neighbours."""
    own, others = cells[piece], beside[piece]
    turns = numpy.sign(orientation(*(points[own[:, k]] for k in range(4))).astype(float))
    assert (turns != 0).all(), 'a flat cell'
    for k in range(4):
        inner = others[:, k] >= 0
        apex = cells[others[inner, k]].sum(axis=1) - (own[inner].sum(axis=1) - own[inner, k])
        power = in_sphere(*(points[own[inner, j]] for j in range(4)), points[apex])
        assert (numpy.sign(power.astype(float)) * turns[inner] < 0).all(), 'five points on a sphere, or no cell'


def neighbours(cells):
    """Of each cell the number of the other cell behind each of its points, -1 on the hull."""
    facets = numpy.concatenate([numpy.delete(cells, k, axis=1) for k in range(4)])
    order = numpy.lexsort(facets.T[::-1])
    same = (facets[order[1:]] == facets[order[:-1]]).all(axis=1)
    assert not (same[1:] & same[:-1]).any(), 'a facet of three cells'
    other = numpy.full(len(facets), -1)
    first, second = order[:-1][same], order[1:][same]
    other[first], other[second] = second % len(cells), first % len(cells)
    return other.reshape(4, len(cells)).T


def judge_hull(points, hull):
    """That the triangles bound a convex body: at each edge two meet, and the third point of one lies off the other's
    plane, on the side of the middle of all points."""
    edges = numpy.concatenate([hull[:, [0, 1, 2]], hull[:, [0, 2, 1]], hull[:, [1, 2, 0]]])
    edges = edges[numpy.lexsort((edges[:, 1], edges[:, 0]))]
    first, second = edges[::2], edges[1::2]
    assert (first[:, :2] == second[:, :2]).all(), 'an edge of the hull without two triangles'
    middle = numpy.broadcast_to(points.sum(axis=0), first.shape)
    at = [points[first[:, k]] for k in range(3)]
    near = orientation(*at, points[second[:, 2]])
    far = orientation(*(len(points) * p for p in at), middle)
    assert (numpy.sign(near.astype(float)) * numpy.sign(far.astype(float)) > 0).all(), 'a hull with a flat edge'


def ceiling(numerator, denominator):
    """The quotients rounded up, at most BEYOND."""
    return numpy.minimum(-(-numerator // denominator), BEYOND)


def cell_leasts(points, cells):
    """The least alpha of each cell: 4 |N|^2 / O^2, rounded up, in sixteenths."""
    leasts = numpy.empty(len(cells), dtype=numpy.int64)
    for piece in pieces(len(cells)):
        a, *others = (points[cells[piece, k]] for k in range(4))
        u, v, w = (p - a for p in others)
        n = square(u)[:, None] * cross(v, w) + square(v)[:, None] * cross(w, u) + square(w)[:, None] * cross(u, v)
        leasts[piece] = ceiling(4 * square(n), orientation(a, *others) ** 2)
    return leasts


def parts_of(cells, size):
    """The faces of so many points, ascending, and of each cell's faces the number of each."""
    rows = [cells[:, list(which)] for which in combinations(range(4), size)]
    faces, numbers = numpy.unique(numpy.concatenate(rows), axis=0, return_inverse=True)
    return faces, numbers.reshape(len(rows), len(cells)).T


def least_over(numbers, count, values):
    """Of each face the least of the values of the cells that have it."""
    least = numpy.full(count, BEYOND, dtype=numpy.int64)
    for column in numbers.T:
        numpy.minimum.at(least, column, values)
    return least


def greatest_over(numbers, count, values):
    greatest = numpy.zeros(count, dtype=numpy.int64)
    for column in numbers.T:
        numpy.maximum.at(greatest, column, values)
    return greatest


def opposite(cells, numbers, count):
    """Of each triangle the points opposite to it, one twice where there is one."""
    of_triangle = numbers.T.ravel()
    others = numpy.concatenate([cells[:, k] for k in (3, 2, 1, 0)])[numpy.argsort(of_triangle, kind='stable')]
    ends = numpy.cumsum(numpy.bincount(of_triangle, minlength=count))
    starts = numpy.concatenate([[0], ends[:-1]])
    return others[starts], others[ends - 1]


def triangle_leasts(points, cells, triangles, numbers):
    """The least alpha of each triangle whose smallest sphere has no point inside, by the points opposite to it."""
    leasts, sides = numpy.empty(len(triangles), dtype=numpy.int64), opposite(cells, numbers, len(triangles))
    for piece in pieces(len(triangles)):
        a, b, c = (points[triangles[piece, k]] for k in range(3))
        u, v = b - a, c - a
        n = cross(u, v)
        leasts[piece] = ceiling(4 * square(u) * square(v) * square(c - b), square(n))
        to_centre = square(v)[:, None] * cross(n, u) + square(u)[:, None] * cross(v, n)
        for side in sides:
            away = points[side[piece]] - a
            power = square(away) * square(n) - dot(away, to_centre)
            leasts[piece][power < 0] = BEYOND
    return leasts


def edge_leasts(points, cells, edges, numbers):
    """The same of each edge, by the points of the cells around it."""
    a, b = points[edges[:, 0]].astype(numpy.int64), points[edges[:, 1]].astype(numpy.int64)
    whole = points.astype(numpy.int64)
    blocked = numpy.zeros(len(edges), dtype=bool)
    for column, others in zip(numbers.T, ((2, 3), (1, 3), (1, 2), (0, 3), (0, 2), (0, 1))):
        for other in others:
            e = whole[cells[:, other]]
            blocked[column[dot(a[column] - e, b[column] - e) < 0]] = True
    return numpy.where(blocked, BEYOND, 4 * square(b - a))


class Shape:
    """The faces of the complex of points, with their least alphas."""

    def __init__(self, points):
        self.points = points
        self.cells, self.beside, self.hull = complex_of(points)
        self.of_cells = cell_leasts(points, self.cells)
        self.triangles, self.triangles_of = parts_of(self.cells, 3)
        self.edges, self.edges_of = parts_of(self.cells, 2)
        own = triangle_leasts(points, self.cells, self.triangles, self.triangles_of)
        self.by_cells = {name: least_over(numbers, len(faces), self.of_cells) for name, faces, numbers in (
            ('triangles', self.triangles, self.triangles_of), ('edges', self.edges, self.edges_of),
            ('points', points, self.cells))}
        self.of_triangles = numpy.minimum(own, self.by_cells['triangles'])
        _, edges_in = numpy.unique(numpy.concatenate([self.edges, self.triangles[:, [0, 1]], self.triangles[:, [0, 2]],
                                                      self.triangles[:, [1, 2]]]), axis=0, return_inverse=True)
        of_edges = numpy.minimum(edge_leasts(points, self.cells, self.edges, self.edges_of), self.by_cells['edges'])
        numpy.minimum.at(of_edges, edges_in[len(self.edges):], numpy.tile(self.of_triangles, 3))
        self.of_edges = of_edges

    def kinds(self, name, faces, numbers, alpha):
        """The kind of each face at an alpha: interior where all cells around are admitted, with none on the hull."""
        on_hull = numpy.zeros(len(faces), dtype=bool)
        if name == 'points':
            on_hull[self.hull.ravel()] = True
        else:
            outer = numpy.concatenate([self.hull[:, list(which)] for which in combinations(range(3), faces.shape[1])])
            both, back = numpy.unique(numpy.concatenate([faces, outer]), axis=0, return_inverse=True)
            on_hull[back[len(faces):]] = True
        greatest = greatest_over(numbers, len(faces), self.of_cells)
        some = self.by_cells[name] <= alpha
        return KINDS[some.astype(int) + (some & ~on_hull & (greatest <= alpha)).astype(int)]


def rows(array):
    return [' '.join(map(str, row)) for row in array.tolist()]


def report_text(replies, points, cells, hull, blocks=()):
    text = ['mesh3-out 1', f'replies {len(replies)}', *replies, f'points {len(points)}', *rows(points)]
    text += [f'cells {len(cells)}', *rows(cells), f'hull {len(hull)}', *rows(hull)]
    return '\n'.join([*text, *blocks, 'end', ''])


def shape_block(shape, radius):
    """The block of a radius, in sixteenths."""
    yield f'shape {radius}'
    places = numpy.arange(len(shape.points))[:, None]
    for name, faces, numbers, least in (
            ('points', places, shape.cells, numpy.zeros(len(places))),
            ('edges', shape.edges, shape.edges_of, shape.of_edges),
            ('triangles', shape.triangles, shape.triangles_of, shape.of_triangles)):
        inside = least <= radius
        kinds = shape.kinds(name, faces, numbers, radius)[inside]
        yield f'{name} {inside.sum()}'
        yield from (f'{row} {kind}' for row, kind in zip(rows(faces[inside]), kinds))
    inside = shape.of_cells <= radius
    yield f'cells {inside.sum()}'
    yield from rows(shape.cells[inside])


def steps_text(shape):
    text = ['mesh3-steps 1']
    for name, faces, least in (('edges', shape.edges, shape.of_edges),
                               ('triangles', shape.triangles, shape.of_triangles),
                               ('cells', shape.cells, shape.of_cells)):
        text.append(f'{name} {len(faces)}')
        text += [f'{row} {alpha if alpha < BEYOND else "none"}' for row, alpha in zip(rows(faces), least.tolist())]
    return '\n'.join([*text, 'end', ''])


def parts_text(shape, alpha):
    inside = shape.of_cells <= alpha
    here, there = numpy.nonzero((shape.beside >= 0) & inside[:, None] & inside[shape.beside])
    pairs = coo_matrix((numpy.ones(len(here)), (here, shape.beside[here, there])), shape=(len(inside),) * 2)
    labels = connected_components(pairs, directed=False)[1]
    joined = numpy.zeros(len(inside), dtype=numpy.int64)
    numpy.add.at(joined, here, 1)
    firsts, numbers = numpy.unique(labels[inside], return_index=True)
    lines = []
    for label in firsts[numpy.argsort(numbers)]:
        of_it = inside & (labels == label)
        lines.append(f'part {of_it.sum()} {4 * of_it.sum() - joined[of_it].sum()}')
    return '\n'.join(['mesh3-parts 1', f'alpha {alpha}', f'parts {len(lines)}', *lines, 'end', ''])


def near_text(points, queries):
    """The nearest point to each query, of those as near the least; the candidates by a tree, the choice exactly."""
    whole = points.astype(numpy.int64)
    asked = numpy.array(queries, dtype=numpy.int64)
    _, few = cKDTree(whole.astype(float)).query(asked.astype(float), k=8)
    few = numpy.sort(few, axis=1)
    squares = ((whole[few] - asked[:, None, :]) ** 2).sum(axis=2)
    first = squares.argmin(axis=1)
    picked = numpy.arange(len(asked))
    text = ['mesh3-near 1', f'queries {len(asked)}']
    text += [f'{p} {s}' for p, s in zip(few[picked, first].tolist(), squares[picked, first].tolist())]
    return '\n'.join([*text, 'end', ''])


def texts(drawn):
    """The input that is drawn, and what each command is to write of it."""
    points, edits, queries = drawn
    yield 'input.mesh3', text(drawn)
    replies, left = replies_of(points, edits)
    shape = Shape(left)
    faces = shape.points, shape.cells, shape.hull
    yield 'mesh', report_text(replies, *faces)
    yield 'shape', report_text(replies, *faces, shape_block(shape, RADIUS))
    yield 'steps', steps_text(shape)
    yield f'parts --alpha {ALPHA}', parts_text(shape, ALPHA)
    yield 'near', near_text(left, queries)
    yield 'check', 'mesh3-check 1\ngood\n'


def cloud_texts(drawn):
    """What is drawn, and what `mesh` is to write of it by every number of workers."""
    points, edits, _ = drawn
    yield 'input.mesh3', text(drawn)
    replies, left = replies_of(points, edits)
    cells, _, hull = complex_of(left)
    report = report_text(replies, left, cells, hull)
    for workers in 1, 2, 4:
        yield f'mesh --workers {workers}', report


def main(words):
    is_by_threads = bool(words) and tuple(words) in DRAWN
    for name, made in cloud_texts(DRAWN[tuple(words)]()) if is_by_threads else texts(drawn_file()):
        if words and not is_by_threads:
            with open(os.path.join(words[0], name.split()[0]), 'w', encoding='ascii') as file:
                file.write(made)
        else:
            print(hashlib.sha256(made.encode()).hexdigest(), name, flush=True)


if __name__ == '__main__':
    main(sys.argv[1:])
