"""All alpha complexes of a set of points at once: each face with the stop at which it comes in.

A *stop* is an alpha at which something changes, or of a report one of its radii. Stops are counted from 0, which is the
points alone; a face that comes in at no stop has the number of stops in place of one.
"""
import numpy as np
from mesh3 import NO_ALPHA, Trouble
from mesh3.faces import keys_of, triangles_of, turned_outwards

SIDES = np.array([[0, 1], [0, 2], [1, 2]])


class Filtration:
    """The faces of a set of points and the stops at which they come in.

    `alphas` has the least alpha of each stop, in sixteenths of the square of the grid's unit, `edges` (e, 2),
    `triangles` (t, 3) and `cells` (c, 4) ascending indices of points, and `edge_stops`, `triangle_stops` and
    `cell_stops` the stop of each. `some_stops` and `all_stops` tell when a triangle is first in one cell that is in,
    and in all: singular before, regular between, interior behind. `sides` (c, 4) are the triangles of each cell, or
    None where there are no cells. `points` (n, 3), whole, or None where nobody gave them.
    """

    def __init__(self, alphas, faces, stops, n):
        self.alphas, self.n, self.points = alphas, n, None
        self.edges, self.triangles, self.cells = faces
        self.edge_stops, self.triangle_stops, self.cell_stops = stops
        self.never = len(alphas)
        self.sides = self._sides() if len(self.cells) else None
        self.some_stops, self.all_stops = self._of_cells()

    def _sides(self):
        keys, wanted = keys_of(self.triangles, self.n), keys_of(triangles_of(self.cells)[0], self.n)
        order = np.argsort(keys, kind='stable')
        places = order[np.minimum(np.searchsorted(keys[order], wanted), len(keys) - 1)]
        if not (keys[places] == wanted).all():
            raise Trouble('a tetrahedron has a side that is not among the triangles')
        return places.reshape(-1, 4)

    def _of_cells(self):
        some = np.full(len(self.triangles), self.never)
        every = np.full(len(self.triangles), -1)
        if self.sides is None:
            return some, np.full(len(self.triangles), self.never)
        at, stops = self.sides.ravel(), np.repeat(self.cell_stops, 4)
        order = np.argsort(-stops, kind='stable')
        some[at[order]] = stops[order]  # of several the last, which is the least
        order = order[::-1]
        every[at[order]] = stops[order]
        every[np.bincount(at, minlength=len(every)) < 2] = self.never  # on the hull
        return some, every

    def first_triangles(self):
        """The stop at which the first triangle at each edge comes in, shape (e,)."""
        first = np.full(len(self.edges), self.never)
        order = np.argsort(-self.triangle_stops, kind='stable')
        keys = self.edges[:, 0] * self.n + self.edges[:, 1]
        by_key = np.argsort(keys, kind='stable')
        for i, j in SIDES:
            wanted = self.triangles[order, i] * self.n + self.triangles[order, j]
            places = by_key[np.minimum(np.searchsorted(keys[by_key], wanted), len(keys) - 1)]
            here = np.full(len(self.edges), self.never)
            here[places] = self.triangle_stops[order]
            first = np.minimum(first, here)
        return first

    def turned(self):
        """The triangles, each turned away from the cell at it that comes in first, shape (t, 3)."""
        if self.sides is None:
            return self.triangles
        order = np.argsort(-self.cell_stops, kind='stable')
        inner = np.zeros(len(self.triangles), dtype=np.int64)
        for corner in range(4):
            at = self.sides[order, corner]
            nearer = self.cell_stops[order] == self.some_stops[at]
            inner[at[nearer]] = self.cells[order[nearer], corner]
        return turned_outwards(self.points, self.triangles, inner)

    def with_points(self, points, name):
        """Takes whole points, shape (n, 3), that are to be those of the faces; `name` is where they are from."""
        at_most = np.where(self.edge_stops < self.never, self.edge_stops, self.never - 1)
        alphas = self.alphas[at_most]
        if len(points) == self.n:
            squares = 4 * ((points[self.edges[:, 0]] - points[self.edges[:, 1]]) ** 2).sum(axis=1)
            admitted = self.edge_stops < self.never
            near = np.zeros(self.n, dtype=bool)
            near[self.edges[squares == alphas]] = True
            if (squares[admitted] <= alphas[admitted]).all() and near.all():
                self.points = points
                return self
        raise Trouble(f'{name}: these are not the points of the steps')


def of_steps(steps):
    """The filtration of what `delaunay steps` wrote; its stops are all least alphas, and 0."""
    alphas = np.concatenate([[0], *(alphas for _, alphas in steps.kinds())])
    alphas = np.unique(alphas[alphas < NO_ALPHA])
    stops = [np.searchsorted(alphas, of) for _, of in steps.kinds()]  # NO_ALPHA comes behind all
    return Filtration(alphas, [faces for faces, _ in steps.kinds()], stops, steps.point_count())


def stops_of(faces, blocks, n):
    """The first block among `blocks` (stop, faces, whether each counts) that has each of the faces, or -1."""
    def keys(rows):
        values = rows[:, 0]
        for i in range(1, rows.shape[1]):
            values = values * n + rows[:, i]
        return values
    own = keys(faces)
    order = np.argsort(own, kind='stable')
    stops = np.full(len(faces), -1)
    for stop, rows, counts in reversed(blocks):
        stops[order[np.searchsorted(own[order], keys(rows[counts]))]] = stop
    return stops


def all_faces(report, shapes):
    """The edges and triangles of the report's cells and of its shapes, ascending, each once."""
    n = len(report.points)
    triangles = np.concatenate([triangles_of(report.cells)[0], *(shape.triangles for shape in shapes)])
    triangles = triangles[np.unique(keys_of(triangles, n), return_index=True)[1]]
    edges = np.concatenate([triangles[:, pair] for pair in SIDES] + [shape.edges for shape in shapes])
    edges = edges[np.unique(edges[:, 0] * n + edges[:, 1], return_index=True)[1]]
    return edges, triangles


def of_report(report, unit_of):
    """The filtration of a report's shapes, whose stops are its radii, or where it has none its whole complex.

    `unit_of` gives the alpha, in sixteenths, of the number of a shape.
    """
    shapes = sorted({shape.radius: shape for shape in report.shapes}.values(), key=lambda shape: shape.radius)
    n = len(report.points)
    edges, triangles = all_faces(report, shapes)
    faces = (edges, triangles, report.cells)
    alphas = [unit_of(shape.radius) for shape in shapes] or [NO_ALPHA]
    alone = int(alphas[0] > 0)  # a stop of the points alone before the radii
    alphas = np.array([0] * alone + alphas)
    if not shapes:
        stops = [np.ones(len(rows), dtype=np.int64) for rows in faces]
    else:
        whole = slice(None)
        each = [[(i, shape.edges, whole) for i, shape in enumerate(shapes, alone)],
                [(i, shape.triangles, whole) for i, shape in enumerate(shapes, alone)],
                [(i, shape.cells, whole) for i, shape in enumerate(shapes, alone)]]
        stops = [stops_of(rows, blocks, n) for rows, blocks in zip(faces, each)]
        stops = [np.where(stop < 0, len(alphas), stop) for stop in stops]
        for stop, blocks in zip(stops, each):
            for i, rows, _ in blocks:
                if (stop <= i).sum() != len(rows):
                    raise Trouble(f'the shape {shapes[i - alone].radius} lacks faces of a lesser radius')
    told = Filtration(alphas, faces, stops, n)
    if shapes and told.sides is None:  # kinds as the report tells them
        for kind, into in ((1, told.some_stops), (2, told.all_stops)):
            blocks = [(i, shape.triangles, shape.triangle_kinds >= kind) for i, shape in enumerate(shapes, alone)]
            stop = stops_of(triangles, blocks, n)
            into[:] = np.where(stop < 0, len(alphas), stop)
    told.points = report.points
    return told
