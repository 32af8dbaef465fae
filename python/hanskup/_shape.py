"""Alpha complexes of a mesh."""
from __future__ import annotations

import math
from typing import TYPE_CHECKING, Any, NamedTuple

import numpy as np

from . import _adapters, _manifold
from ._graphs import joined
from ._grid import OTHERS, cross, dot, outwards, volumes
from ._kinds import Bools, Floats, Ints, Numbers, Rows
from ._library import BEYOND
from ._surface import Surface

if TYPE_CHECKING:
    from ._arrays import Arrays


class Filtration(NamedTuple):
    """The faces of a mesh, with the least alphas at which they are admitted, regular and interior.

    An alpha is a squared radius in the unit of the points; infinity where there is none, as of a face of the hull,
    which never is interior. Rows are indices of the given points; each face stands once. Faces are in the order of the
    grid's points, not of the indices.
    """
    points: Rows  #: (m,) indices
    point_alphas: Floats  #: (m, 3) floats
    edges: Rows  #: (e, 2) indices
    edge_alphas: Floats  #: (e, 3) floats
    triangles: Rows  #: (t, 3) indices
    triangle_alphas: Floats  #: (t, 3) floats
    tetrahedra: Rows  #: (c, 4) indices
    tetrahedron_alphas: Floats  #: (c,) floats: that at which it is admitted

    def to_gudhi(self) -> Any:
        """A gudhi.SimplexTree of the faces with the alphas at which they are admitted, as AlphaComplex makes it. It
        needs gudhi."""
        return _adapters.to_gudhi(self)


class SolidParts(NamedTuple):
    """The solid parts of an alpha complex: tetrahedra that chains join, each sharing a triangle with the next."""
    tetrahedra: Rows  #: (k, 4) indices of points, one part after another, the parts in the order of the grid
    numbers: Ints  #: (k,) the part that each is of, from 0


class Voids(NamedTuple):
    """What an alpha complex encloses: the tetrahedra that are not in it and from which no way leads outside but through
    one of its triangles."""
    tetrahedra: Rows  #: (v, 4) indices of points
    numbers: Ints  #: (v,) the void that each is of, from 0
    volumes: Floats  #: (k,) the volume of each void, in the cube of the unit of the points

    def __repr__(self) -> str:
        told = ', '.join(f'{volume:.3g}' for volume in self.volumes[:5].tolist())
        return f'<hanskup.Voids: {len(self.volumes)}, of volumes {told}{", .." if len(self.volumes) > 5 else ""}>'


class Shape:
    """An alpha complex: the faces that are admitted at an alpha, each with its kind.

    Attributes:
        mesh: the mesh.
        sixteenths: the alpha on the grid, in sixteenths; 2^34 where it is beyond all that the library counts.
        points: (m,) indices of points; all are admitted.
        point_kinds: (m,) SINGULAR, REGULAR or INTERIOR.
        edges, edge_kinds: (e, 2) indices of points, (e,) kinds.
        triangles, triangle_kinds: (t, 3) indices of points, (t,) kinds.
        tetrahedra: (c, 4) indices of points.
    """

    def __init__(self, mesh: Arrays, sixteenths: int, square: float = math.inf) -> None:
        """Of a mesh at so many sixteenths; where they are beyond the library's count, at the square of a radius."""
        self.mesh, self.sixteenths = mesh, min(sixteenths, BEYOND)
        # What it was made of: an edit of the mesh later on changes none of it.
        self._faces, self._given, self._all = mesh.filtration(), mesh._given, mesh.cells
        self._grid, self._across = mesh.grid, mesh.across
        self._unit = mesh.placing.unit if mesh.placing else 1.0
        self._points: Numbers = mesh.points
        self._placing = mesh.placing
        faces = self._faces
        # In the unit of the points, as alphas are: by one factor for all, so that none changes its place among them.
        self._level = sixteenths * mesh._square if sixteenths < BEYOND else square
        self._within: Bools = faces.tetrahedron_alphas <= self._level
        self.points, self.point_kinds = self._given, self._kinds(faces.point_alphas)
        self.edges, self.edge_kinds = self._of(faces.edges, faces.edge_alphas)
        self.triangles, self.triangle_kinds = self._of(faces.triangles, faces.triangle_alphas)
        self.tetrahedra = self._given[self._all[self._within]]

    def __repr__(self) -> str:
        radius = math.sqrt(self._level)
        return (f'<hanskup.Shape: radius {radius:.3g}, {len(self.edges)} edges, {len(self.triangles)} triangles, '
                f'{len(self.tetrahedra)} tetrahedra>')

    def _kinds(self, alphas: Floats) -> Ints:
        # An interior face is regular too. A face of the hull never is, at infinity neither.
        interior = (alphas[:, 2] <= self._level) & (alphas[:, 2] < math.inf)
        return np.where(interior, 2, (alphas[:, 1] <= self._level).astype(np.int64))

    def _of(self, faces: Rows, alphas: Floats) -> tuple[Rows, Ints]:
        admitted = alphas[:, 0] <= self._level
        return faces[admitted], self._kinds(alphas[admitted])

    def _sides(self) -> Rows:
        # The triangles of the boundary by numbers of points, turned outwards.
        i, k = np.nonzero(self._within[:, None] & ~self._neighbours_among(self._within))
        return outwards(self._grid, self._all[i[:, None], OTHERS[k]], self._grid[self._all[i, k]])

    def boundary(self) -> Rows:
        """(b, 3) int32 indices: the triangles with an admitted tetrahedron on just one side, turned away from it.

        It is Python over the proved rows, and tested.
        """
        return self._given[self._sides()]

    def surface(self, split: bool = False) -> Surface:
        """The boundary with just its points: closed, but where parts of the solid touch in an edge or a point, so does
        it.

        Args:
            split: made manifold: each edge has two triangles. Points at which rounds of triangles touch stand once for
                each, moved into the solid by at most an eighth of a step of the grid; an edge that several pairs of
                triangles share gets points in its middle. It needs scipy.
        Returns:
            a Surface, with `points`, `triangles`, `volume`, `area`, `is_watertight`, `is_manifold` and `save`.

        >>> import hanskup
        >>> points = np.array([[0., 0., 0.], [2, 0, 0], [0, 2, 0], [0, 0, 2], [-2, 0, 0], [0, -2, 0], [0, 0, -2]])
        >>> hanskup.delaunay(points).alpha(3).surface(split=True).is_manifold
        True
        """
        sides = self._sides()
        used, faces = np.unique(sides, return_inverse=True)
        faces = faces.reshape(-1, 3)
        indices = self._given[used]
        if split and len(sides):
            places, faces = _manifold.split(self._grid[used], faces)
            origin = _manifold.origins(self._grid[used], places)
            indices = np.where(origin >= 0, indices[origin], -1)
            exact = origin >= 0
            exact[exact] = (places[exact] == self._grid[used][origin[exact]]).all(axis=1)
            points = self._placed(places)
            points[exact] = self._points[indices[exact]]
        else:
            points = self._points[indices].astype(float)
        return Surface(points, faces.astype(np.int32), indices)

    def _placed(self, places: Floats) -> Floats:
        return self._placing.to_user(places) if self._placing else places.astype(float)

    def volume(self) -> float:
        """The volume of the tetrahedra, in the cube of the unit of the points: of the places on the grid, exact up to
        the last rounding. Python over the proved rows, and tested."""
        return int(np.abs(volumes(self._grid, self._all[self._within])).sum()) / 6 * self._unit ** 3

    def area(self) -> float:
        """The area of the boundary, in the square of the unit of the points, of the places on the grid. Python over the
        proved rows, and tested."""
        return area_of(self._grid, self._sides()) * self._unit ** 2

    def parts(self) -> Ints:
        """(c,) the solid part that each of `tetrahedra` is of, from 0; those that share a triangle are of one part.

        It is Python over the proved rows, and tested. It needs scipy.
        """
        return _numbers(self._joined(self._within[:, None] & self._neighbours_among(self._within))[:-1][self._within])

    def voids(self) -> Voids:
        """What the complex encloses. With a radius of atom and probe together these are the pockets of a molecule that
        a probe fits into and cannot leave.

        It is Python over the proved rows, and tested. It needs scipy.
        """
        faces, cells = self._faces, self._all
        # Each triangle by one cell that has it, in the order of the library.
        i, k = np.nonzero((self._across < 0) | (self._across > np.arange(len(cells))[:, None]))
        order = np.lexsort(cells[i[:, None], OTHERS[k]].T[::-1])
        passed = np.zeros((len(cells), 4), bool)
        passed[i[order], k[order]] = faces.triangle_alphas[:, 0] > self._level
        group = self._joined(passed)
        held = (faces.tetrahedron_alphas > self._level) & (group[:-1] != group[-1])
        numbers = _numbers(group[:-1][held])
        sizes = np.bincount(numbers, np.abs(volumes(self._grid, cells[held])).astype(float)) / 6 * self._unit ** 3
        return Voids(self._given[cells[held]], numbers, sizes)

    def to_meshio(self) -> Any:
        """A meshio.Mesh of the points, the tetrahedra and the triangles of the boundary. It needs meshio."""
        return _adapters.to_meshio(self._points, tetra=self.tetrahedra, triangle=self.boundary())

    def to_trimesh(self) -> Any:
        """A trimesh.Trimesh of the boundary, with just the points that it has. It needs trimesh."""
        return _adapters.to_trimesh(self._points, self.boundary())

    def to_pyvista(self) -> Any:
        """A pyvista.PolyData of the boundary, with all points. It needs pyvista."""
        return _adapters.surface_to_pyvista(self._points, self.boundary())

    def to_open3d(self) -> Any:
        """An open3d.geometry.TriangleMesh of the boundary, with just the points that it has. It needs open3d."""
        return _adapters.surface_to_open3d(self._points, self.boundary())

    def _neighbours_among(self, cells: Bools) -> Bools:
        # (c, 4) whether the cell across from each corner is one of these; none of them is outside.
        return np.append(cells, False)[self._across]

    def _joined(self, sides: Bools) -> Ints:
        # (c + 1,) the groups of the cells, and of what is outside, that are joined through these of their sides.
        i, k = np.nonzero(sides)
        count = len(self._all) + 1
        return joined(count, i, self._across[i, k] % count)


def area_of(grid: Ints, triangles: Rows) -> float:
    """The area of triangles, by numbers of places."""
    a, b, c = (grid[triangles[:, i]] for i in range(3))
    normals = cross(b - a, c - a).astype(float)
    return float(np.sqrt(dot(normals, normals)).sum()) / 2


def _numbers(groups: Ints) -> Ints:
    # The groups numbered from 0.
    return np.unique(groups, return_inverse=True)[1].reshape(-1)
