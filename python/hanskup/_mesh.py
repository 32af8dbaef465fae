"""Meshes of points as numpy has them."""
from __future__ import annotations

import math
import os
import warnings
from typing import Any

import numpy as np

from . import _adapters, _library, _parts
from ._errors import BEYOND_GRID, GREATEST, Flat, OutOfRange
from ._grid import Placing, volumes
from ._kept import sealed
from ._kinds import ArrayLike, Ints, Numbers, Rows
from ._library import BEYOND, filtered_rows, mesh_rows
from ._lifts import Lifts
from ._looks import Looks
from ._numbers import numbers_of, whole
from ._placing import placed
from ._progress import waiting
from ._rounding import warnings_of, why_flat
from ._shape import Shape, SolidParts, area_of
from ._voronoi import Voronoi
from ._woven import rows_by_threads


class RoundingWarning(UserWarning):
    """Points fell together on the grid, were moved by more than a fiftieth of the median distance of a point to its
    nearest neighbour, or more than a hundredth of the simplices turn over in the given coordinates."""


class Mesh(Looks, Lifts):
    """The Delaunay triangulation of points. Fields with names of scipy.spatial.Delaunay mean what they mean there.

    What is proved speaks of `grid`, `cells`, `across` and `hull`, whose numbers count the points of the grid.

    Points come, go and move by `add`, `take` and `move`. A point keeps its index: one that comes is put behind the
    others, and the index of one that went is in no simplex. One thread at a time has a mesh; threads with meshes of
    their own run side by side. `copy`, `deepcopy` and `pickle` make meshes of their own.

    Attributes:
        points: (n, 3) the points that were given, as int64 or float64, and those that came; where a point was moved,
            its new place. As all arrays of a mesh it is read-only.
        living: (n,) whether the point is there; False once it was taken.
        placing: how the points were placed, or None where they were whole numbers.
    """

    def __init__(self, points: Numbers, places: Ints, placing: Placing | None, progress: bool = True,
                 faces: bool = False, workers: int = 1) -> None:
        self.points, self.placing, self._places = sealed(points), placing, sealed(places)
        self.living = sealed(np.ones(len(points), bool))
        self._edited = self._known = None
        with waiting('delaunay', progress):
            if faces:
                self.__dict__['_rows'], self.__dict__['_faces'] = filtered_rows(places)
            else:
                many = workers > 1
                self.__dict__['_rows'] = rows_by_threads(places, workers, progress) if many else mesh_rows(places)

    def __repr__(self) -> str:
        unit = f', unit {self.placing.unit:.3g}' if self.placing else ''
        return f'<hanskup.Mesh: {int(self.living.sum())} points, {self.nsimplex} simplices{unit}>'

    def __getstate__(self) -> dict[str, Any]:
        # A copy and a pickle have no part of the library's mesh: that is made anew when it is wanted.
        names = ('points', 'living', 'placing', '_places', '_rows', '_inverse', '_given')
        state = {name: getattr(self, name) for name in names}
        return {**state, '_edited': None, '_known': None}

    def __setstate__(self, state: dict[str, Any]) -> None:
        self.__dict__.update({name: sealed(value) for name, value in state.items()})

    def complex(self) -> tuple[Rows, Rows]:
        """The whole complex: (c, 4) the simplices, and (h, 3) the triangles of the hull, by indices of points."""
        return self.simplices, self.convex_hull

    def counts(self) -> tuple[int, int, int]:
        """How many points of the grid, simplices and triangles of the hull there are."""
        return self._counts

    def volume(self) -> float:
        """The volume of the convex hull, in the cube of the unit of the points, of the places on the grid; exact up to
        the last rounding. Python over the proved rows, and tested."""
        unit = self.placing.unit if self.placing else 1.0
        return int(np.abs(volumes(self.grid, self.cells)).sum()) / 6 * unit ** 3

    def area(self) -> float:
        """The area of the convex hull, in the square of the unit of the points, of the places on the grid. Python over
        the proved rows, and tested."""
        return area_of(self.grid, self.hull) * (self.placing.unit if self.placing else 1.0) ** 2

    def optimal_alpha(self, parts: int = 1) -> float:
        """The least radius, in the unit of the points, at which every point is in an admitted tetrahedron and these
        have at most so many solid parts, as `delaunay parts --most` and CGAL's find_optimal_alpha have it; infinity
        where there is none. The number of parts may rise again with the radius.

        Proved, but for the unit. Where the library is one without this call it is Python over the proved rows, and
        needs scipy.

        Raises:
            ValueError: fewer than one part is asked for.
            WantOfMemory: there was no memory for the faces.
        """
        parts = whole(parts, 'the number of parts')
        if parts < 1:
            raise ValueError('there is one part at least')
        if _library.HAS_PARTS:
            with waiting('optimal_alpha'):
                sixteenths = _library.least_alpha(self.grid, parts)
        else:
            sixteenths = _parts.least_alpha(self, parts)
        return math.inf if sixteenths is None else _parts.radius_of(sixteenths, self._square)

    def solid_parts(self, radius: float) -> SolidParts:
        """The solid parts of the alpha complex at a radius, in the unit of the points. Proved, but for the indices and
        the unit. Where the library is one without this call, or the radius more than 32,768 steps of the grid, it is as
        Shape.parts.

        Raises:
            ValueError: the radius is negative or not a number.
            WantOfMemory: there was no memory for the faces.
        """
        length = self._checked_radius(radius)
        sixteenths = self._sixteenths(length)
        if not _library.HAS_PARTS or sixteenths >= BEYOND:
            shape = self.alpha(length)
            numbers = shape.parts()
            order = np.argsort(numbers, kind='stable')
            return SolidParts(shape.tetrahedra[order], numbers[order])
        with waiting('solid_parts'):
            rows, counts = _library.part_rows(self.grid, sixteenths, len(self._rows.cells))
        return SolidParts(self._given[rows], np.repeat(np.arange(len(counts)), counts))

    def voronoi(self) -> Voronoi:
        """The regions of the points: their vertices, ridges and volumes, with scipy.spatial.Voronoi's names.

        It is Python over the proved rows, in floating point, and tested beside scipy. An edit of the mesh later on does
        not change it. It needs scipy where more than four points lie on one sphere.
        """
        return Voronoi(self)

    def _points_of(self, on_grid: bool) -> Numbers:
        # The points as they were given, or where the grid has them.
        if not (on_grid and self.placing):
            return self.points
        return np.where(self.living[:, None], self.placing.to_user(self._places), self.points)

    def to_meshio(self, on_grid: bool = False) -> Any:
        """A meshio.Mesh of the points and the simplices. It needs meshio.

        Args:
            on_grid: with the points where the grid has them, moved by `rounding` at most: so all cells have positive
                volumes, as a solver wants them. In the coordinates that were given `rounding.turned` of them have not.
        """
        return _adapters.to_meshio(self._points_of(on_grid), tetra=self.simplices)

    def to_pyvista(self, on_grid: bool = False) -> Any:
        """A pyvista.UnstructuredGrid of the points and the simplices; on_grid as of to_meshio. It needs pyvista."""
        return _adapters.solid_to_pyvista(self._points_of(on_grid), self.simplices)

    def to_open3d(self, on_grid: bool = False) -> Any:
        """An open3d.geometry.TetraMesh of the points and the simplices, which
        TriangleMesh.create_from_point_cloud_alpha_shape takes in place of one of its own; on_grid as of to_meshio. It
        needs open3d."""
        return _adapters.solid_to_open3d(self._points_of(on_grid), self.simplices)


def _warn(mesh: Mesh) -> None:
    for words in warnings_of(mesh):
        warnings.warn(words, RoundingWarning, stacklevel=3)


def _of_whole(array: Numbers, given: dict[str, Any], *words: Any) -> Mesh:
    # Of whole numbers, which are places of the grid.
    told = [name for name, value in given.items() if value is not None and not (name == 'margin' and value == 0)]
    if told:
        raise ValueError(f'whole numbers are taken as they are: no {told[0]}; points.astype(float) is placed')
    if len(array) and (array.min() < 0 or array.max() > GREATEST):
        raise OutOfRange(BEYOND_GRID)
    places = array.astype(np.int64)
    if len(places) < 4:
        raise Flat(f'fewer than four points: {len(places)}')
    return Mesh(places, places, None, *words)


def _placing_of(array: Numbers, given: dict[str, Any]) -> Placing:
    # Of floats how they are placed.
    placing = given.pop('placing')
    if placing is None:
        return placed(array, **given)
    if not isinstance(placing, Placing) or given['unit'] is not None or given['box'] is not None or given['margin']:
        raise ValueError('a placing is a hanskup.Placing, and comes without unit, box and margin')
    steps = np.rint(placing.on_grid(array.astype(float)))
    beyond = np.flatnonzero(((steps < 0) | (steps > GREATEST)).any(axis=1))
    if len(beyond):
        raise OutOfRange(f'point {beyond[0]} lies outside of the grid of the placing')
    return placing


def delaunay(points: ArrayLike, unit: float | None = None, progress: bool = True, faces: bool = False,
             box: ArrayLike | None = None, margin: float = 0.0, placing: Placing | None = None,
             workers: int | None = 1) -> Mesh:
    """The Delaunay triangulation of points.

    Args:
        points: (n, 3). Whole numbers 0 to 16383 are taken as they are. Floats are placed on the grid: by the unit, or
            by the data's own step where the grid has room for it, so that nothing is rounded, as of coordinates with
            few decimals; or by the least unit that fits them all.
        unit: the length of a step of the grid, in the unit of the points; for floats alone, as are those below.
        progress: with a line of the time that it takes, where a terminal is there and it takes more than a second.
        faces: with the faces and their alphas, by one triangulation for all. Else `filtration` and `alpha` make them
            when they are first asked for, by a second one.
        box: ((x, y, z), (x, y, z)) the least and the greatest corner of the room in which points come and move later
            on. All points lie in it.
        margin: so much room around the points, or the box, as a part of its greatest extent: 0.1 is a tenth on each
            side.
        placing: how they are placed, as of another mesh; in place of unit, box and margin.
        workers: so many threads make the mesh, in as many tiles, where there are 20,000 points or more; None is one a
            processor. The mesh is the same. Its `neighbors` are made when they are asked for, and so are its faces, by
            one thread. The library's own threads are those of the command `delaunay --workers`.

    Raises:
        ValueError: the shape is not (n, 3), a coordinate is not finite, not real or masked, or a unit, a box, a margin
            or a placing is given with whole numbers or is none.
        OutOfRange: a whole coordinate is not 0 to 16383, the points take more steps of the unit than the grid has, or
            one lies outside of the box or the placing's grid.
        Flat: all points lie in one plane, or there are fewer than four.
        WantOfMemory, Full: there was no memory for the mesh, or 32 bits do not number it.
    Warns:
        RoundingWarning: floats fell together on the grid, were moved by more than a fiftieth of the median distance of
            a point to its nearest neighbour, or more than a hundredth of the simplices turn over in the given
            coordinates. `rounding` of the mesh has all these numbers.
    """
    array = numbers_of(points)
    if array.ndim != 2 or array.shape[1] != 3:
        raise ValueError(f'points are an array of shape (n, 3): this is for points in space, and not for {array.shape}')
    threads = (os.cpu_count() or 1) if workers is None else whole(workers, 'the number of workers')
    if threads < 1:
        raise ValueError('there is one worker at least')
    given = {'unit': unit, 'box': box, 'margin': margin, 'placing': placing}
    if array.dtype.kind != 'f':
        return _of_whole(array, given, progress, faces, threads)
    if not len(array):
        raise Flat('fewer than four points: there are none')
    bad = np.flatnonzero(~np.isfinite(array).all(axis=1))
    if len(bad):
        raise ValueError(f'point {bad[0]} is not finite')
    where = _placing_of(array, given)
    array = array.astype(float)
    places = where.to_grid(array)
    try:
        mesh = Mesh(array, places, where, progress, faces, threads)
    except Flat:
        raise Flat(why_flat(array, where, places)) from None
    _warn(mesh)
    return mesh


class Delaunay(Mesh):
    """scipy.spatial.Delaunay's call, so that code can be swapped: `from hanskup import Delaunay`. It is a Mesh, and has
    all that one has.

    >>> points = np.array([[0., 0., 0.], [1, 0, 0], [0, 1, 0], [0, 0, 1]])
    >>> tri = Delaunay(points, incremental=True)
    >>> tri.add_points([[2., 2., 2.]])
    >>> tri.nsimplex, tri.npoints, tri.find_simplex([.1, .1, .1]) >= 0
    (2, 5, True)
    """

    def __init__(self, points: ArrayLike, furthest_site: bool = False, incremental: bool = False,
                 qhull_options: str | None = None) -> None:
        """The mesh of points, (n, 3), as of `delaunay`, with its errors and warnings.

        Args:
            points: as of delaunay.
            furthest_site: that of the furthest points is not here: ValueError.
            incremental: whether points are added later on; it makes no difference.
            qhull_options: words for another program. They are passed over but for 'Qu', which is as furthest_site.
        """
        if furthest_site or 'Qu' in (qhull_options or '').split():
            raise ValueError('the triangulation of the furthest points is not here')
        self.__dict__.update(delaunay(points).__dict__)

    def __reduce__(self) -> tuple[Any, ...]:
        return _made_delaunay, (), self.__getstate__()

    def add_points(self, points: ArrayLike, restart: bool = False) -> None:
        """Adds points, (k, 3), behind the others; where they lie outside of the grid all are placed anew.

        Args:
            points: as of delaunay.
            restart: with all points anew, in place of one after another.
        Raises:
            ValueError, OutOfRange: as of delaunay.
        """
        array = numbers_of(points)
        if not restart:
            try:
                self.add(array)
                return
            except OutOfRange:
                if self.placing is None:
                    raise
        both = np.concatenate([self.points, self._checked(array)])
        if not self.living.all():
            raise OutOfRange('points were taken, and not all can be placed anew: make a mesh of those that are there')
        self.__dict__.clear()
        self.__dict__.update(delaunay(both).__dict__)

    def close(self) -> None:
        """Lets go what the library keeps for edits; nothing more comes by add_points as quickly. As scipy's."""
        self._edited = self._known = None


def _made_delaunay() -> Delaunay:
    return Delaunay.__new__(Delaunay)


def alpha_shape(points: ArrayLike, radius: float, unit: float | None = None) -> Shape:
    """The alpha complex of points at a radius, in their unit: `delaunay(points, unit, faces=True).alpha(radius)`.

    Args:
        points, unit: as of delaunay.
        radius: of the empty balls; 0 or more.

    Raises:
        As delaunay and Mesh.alpha.
    """
    return delaunay(points, unit, faces=True).alpha(radius)
