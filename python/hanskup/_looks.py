"""Looks at a mesh: where places lie, and what is interpolated there."""
from __future__ import annotations

import math
from typing import Any, Iterable, NamedTuple, Sequence, overload

import numpy as np

from ._adapters import has_scipy
from ._edits import Edits
from ._errors import GREATEST
from ._grid import cubes_of, dot, keys
from ._ground import Ground
from ._interpolate import Interpolator, Linear, Natural
from ._kept import kept
from ._kinds import ArrayLike, Floats, Ints, Numbers, Rows
from ._nearest import Tree, by_definition
from ._numbers import floats_of, numbers_of, places_of, real, whole
from ._progress import pieces

_PIECE = 16384
_FEW = 64  # of so many places the nearest points are looked for among all, before the library's mesh is made for them


class Located(NamedTuple):
    """Where places lie in a mesh, one after another.

    Of kind POINT a point of the mesh stands there. Of kind CELL the place is inside the sphere of a tetrahedron, which
    need not be the one that has it: find_simplex tells that one. Of kind BEYOND_HULL it lies beyond the hull, and sees
    one of its triangles.
    """
    kinds: Ints  #: (k,) POINT, CELL or BEYOND_HULL
    corners: Rows  #: (k, 4) indices of the point, the tetrahedron or the triangle; -1 behind them


_CORNERS = np.array([1, 4, 3])  # how many corners each kind has


def _in_order(places: Ints) -> Ints:
    """An order of places in which those that are near come together: then what the library reads is at hand."""
    return np.argsort(cubes_of(places, 64), kind='stable')


class Looks(Edits):
    """What a mesh tells of places."""

    def _index_at(self, places: Ints) -> Rows:
        """The index of the first point at each place of the grid, (k, 3); of a place that has none -1."""
        found: Rows = self._held.first(keys(places)).astype(self._kind)
        return found

    def locate(self, points: ArrayLike, progress: bool = True) -> Located:
        """Where places lie, found by walks over the cells. Proved, but for the indices.

        Args:
            points: (k, 3), or (3,) for one; whole numbers or floats, as the mesh was made of, in their unit.
            progress: as of add.
        Raises:
            ValueError, OutOfRange: as of add.
        """
        _, places = self._to_places(points)
        kinds, corners = np.zeros(len(places), np.int64), np.full((len(places), 4), -1, self._kind)
        order = _in_order(places)
        for piece in pieces(len(places), _PIECE, 'place', progress):
            at = order[piece]
            kinds[at], found = self._handle.locate(places[at])
            told = self._index_at(found.reshape(-1, 3)).reshape(-1, 4)
            corners[at] = np.where(np.arange(4) < _CORNERS[kinds[at], None], told, -1)
        return Located(kinds, corners)

    @overload
    def nearest(self, points: ArrayLike, k: None = None, distance_upper_bound: None = None,
                progress: bool = True) -> Rows: ...

    @overload
    def nearest(self, points: ArrayLike, k: int | Sequence[int], distance_upper_bound: float | None = None,
                progress: bool = True) -> tuple[Floats, Ints]: ...

    @overload
    def nearest(self, points: ArrayLike, k: None = None, *, distance_upper_bound: float,
                progress: bool = True) -> tuple[Floats, Ints]: ...

    def nearest(self, points: ArrayLike, k: int | Sequence[int] | None = None,
                distance_upper_bound: float | None = None, progress: bool = True) -> Rows | tuple[Floats, Ints]:
        """(q,) the index of the point that is nearest to each place. With `k` or `distance_upper_bound` the distances
        and the indices, as `query` has them.

        Of floats it is the nearest by the given coordinates: by scipy's cKDTree, which is made for the first of these
        looks and kept, also through a few edits; where scipy is missing, on the grid. Of a mesh of whole numbers it is
        proved, but for the indices: of those as near the first by x, then y, then z; but where the library has no part
        of the mesh yet and the places are 64 at most, it is Python over the proved rows, and tested; so are places
        outside of the grid.

        Args:
            points: (q, 3), or (3,) for one, anywhere, in the unit of the points.
            k, distance_upper_bound: as of query.
            progress: as of add.
        Raises:
            ValueError: as of add, or of query.

        >>> import hanskup
        >>> mesh = hanskup.delaunay([[0., 0., 0.], [1, 0, 0], [0, 1, 0], [0, 0, 1]])
        >>> mesh.nearest([[.9, .2, 0], [-3, 0, 2]])
        array([1, 3], dtype=int32)
        >>> mesh.nearest([.9, 0, 0], k=2)
        (array([0.1, 0.9]), array([1, 0]))
        """
        if k is not None or distance_upper_bound is not None:
            bound = np.inf if distance_upper_bound is None else distance_upper_bound
            return self.query(points, 1 if k is None else k, bound, progress)
        array = self._checked(points)
        if self.placing is None:
            within = ((array >= 0) & (array <= GREATEST)).all(axis=1)
            if not within.all():
                near = np.empty(len(array), self._kind)
                near[within] = self._nearest_on_grid(array[within].astype(np.int64), progress)
                near[~within] = by_definition(self, array[~within].astype(float))
                return near
            return self._nearest_on_grid(array.astype(np.int64), progress)
        places = array.astype(float)
        tree = self._tree_of(len(places))
        if tree is not None:
            return tree.query(places, 1, np.inf, progress)[1][:, 0].astype(self._kind)
        if len(places) <= _FEW:
            return by_definition(self, places).astype(self._kind)
        steps = np.clip(np.rint(self.placing.on_grid(places)), 0, GREATEST).astype(np.int64)
        return self._nearest_on_grid(steps, progress)

    def query(self, x: ArrayLike, k: int | Sequence[int] = 1, distance_upper_bound: float = math.inf,
              progress: bool = True) -> tuple[Floats, Ints]:
        """The distances of the nearest points and their indices, as scipy's cKDTree.query of the points that are there.
        It needs scipy, by which it is made.

        Args:
            x: (..., 3) places, anywhere, in the unit of the points.
            k: how many, or which ones, from 1; of 1 the answers have no axis for it.
            distance_upper_bound: just those that are nearer than this, which makes it quicker.
            progress: as of add.
        Returns:
            (...) or (..., k) floats and int64: where there are fewer points infinity, and `npoints`.
        Raises:
            ValueError: the shape is another, a place is not finite, or k is no number from 1 on.

        >>> import hanskup
        >>> mesh = hanskup.delaunay([[0., 0., 0.], [1, 0, 0], [0, 1, 0], [0, 0, 1]])
        >>> mesh.query([[.9, 0, 0]], k=2, distance_upper_bound=.5)
        (array([[0.1, inf]]), array([[1, 4]]))
        """
        places = places_of(x)
        if not np.isfinite(places).all():
            raise ValueError('a place is not finite')
        ranks = np.array([whole(one, 'k') for one in k]) if isinstance(k, Iterable) else np.arange(1, whole(k, 'k') + 1)
        if not len(ranks) or ranks.min() < 1:
            raise ValueError('k counts from 1')
        most = int(ranks.max())
        tree = self._tree_of(None)
        assert tree
        far, near = tree.query(floats_of(places), most, real(distance_upper_bound, 'a bound'), progress)
        shape = places.shape[:-1] + ((len(ranks),) if np.ndim(k) or most > 1 else ())
        return far[:, ranks - 1].reshape(shape), near[:, ranks - 1].reshape(shape)

    def _tree_of(self, count: int | None) -> Tree | None:
        """The tree of the points as they are; None where so few places are looked for, or there is no scipy. Raises
        ImportError where it is wanted all the same."""
        tree: Tree | None = self.__dict__.get('_tree')
        if tree is not None and tree.is_of(self):
            return tree
        self._asked = self.__dict__.get('_asked', 0) + (count or _FEW + 1)
        if count is not None and (self._asked <= _FEW or not has_scipy()):
            return None
        self._asked = 0
        made = self.__dict__['_tree'] = Tree(self)
        return made

    def _nearest_on_grid(self, places: Ints, progress: bool) -> Rows:
        near = np.empty(len(places), self._kind)
        look = self._nearest_of_all if self._edited is None and len(places) <= _FEW else self._nearest_by_walks
        order = _in_order(places)
        for piece in pieces(len(places), _PIECE, 'place', progress):
            near[order[piece]] = look(places[order[piece]])
        return near

    def _nearest_by_walks(self, places: Ints) -> Rows:
        return self._index_at(self._handle.nearest(places))

    def _nearest_of_all(self, places: Ints) -> Rows:
        # By the definition: the first of the least distances, since the points of the grid ascend.
        near = [dot(apart, apart).argmin() for apart in (self.grid - place for place in places)]
        found: Rows = self._given[near]
        return found

    @kept
    def _ground(self) -> Ground:
        here = self.living
        return Ground(self._walk, self.placing, self._shift, self._inverse[here], self.points[here])

    def find_simplex(self, xi: ArrayLike, bruteforce: bool = False, tol: float | None = None,
                     progress: bool = True) -> Any:
        """(...) the simplex that has each place, -1 outside of the hull and where a coordinate is no number, as scipy's
        find_simplex. Where several have it, in a shared side, one of them. Of places of the grid it is exact. A place
        that the grid cannot tell from a point is taken as there, and one that lies less than a step of the grid beyond
        the hull as on it, as by `interpolate`.

        It is Python over the proved rows, and tested beside scipy.

        Args:
            xi: (..., 3) places, in the unit of the points, anywhere; of (3,) the answer is one number of numpy.
            bruteforce: as scipy has it; the answer is the same.
            tol: places that lie less than this beyond the hull, in the unit of the points, are taken as on it too.
            progress: as of add.
        Raises:
            ValueError: the shape is another, they are not real numbers, or the tolerance is negative.

        >>> import hanskup
        >>> mesh = hanskup.delaunay([[0., 0., 0.], [1, 0, 0], [0, 1, 0], [0, 0, 1]])
        >>> mesh.find_simplex([[.1, .1, .1], [1, 1, 1], [np.nan, 0, 0]])
        array([ 0, -1, -1])
        >>> mesh.find_simplex([.1, .1, .1]).shape, mesh.find_simplex([-.1, .2, .2], tol=.2)
        ((), 0)
        """
        places = places_of(xi)
        reach = 0.0 if tol is None else real(tol, 'a tolerance')
        if not reach >= 0:
            raise ValueError('a tolerance is 0 or more')
        found = self._ground.find(floats_of(places), progress, reach)[0].reshape(places.shape[:-1])
        return found if found.ndim else found[()]

    def interpolate(self, values: ArrayLike, method: str = 'linear', fill_value: complex = math.nan) -> Interpolator:
        """What interpolates values of the points, as scipy's LinearNDInterpolator: call it with places.

            mesh.interpolate(temperatures)(places)

        It is Python over the proved rows, in floating point, and tested beside scipy. At a point it gives this point's
        value. Between them the points stand where the grid has them. An edit of the mesh later on does not change it.

        Args:
            values: (n, ...) a number, or an array of them, for each point, real or complex. Of points that fell
                together the nearest one counts at their place, and the first one around it; of those that went none.
            method: 'linear' over the simplices; or 'natural', by natural neighbours (Sibson): smooth but at the points.
            fill_value: what comes outside of the hull.
        Raises:
            ValueError: there are not n values, they are not numbers, or the method has another name.
        """
        kinds: dict[str, type[Interpolator]] = {'linear': Linear, 'natural': Natural}
        if method not in kinds:
            raise ValueError(f"a method is 'linear' or 'natural', and not {method!r}")
        array: Numbers = np.asarray(values)
        if array.dtype.kind != 'c':
            array = numbers_of(array).astype(float)
        if array.ndim < 1 or len(array) != len(self.points):
            raise ValueError(f'there are {len(self.points)} points, and values of the shape {array.shape}')
        here = np.cumsum(self.living) - 1
        return kinds[method](self._ground, array[self.living], here[self._given], fill_value)
