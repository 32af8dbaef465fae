"""The calls of the library on places, with rooms that are large enough.

Each lets go of the interpreter's lock while it runs.
"""
from __future__ import annotations

import ctypes
import os
from typing import Any, Callable, NamedTuple

import numpy as np
import numpy.typing as npt

from ._errors import GREATEST, Flat, Full, HanskupError, OutOfRange, WantOfMemory, check
from ._kinds import Ints, Numbers
from ._progress import patiently

__all__ = ['GREATEST', 'NONE', 'BEYOND', 'Flat', 'Full', 'HanskupError', 'OutOfRange', 'WantOfMemory', 'MeshRows',
           'FaceRows', 'mesh_rows', 'face_rows', 'filtered_rows', 'part_rows', 'least_alpha', 'HAS_PARTS', 'library',
           'room', 'as_read', 'whole', 'slices', 'written_rows', 'MeshSizes']

NONE = 0xFFFFFFFF  #: in the place of a neighbour, where a triangle of the hull is
BEYOND = 1 << 34  #: an alpha is below this

_ROOM = 4

Unsigned = npt.NDArray[np.uint32]
Alphas = npt.NDArray[np.uint64]


class MeshSizes(ctypes.Structure):
    _fields_ = [('points', ctypes.c_uint64), ('cells', ctypes.c_uint64), ('hull', ctypes.c_uint64)]


class _FaceSizes(ctypes.Structure):
    _fields_ = [('points', ctypes.c_uint64), ('edges', ctypes.c_uint64), ('triangles', ctypes.c_uint64),
                ('cells', ctypes.c_uint64)]


class _PartSizes(ctypes.Structure):
    _fields_ = [('cells', ctypes.c_uint64), ('parts', ctypes.c_uint64)]


class MeshRows(NamedTuple):
    """The rows of a mesh. Points are numbered from 0, ascending by x, then y, then z."""
    points: Ints  #: (m, 3) int64
    cells: Unsigned  #: (c, 4) uint32, numbers of points, ascending
    neighbours: Unsigned  #: (c, 4) uint32, numbers of cells, or NONE
    hull: Unsigned  #: (h, 3) uint32, numbers of points, ascending


class FaceRows(NamedTuple):
    """The faces of a mesh. The columns of alphas are admitted, regular, interior."""
    point_alphas: Alphas  #: (m, 3) uint64
    edges: Unsigned  #: (e, 2) uint32
    edge_alphas: Alphas  #: (e, 3) uint64
    triangles: Unsigned  #: (t, 3) uint32
    triangle_alphas: Alphas  #: (t, 3) uint64
    cell_alphas: Alphas  #: (c,) uint64


def _load() -> ctypes.CDLL:
    """The shared object: that which HANSKUP_LIBRARY names, or the one beside this file, which python/build makes."""
    beside = os.path.join(os.path.dirname(os.path.abspath(__file__)), 'libdelaunay_c.so')
    path = os.environ.get('HANSKUP_LIBRARY', beside)
    if not os.path.exists(path):
        raise ImportError(f'{path} is missing: python/build makes it')
    loaded = ctypes.CDLL(path)
    words = [ctypes.c_void_p, ctypes.c_size_t]
    loaded.delaunay_c_mesh.restype = ctypes.c_uint8
    loaded.delaunay_c_mesh.argtypes = words * 5 + [ctypes.POINTER(MeshSizes)]
    loaded.delaunay_c_alphas.restype = ctypes.c_uint8
    loaded.delaunay_c_alphas.argtypes = words * 7 + [ctypes.POINTER(_FaceSizes)]
    if hasattr(loaded, 'delaunay_c_filtered'):
        loaded.delaunay_c_filtered.restype = ctypes.c_uint8
        loaded.delaunay_c_filtered.argtypes = words * 11 + [ctypes.POINTER(MeshSizes), ctypes.POINTER(_FaceSizes)]
    if hasattr(loaded, 'delaunay_c_solid_parts'):
        loaded.delaunay_c_solid_parts.restype = ctypes.c_uint8
        loaded.delaunay_c_solid_parts.argtypes = words + [ctypes.c_uint64] + words * 2 + [ctypes.POINTER(_PartSizes)]
        loaded.delaunay_c_least_alpha.restype = ctypes.c_uint8
        loaded.delaunay_c_least_alpha.argtypes = words + [ctypes.c_uint32, ctypes.POINTER(ctypes.c_uint64)]
    return loaded


library = _load()
HAS_PARTS = hasattr(library, 'delaunay_c_solid_parts')
HAS_FILTERED = hasattr(library, 'delaunay_c_filtered')


def room(rows: int, columns: int, kind: npt.DTypeLike) -> Numbers:
    """One row more than is told, so that no room is empty and no pointer null."""
    return np.empty((rows + 1, columns), kind)


def slices(*rooms: Numbers) -> list[int]:
    """A pointer and a length for each room; the spare row is not told."""
    return [word for one in rooms for word in (one.ctypes.data, len(one) - 1)]


def as_read(places: Numbers) -> Ints:
    """Places as the library reads them; without a copy where they are so."""
    return np.ascontiguousarray(places, np.int64)


def whole(rows: Numbers) -> list[int]:
    """A pointer and a length of rows that the library reads."""
    return [rows.ctypes.data, len(rows)]


def _guessed(n: int) -> MeshSizes:
    # What n points that are drawn take at most, but for few.
    return MeshSizes(n, 7 * n + 64, n + 64)


def _face_sizes(n: int, cells: int, hull: int) -> _FaceSizes:
    triangles = 2 * cells + hull // 2  # each cell has four sides, and each triangle two, but those of the hull
    return _FaceSizes(n, n + triangles - cells, triangles, cells)  # Euler: points - edges + triangles - cells = 1


def _mesh_rooms(sizes: MeshSizes) -> list[Numbers]:
    return [room(sizes.points, 3, np.int64), room(sizes.cells, 4, np.uint32), room(sizes.cells, 4, np.uint32),
            room(sizes.hull, 3, np.uint32)]


def _face_rooms(sizes: _FaceSizes) -> list[Numbers]:
    return [room(sizes.points, 3, np.uint64), room(sizes.edges, 2, np.uint32), room(sizes.edges, 3, np.uint64),
            room(sizes.triangles, 3, np.uint32), room(sizes.triangles, 3, np.uint64), room(sizes.cells, 1, np.uint64)]


def _mesh_of(rooms: list[Numbers], sizes: MeshSizes) -> MeshRows:
    points, cells, neighbours, hull = rooms
    return MeshRows(points[:sizes.points], cells[:sizes.cells], neighbours[:sizes.cells], hull[:sizes.hull])


def _faces_of(rooms: list[Numbers], sizes: _FaceSizes) -> FaceRows:
    counts = (sizes.points, sizes.edges, sizes.edges, sizes.triangles, sizes.triangles, sizes.cells)
    point_alphas, edges, edge_alphas, sides, side_alphas, cell_alphas = (
        one[:count] for one, count in zip(rooms, counts))
    return FaceRows(point_alphas, edges, edge_alphas, sides, side_alphas, cell_alphas[:, 0])


def _status_of(n: int, kept: Any, call: Callable[..., int], *words: Any) -> int:
    """The status of a call on n points; what is kept, its rooms, stays until it ends, also where nobody waits."""
    def made() -> int:
        status = call(*words)
        return status if kept is not None else 0
    return patiently(made, n)


def written_rows(n: int, call: Callable[..., int]) -> MeshRows:
    """The rows that a call writes of n points or less, in a second try into the rooms that it wants."""
    sizes = _guessed(n)
    for _ in range(2):
        rooms = _mesh_rooms(sizes)
        words = [*slices(*rooms), ctypes.byref(sizes)]
        status = _status_of(n, rooms, call, *words)
        if status != _ROOM:
            break
    check(status)
    return _mesh_of(rooms, sizes)


def mesh_rows(places: Numbers) -> MeshRows:
    """The mesh of places, (n, 3) whole numbers, in any order and with equal ones.

    Raises WantOfMemory, OutOfRange, Flat or Full.
    """
    given = as_read(places)
    return written_rows(len(given), lambda *rooms: library.delaunay_c_mesh(*whole(given), *rooms))


def face_rows(places: Numbers, cells: int, hull: int) -> FaceRows:
    """The faces of the mesh of places, whose numbers of cells and of triangles of the hull are known.

    Raises as mesh_rows does.
    """
    given, sizes = as_read(places), _face_sizes(len(places), cells, hull)
    for _ in range(2):
        rooms = _face_rooms(sizes)
        words = [*whole(given), *slices(*rooms), ctypes.byref(sizes)]
        status = _status_of(len(given), (given, rooms), library.delaunay_c_alphas, *words)
        if status != _ROOM:
            break
    check(status)
    return _faces_of(rooms, sizes)


def filtered_rows(places: Numbers) -> tuple[MeshRows, FaceRows]:
    """The mesh of places and its faces; by one triangulation, where the library has a call for both.

    Raises as mesh_rows does.
    """
    given = as_read(places)
    if not HAS_FILTERED:
        mesh = mesh_rows(given)
        return mesh, face_rows(mesh.points, len(mesh.cells), len(mesh.hull))
    sizes = _guessed(len(given))
    face_sizes = _face_sizes(sizes.points, sizes.cells, sizes.hull)
    for _ in range(2):
        rooms, face_rooms = _mesh_rooms(sizes), _face_rooms(face_sizes)
        words = [*whole(given), *slices(*rooms, *face_rooms), ctypes.byref(sizes), ctypes.byref(face_sizes)]
        status = _status_of(len(given), (given, rooms, face_rooms), library.delaunay_c_filtered, *words)
        if status != _ROOM:
            break
    check(status)
    return _mesh_of(rooms, sizes), _faces_of(face_rooms, face_sizes)


def part_rows(places: Numbers, alpha: int, cells: int) -> tuple[Unsigned, Ints]:
    """The cells of the solid parts of the mesh of places at an alpha, (k, 4), one part after another, and how many each
    has; of a mesh of so many cells.

    Raises as mesh_rows does.
    """
    given, sizes = as_read(places), _PartSizes(cells, cells)
    rows, counts = room(cells, 4, np.uint32), room(cells, 1, np.uint64)
    words = [*whole(given), alpha, *slices(rows, counts), ctypes.byref(sizes)]
    check(_status_of(len(given), (given, rows, counts), library.delaunay_c_solid_parts, *words))
    return rows[:sizes.cells], counts[:sizes.parts, 0].astype(np.int64)


def least_alpha(places: Numbers, parts: int) -> int | None:
    """The least alpha at which each of the places is in an admitted cell and there are at most so many solid parts, if
    there is one.

    Raises as mesh_rows does.
    """
    given, least = as_read(places), ctypes.c_uint64()
    words = [*whole(given), min(parts, NONE), ctypes.byref(least)]
    check(_status_of(len(given), given, library.delaunay_c_least_alpha, *words))
    return least.value if least.value < BEYOND else None
