"""A mesh of the library that is edited, by its handle."""
from __future__ import annotations

import ctypes
import threading
from typing import Any, Callable

import numpy as np

from ._errors import check
from ._kinds import Ints, Numbers
from ._library import MeshRows, MeshSizes, as_read, library, room, slices, whole, written_rows
from ._progress import patiently

REPLIES = ('inserted', 'duplicate', 'removed', 'missing', 'flat', 'moved', 'occupied')
ADD, TAKE, MOVE = 0, 1, 2  #: kinds of edits

_COMES = np.array([1, 0, -1, 0, 0, 0, 0])  # how many points more there are after a reply

PLACE = np.dtype((np.int64, (3,)))
EDIT = np.dtype([('kind', np.uint32), ('place', PLACE), ('to', PLACE)], align=True)
LOCATED = np.dtype([('kind', np.uint32), ('corners', PLACE, (4,))], align=True)
_PLACE_AT, _TO_AT = 8, 32  # where they are in a row of EDIT


class _Handle(ctypes.Structure):
    _fields_ = [('mesh', ctypes.c_void_p)]


def _declare() -> bool:
    # Whether the library has the calls for many.
    place, reply, sizes = ctypes.c_void_p, ctypes.c_void_p, ctypes.POINTER(MeshSizes)
    words = [ctypes.c_void_p, ctypes.c_size_t]
    many = words * 2 + [ctypes.POINTER(ctypes.c_uint64)]
    calls: dict[str, list[Any]] = {
        'open': words, 'close': [], 'add': [place, reply], 'take': [place, reply], 'move': [place, place, reply],
        'counts': [sizes], 'complex': words * 4 + [sizes], 'locate': [place, place], 'nearest': [place, place],
        'edit_many': many, 'locate_many': many, 'nearest_many': many}
    for name, rest in calls.items():
        call = getattr(library, f'delaunay_c_{name}', None)
        if call is not None:
            call.restype = None if name == 'close' else ctypes.c_uint8
            call.argtypes = [ctypes.POINTER(_Handle)] + rest
    return hasattr(library, 'delaunay_c_edit_many')


HAS_MANY = _declare()


class Edited:
    """A mesh that is edited, of places as whole numbers. One call at a time has it: a lock sees to that.

    Each call can raise WantOfMemory, and OutOfRange where it is given a place; the mesh is then as before.
    """

    def __init__(self, places: Numbers) -> None:
        """The mesh of places, (n, 3), in any order and with equal ones. Raises Flat and Full too."""
        self._handle, self._lock = _Handle(), threading.Lock()
        given = as_read(places)
        # In this, so that it is there until the call ends, also where nobody waits for it.
        check(patiently(lambda: self._opened(given), len(given)))
        self._count = len(places)  # at most so many points are there

    def _opened(self, given: Ints) -> int:
        with self._lock:
            status: int = library.delaunay_c_open(self._handle, *whole(given))
        return status

    def __del__(self) -> None:
        if getattr(self, '_handle', None) and self._handle.mesh:
            library.delaunay_c_close(self._handle)

    def edit(self, kind: int, places: Ints, to: Ints | None = None) -> tuple[list[str], int]:
        """Makes edits of one kind at places, (k, 3), one after another, up to the first that is refused: the replies
        of those that were made, and the status of the refused one, or 0."""
        edits = np.zeros(len(places), EDIT)
        edits['kind'], edits['place'] = kind, places
        if to is not None:
            edits['to'] = to
        replies = np.zeros(len(places) + 1, np.uint8)
        with self._lock:
            status, count = _edit_each(self._handle, edits, replies) if not HAS_MANY else _many(
                library.delaunay_c_edit_many, self._handle, edits, replies)
            self._count += int(_COMES[replies[:count]].sum())
        return [REPLIES[reply] for reply in replies[:count]], status

    def counts(self) -> tuple[int, int, int]:
        """How many points, cells and triangles of the hull there are."""
        sizes = MeshSizes()
        with self._lock:
            check(library.delaunay_c_counts(self._handle, sizes))
        return sizes.points, sizes.cells, sizes.hull

    def rows(self) -> MeshRows:
        """The mesh, as mesh_rows gives it."""
        return written_rows(self._count, self._complex)

    def _complex(self, *rooms: Any) -> int:
        with self._lock:
            status: int = library.delaunay_c_complex(self._handle, *rooms)
        return status

    def locate(self, places: Ints) -> tuple[Ints, Ints]:
        """Where places, (k, 3), lie: kinds, (k,), and corners, (k, 4, 3). Of kind 0 a point stands there, and the
        corners are this place; of kind 1 they are those of a cell whose sphere it is inside; of kind 2 the first three
        are a triangle of the hull that it sees."""
        found = np.zeros(len(places) + 1, LOCATED)
        self._look('locate', places, found)
        return found['kind'][:-1].astype(np.int64), found['corners'][:-1]

    def nearest(self, places: Ints) -> Ints:
        """Where the points lie that are nearest to places, (k, 3); of those as near the first by x, then y, then z."""
        near: Ints = room(len(places), 3, np.int64)
        self._look('nearest', places, near)
        return near[:-1]

    def _look(self, name: str, places: Ints, found: Numbers) -> None:
        given = as_read(places)
        with self._lock:
            if HAS_MANY:
                status, _ = _many(getattr(library, f'delaunay_c_{name}_many'), self._handle, given, found)
                check(status)
                return
            call, at, to = getattr(library, f'delaunay_c_{name}'), given.ctypes.data, found.ctypes.data
            for k in range(len(places)):
                check(call(self._handle, at + k * given.strides[0], to + k * found.strides[0]))


def _many(call: Callable[..., int], handle: _Handle, given: Numbers, found: Numbers) -> tuple[int, int]:
    """The status of a call for many, and how many were done."""
    count = ctypes.c_uint64()
    status = call(handle, *whole(given), *slices(found), ctypes.byref(count))
    return status, count.value


def _edit_each(handle: _Handle, edits: Numbers, replies: Numbers) -> tuple[int, int]:
    """As the library's call for many edits, by its calls for one."""
    calls = (library.delaunay_c_add, library.delaunay_c_take, library.delaunay_c_move)
    at, to = edits.ctypes.data, replies.ctypes.data
    for k, kind in enumerate(edits['kind'].tolist()):
        here = at + k * EDIT.itemsize
        places = [here + _PLACE_AT, here + _TO_AT][:1 + (kind == MOVE)]
        status = calls[kind](handle, *places, to + k)
        if status:
            return status, k
    return 0, len(edits)
