"""Edits of a mesh by the indices of its points. What they come to on the grid is proved; the indices are Python."""
from __future__ import annotations

import itertools

import numpy as np

from ._arrays import Arrays
from ._edited import ADD, MOVE, TAKE, Edited
from ._errors import GREATEST, HanskupError, OutOfRange, check
from ._grid import cross, dot, keys, volumes
from ._held import Held
from ._kept import kept, sealed
from ._kinds import ArrayLike, Ints, Numbers, Words
from ._library import MeshRows, mesh_rows
from ._numbers import numbers_of
from ._progress import pieces

_PIECE = 1024  # so many edits are made before an interrupt is heard
_ANEW = 3  # where more than one point in so many moves, a mesh of the new places is made sooner than the moves
_FEW = 256  # of so many moves it does not matter


class Edits(Arrays):
    """Points that come, go and move."""
    _edited: Edited | None
    _known: Held | None

    @kept
    def _rows(self) -> MeshRows:
        return self._edited.rows() if self._edited else mesh_rows(self._places[self.living])

    @property
    def _handle(self) -> Edited:
        # Made once, for the first edit or look.
        if self._edited is None:
            self._edited = Edited(self._places[self.living])
        return self._edited

    @property
    def _counts(self) -> tuple[int, int, int]:
        # By the library's mesh where there are no rows, so that none are made for it.
        if '_rows' in self.__dict__ or self._edited is None:
            return super()._counts
        return self._edited.counts()

    @property
    def _held(self) -> Held:
        # Made for the first edit or look, and kept by edits.
        if self._known is None or self._known.is_long:
            here = np.flatnonzero(self.living)
            self._known = Held(self._places[here], here)
        return self._known

    def _grown(self, name: str, more: Numbers) -> Numbers:
        """What an array has and more behind it, in a room that has some to spare: so of many points that come one by
        one each is copied a few times. Nobody who has the array as it was sees this."""
        rooms: dict[str, Numbers] = self.__dict__.setdefault('_rooms', {})
        array, length = getattr(self, name), len(getattr(self, name)) + len(more)
        room = rooms.get(name)
        if room is None or array.base is not room or len(room) < length:
            room = rooms[name] = np.empty((length + length // 4 + 16, *array.shape[1:]), array.dtype)
            room[:len(array)] = array
        room[len(array):length] = more
        return room[:length]

    def _checked(self, points: ArrayLike) -> Numbers:
        """Points as this mesh has them, (k, 3). Raises ValueError."""
        array = np.atleast_2d(numbers_of(points))
        if array.ndim != 2 or array.shape[1] != 3:
            raise ValueError(f'points are an array of shape (k, 3), and not {array.shape}')
        if not np.isfinite(array).all():
            raise ValueError(f'place {np.flatnonzero(~np.isfinite(array).all(axis=1))[0]} is not finite')
        if self.placing is None and array.dtype.kind == 'f':
            if (array != np.rint(array)).any():
                raise ValueError('the mesh has whole coordinates, as it was made of whole numbers: of floats, as '
                                 'points.astype(float), it takes any')
            if (np.abs(array) < 2.0 ** 62).all():
                array = array.astype(np.int64)
        return array

    def _to_places(self, points: ArrayLike) -> tuple[Numbers, Ints]:
        """Points as this mesh has them, (k, 3), and their places. Raises ValueError and OutOfRange."""
        array = self._checked(points)
        steps = np.rint(self.placing.on_grid(array)) if self.placing else array
        outside = np.flatnonzero(((steps < 0) | (steps > GREATEST)).any(axis=1))
        if len(outside):
            worst = steps[outside[0]].astype(float)
            beyond = float(np.maximum(-worst, worst - GREATEST).max())
            told = f'{beyond * self.placing.unit:g}, {beyond:.0f} steps' if self.placing else f'{beyond:.0f}'
            way = ': delaunay(points, box=(low, high)) or margin=0.5 makes room for it' if self.placing else ''
            raise OutOfRange(f'place {outside[0]} of {len(array)} lies outside of the grid, 0 to {GREATEST}, by '
                             f'{told}{way}')
        return array.astype(float if self.placing else np.int64), steps.astype(np.int64)

    def _indices(self, indices: ArrayLike) -> Ints:
        array = np.atleast_1d(indices)
        if array.ndim != 1 or array.size and not np.issubdtype(array.dtype, np.integer):
            raise ValueError('indices are whole numbers, (k,)')
        if ((array < 0) | (array >= len(self.points))).any():
            raise IndexError(f'an index is not below {len(self.points)}')
        return array.astype(np.int64)

    def _made(self, edits: _Adds | _Takes, count: int, progress: bool) -> Words:
        """The replies of edits, one after another; those before a refused one stay made.

        Until all is told the mesh has no part of the library's: where an interrupt comes, at whatever time, it is made
        anew of the points that are told by then.
        """
        edits.handle, edits.held = self._handle, self._held
        self._forget()
        self._edited = self._known = None
        status = 0
        try:
            for piece in pieces(count, _PIECE, 'edit', progress):
                status = edits.make(piece)
                if status:
                    break
        finally:
            replies = np.array(edits.replies, '<U9')
            self.__dict__.update({name: sealed(array) for name, array in edits.told(replies).items()})
        self._edited, self._known = edits.handle, edits.held
        try:
            check(status)
        except HanskupError as refused:
            refused.replies = replies
            raise
        return replies

    def add(self, points: ArrayLike, progress: bool = True) -> Words:
        """Adds points behind those that are there.

        Args:
            points: (k, 3), or (3,) for one; whole numbers or floats, as the mesh was made of, in their unit.
            progress: with a bar, where tqdm is installed, a terminal is there and it takes more than a second.

        Returns:
            (k,) 'inserted', or 'duplicate' where one of the same place is there; it has an index all the same.
        Raises:
            ValueError: the shape is another, a coordinate is not finite, or floats come to whole numbers.
            OutOfRange: a point lies outside of the grid. Nothing is added.
            WantOfMemory, Full: as its `replies` tell, those before are added.
            KeyboardInterrupt: some are added, as `points` tells.
        """
        numbers, places = self._to_places(points)
        return self._made(_Adds(self, numbers, places), len(numbers), progress)

    def take(self, indices: ArrayLike, progress: bool = True) -> Words:
        """Takes points away.

        Args:
            indices: (k,) or one; of points that are there.
            progress: as of add.

        Returns:
            (k,) 'removed'; 'missing' where it went before; or 'flat' where the others would lie in one plane, and so
            the point stays.
        Raises:
            IndexError: there never was such a point. Nothing is taken.
            WantOfMemory, Full: as its `replies` tell, those before are taken.
            KeyboardInterrupt: some are taken, as `living` tells.
        """
        at = self._indices(indices)
        return self._made(_Takes(self, at), len(at), progress)

    def move(self, indices: ArrayLike, points: ArrayLike, progress: bool = True) -> Words:
        """Moves points to other places. A point keeps its index.

        Args:
            indices: (k,) or one; of points that are there.
            points: (k, 3), or (3,) for one; where they go.
            progress: as of add.

        Returns:
            (k,) 'moved'; 'occupied' where a point of the new place is there, itself too; 'missing' where it went; or
            'flat' where all would lie in one plane. But for 'moved' the point stays where it is.
        Raises:
            ValueError, OutOfRange: as of add. Nothing is moved.
            IndexError: there never was such a point. Nothing is moved.
            WantOfMemory, Full: as its `replies` tell, those before are moved.
            KeyboardInterrupt: some are moved, as `points` tells.
        """
        at = self._indices(indices)
        numbers, places = self._to_places(points)
        if len(at) != len(numbers):
            raise ValueError(f'{len(at)} points go to {len(numbers)} places')
        if len(at) > max(_FEW, int(self.living.sum()) // _ANEW):
            told = self._moved_anew(at, numbers, places)
            if told is not None:
                return told
        return self._made(_Moves(self, at, numbers, places), len(at), progress)

    def _moved_anew(self, at: Ints, numbers: Numbers, places: Ints) -> Words | None:
        """The replies of moves that are made all at once, by a mesh of the new places when one is wanted; None where it
        is not plain what they are one after another."""
        old, new, held = keys(self._places[at]), keys(places), self._held
        if held.several or not self.living[at].all() or len(np.unique(at)) < len(at) or len(np.unique(new)) < len(new):
            return None
        replies = np.full(len(at), 'moved', '<U9')
        if (held.first(new) >= 0).any():
            there = set(keys(self._places[self.living]).tolist())
            for k, (here, to) in enumerate(zip(old.tolist(), new.tolist())):
                if to in there:
                    replies[k] = 'occupied'
                else:
                    there.remove(here)
                    there.add(to)
        after = self._places.copy()
        moved = np.flatnonzero(replies == 'moved')
        after[at[moved]] = places[moved]
        if not _never_flat(self._places[self.living], after[self.living]):
            return None
        points = self.points.copy()
        points[at[moved]] = numbers[moved]
        self._forget()
        self._edited = self._known = None
        self.__dict__.update({'points': sealed(points), '_places': sealed(after)})
        return replies


def _never_flat(before: Ints, after: Ints) -> bool:
    """Whether four of the points are independent, wherever each of them is of its two places: then all are never in one
    plane, in whatever order they go."""
    chosen = [0]
    for _ in range(3):  # the farthest from the first, from the line of two, from the plane of three
        away = (before - before[chosen[0]]).astype(float)
        if len(chosen) == 2:
            away = cross(away, np.broadcast_to(away[chosen[1]], away.shape))
        if len(chosen) == 3:
            away = dot(away, np.broadcast_to(np.cross(away[chosen[1]], away[chosen[2]]), away.shape))[:, None]
        chosen.append(int(dot(away, away).argmax()))
    corners = np.stack([before[chosen], after[chosen]])
    each = np.array([[corners[side, k] for k, side in enumerate(sides)]
                     for sides in itertools.product((0, 1), repeat=4)])
    return bool((volumes(each.reshape(-1, 3), np.arange(64).reshape(16, 4)) != 0).all())


class _Adds:
    """Points that come."""
    handle: Edited
    held: Held

    def __init__(self, mesh: Edits, points: Numbers, places: Ints) -> None:
        self.mesh, self.points, self.places = mesh, points, places
        self.replies: list[str] = []

    def make(self, piece: slice) -> int:
        """Makes a piece of the edits, as far as none is refused: the status of the library."""
        replies, status = self.handle.edit(ADD, self.places[piece])
        where, first = keys(self.places[piece][:len(replies)]).tolist(), len(self.mesh.points) + piece.start
        if 'duplicate' in replies:
            for k, reply in enumerate(replies):
                if reply == 'duplicate':
                    self.held.joins(where[k], first + k)
                else:
                    self.held.come(where[k:k + 1], (first + k,))
        else:
            self.held.come(where, range(first, first + len(where)))
        self.replies.extend(replies)
        return status

    def told(self, replies: Words) -> dict[str, Numbers]:
        """What the mesh has after edits with these replies."""
        mesh, count = self.mesh, len(replies)
        return {'points': mesh._grown('points', self.points[:count]),
                '_places': mesh._grown('_places', self.places[:count]),
                'living': mesh._grown('living', np.ones(count, bool))}


class _Takes:
    """Points that go."""
    handle: Edited
    held: Held

    def __init__(self, mesh: Edits, indices: Ints) -> None:
        self.mesh, self.indices = mesh, indices
        self.living, self.at = mesh.living.copy(), mesh._places
        self.replies: list[str] = []

    def make(self, piece: slice) -> int:
        """Makes a piece of the edits, as far as none is refused: the status of the library."""
        indices = self.indices[piece]
        there = piece.start + np.flatnonzero(self.living[indices])  # those that went before never come again
        alive, several = self.indices[there], self.held.several
        plain = len(np.unique(alive)) == len(alive)
        if plain and not (several and any(key in several for key in keys(self.at[alive]).tolist())):
            told, status = self.many(there)
            count = len(indices) if not status else int(there[len(told)]) - piece.start
            replies = np.full(count, 'missing', '<U9')
            replies[there[:len(told)] - piece.start] = told
            self.replies.extend(replies.tolist())
            return status
        for k in range(piece.start, piece.stop):
            i = self.indices[k]
            key = int(keys(self.at[i:i + 1])[0])
            if not self.living[i]:
                one, status = ['missing'], 0
            elif key in several:
                one, status = self.one_of_several(k, key)
            else:
                one, status = self.many(np.array([k]))
            self.replies.extend(one)
            if status:
                return status
        return 0

    def many(self, chosen: Ints) -> tuple[list[str], int]:
        """Edits, by their numbers, of points that stand alone at their places, each of them once."""
        indices = self.indices[chosen]
        replies, status = self.handle.edit(TAKE, self.at[indices])
        gone = indices[:len(replies)][np.array(replies, '<U9') == 'removed']
        self.living[gone] = False
        self.held.go(keys(self.at[gone]).tolist())
        return replies, status

    def one_of_several(self, k: int, key: int) -> tuple[list[str], int]:
        """A point beside which others stand at its place."""
        self.living[self.indices[k]] = False
        self.held.leaves(key, int(self.indices[k]))
        return ['removed'], 0

    def told(self, replies: Words) -> dict[str, Numbers]:
        """What the mesh has after edits with these replies."""
        living = self.mesh.living.copy()
        living[self.indices[:len(replies)][replies == 'removed']] = False
        return {'living': living}


class _Moves(_Takes):
    """Points that go elsewhere."""

    def __init__(self, mesh: Edits, indices: Ints, points: Numbers, places: Ints) -> None:
        super().__init__(mesh, indices)
        self.at, self.points, self.places = mesh._places.copy(), points, places

    def many(self, chosen: Ints) -> tuple[list[str], int]:
        """Edits, by their numbers, of points that stand alone at their places, each of them once."""
        indices, places = self.indices[chosen], self.places[chosen]
        replies, status = self.handle.edit(MOVE, self.at[indices], places)
        moved = np.flatnonzero(np.array(replies, '<U9') == 'moved')
        from_, to = keys(self.at[indices[moved]]).tolist(), keys(places[moved]).tolist()
        for old, new, index in zip(from_, to, indices[moved].tolist()):  # one may come to where another was
            self.held.go((old,))
            self.held.come((new,), (index,))
        self.at[indices[moved]] = places[moved]
        return replies, status

    def one_of_several(self, k: int, key: int) -> tuple[list[str], int]:
        """A point beside which others stand at its place: the mesh keeps that one, and the new one comes."""
        replies, status = self.handle.edit(ADD, self.places[k:k + 1])
        if replies == ['inserted']:
            index = int(self.indices[k])
            self.at[index] = self.places[k]
            self.held.leaves(key, index)
            self.held.come(keys(self.places[k:k + 1]).tolist(), (index,))
        return [{'inserted': 'moved', 'duplicate': 'occupied'}[reply] for reply in replies], status

    def told(self, replies: Words) -> dict[str, Numbers]:
        """What the mesh has after edits with these replies."""
        moved = np.flatnonzero(replies == 'moved')
        points, places = self.mesh.points.copy(), self.mesh._places.copy()
        points[self.indices[moved]], places[self.indices[moved]] = self.points[moved], self.places[moved]
        return {'points': points, '_places': places}
