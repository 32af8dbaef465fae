"""How a cloud is cut into tiles: boxes that share no place of the grid and have all, each wider by a halo."""
from __future__ import annotations

import json
import os
import re
from typing import Any, NamedTuple

import numpy as np
import numpy.typing as npt

from ._errors import BEYOND_GRID, GREATEST, Flat, OutOfRange
from ._grid import Placing
from ._kinds import ArrayLike, Bools, Ints, Numbers
from ._numbers import numbers_of, real, whole
from ._placing import placed

_PIECE = 1 << 20  # points at a time
_SAMPLE = 200_000  # points by which the cuts are laid

MARK = 'hanskup-tiles'  #: the file by which a folder is known to be of a run in tiles
_OF_A_RUN = re.compile(r'plan\.json(\.new)?|'
                       r'(\d{5}\.(places|numbers|cells\.npy|left|mesh)|left\.(cells|hull)\.npy)(\.\d+)?')

Columns = list[npt.NDArray[np.int16]]  # of points the coordinates along each axis


class Plan(NamedTuple):
    """What is known of a cut cloud: it stands in the folder's plan.json."""
    points: int  #: how many were given
    placing: Placing | None  #: how they were placed, or None where they were whole numbers
    cores: Ints  #: (t, 2, 3) the low and the high corner of each tile without its halo, both its own
    boxes: Ints  #: (t, 2, 3) and with it
    held: Ints  #: (t, 2, 3) the least box of the points in each core; where it has none its low corner is above

    @property
    def kind(self) -> Any:
        """The type of indices of points."""
        return np.int32 if self.points < 1 << 31 else np.int64

    def save(self, folder: str) -> None:
        """Into the folder's plan.json, at once."""
        told = {'points': self.points, 'unit': self.placing.unit if self.placing else None,
                'origin': self.placing.origin.tolist() if self.placing else None,
                **{name: getattr(self, name).tolist() for name in ('cores', 'boxes', 'held')}}
        path = os.path.join(folder, 'plan.json')
        with open(f'{path}.new', 'w', encoding='utf8') as file:
            json.dump(told, file)
        os.replace(f'{path}.new', path)

    @classmethod
    def load(cls, folder: str) -> Plan:
        """From the folder's plan.json. Raises FileNotFoundError where no cloud was cut into it."""
        with open(os.path.join(folder, 'plan.json'), encoding='utf8') as file:
            told = json.load(file)
        placing = Placing(np.array(told['origin']), told['unit']) if told['unit'] else None
        return cls(told['points'], placing, *(np.array(told[name], np.int64) for name in ('cores', 'boxes', 'held')))


def _checked(points: ArrayLike, unit: float | None) -> tuple[Numbers, Placing | None]:
    # The points as an array, and how they are placed: as delaunay does it, with no copy of them.
    array = numbers_of(points)
    if array.ndim != 2 or array.shape[1] != 3:
        raise ValueError(f'points are an array of shape (n, 3), and not {array.shape}')
    if not len(array):
        raise Flat('there are no points')
    ends = np.stack([array.min(axis=0), array.max(axis=0)])
    if array.dtype.kind != 'f':
        if unit is not None:
            raise ValueError('whole numbers are taken as they are: no unit')
        if ends.min() < 0 or ends.max() > GREATEST:
            raise OutOfRange(BEYOND_GRID)
        return array, None
    if not np.isfinite(ends).all():
        raise ValueError('a point is not finite')
    return array, placed(array, unit)


def _on_grid(points: Numbers, placing: Placing | None) -> Ints:
    return placing.to_grid(points.astype(float)) if placing else points.astype(np.int64)


def _columns(points: Numbers, placing: Placing | None) -> Columns:
    # The coordinates of points on the grid, those of an axis side by side.
    placed_points = placing.to_grid(points.astype(float)) if placing else points
    return [placed_points[:, axis].astype(np.int16) for axis in range(3)]


def _within(columns: Columns, low: Ints, high: Ints) -> Bools:
    """Of each point whether a box has it."""
    chosen = np.ones(len(columns[0]), bool)
    for column, least, most in zip(columns, low.tolist(), high.tolist()):
        if least > 0:
            chosen &= column >= least
        if most < GREATEST:
            chosen &= column <= most
    return chosen


def _split(core: Ints, sample: Ints, count: int) -> list[Ints]:
    """A box in so many parts with about as many points of the sample each, cut across the longest side of these."""
    if count == 1:
        return [core]
    low, high = core
    sides = np.ptp(sample, axis=0) if len(sample) else high - low
    axis = int(np.argmax(np.where(high > low, sides, -1)))
    if low[axis] == high[axis]:
        raise ValueError('there are more tiles than places')
    share = count // 2
    line, place = sample[:, axis], len(sample) * share // count
    wanted = int(np.partition(line, place)[place]) if len(line) else int(low[axis] + high[axis] + 1) // 2
    first = min(max(wanted, int(low[axis]) + 1), int(high[axis]))  # the first place of the second part
    below, above = core.copy(), core.copy()
    below[1, axis], above[0, axis] = first - 1, first
    chosen = sample[:, axis] < first
    return _split(below, sample[chosen], share) + _split(above, sample[~chosen], count - share)


def _widened(core: Ints, sample: Ints, share: float, halo: float) -> Ints:
    # The core and a halo of so many spacings of its points, of which the sample has a share.
    own = sample[((sample >= core[0]) & (sample <= core[1])).all(axis=1)]
    room = np.prod(np.ptp(own, axis=0) + 1.0) if len(own) else 0.0
    width = int(np.ceil(halo * (room * share / max(len(own), 1)) ** (1 / 3)))
    wide: Ints = np.clip(np.stack([core[0] - width, core[1] + width]), 0, GREATEST)
    return wide


class _Files:
    """The files of the points of each tile, and the least boxes of those in the cores."""

    def __init__(self, folder: str, cores: Ints, boxes: Ints) -> None:
        self.folder, self.cores, self.boxes = folder, cores, boxes
        self.held = np.stack([np.full_like(cores[:, 0], GREATEST + 1), np.full_like(cores[:, 1], -1)], axis=1)
        for tile in range(len(cores)):
            for path in paths_of(folder, tile):
                open(path, 'wb').close()

    def put(self, columns: Columns, numbers: Numbers, first: int, last: int) -> None:
        """Points, each to the tiles first to last - 1 whose boxes have it."""
        low, high = self.boxes[first:last, 0].min(axis=0), self.boxes[first:last, 1].max(axis=0)
        if low.any() or (high < GREATEST).any():
            chosen = np.flatnonzero(_within(columns, low, high))
            columns, numbers = [column.take(chosen) for column in columns], numbers.take(chosen)
        if last - first > 1:
            middle = first + (last - first) // 2
            self.put(columns, numbers, first, middle)
            self.put(columns, numbers, middle, last)
        elif len(numbers):
            self._append(columns, numbers, first)

    def _append(self, columns: Columns, numbers: Numbers, tile: int) -> None:
        for path, rows in zip(paths_of(self.folder, tile), (np.stack(columns, axis=1), numbers)):
            with open(path, 'ab') as file:
                rows.tofile(file)
        own = np.flatnonzero(_within(columns, *self.cores[tile]))
        if len(own):
            for axis, column in enumerate(columns):
                there = column.take(own)
                self.held[tile, 0, axis] = min(self.held[tile, 0, axis], there.min())
                self.held[tile, 1, axis] = max(self.held[tile, 1, axis], there.max())


def paths_of(folder: str, tile: int) -> tuple[str, str]:
    """The files of the places and of the indices of the points of a tile."""
    return os.path.join(folder, f'{tile:05}.places'), os.path.join(folder, f'{tile:05}.numbers')


def points_of(folder: str, tile: int, plan: Plan) -> tuple[Ints, Ints]:
    """The places of a tile, each once, ascending, and the index of the first point that was given at each."""
    places, numbers = (np.fromfile(path, kind) for path, kind in zip(paths_of(folder, tile), (np.int16, plan.kind)))
    wide = places.reshape(-1, 3).astype(np.int64)
    _, first = np.unique((wide[:, 0] << 28) + (wide[:, 1] << 14) + wide[:, 2], return_index=True)
    return wide[first], numbers[first].astype(np.int64)


def _cleared(folder: str) -> None:
    """Makes a folder for the files of a run, with a mark in it; in one that has the mark it takes an earlier run's
    files away, and nothing else. Raises FileExistsError for a folder that has files of others."""
    os.makedirs(folder, exist_ok=True)
    names, mark = os.listdir(folder), os.path.join(folder, MARK)
    if names and MARK not in names:
        raise FileExistsError(f'{folder}: files are there that no run in tiles made, and nothing is done to them: name '
                              'a folder that is new, empty or of an earlier run')
    with open(mark, 'w', encoding='utf8') as file:
        file.write('Files of a run of hanskup.tiles. The next run into this folder takes them away.\n')
    for name in names:
        path = os.path.join(folder, name)
        if _OF_A_RUN.fullmatch(name) and os.path.isfile(path):
            os.remove(path)


def cut(points: ArrayLike, folder: str, count: int = 8, halo: float = 1.0, unit: float | None = None) -> Plan:
    """Cuts a cloud into tiles, and writes the points of each into a folder, which is made where it is missing.

    Args:
        points: (n, 3), as delaunay takes them; a file that `numpy.load(path, mmap_mode='r')` gives is read in pieces.
        folder: for the files of the run: new, empty, or of an earlier run, whose files are taken away. A mark tells it.
        count: how many tiles; each gets about as many points.
        halo: how far each tile sees beyond its own box, in mean spacings of its points.
        unit: as of delaunay.

    Raises:
        ValueError, OutOfRange, Flat: as delaunay, of the shape, the coordinates and no points; or there are more tiles
            than places, no tiles, or a halo below 0.
        FileExistsError: the folder has files that are of no run in tiles. Nothing is done to them.
    """
    count, halo = whole(count, 'the number of tiles'), real(halo, 'a halo')
    if count < 1 or not halo >= 0:
        raise ValueError('there is one tile at least, and a halo is 0 or more')
    array, placing = _checked(points, unit)
    _cleared(folder)
    drawn = np.random.default_rng(0).integers(0, len(array), _SAMPLE) if len(array) > _SAMPLE else np.arange(len(array))
    sample = _on_grid(array[np.unique(drawn)], placing)
    cores = np.array(_split(np.array([[0] * 3, [GREATEST] * 3]), sample, count))
    boxes = np.array([_widened(core, sample, len(sample) / len(array), halo) for core in cores])
    plan = Plan(len(array), placing, cores, boxes, cores)
    files = _Files(folder, cores, boxes)
    for start in range(0, len(array), _PIECE):
        columns = _columns(array[start:start + _PIECE], placing)
        files.put(columns, np.arange(start, start + len(columns[0]), dtype=plan.kind), 0, count)
    plan = plan._replace(held=files.held)
    plan.save(folder)
    return plan
