"""Points from files: of numpy, text, LAS, PLY, and what meshio reads."""
from __future__ import annotations

import os
import re
import struct
from typing import Any

import numpy as np

from ._adapters import module
from ._kinds import Floats, Numbers

_PLY = {'char': 'i1', 'int8': 'i1', 'uchar': 'u1', 'uint8': 'u1', 'short': 'i2', 'int16': 'i2', 'ushort': 'u2',
        'uint16': 'u2', 'int': 'i4', 'int32': 'i4', 'uint': 'u4', 'uint32': 'u4', 'float': 'f4', 'float32': 'f4',
        'double': 'f8', 'float64': 'f8'}
_TEXT = ('.xyz', '.txt', '.csv', '.pts', '.asc')


def read_points(path: str | os.PathLike[str]) -> Numbers:
    """The points of a file, (n, 3), by how its name ends.

    Args:
        path: .npy, which is not read until it is used; .xyz, .txt, .csv, .pts or .asc: three numbers a line, with any
            header, others behind them, or an atom's name before them; .las; .ply; or any other that meshio reads.

    Raises:
        FileNotFoundError: it is not there.
        ValueError: it is not what its name says, or has no points.

    >>> import tempfile
    >>> with tempfile.NamedTemporaryFile('w', suffix='.xyz') as file:
    ...     written, _ = file.write('x y z\\n1 2 3\\n4 5 6.5\\n'), file.flush()
    ...     read_points(file.name)
    array([[1. , 2. , 3. ],
           [4. , 5. , 6.5]])
    """
    name = os.fspath(path)
    if not os.path.exists(name):
        raise FileNotFoundError(f'{name}: no such file')
    kind = os.path.splitext(name)[1].lower()
    if kind == '.npy':
        array: Numbers = np.load(name, mmap_mode='r', allow_pickle=False)
        if array.ndim != 2 or array.shape[1] != 3:
            raise ValueError(f'{name}: points are an array of shape (n, 3), and not {array.shape}')
        return array
    if kind in _TEXT:
        return _of_text(name)
    if kind in ('.las', '.ply'):
        with open(name, 'rb') as file:
            return (_of_las if kind == '.las' else _of_ply)(file.read(), name)
    try:
        mesh: Any = module('meshio').read(name)
    except ImportError:
        raise ValueError(f'{name}: files of {kind or "no ending"} are read by meshio, which is not installed') from None
    except (SystemExit, Exception) as refused:  # pylint: disable=broad-except  # its readers have no one error
        raise ValueError(f'{name}: meshio does not read it: {refused}') from None
    return np.asarray(mesh.points, float)


def _of_text(name: str) -> Floats:
    # By numpy from the first line on that has three numbers, with or without a name before them.
    with open(name, encoding='utf-8-sig', errors='replace') as file:
        head = [file.readline() for _ in range(40)]
    comma = ',' if any(',' in line for line in head) else ';' if any(';' in line for line in head) else None
    for skipped, line in enumerate(head):
        words = line.split(comma)
        for first in (0, 1):
            if len(words) >= first + 3 and all(_is_number(word) for word in words[first:first + 3]):
                return _loaded(name, skipped, comma, first)
    raise ValueError(f'{name}: no line with three numbers')


def _is_number(word: str) -> bool:
    try:
        float(word)
    except ValueError:
        return False
    return True


def _loaded(name: str, skipped: int, comma: str | None, first: int) -> Floats:
    try:
        made: Floats = np.loadtxt(name, skiprows=skipped, delimiter=comma, usecols=range(first, first + 3), ndmin=2,
                                  encoding='utf-8-sig')
    except (ValueError, IndexError) as refused:
        raise ValueError(f'{name}: {refused}') from None
    return made


def _of_las(data: bytes, name: str) -> Floats:
    # Whole numbers by the scales and offsets of its header.
    if len(data) < 227 or data[:4] != b'LASF':
        raise ValueError(f"{name}: no LAS, whose header begins with 'LASF'")
    first, form, wide, count = struct.unpack('<I4xBHI', data[96:111])
    if data[24:26] >= b'\1\4' and len(data) >= 255:
        count = struct.unpack('<Q', data[247:255])[0] or count
    if form & 0xc0:
        raise ValueError(f'{name}: a compressed LAS (LAZ): write it as LAS, by laszip or pdal translate')
    if wide < 12 or first + count * wide > len(data):
        raise ValueError(f'{name}: {count} points of {wide} bytes were announced, and the file ends before')
    rows = np.frombuffer(data, np.dtype(('V', wide)), count, first)
    scales, offsets = np.frombuffer(data, '<f8', 6, 131).reshape(2, 3)
    made: Floats = np.ndarray((count, 3), '<i4', rows, strides=(wide, 4)) * scales + offsets
    return made


def _of_ply(data: bytes, name: str) -> Floats:
    # Its vertices, whatever else it has; they stand first, as nearly everywhere.
    head = re.match(rb'ply\r?\n.*?end_header\r?\n', data, re.S)
    lines = [line.split() for line in (head[0].decode('ascii', 'replace') if head else '').splitlines()]
    at = next((k for k, words in enumerate(lines) if words[:1] == ['element']), None)
    if head is None or at is None or lines[at][1] != 'vertex':
        raise ValueError(f'{name}: no PLY whose first element are its vertices')
    order = next(({'ascii': '', 'binary_little_endian': '<', 'binary_big_endian': '>'}.get(words[1])
                  for words in lines if words[0] == 'format'), None)
    fields = []
    for words in lines[at + 1:]:
        if words[0] != 'property':
            break
        fields.append((words[-1], _PLY.get(words[1])))
    names, count = [field for field, _ in fields], int(lines[at][2])
    if order is None or not {'x', 'y', 'z'} <= set(names) or None in dict(fields).values():
        raise ValueError(f'{name}: its vertices have no x, y and z that are read')
    if order:
        kind = np.dtype([(field, order + str(of)) for field, of in fields])
        if len(data) < head.end() + count * kind.itemsize:
            raise ValueError(f'{name}: {count} points were announced, and the file ends before')
        rows = np.frombuffer(data, kind, count, head.end())
        return np.column_stack([rows[axis].astype(float) for axis in 'xyz'])
    text = data[head.end():].split(b'\n', count)[:count]
    made: Floats = np.loadtxt(text, usecols=[names.index(axis) for axis in 'xyz'], ndmin=2)
    return made
