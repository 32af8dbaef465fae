"""Surfaces of alpha complexes, with points of their own. Python over the proved rows; tested."""
from __future__ import annotations

import os
from typing import Any, Callable

import numpy as np

from . import _adapters
from ._grid import cross, dot
from ._kept import kept, sealed
from ._kinds import Floats, Numbers, Rows


class Surface:
    """Triangles and just the points that they have.

    Attributes:
        points: (p, 3) floats, in the unit of the points of the mesh.
        triangles: (t, 3) int32, by numbers of these points, turned outwards.
        indices: (p,) the index of each in the mesh; -1 of a point in the middle of an edge that was split.

    >>> import hanskup
    >>> shape = hanskup.delaunay([[0., 0., 0.], [1, 0, 0], [0, 1, 0], [0, 0, 1], [9, 9, 9]]).alpha(1)
    >>> surface = shape.surface()
    >>> surface
    <hanskup.Surface: 4 points, 4 triangles, watertight>
    >>> round(surface.volume, 6), round(surface.area, 6)
    (0.166667, 2.366025)
    """

    def __init__(self, points: Floats, triangles: Rows, indices: Rows) -> None:
        self.points, self.triangles, self.indices = sealed(points), sealed(triangles), sealed(indices)

    def __repr__(self) -> str:
        return (f'<hanskup.Surface: {len(self.points)} points, {len(self.triangles)} triangles, '
                f'{"watertight" if self.is_watertight else "not watertight"}>')

    @kept
    def is_watertight(self) -> bool:
        """Whether each edge has as many triangles one way round as the other, so that it encloses a volume."""
        return bool((self._ways() == 0).all())

    @kept
    def is_manifold(self) -> bool:
        """Whether each edge has two triangles, one each way round, and those of each point are one round."""
        ends = np.sort(self._sides(), axis=1)
        _, counts = np.unique(ends[:, 0] << 32 | ends[:, 1], return_counts=True)
        if not (counts == 2).all() or not self.is_watertight:
            return False
        # At each point the edges across from it in its triangles are one ring: as many ends of paths, joined, as rings.
        return len(self.triangles) == 0 or self._rings() == len(self.points)

    def _rings(self) -> int:
        # How many rounds of triangles there are about all points.
        from ._manifold import paired, rounds_of
        triangles = self.triangles.astype(np.int64)
        pairs = paired(np.zeros((len(self.points), 3), np.int64), triangles)
        return int(rounds_of(pairs, triangles).max()) + 1

    def _sides(self) -> Numbers:
        corners = self.triangles.astype(np.int64)
        return np.concatenate([corners[:, [0, 1]], corners[:, [1, 2]], corners[:, [2, 0]]])

    def _ways(self) -> Numbers:
        # Of each edge how many more triangles go one way round.
        sides = self._sides()
        _, which = np.unique(np.sort(sides, axis=1) @ [1 << 32, 1], return_inverse=True)
        return np.bincount(which.reshape(-1), np.where(sides[:, 0] < sides[:, 1], 1, -1))

    @kept
    def volume(self) -> float:
        """What it encloses, in the cube of the unit of the points; of a surface that is not watertight it means
        nothing."""
        if not len(self.triangles):
            return 0.0
        a, b, c = (self.points[self.triangles[:, k]] - self.points[0] for k in range(3))
        return float(dot(a, cross(b, c)).sum()) / 6

    @kept
    def area(self) -> float:
        """In the square of the unit of the points."""
        a, b, c = (self.points[self.triangles[:, k]] for k in range(3))
        normals = cross(b - a, c - a)
        return float(np.sqrt(dot(normals, normals)).sum()) / 2

    def save(self, path: str | os.PathLike[str]) -> None:
        """Writes it into a file, as its name ends: .stl (binary), .ply, .obj, .off; .vtu, .vtk and others by meshio.

        Raises:
            ValueError: the ending is none of these, and meshio does not know it.
            ImportError: it is one of meshio's, which is not there.
            OSError: it cannot be written.

        >>> import hanskup, tempfile
        >>> shape = hanskup.delaunay(np.random.default_rng(1).random((50, 3))).alpha(1)
        >>> with tempfile.TemporaryDirectory() as folder:
        ...     shape.surface().save(folder + '/made.ply')
        ...     hanskup.read_points(folder + '/made.ply').shape == shape.surface().points.shape
        True
        """
        name = os.fspath(path)
        kinds: dict[str, Callable[[], bytes]] = {'.stl': self._stl, '.ply': self._ply, '.obj': self._obj,
                                                 '.off': self._off}
        kind = os.path.splitext(name)[1].lower()
        if kind in kinds:
            data = kinds[kind]()
            with open(name, 'wb') as file:
                file.write(data)
            return
        mesh = self.to_meshio()
        try:
            mesh.write(name)
        except OSError:
            raise
        except (SystemExit, Exception) as refused:  # pylint: disable=broad-except  # its writers have no one error
            raise ValueError(f'{name}: meshio does not write it: {refused}') from None

    def _stl(self) -> bytes:
        rows = np.zeros(len(self.triangles), np.dtype([('normal', '<f4', 3), ('at', '<f4', (3, 3)), ('rest', '<u2')]))
        rows['at'] = corners = self.points[self.triangles]
        normals = cross(corners[:, 1] - corners[:, 0], corners[:, 2] - corners[:, 0])
        rows['normal'] = normals / np.maximum(np.sqrt(dot(normals, normals)), 1e-300)[:, None]
        return b'hanskup'.ljust(80) + len(rows).to_bytes(4, 'little') + rows.tobytes()

    def _ply(self) -> bytes:
        head = ['ply', 'format binary_little_endian 1.0', f'element vertex {len(self.points)}', 'property double x',
                'property double y', 'property double z', f'element face {len(self.triangles)}',
                'property list uchar int vertex_indices', 'end_header', '']
        rows = np.zeros(len(self.triangles), np.dtype([('n', 'u1'), ('at', '<i4', 3)]))
        rows['n'], rows['at'] = 3, self.triangles
        return '\n'.join(head).encode() + self.points.astype('<f8').tobytes() + rows.tobytes()

    def _obj(self) -> bytes:
        lines = [f'v {x!r} {y!r} {z!r}' for x, y, z in self.points.tolist()]
        lines += [f'f {a} {b} {c}' for a, b, c in (self.triangles + 1).tolist()]
        return ('\n'.join(lines) + '\n').encode()

    def _off(self) -> bytes:
        lines = ['OFF', f'{len(self.points)} {len(self.triangles)} 0']
        lines += [f'{x!r} {y!r} {z!r}' for x, y, z in self.points.tolist()]
        lines += [f'3 {a} {b} {c}' for a, b, c in self.triangles.tolist()]
        return ('\n'.join(lines) + '\n').encode()

    def to_meshio(self) -> Any:
        """A meshio.Mesh of it. It needs meshio."""
        return _adapters.to_meshio(self.points, triangle=self.triangles)
