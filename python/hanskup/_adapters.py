"""What other packages take: each is imported when it is asked for."""
from __future__ import annotations

import importlib
import importlib.util
from typing import TYPE_CHECKING, Any

import numpy as np

from ._kinds import Numbers, Rows

if TYPE_CHECKING:
    from ._shape import Filtration

_TETRAHEDRON = 10  # the number of this kind of cell in VTK


def module(name: str) -> Any:
    """A package that is imported when it is asked for. Raises ImportError."""
    return importlib.import_module(name)


def has_scipy() -> bool:
    """Whether scipy is there."""
    return importlib.util.find_spec('scipy') is not None


def to_meshio(points: Numbers, **cells: Rows) -> Any:
    """A meshio.Mesh of points and of cells by their kinds."""
    return module('meshio').Mesh(points.astype(float), [(kind, rows.copy()) for kind, rows in cells.items()])


def to_trimesh(points: Numbers, triangles: Rows) -> Any:
    """A trimesh.Trimesh of triangles, with just their points."""
    used, faces = np.unique(triangles, return_inverse=True)
    return module('trimesh').Trimesh(points[used].astype(float), faces.reshape(-1, 3), process=False)


def _with_sizes(rows: Rows) -> Rows:
    # The rows as VTK has them: each with its length at its front.
    return np.column_stack([np.full(len(rows), rows.shape[1], rows.dtype), rows]).reshape(-1)


def surface_to_pyvista(points: Numbers, triangles: Rows) -> Any:
    """A pyvista.PolyData of triangles."""
    return module('pyvista').PolyData(points.astype(float), _with_sizes(triangles))


def solid_to_pyvista(points: Numbers, tetrahedra: Rows) -> Any:
    """A pyvista.UnstructuredGrid of tetrahedra."""
    kinds = np.full(len(tetrahedra), _TETRAHEDRON, np.uint8)
    return module('pyvista').UnstructuredGrid(_with_sizes(tetrahedra), kinds, points.astype(float))


def _open3d_vectors(points: Numbers, rows: Rows) -> tuple[Any, Any]:
    # Points and rows of three or four of their indices, as the fields of open3d's meshes.
    vectors = module('open3d').utility
    made = vectors.Vector3iVector if rows.shape[1] == 3 else vectors.Vector4iVector
    return vectors.Vector3dVector(points.astype(float)), made(rows.astype(np.int32))


def surface_to_open3d(points: Numbers, triangles: Rows) -> Any:
    """An open3d.geometry.TriangleMesh of triangles, with just their points."""
    used, faces = np.unique(triangles, return_inverse=True)
    return module('open3d').geometry.TriangleMesh(*_open3d_vectors(points[used], faces.reshape(-1, 3)))


def solid_to_open3d(points: Numbers, tetrahedra: Rows) -> Any:
    """An open3d.geometry.TetraMesh of tetrahedra."""
    return module('open3d').geometry.TetraMesh(*_open3d_vectors(points, tetrahedra))


def to_gudhi(filtration: Filtration) -> Any:
    """A gudhi.SimplexTree of a filtration."""
    tree = module('gudhi').SimplexTree()
    for faces, alphas in ((filtration.points[:, None], filtration.point_alphas[:, 0]),
                          (filtration.edges, filtration.edge_alphas[:, 0]),
                          (filtration.triangles, filtration.triangle_alphas[:, 0]),
                          (filtration.tetrahedra, filtration.tetrahedron_alphas)):
        tree.insert_batch(np.array(faces.T, np.int32, order='C'), np.array(alphas))
    return tree
