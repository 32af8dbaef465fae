"""The Delaunay triangulation of points in space, and its alpha complexes, by a proved library.

    import hanskup
    mesh = hanskup.delaunay(points)                # an array of shape (n, 3)
    mesh.simplices, mesh.neighbors, mesh.convex_hull
    shape = mesh.alpha(0.3)                        # a radius in the unit of the points; or alpha_shape(points, 0.3)
    triangles = shape.boundary()                   # shape.volume(), shape.area()
    shape.parts(), shape.voids()                   # of the solid, and what it encloses (scipy)
    mesh.optimal_alpha(parts=1)                    # the least radius with all points in so few parts
    mesh.solid_parts(0.3)                          # the tetrahedra, part by part
    mesh.filtration().to_gudhi()                   # a SimplexTree
    mesh.add(more), mesh.take(indices), mesh.move(indices, places)      # edits, each with its reply
    mesh.locate(places), mesh.nearest(places, k=3), mesh.find_simplex(places)
    mesh.interpolate(values)(places)               # linear, or method='natural'
    mesh.voronoi().volumes                         # scipy's names
    shape.surface(split=True).save('made.stl')     # manifold; .volume, .area, .is_watertight
    mesh.rounding                                  # what the grid did: spacing, turned, together
    mesh.to_meshio(), mesh.to_pyvista(), mesh.to_open3d()
    shape.to_meshio(), shape.to_trimesh(), shape.to_pyvista(), shape.to_open3d()

The library works on whole coordinates 0 to 16383. What it answers of those is proved; how points with real coordinates
are placed on that grid, and what this package computes from the answer (turns of simplices, boundaries, parts, Voronoi
regions, interpolation), is Python over the proved rows: it is tested, and not proved. The docstrings tell which.
"""
from ._errors import Flat, Full, HanskupError, OutOfRange, WantOfMemory
from ._files import read_points
from ._grid import Placing
from ._interpolate import Interpolator
from ._kinds import BEYOND_HULL, CELL, INTERIOR, POINT, REGULAR, SINGULAR
from ._looks import Located
from ._mesh import Delaunay, Mesh, RoundingWarning, alpha_shape, delaunay
from ._rounding import Rounding
from ._shape import Filtration, Shape, SolidParts, Voids
from ._surface import Surface
from ._version import __version__ as __version__
from ._voronoi import Voronoi

__all__ = ['delaunay', 'Delaunay', 'alpha_shape', 'read_points', 'Mesh', 'Shape', 'Surface', 'SolidParts', 'Voids',
           'Filtration', 'Located', 'Voronoi', 'Interpolator', 'Placing', 'Rounding', 'RoundingWarning', 'HanskupError',
           'Flat', 'Full', 'OutOfRange', 'WantOfMemory',
           'SINGULAR', 'REGULAR', 'INTERIOR', 'POINT', 'CELL', 'BEYOND_HULL']
