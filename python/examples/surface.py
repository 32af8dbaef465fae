"""A scan to a surface: the boundary of an alpha complex of points on a bumpy torus, and its picture."""
import pathlib
import subprocess
import sys

import numpy as np

import hanskup

scan = pathlib.Path(__file__).resolve().parents[2] / 'tools/example-surface'  # prints lines of X Y Z
text = subprocess.run([sys.executable, scan], capture_output=True, check=True).stdout
points = np.array(text.split(), dtype=float).reshape(-1, 3)
mesh = hanskup.delaunay(points)
shape = mesh.alpha(0.45)
triangles = shape.boundary()
print(f'{len(points)} points, rounded by {mesh.rounding:.1g}: {len(shape.tetrahedra)} tetrahedra, '
      f'{len(triangles)} triangles of the boundary')
if __name__ == '__main__' and len(sys.argv) > 1:
    from matplotlib import pyplot
    axes = pyplot.figure(figsize=(6, 4)).add_subplot(projection='3d', proj_type='ortho')
    axes.plot_trisurf(*points.T, triangles=triangles)
    axes.set_aspect('equal')
    axes.axis('off')
    pyplot.savefig(sys.argv[1], bbox_inches='tight')
