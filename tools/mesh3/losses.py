"""What a cloud loses on the grid, and which points are left out before: told on standard error, with what helps."""
import sys

import numpy as np
from mesh3 import GREATEST, called
from mesh3.clouds import warn

FAR = 10.0  # a point so many times as far from the middle as half of the points are is an outlier
STEEP = 100.0  # a cloud so many times as high as it is wide, by numbers that degrees may be, is asked about
UNITS = (1.0, 0.1, 0.01, 0.001)


def distances(points):
    """How far each point is from the middle, the medians of the coordinates."""
    return np.linalg.norm(points - np.median(points, axis=0), axis=1)


def one_a_cube(points, length):
    """Of the points in each cube with edges of a length the first, in their order; the cubes begin at the least
    coordinates."""
    cubes = np.floor((points - points.min(axis=0)) / length)
    _, first = np.unique(cubes, axis=0, return_index=True)
    return points[np.sort(first)]


def unit_of(points):
    """The greatest of some units of which all coordinates are multiples, if the grid has enough of it; else None."""
    low, extent = points.min(axis=0), (points.max(axis=0) - points.min(axis=0)).max()
    for unit in UNITS:
        steps = (points - low) / unit
        if extent / unit <= GREATEST and np.abs(steps - np.rint(steps)).max() < 1e-6:
            return unit
    return None


def seems_degrees(points):
    """Whether x and y may be degrees of longitude and latitude beside z in metres."""
    extents = points.max(axis=0) - points.min(axis=0)
    wide = extents[:2].max()
    return bool((np.abs(points[:, :2]) <= [180, 90]).all() and wide > 0 and extents[2] > STEEP * wide)


def remedy_for(points, scale):
    """What helps a cloud that the grid spoils."""
    if seems_degrees(points):
        return 'are x and y degrees beside z in metres? then bring them to metres first, as by cs2cs or pyproj'
    away = distances(points)
    if away.max() > FAR * np.median(away):
        return '--drop-outliers leaves far points out, --box takes a part'
    unit = unit_of(points)
    low = ' '.join(f'{x:.10g}' for x in points.min(axis=0))
    keeps = f', or the unit of its numbers by --scale {1 / unit:g} --origin {low}' if unit else ''
    return f'the grid has 14 bits, steps of {1 / scale:.3g} here: take a part by --box{keeps}'


def warn_of_loss(points, exact, whole, scale):
    """Tells how many points were given again, how many others fell together and the greatest rounding, and warns where
    it is too much. `exact` are the places on the grid before they are rounded to `whole`."""
    distinct, first = np.unique(points, axis=0, return_index=True)
    together = len(distinct) - len(np.unique(whole[first], axis=0))
    moved = np.abs(exact - whole).max(axis=0) / scale
    print(f'{called()}: {len(points)} points, {len(points) - len(distinct)} given again, {together} fell together on '
          f"the grid; greatest rounding {moved.max():.3g} of the input's units", file=sys.stderr)
    extents = points.max(axis=0) - points.min(axis=0)
    spoilt = [(axis, move, extent) for axis, move, extent in zip('xyz', moved, extents) if move * 1000 > extent]
    remedy = remedy_for(distinct, scale) if spoilt or together * 100 > len(distinct) else ''
    if together * 100 > len(distinct):
        warn(f'warning: {together * 100 / len(distinct):.3g} % of the points fell together on the grid: {remedy}')
    for axis, move, extent in spoilt:
        warn(f'warning: {axis} is rounded by up to {move:.3g} of its {extent:.3g}: {remedy}')
    if len(distinct) < 4:
        warn(f'warning: {len(distinct)} points: `delaunay` wants at least four that do not lie in one plane')
    elif np.linalg.matrix_rank((whole - whole[0]).astype(float)) < 3:
        warn('warning: all points come to lie in one plane: `delaunay` finds no four independent points in it')
