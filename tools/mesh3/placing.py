"""The placing of a cloud on the grid of whole coordinates, as `tools/points` keeps it for the way back."""
import json

import numpy as np
from mesh3 import GREATEST, Trouble, read_bytes


class Placing:
    """How a cloud was moved and scaled onto the grid: grid = (user - origin) * scale.

    `radii` has a pair for each radius: its length in the user's units, and the number of its line in the edit file,
    which heads its block of the report.
    """

    def __init__(self, origin, scale, radii=()):
        self.origin = np.asarray(origin, dtype=float)
        self.scale = float(scale)
        self.radii = list(radii)

    def to_grid(self, points):
        return (points - self.origin) * self.scale

    def to_user(self, points):
        return points / self.scale + self.origin

    def number_of(self, radius):
        """The number by which the report calls a radius in the user's units, or None where no such radius was given."""
        return next((number for length, number in self.radii if np.isclose(length, radius, rtol=1e-9, atol=0)), None)

    def length_of(self, number):
        """The radius in the user's units that the report calls by this number, or None."""
        return next((length for length, of in self.radii if of == number), None)

    def write(self, name):
        radii = [{'radius': length, 'line': number} for length, number in self.radii]
        with open(name, 'w', encoding='ascii') as file:
            json.dump({'origin': self.origin.tolist(), 'scale': self.scale, 'radii': radii}, file)
            file.write('\n')

    @staticmethod
    def read(name):
        try:
            placing = json.loads(read_bytes(name))
            origin, scale = [float(x) for x in placing['origin']], float(placing['scale'])
            radii = [(float(pair['radius']), int(pair['line'])) for pair in placing.get('radii', [])]
        except (ValueError, KeyError, TypeError):
            raise Trouble(f'{name}: no placing of tools/points') from None
        if len(origin) != 3 or not np.isfinite(origin + [scale]).all() or scale <= 0:
            raise Trouble(f'{name}: no placing of tools/points')
        return Placing(origin, scale, radii)

    @staticmethod
    def onto_grid(points):
        """The placing that fits a cloud into the range, by one factor for all axes."""
        low, high = points.min(axis=0), points.max(axis=0)
        extent = float((high - low).max())
        scale = GREATEST / extent if extent > 0 else 1.0
        if not 0 < scale < np.inf:
            raise Trouble(f'the cloud is {extent:.3g} wide, which is no width for its numbers: take another unit')
        return Placing(low, scale)


def chosen(report, radius, placing):
    """The number of the shape that `--radius` asks for, or None where it is left out.

    With a placing it is a length in the user's units, where one of its radii has it; else the number that the report
    has.
    """
    if radius is None:
        return None
    try:
        length = float(radius)
    except ValueError:
        raise Trouble(f'--radius {radius}: a number was expected') from None
    number = placing.number_of(length) if placing else None
    if number is not None:
        return number
    if placing and length not in [shape.radius for shape in report.shapes]:
        known = ', '.join(f'{known:g}' for known, _ in placing.radii) or 'none'
        raise Trouble(f'--radius {radius}: the placing has the radii {known}, the report {report.numbers() or "none"}')
    if length != int(length):
        raise Trouble(f'--radius {radius}: a length in the units of the cloud wants the --placing of tools/points')
    return int(length)
