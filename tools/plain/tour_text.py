"""Makes the text that the program `tour` is to print, from the definitions alone, by the plain program of `tools/try
random`.

usage: tools/make tour
writes crates/tour/stdout
"""
import os
from itertools import product

from plain import random_cases as plain

TOP = os.path.join(os.path.dirname(os.path.realpath(__file__)), '../..')
FOUR = [(0, 0, 0), (20, 0, 0), (0, 20, 0), (0, 0, 20)]
CORNER = (20, 20, 20)
BESIDE = (1, 30, 30)
EDITS = [(True, CORNER), (True, CORNER), (False, CORNER), (False, (0, 0, 0))]


def cells_of(points):
    points = sorted(points)
    full, hull = sorted(plain.full_cells(points)), sorted(plain.open_cells(points))
    return ['[' + ', '.join(map(str, c)) + ']' for c in full] + ['[' + ', '.join(map(str, c)) + ', infinite]'
                                                                 for c in hull]


def triples_of(points, radius):
    """The lines of the admitted triangles, the number of admitted tetrahedra, and the length of the block, from the
    block of a shape."""
    points = sorted(points)
    index = {p: i for i, p in enumerate(points)}
    full, hull = list(plain.full_cells(points)), list(plain.open_cells(points))
    lines = list(plain.shape_lines(full, plain.faces_of(points, full, hull), index, radius))
    first = next(i for i, line in enumerate(lines) if line.startswith('triangles '))
    count = int(lines[first].split()[1])
    cells = int(lines[first + count + 1].split()[1])
    yield f'at {radius}: {cells} tetrahedra'
    for line in lines[first + 1:first + 1 + count]:
        *places, kind = line.split()
        yield f"at {radius}: [{', '.join(str(points[int(i)]) for i in places)}] {kind.capitalize()}"
    yield f'at {radius}: a block of {sum(len(line) + 1 for line in lines)} bytes'


def text():
    lines = [(True, p) for p in FOUR] + EDITS
    replies, _ = plain.replies_of(lines, range(len(lines)))
    five = [*FOUR, CORNER]
    yield from (f'edit {i}: {replies[i]}' for i in (4, 5))
    yield from (f'cell {c}' for c in cells_of(five))
    for radius in (270, 300):
        yield from triples_of(five, radius)
    taken = [c for c in cells_of(five) if c not in cells_of([*five, BESIDE])]
    assert len(taken) == 1
    yield f'{BESIDE} is in conflict with {taken[0]}'
    near = min(five, key=lambda p: (sum((a - b) ** 2 for a, b in zip(p, BESIDE)), p))
    yield f'{near} is the nearest point to {BESIDE}'
    yield from (f'edit {i}: {replies[i]}' for i in (6, 7))
    cubes = [(low + x, low + y, low + z) for low in (100, 16000) for x, y, z in product((0, 1), repeat=3)]
    yield '8 and 8 points were added side by side'
    yield f'a snapshot has {len(FOUR) + 16} entries and {len(cells_of(FOUR + cubes))} cells'
    yield f'the mesh has {len(FOUR) + 16} entries'


with open(os.path.join(TOP, 'crates/tour/stdout'), 'w', encoding='ascii') as sink:
    sink.write('\n'.join([*text(), '']))
