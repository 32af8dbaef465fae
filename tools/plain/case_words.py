"""Words of the cases of the program `worked_cases`, and what their makers ask of points, by the plain program of
`tools/try random`, which tries all quadruples and triples."""
from functools import cache

from plain import random_cases as plain

FOUR = [(0, 0, 0), (2, 0, 0), (0, 2, 0), (0, 0, 2)]


def word(p):
    return ','.join(map(str, p))


def words(points):
    return ' '.join(map(word, points))


def bucket_of(grid, p):
    x, y, z = (c * grid // 16384 for c in p)
    return (x * grid + y) * grid + z


@cache
def complex_of(ascending):
    return [*plain.full_cells(ascending), *plain.open_cells(ascending)]


def cells_of(points):
    """The cells of a set in their order: the Full ones, and then the Open ones."""
    return complex_of(tuple(sorted(points)))


def named(cases):
    """Each line of the input with its answer; before the first ones of a name stands the name, which is its own."""
    last = None
    for name, (asked, told) in cases:
        if name != last:
            yield (f'# {name}',) * 2
        last = name
        yield asked, told
