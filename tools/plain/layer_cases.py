"""Makes the cases of the lowest layers, which `tools/make cases` puts into the input of the program `worked_cases`, and
the text that is to be printed, from the definitions alone.

Keys are counted, orientations and spheres are determinants of whole numbers, squared radii are fractions, complexes and
what is Gabriel in them are those of the plain program of `tools/try random`, and ends are played call by call. Most
cases have besides what was worked by hand, or by another program, when they were written: the two must agree.

usage: tools/make layers
prints each case with its answer below it
"""
import math
from itertools import combinations, product

from plain import random_cases as plain

NONE, FAR = 1 << 34, 16383
LAST, MAX = (FAR, FAR, FAR), (1 << 64) - 1
A, B, C, D = FOUR = [(0, 0, 0), (0, 0, 2), (0, 2, 0), (2, 0, 0)]
CUBE = [(x, y, z) for x in (0, 2) for y in (0, 2) for z in (0, 2)]
INNER = [A, B, C, (1, 1, 1), D]
TWENTY = [(0, 0, 0), (0, 0, 20), (0, 20, 0), (20, 0, 0), (20, 20, 20)]
CUT = [(2, 0, 0), (0, 2, 0), (0, 0, 2)]
BYTES = '0123456789abcdefghijklmnopqrst'


# ---- words

def words(points):
    return ' '.join(','.join(map(str, p)) for p in points)


def told(points):
    return '[' + ', '.join(map(str, points)) + ']'


def cell_text(cell):
    return told(cell) if len(cell) == 4 else told([*cell, 'infinite']).replace("'", '')


def truth(value):
    return 'true' if value else 'false'


def agree(told_here, worked):
    assert worked is None or told_here == worked, (told_here, worked)
    return told_here


# ---- points and cells

def key_case(place, worked=None):
    x, y, z = place
    wrong = [(i, c) for i, c in enumerate(place) if not 0 <= c <= FAR]
    got = agree(wrong[0] if wrong else (x << 28) + (y << 14) + z, worked)
    if wrong:
        return f'key {x} {y} {z}', 'coordinate %d is %d, and not 0 to 16383' % got
    return f'key {x} {y} {z}', f'key {got} of {x} {y} {z}'


def facets(cell):
    """Facet i lacks the point i; of three points each lacks one, with the infinite vertex; the last is the three."""
    without = [[p for p in cell if p != q] for q in cell]
    return list(map(told, without)) if len(cell) == 4 else [*map(pair_text, without), told(cell)]


def pair_text(pair):
    return '[%s, %s, infinite]' % tuple(pair)


def cell_case(points, p):
    cell = sorted(points)
    return (f'cell {words(points)}; {words([p])}',
            f'{cell_text(cell)} with {" ".join(facets(cell))}; {p} is its own: {truth(p in points)}')


def order_case(lists):
    def rank(points):
        return len(points) == 3, sorted(points)
    marks = [''.join('<' if rank(a) < rank(b) else '=' if rank(a) == rank(b) else '>' for b in lists) for a in lists]
    sorts = sorted({(rank(c)[0], tuple(sorted(c))) for c in lists})
    return ('order ' + '; '.join(map(words, lists)),
            ' '.join([*marks, 'in order', *(cell_text(cell) for _, cell in sorts)]))


def trial_case(points):
    left = sorted(set(points))
    cells = [*plain.full_cells(left), *plain.open_cells(left)]
    return f'trial {words(points)}', ' '.join(['cells', *map(cell_text, cells)])


def cloud_case(points):
    """The same at once, of points that are not of one plane."""
    line, answer = trial_case(points)
    return 'cloud' + line.removeprefix('trial'), answer if plain.is_solid(sorted(set(points))) else 'no case'


# ---- predicates

def determinant(rows):
    if len(rows) == 1:
        return rows[0][0]
    return sum((-1) ** i * row[0] * determinant([r[1:] for j, r in enumerate(rows) if j != i])
               for i, row in enumerate(rows))


def orientation(a, *others):
    return determinant([plain.minus(p, a) for p in others])


def sphere(a, *others):
    """The orientation of five points lifted to the paraboloid of squares."""
    return determinant([(*plain.minus(p, a), plain.dot(p, p) - plain.dot(a, a)) for p in others])


def is_outside(a, b, c, d, e):
    return plain.outside(a, b, c, d, e) if orientation(a, b, c, d) > 0 else plain.outside(b, a, c, d, e)


def is_conflict(cell, mate, p):
    if len(cell) == 4:
        return not is_outside(*cell, p)
    sides = orientation(*cell, mate) * orientation(*cell, p)
    return sides < 0 or (sides == 0 and not is_outside(*cell, mate, p))


def orient_case(points, worked):
    return f'orient {words(points)}', str(agree(orientation(*points), worked))


def line_case(points, worked):
    a, b, c = points
    u, v = plain.minus(b, a), plain.minus(c, a)
    minors = [u[i] * v[j] - u[j] * v[i] for i, j in combinations(range(3), 2)]
    return f'collinear {words(points)}', truth(agree(not any(minors), worked))


def sphere_case(points, e, worked):
    return f'sphere {words(points)} {words([e])}', str(agree(sphere(*points, e), worked))


def side_case(points, e, worked):
    return f'outside {words(points)} {words([e])}', truth(agree(is_outside(*points, e), worked))


def conflict_case(cell, mate, p, worked):
    return f'conflict {words(cell)}; {words([mate, p])}', truth(agree(is_conflict(cell, mate, p), worked))


# ---- smallest spheres

def square_of(face):
    return None if len(face) == 3 and plain.collinear(*face) else plain.smallest_sphere(face)[0]


def inside_case(face, e, worked):
    square, centre = (None, None) if square_of(face) is None else plain.smallest_sphere(face)
    away = plain.minus(e, centre) if centre else None
    is_inside = square is not None and plain.dot(away, away) < square
    return f'inside {words(face)}; {words([e])}', truth(agree(is_inside, worked))


def boxed_case(cell, low, high, worked):
    """The first planes of places outside the box, where there are such places, lie beyond the sphere."""
    square, centre = plain.smallest_sphere(cell)
    is_inside = all((k == 0 or (x > k - 1 and (x - k + 1) ** 2 > square))
                    and (m == FAR or (x < m + 1 and (m + 1 - x) ** 2 > square)) for x, k, m in zip(centre, low, high))
    return f'boxed {words(cell)}; {words([low, high])}', truth(agree(is_inside, worked))


def within_case(face, alpha, worked):
    """An alpha counts sixteenths."""
    square = square_of(face)
    least = NONE if square is None else min(math.ceil(16 * square), NONE)
    is_within = agree(square is not None and 16 * square <= alpha, worked)
    return f'within {words(face)}; {alpha}', f'{truth(is_within)}, least {least}'


def gabriel_case(points, worked):
    """Edges and triangles by all points of the set, where the program has their links alone."""
    def digits(face):
        return ''.join(str(points.index(p)) for p in face)
    full = list(plain.full_cells(points))
    cells = [*full, *plain.open_cells(points)]
    faces = [s for k in (2, 3) for s in sorted({s for c in full for s in combinations(c, k)})]
    marks = [digits(s) for s in faces if plain.least_of(points, s) is None]
    agree([list(map(digits, cells)), list(map(digits, faces)), marks], [line.split() for line in worked])
    return (f'gabriel {words(points)}; {" ".join(map(digits, cells))}; {" ".join(map(digits, faces))}',
            f'not Gabriel {" ".join(marks)}; {len(faces) - len(marks)} are')


# ---- ends

def read_once(left, buffer, step, fails, call):
    """What a call answers of what is left, or none where it fails."""
    return None if call in fails else left[:min(step, buffer)]


def read_case(step, fails, limit, worked):
    got, call, end = '', 0, 'limit'
    while len(got) < limit:
        call += 1
        piece = read_once(BYTES[len(got):], min(limit - len(got), 4096), step, fails, call)
        if not piece:
            end = 'the source failed' if piece is None else 'end'
            break
        got += piece
    agree((end, len(got)), worked)
    return f'read {" ".join(map(str, (limit, step, *fails)))}; {BYTES}', f'{end}: {got}'


def calls_case(step, fails, text, times):
    buffer, taken, answers = '...', 0, ''
    for call in range(1, times + 1):
        piece = read_once(text[taken:], 3, step, fails, call)
        if piece is not None:
            buffer, taken = piece + buffer[len(piece):], taken + len(piece)
        answers += ('a read or a write failed' if piece is None else str(len(piece))) + f' {buffer}, '
    return f'calls {" ".join(map(str, (times, step, *fails)))}; {text}', answers + 'done'


def written(text, room, step, fails):
    """What an end has taken of a text, and whether that is all."""
    got, call = '', 0
    while len(got) < len(text):
        call += 1
        if call in fails or len(got) == room:
            return got, False
        got = text[:min(len(got) + step, room)]
    return got, True


def write_case(room, step, fails, worked):
    got, is_all = written(BYTES, room, step, fails)
    agree((is_all, len(got)), worked)
    end = 'all' if is_all else 'a read or a write failed'
    return f'write {" ".join(map(str, (room, step, *fails)))}; {BYTES}', f'{end}: {got}'


def block(name, lines):
    return [f'{name} {len(lines)}', *lines]


def report_case(replies, tags, points, end, worked_counts, worked):
    """A report by its format; its bytes are fewer than a page."""
    left = sorted(points)
    kinds = ('Inserted', 'Duplicate', 'Removed', 'Missing', 'Flat')
    full, hull = ([' '.join(str(left.index(p)) for p in c) for c in cells]
                  for cells in (plain.full_cells(left), plain.open_cells(left)))
    text = ['mesh3-out 1', *block('replies', replies), *block('points', ['%d %d %d' % p for p in left]),
            *block('cells', full), *block('hull', hull), *(block('order', list(map(str, tags))) if tags else []), 'end']
    counts = [f'lines {len(replies)}', *(f'{word} {replies.count(word)}' for word in kinds),
              f'points {len(left)}', f'cells {len(full)}', f'hull {len(hull)}']
    counts, text = ('|'.join([*lines, '']) for lines in (counts, text))
    agree((counts, text), (worked_counts, worked))
    room, step, *fails = end
    got, is_all = written(text, room, step, fails)
    return (f'report {" ".join(replies)}; {" ".join(map(str, tags))}; {words(points)}; {" ".join(map(str, end))}',
            f'{counts}; {text}; written: {truth(is_all)}, {got}')


# ---- the cases

def cases_of_cells():
    yield 'keys, and the first coordinate that is refused'
    for place, key in ((A, 0), ((0, 0, 1), 1), ((0, 1, 0), 16384), ((1, 0, 0), 268435456), ((1, 2, 3), 268468227),
                       (LAST, 4398046511103), ((16384, 0, 0), (0, 16384)), ((-1, 0, 0), (0, -1)),
                       ((0, 16384, -1), (1, 16384)), ((0, 0, -1), (2, -1))):
        yield key_case(place, key)
    yield 'points in order, and facets, of which each lacks a point'
    yield from (cell_case([D, B, A, C], D), cell_case([C, A, B], D), cell_case([C, A, B], A))
    yield 'cells that are none'
    yield from (('cell 0,0,0 0,0,0 0,2,0 2,0,0; 0,0,0', 'no case'), ('cell 0,0,0 0,0,2 0,0,2; 0,0,0', 'no case'),
                ('cell 0,0,0 0,0,2; 0,0,0', 'no case'))
    e = (2, 2, 2)
    ranked = [[A, B, C, D], [A, B, C, e], [B, C, D, e], [A, B, C], [A, B, D]]
    yield 'Full cells first, each kind in order'
    yield order_case(ranked)
    yield 'cells out of order, some of them twice'
    yield order_case([ranked[i][::-1] for i in (4, 1, 3, 0, 4, 2, 1)])
    yield 'complexes by trial: a tetrahedron'
    yield trial_case(FOUR)
    yield 'with ties, with a point within, with points twice and out of order, of a plane, of nothing'
    for points in (CUBE, TWENTY, INNER, [D, A, B, C, B, (2, 2, 2)], CUBE[:4], []):
        yield trial_case(points)
    yield 'complexes of clouds at once: a tetrahedron, ties, a point within, points twice, of a plane, of nothing'
    for points in (FOUR, CUBE, TWENTY, INNER, [D, A, B, C, B, (2, 2, 2)], CUBE[:4], []):
        yield cloud_case(points)
    yield 'a lattice, two lines, a plane with one point beside it'
    lines = [(2 * i, 0, 0) for i in range(6)] + [(0, 2 * i, 9) for i in range(6)]
    for points in (list(product(range(3), repeat=3)), lines,
                   [(x, y, 0) for x in range(4) for y in range(4)] + [(1, 1, 5)]):
        yield cloud_case(points)


def cases_of_predicates():
    yield 'orientations, of either sign, of a plane, and the greatest'
    axes, wide = [(1, 0, 0), (0, 1, 0), (0, 0, 1)], [(FAR, 0, FAR), (FAR, FAR, 0), (0, FAR, FAR)]
    for points, value in (([A, *axes], 1), ([A, axes[1], axes[0], axes[2]], -1), ([A, D, C, (2, 2, 0)], 0),
                          ([A, *wide], 8794482507774), ([A, wide[1], wide[0], wide[2]], -8794482507774)):
        yield orient_case(points, value)
    yield 'three points on one line'
    for points, worked in (([A, (1, 2, 3), (2, 4, 6)], True), ([(5, 5, 5), (5, 5, 5), (1, 2, 3)], True),
                           ([A, (8191, 8191, 8191), LAST], True)):
        yield line_case(points, worked)
    yield 'three that have one coordinate of the normal'
    for points in ([A, axes[1], axes[2]], [A, axes[0], axes[2]], [A, axes[0], axes[1]], [A, (8191, 8191, 8190), LAST]):
        yield line_case(points, False)
    yield 'spheres: on it, inside and outside, and great values'
    middle = (8191, 8191, 8191)
    wide, turned = [A, (0, FAR, FAR), middle, (FAR, 0, FAR)], [(0, 0, FAR), (0, FAR, 0), middle, (FAR, 0, 0)]
    for points, e, value in ((FOUR, (2, 2, 2), 0), (FOUR, (1, 1, 1), 24), (FOUR, (3, 3, 3), -72),
                             (wide, (FAR, FAR, 0), -1770347058491641872384), (turned, LAST, 1770347058491641872384)):
        yield sphere_case(points, e, value)
    yield 'sides of spheres, in either orientation, and ties'
    mirrored, cut = [B, A, C, D], [A, B, C, (2, 2, 2)]
    for points, e, worked in ((FOUR, (1, 1, 1), False), (FOUR, (3, 3, 3), True), (mirrored, (1, 1, 1), False),
                              (mirrored, (3, 3, 3), True), (FOUR, (2, 2, 2), True), (mirrored, (2, 2, 2), True),
                              (cut, D, False), (cut, (0, 2, 2), True)):
        yield side_case(points, e, worked)
    yield 'no sphere: four of a plane, and a point that is one of the four'
    yield from ((f'outside {words([*CUBE[:4], D])}', 'no case'), (f'outside {words([*FOUR, A])}', 'no case'))


def cases_of_conflicts():
    yield 'conflicts of a Full cell, whose mate is not looked at: inside, a tie, outside'
    for p, worked in (((1, 1, 1), True), ((2, 2, 2), False), ((3, 3, 3), False)):
        yield conflict_case([D, A, C, B], p, p, worked)
    yield 'of an Open cell: beyond its plane'
    low, high, slanted = [A, B, C], [D, (2, 0, 2), (2, 2, 0)], [B, C, D]
    yield conflict_case(slanted, A, (1, 1, 1), True)
    yield conflict_case(slanted, A, (2, 2, 2), True)
    yield 'on the inner side, and in its plane: inside the circle, outside, and ties'
    for cell, mate, p, worked in ((low, D, (2, 2, 2), False), (low, D, (0, 1, 1), True), (low, D, (0, 3, 3), False),
                                  (low, D, (0, 2, 2), False), ([A, B, (0, 2, 2)], D, C, True),
                                  (high, A, (1, 1, 1), False),
                                  (high, A, (3, 1, 1), True), (high, A, (2, 2, 2), False),
                                  ([D, (2, 0, 2), (2, 2, 2)], A, (2, 2, 0), True)):
        yield conflict_case(cell, mate, p, worked)
    yield 'not to be judged: a point of the cell, a mate in its plane, a flat Full cell'
    yield from ((f'conflict {words(low)}; {words([D, A])}', 'no case'),
                (f'conflict {words(low)}; {words([(0, 1, 1), D])}', 'no case'),
                (f'conflict {words(CUBE[:4])}; {words([D, D])}', 'no case'))


HALF, SLANTED = [A, D, C], [A, (4, 1, 2), (3, 5, 1)]
HIGH = [(FAR, FAR, 0), (0, FAR, FAR), (FAR, 0, FAR)]


def cases_of_spheres():
    yield 'points inside the spheres of edges, on them, and outside'
    short, slanted, longest = [A, D], [(3, 5, 1), (9, 7, 4)], [A, LAST]
    for face, e, worked in ((short, (1, 1, 0), False), (short, (1, 0, 0), True), (short, D, False), (short, A, False),
                            (short, LAST, False), (slanted, (5, 4, 3), True), (slanted, (9, 6, 1), True),
                            (slanted, (9, 9, 1), False), (longest, (FAR, 0, 0), False), (longest, (16382, 1, 1), True)):
        yield inside_case(face, e, worked)
    yield 'of triangles, and nothing is inside where the three lie on one line'
    twenty, low, far = TWENTY[1:4][::-1], [(FAR, 0, 0), (0, FAR, 0), (0, 0, FAR)], [A, (FAR, FAR, 0), (0, FAR, FAR)]
    for face, e, worked in ((CUT, A, True), (CUT, (2, 2, 0), False), (HALF, (2, 2, 0), False), (HALF, (1, 1, 1), True),
                            (twenty, A, True), (twenty, (20, 20, 20), False), (SLANTED, (0, 3, 0), True),
                            (SLANTED, (1, 4, 3), False), (SLANTED, (5, 3, 0), False), (low, A, True),
                            (low, LAST, False),
                            (HIGH, A, False), (HIGH, LAST, True), (far, (FAR, 0, FAR), False), (far, (1, FAR, 0), True),
                            ([A, (1, 2, 3), (2, 4, 6)], (1, 2, 3), False)):
        yield inside_case(face, e, worked)


def cases_of_boxes():
    yield 'spheres in boxes: each side of a box touched by no plane outside it, and by one, in both orientations'
    ball = [(70, 60, 50), (30, 60, 50), (50, 80, 50), (50, 60, 70)]
    low, high = (30, 40, 30), (70, 80, 70)
    for cell in (ball, ball[::-1]):
        yield boxed_case(cell, low, high, True)
        for axis in range(3):
            step = tuple(int(k == axis) for k in range(3))
            yield boxed_case(cell, tuple(map(sum, zip(low, step))), high, False)
            yield boxed_case(cell, low, plain.minus(high, step), False)
    yield 'an end of the grid is free, and a plane beyond the centre is none'
    corner, great = [A, *CUT], [A, *HIGH]
    for cell, box, worked in ((corner, (A, LAST), True), (corner, ((1, 0, 0), LAST), False),
                              (corner, (A, (2, 2, 2)), True), (corner, (A, (2, 2, 1)), False),
                              (great, (A, LAST), True), (great, (A, (FAR, FAR, 16382)), False),
                              (great, ((1, 1, 1), LAST), False), (ball, ((80, 0, 0), LAST), False),
                              (ball, (A, (20, FAR, FAR)), False), ([A, D, C, LAST], ((0, 0, 1), LAST), False)):
        yield boxed_case(cell, *box, worked)
    yield 'a thin cell, whose sphere is far greater than the grid, and ends between 103 and 104'
    thin = [A, (13617, 0, 0), (0, 13617, 0), (8000, 8000, 100)]
    for box, worked in (((A, LAST), True), ((A, (FAR, FAR, 103)), True), ((A, (FAR, FAR, 102)), False),
                        ((A, (FAR, 16382, FAR)), False)):
        yield boxed_case(thin, *box, worked)


def cases_of_alphas():
    yield 'alphas of edges, each at its least and below'
    for face, alpha, worked in (([A, D], 15, False), ([A, D], 16, True), ([A, (2, 2, 0)], 31, False),
                                ([A, (2, 2, 0)], 32, True),
                                ([A, (2, 2, 2)], 47, False), ([A, (2, 2, 2)], 48, True),
                                ([(3, 5, 1), (9, 7, 4)], 195, False),
                                ([(3, 5, 1), (9, 7, 4)], 196, True), ([A, LAST], 3220832267, False),
                                ([A, LAST], 3220832268, True),
                                ([A, LAST], MAX, True)):
        yield within_case(face, alpha, worked)
    yield 'of triangles: half a square, and thirds rounded up'
    twenty, thin = TWENTY[1:4][::-1], [A, LAST, (8191, 8191, 8190)]
    for face, alpha, worked in ((HALF, 31, False), (HALF, 32, True), (CUT, 42, False), (CUT, 43, True),
                                (twenty, 4266, False),
                                (twenty, 4267, True), (SLANTED, 141, False), (SLANTED, 142, True),
                                (HIGH, 2862962015, False),
                                (HIGH, 2862962016, True), (HIGH, MAX, True), (thin, 17179869183, False),
                                (thin, 243135008263569443, False), (thin, 243135008263569444, True)):
        yield within_case(face, alpha, worked)
    yield 'three points on one line have no alpha'
    yield within_case([A, (1, 2, 3), (2, 4, 6)], MAX, False)
    yield 'of cells'
    corner, twenty = [A, *CUT], [A, *twenty]
    great, thin = [A, D, C, LAST], [A, (13617, 0, 0), (0, 13617, 0), (8000, 8000, 100)]
    for face, alpha, worked in ((corner, 47, False), (corner, 48, True), ([*CUT, (2, 2, 2)], 47, False),
                                ([*CUT, (2, 2, 2)], 48, True),
                                (twenty, 4799, False), (twenty, 4800, True), ([*SLANTED, (2, 2, 7)], 279, False),
                                ([*SLANTED, (2, 2, 7)], 280, True), ([A, *HIGH], 3220832267, False),
                                ([A, *HIGH], 3220832268, True),
                                (great, 9660924131, False), (great, 9660924132, True), (thin, 17179869183, False)):
        yield within_case(face, alpha, worked)
    yield 'of a cell no alpha is asked from 2^34 on'
    yield f'within {words(corner)}; {NONE}', 'no case'


def cases_of_faces():
    yield ('the cube: 34 has the squared radius 3, its triangles 2, 8/3 and 3; '
           '124 and 356 have the points 0 and 7 inside')
    yield gabriel_case(CUBE, (
        '0124 1234 1345 2346 3456 3567 012 014 024 123 135 145 236 246 357 367 456 567',
        '01 02 04 12 13 14 15 23 24 26 34 35 36 37 45 46 56 57 67 '
        '012 014 024 123 124 134 135 145 234 236 246 345 346 356 357 367 456 567', '124 356'))
    yield 'two cells: the triangle 123 has the squared radius 800/3, and point 0 inside'
    yield gabriel_case(TWENTY, (
        '0123 1234 012 013 023 124 134 234', '01 02 03 12 13 14 23 24 34 012 013 023 123 124 134 234', '123'))
    yield 'point 3 is inside the spheres of three edges and three triangles of the hull'
    yield gabriel_case(INNER, (
        '0123 0134 0234 012 014 024 123 134 234', '01 02 03 04 12 13 14 23 24 34 012 013 014 023 024 034 123 134 234',
        '12 14 24 012 014 024'))


def cases_of_ends():
    yield 'the end comes with fewer bytes than the limit, whatever the step'
    for step in (1, 7, 100):
        yield read_case(step, [], 31, ('end', 30))
    yield 'as many bytes as the limit are not yet the end'
    yield from (read_case(7, [], 30, ('limit', 30)), read_case(100, [], 3, ('limit', 3)),
                read_case(1, [1], 0, ('limit', 0)))
    yield 'the end comes with the fourth call'
    for fails, worked in (([2], ('the source failed', 10)), ([9, 4], ('the source failed', 30)), ([5], ('end', 30))):
        yield read_case(10, fails, 31, worked)
    yield 'writes of all, and of a front'
    for room, step, fails, worked in ((30, 1, [], (True, 30)), (30, 10, [4], (True, 30)), (99, 64, [2], (True, 30)),
                                      (30, 10, [3], (False, 20)), (30, 10, [1], (False, 0))):
        yield write_case(room, step, fails, worked)
    yield 'no room is left for the last bytes'
    yield from (write_case(12, 10, [], (False, 12)), write_case(0, 10, [], (False, 0)))
    yield 'no end gives or takes nothing at a time'
    yield from (('read 31 0; abc', 'no case'), ('calls 3 0; abc', 'no case'), ('write 30 0; abc', 'no case'))
    yield 'a failed call takes nothing, and the next goes on'
    yield calls_case(2, [1, 3], 'abc', 5)
    yield 'a pipe, and one that nobody reads'
    yield f'pipe {BYTES}', f'written: true, read to the limit: {BYTES}, written where nobody reads: false'
    yield 'the standard streams'
    yield 'streams out', 'out, told: true, written: true, read: 0'


def cases_of_reports():
    inserted, every = ['Inserted'] * 4, ['Inserted', 'Duplicate', 'Removed', 'Missing', 'Flat']
    mesh = 'points 4|0 0 0|0 0 2|0 2 0|2 0 0|cells 1|0 1 2 3|hull 4|0 1 2|0 1 3|0 2 3|1 2 3|'
    counts = 'points 4|cells 1|hull 4|'
    cases = ((inserted, [], 'lines 4|Inserted 4|Duplicate 0|Removed 0|Missing 0|Flat 0|' + counts,
              'mesh3-out 1|replies 4|Inserted|Inserted|Inserted|Inserted|' + mesh + 'end|'),
             (every, [10, 0, 4294967295], 'lines 5|Inserted 1|Duplicate 1|Removed 1|Missing 1|Flat 1|' + counts,
              'mesh3-out 1|replies 5|Inserted|Duplicate|Removed|Missing|Flat|' + mesh + 'order 3|10|0|4294967295|end|'))
    for name, end in (('reports, written seven bytes a call', [1000, 7]),
                      ('written until the third call fails', [1000, 10, 3])):
        yield name
        for replies, tags, worked_counts, worked in cases:
            yield report_case(replies, tags, FOUR, end, worked_counts, worked)


def all_lines():
    """Each line of the input with its answer; a name is its own."""
    for part in (cases_of_cells, cases_of_predicates, cases_of_conflicts, cases_of_spheres, cases_of_boxes,
                 cases_of_alphas, cases_of_faces, cases_of_ends, cases_of_reports):
        for case in part():
            yield ('# ' + case,) * 2 if isinstance(case, str) else case


if __name__ == '__main__':
    for asked, answer in all_lines():
        print(asked, answer, sep='\n')
