"""Runs the built program over drawn edit files and compares every byte with a plain program over the definitions.

The files are small and full of ties: few points, few coordinates, at borders of the grid's cubes. The plain program
is written from the definitions and formats (docs/DEFINITIONS.md, docs/FORMATS.md), not from the code, and knows only
the sets of points: it tries all quadruples and triples. Each file is run with one worker and with more. Where no
edit takes one of the opening four, the bytes without the order block must be the same for 2, 3, 8 and 64 workers
over all grids. Else the order that the program tells must be one that keeps the file, and the rest must be what the
plain program makes of the lines in that order. So are the least alphas that `steps` writes, what `parts` tells at
an alpha, for a most of parts, and of a part's boundary, and the nearest points that `near` tells of the queries of a
file of version 4. A file on which the two differ is printed. The last line is 'N passed, M failed'.

With --radii every file has many radii, 0, the greatest and equal ones among them; with --takes its points are those
of a lattice, a sphere, a prism or a plane with few points beside it, and most edits take one. Then each is run with
one worker and with one choice of more: what is compared most is the shapes, or what a take leaves. With --points a
file has points alone, some of them twice. With --moves it is of a version with moves, and most edits move a point;
its radii count sixteenths from version 3 on, and in version 4 it has queries. With --near its points are those of a
lattice, a sphere, a prism or a plane, and its queries points, centres of two to eight of them, and places about: then
`near` alone is run.

usage: tools/try random [--radii | --takes | --points | --moves | --near] [FILES] [SEED]   (200 1)
"""
import os
import random
import subprocess
import sys
from fractions import Fraction
from itertools import combinations

PROGRAM = os.path.join(os.path.dirname(os.path.realpath(__file__)), '../../crates/delaunay/out/delaunay')


def minus(a, b):
    return tuple(x - y for x, y in zip(a, b))


def dot(u, v):
    return sum(x * y for x, y in zip(u, v))


def cross(u, v):
    return (u[1] * v[2] - u[2] * v[1], u[2] * v[0] - u[0] * v[2], u[0] * v[1] - u[1] * v[0])


def orientation(a, b, c, d):
    return dot(minus(b, a), cross(minus(c, a), minus(d, a)))


def collinear(a, b, c):
    return cross(minus(b, a), minus(c, a)) == (0, 0, 0)


def outside(a, b, c, d, e):
    """Whether e is outside the perturbed sphere of four points with a positive orientation."""
    terms = [(e, orientation(a, b, c, d)), (d, -orientation(a, b, c, e)), (c, orientation(a, b, d, e)),
             (b, -orientation(a, c, d, e)), (a, orientation(b, c, d, e))]
    plain = sum(dot(p, p) * k for p, k in terms)
    return (plain or next(k for _, k in sorted(terms, reverse=True) if k)) > 0


def is_solid(points):
    return any(orientation(*q) for q in combinations(sorted(points), 4))


def full_cells(points):
    for q in combinations(points, 4):
        o = orientation(*q)
        turned = q if o > 0 else (q[1], q[0], q[2], q[3])
        if o and all(outside(*turned, e) for e in points if e not in q):
            yield q


def is_open(points, a, b, c):
    """Whether, in this order, all points lie on one side of the triple and it is a cell at the infinite vertex."""
    heights = [orientation(a, b, c, e) for e in points]
    if min(heights) < 0 or max(heights) == 0:
        return False
    mate = next(e for e, h in zip(points, heights) if h > 0)
    return all(outside(a, b, c, mate, e) for e, h in zip(points, heights) if h == 0 and e not in (a, b, c))


def open_cells(points):
    for a, b, c in combinations(points, 3):
        if not collinear(a, b, c) and (is_open(points, a, b, c) or is_open(points, b, a, c)):
            yield a, b, c


def smallest_sphere(face):
    """The squared radius of the smallest sphere through the points of a face, and its centre."""
    a, rest = face[0], [minus(p, face[0]) for p in face[1:]]
    if len(rest) == 1:
        centre = tuple(Fraction(x, 2) for x in rest[0])
    elif len(rest) == 2:
        u, v = rest
        n = cross(u, v)
        w = tuple(dot(v, v) * x + dot(u, u) * y for x, y in zip(cross(n, u), cross(v, n)))
        centre = tuple(Fraction(x, 2 * dot(n, n)) for x in w)
    else:
        u, v, w = rest
        parts = zip(cross(v, w), cross(w, u), cross(u, v))
        sums = [dot(u, u) * x + dot(v, v) * y + dot(w, w) * z for x, y, z in parts]
        centre = tuple(Fraction(x, 2 * dot(u, cross(v, w))) for x in sums)
    return dot(centre, centre), tuple(x + y for x, y in zip(a, centre))


def least_of(points, face):
    """The squared radius of the smallest sphere of a face that has no point inside it, or nothing where one is; a
    cell is not asked."""
    if len(face) == 1:
        return 0
    square, centre = smallest_sphere(face)
    away = (minus(e, centre) for e in points)
    return square if len(face) == 4 or all(dot(v, v) >= square for v in away) else None


def faces_of(points, full, hull):
    """All faces, each with its least squared radius, and those of one to three points with the cells around them,
    None for each at the infinite vertex. These do not go by a radius."""
    levels = [[(p,) for p in points]] + [sorted({s for q in full for s in combinations(q, k)}) for k in (2, 3)]
    least = {t: least_of(points, t) for level in levels + [full] for t in level}
    around = {t: [q if len(q) == 4 else None for q in full + hull if set(t) <= set(q)] for level in levels
              for t in level}
    return levels, least, around


def shape_lines(full, faces, index, radius, version=1):
    """The block of a radius line: the admitted points, edges and triangles with their kinds, and the admitted cells."""
    alpha = Fraction(radius, 16) if version > 2 else radius
    levels, least, around = faces
    small = [t for t, square in least.items() if square is not None and square <= alpha]
    admitted = {s for t in small for k in range(1, len(t) + 1) for s in combinations(t, k)}

    def kind(face):
        marks = [q in admitted for q in around[face]]
        return 'interior' if all(marks) else 'regular' if any(marks) else 'singular'

    yield f'shape {radius}'
    for name, level in zip(('points', 'edges', 'triangles'), levels):
        level = [s for s in level if s in admitted]
        yield f'{name} {len(level)}'
        for s in level:
            yield ' '.join(str(index[p]) for p in s) + ' ' + kind(s)
    cells = [q for q in sorted(full) if q in admitted]
    yield f'cells {len(cells)}'
    for q in cells:
        yield ' '.join(str(index[p]) for p in q)


def opening_four(points):
    """The places of the four points with which a mesh begins, each the first one independent of those before it."""
    tests = [lambda p: True, lambda p: p != four[0], lambda p: not collinear(four[0], four[1], p),
             lambda p: orientation(*four, p) != 0]
    places, four, place = [], [], -1
    for test in tests:
        place = next(i for i in range(place + 1, len(points)) if test(points[i]))
        places.append(place)
        four.append(points[place])
    return places


def moved(points, a, b):
    """The reply to a move of a to b, and the points after it."""
    if a not in points:
        return 'Missing', points
    if b in points:
        return 'Occupied', points
    after = points - {a} | {b}
    return ('Moved', after) if is_solid(after) else ('Flat', points)


def replies_of(lines, order):
    """The replies by line, and the points that are left. A line is whether it adds, and its point; a move has none,
    and its two places."""
    points, replies = set(), {}
    for place in order:
        adds, p, *to = lines[place]
        if to:
            replies[place], points = moved(points, p, *to)
        elif adds:
            replies[place] = 'Duplicate' if p in points else 'Inserted'
            points.add(p)
        elif p not in points:
            replies[place] = 'Missing'
        elif not is_solid(points - {p}):
            replies[place] = 'Flat'
        else:
            replies[place] = 'Removed'
            points.remove(p)
    return [replies[i] for i in range(len(lines))], sorted(points)


def order_of_one(points, edits):
    """The order in which one worker makes the lines, by their places."""
    four = opening_four(points)
    return four + [i for i in range(len(points) + len(edits)) if i not in four]


def keeps(points, edits, order):
    """Whether the places of the lines in this order begin with the opening four, and have each line once, those that
    share a point in the order of the file."""
    lines = [(p,) for p in points] + [edit[1:] for edit in edits]
    last = {}
    for place in order:
        for p in lines[place]:
            if last.get(p, -1) > place:
                return False
            last[p] = place
    return order[:4] == opening_four(points) and sorted(order) == list(range(len(lines)))


def report(points, edits, radii, order, tells_order=True, version=1):
    """The report of a file whose lines are made in this order, with shapes, and with the order block or without. A
    radius counts squares from version 1 on, and sixteenths of them from version 3 on."""
    lines = [(True, p) for p in points] + edits
    replies, left = replies_of(lines, order)
    index = {p: i for i, p in enumerate(left)}
    full, hull = list(full_cells(left)), list(open_cells(left))
    text = ['mesh3-out 1', f'replies {len(lines)}', *replies, f'points {len(left)}', *('%d %d %d' % p for p in left)]
    for name, cells in (('cells', full), ('hull', hull)):
        text += [f'{name} {len(cells)}', *(' '.join(str(index[p]) for p in c) for c in cells)]
    faces = faces_of(left, full, hull) if radii else None
    for radius in radii:
        text += shape_lines(full, faces, index, radius, version)
    if tells_order:
        text += [f'order {len(order)}', *map(str, order)]
    return '\n'.join([*text, 'end', ''])


def steps(points):
    """The text of the least alphas of the faces of a set, in sixteenths of a squared distance, rounded up."""
    index = {p: i for i, p in enumerate(points)}
    full = sorted(full_cells(points))
    levels, least, _ = faces_of(points, full, [])
    text = ['mesh3-steps 1']
    for name, level in (('edges', levels[1]), ('triangles', levels[2]), ('cells', full)):
        text.append(f'{name} {len(level)}')
        for face in level:
            squares = [square for t, square in least.items() if square is not None and set(face) <= set(t)]
            alpha = min((-(-16 * square // 1) for square in squares), default=1 << 34)
            text.append(' '.join(str(index[p]) for p in face) + f' {alpha if alpha < 1 << 34 else "none"}')
    return '\n'.join([*text, 'end', ''])


def ceiling(fraction):
    return -(-fraction // 1)


def parts_at(full, alpha):
    """The solid parts of the Full cells at an alpha in sixteenths, each ascending: admitted cells that chains join,
    each sharing a triple with the next."""
    parts = []
    for q in full:
        if 16 * smallest_sphere(q)[0] <= alpha:
            beside = [part for part in parts if any(len(set(q) & set(r)) == 3 for r in part)]
            parts = [part for part in parts if part not in beside] + [sorted(sum(beside, [q]))]
    return sorted(parts)


def bounding(part):
    """The triples that one cell of a part has, each turned so that its orientation with the cell's fourth point is
    negative."""
    for a, b, c in sorted({t for q in part for t in combinations(q, 3)}):
        having = [q for q in part if {a, b, c} <= set(q)]
        if len(having) == 1:
            apex = next(p for p in having[0] if p not in (a, b, c))
            yield (a, b, c) if orientation(a, b, c, apex) < 0 else (a, c, b)


def least_alpha(points, full, most):
    """The least alpha at which every point is in an admitted cell and there are at most so many parts: one at which
    a cell comes."""
    for alpha in sorted({ceiling(16 * smallest_sphere(q)[0]) for q in full}):
        parts = parts_at(full, alpha)
        if alpha < 1 << 34 and {p for part in parts for q in part for p in q} == set(points) and len(parts) <= most:
            return alpha
    return None


def parts_told(points, full, alpha, most, place):
    """The status and the text of `parts` for an alpha, a most of parts and the index of a part or None."""
    alpha = least_alpha(points, full, most) if most else alpha
    if alpha is None:
        return 9, ''
    parts, index = parts_at(full, alpha), {p: i for i, p in enumerate(points)}
    if place is None:
        lines = ['mesh3-parts 1', f'alpha {alpha}', f'parts {len(parts)}']
        lines += [f'part {len(part)} {len(list(bounding(part)))}' for part in parts] + ['end']
    elif place < len(parts):
        faces = list(bounding(parts[place]))
        lines = ['OFF', f'{len(points)} {len(faces)} 0', *('%d %d %d' % p for p in points)]
        lines += ['3 ' + ' '.join(str(index[p]) for p in face) for face in faces]
    else:
        return 8, ''
    return 0, '\n'.join([*lines, ''])


def parts_agree(file, points, crew):
    """Whether `parts` tells what the plain program does, at alphas near those of cells and for few parts, and of a
    part or of none."""
    full = sorted(full_cells(points))
    near = [ceiling(16 * smallest_sphere(q)[0]) for q in full]
    for _ in range(3):
        alpha = min((1 << 34) - 1, max(0, random.choice(near) + random.choice([-1, 0, 0, 1])))
        most, place = random.choice([0, 0, 1, 2, 3]), random.choice([None, None, 0, 0, 1, 2])
        words = ['--alpha', str(alpha), '--most', str(most)] + ([] if place is None else ['--off', str(place)])
        if run(file, *words, *crew, command='parts') != parts_told(points, full, alpha, most, place):
            print('parts', *words, *crew)
            return False
    return True


def square(p, q):
    return dot(minus(p, q), minus(p, q))


def near(points, queries):
    """The text of the nearest points to some places: of those as near the least, and the square of the distance."""
    index = {p: i for i, p in enumerate(points)}
    text = ['mesh3-near 1', f'queries {len(queries)}']
    for q in queries:
        p = min(points, key=lambda p: (square(p, q), p))
        text.append(f'{index[p]} {square(p, q)}')
    return '\n'.join([*text, 'end', ''])


def drawn_file():
    side = random.choice([2, 3, 4, 6, 16384])
    low = random.choice([0, 4094, 8190, 16380]) if side < 10 else 0

    def point():
        return tuple(min(16383, low + random.randrange(side)) for _ in range(3))

    points = [point() for _ in range(random.randrange(4, 12))]
    edits = []
    for _ in range(random.randrange(12)):
        known = points + [p for _, p in edits]
        edits.append((True, point()) if random.random() < 0.5 else (False, random.choice(known)))
    if random.random() < 0.5 and is_solid(points):
        four = [points[i] for i in opening_four(points)]
        edits = [(adds, p) for adds, p in edits if adds or p not in four]
    radii = [random.randrange(2 * side * side) for _ in range(random.randrange(3))]
    return points, edits, radii


def with_many_radii(points, edits, radii):
    """The file with up to 16 radii, as many as a file may have: those of small faces of its points, and those at the
    ends of the range."""
    near = [dot(minus(a, b), minus(a, b)) // random.choice([2, 3]) + random.randrange(2)
            for a, b in zip(points, points[1:])]
    radii = radii + near + [random.randrange(2 * max(near) + 2) for _ in range(3)]
    radii = [min(radius, 1073741823) for radius in radii] + [0, 1073741823]
    radii += [random.choice(radii), random.choice(radii)]
    random.shuffle(radii)
    return points, edits, radii[:16]


def lattice_points():
    """The places of a lattice of 2 to 3 points a side, some left out."""
    step, sides = random.choice([1, 2, 5]), [random.choice([2, 3]) for _ in range(3)]
    return [(step * x, step * y, step * z) for x in range(sides[0]) for y in range(sides[1]) for z in range(sides[2])]


def sphere_points():
    """Points on one sphere, and at times its centre."""
    a, b, c = random.choice([(1, 2, 2), (0, 3, 4), (2, 3, 6), (1, 4, 8), (5, 5, 5), (0, 0, 7)])
    turned = {(x, y, z) for x, y, z in ((a, b, c), (b, c, a), (c, a, b), (b, a, c), (a, c, b), (c, b, a))}
    signs = [(i, j, k) for i in (-1, 1) for j in (-1, 1) for k in (-1, 1)]
    points = {(9 + i * x, 9 + j * y, 9 + k * z) for x, y, z in turned for i, j, k in signs}
    return sorted(points) + random.choice([[], [(9, 9, 9)]])


def prism_points():
    """A polygon whose corners lie on one circle, and its copies above."""
    corners = random.choice([[(0, 0), (2, 0), (2, 2), (0, 2)], [(5, 0), (3, 4), (0, 5), (-3, 4), (-5, 0), (-3, -4)]])
    return [(9 + x, 9 + y, z) for x, y in corners for z in random.choice([(0, 3), (0, 4, 8)])]


def nearly_flat_points():
    """Points of one plane, and one or two beside it."""
    flat = [(x, y, x + y) if random.random() < 0.9 else (x, y, 2 * y) for x in range(4) for y in range(4)]
    beside = [(random.randrange(9), random.randrange(9), 9 + random.randrange(3))
              for _ in range(random.choice([1, 1, 2]))]
    return flat + beside


def file_of_takes():
    """A file whose points have many ties, and whose edits mostly take one of them."""
    whole = random.choice([lattice_points, sphere_points, prism_points, nearly_flat_points])()
    low = random.choice([0, 0, 4090, 8185])
    whole = [(low + x, low + y, low + z) for x, y, z in whole]
    random.shuffle(whole)
    points = whole[:random.randrange(6, 14)]
    rest, edits = whole[len(points):] or whole, []
    for _ in range(random.randrange(3, 12)):
        edits.append((True, random.choice(rest)) if random.random() < 0.25 else (False, random.choice(points)))
    if random.random() < 0.5 and is_solid(points):
        four = [points[i] for i in opening_four(points)]
        edits = [(adds, p) for adds, p in edits if adds or p not in four]
    return points, edits, []


def file_of_points():
    """A file of points alone, with many ties and at times some of them twice, as a scan hands them in."""
    whole = random.choice([lattice_points, sphere_points, prism_points, nearly_flat_points])()
    low = random.choice([0, 0, 4090, 8185])
    whole = [(low + x, low + y, low + z) for x, y, z in whole]
    random.shuffle(whole)
    points = whole[:random.randrange(4, 14)]
    points += random.choices(points, k=random.choice([0, 0, 3]))
    random.shuffle(points)
    return points, [], random.choice([[], [random.randrange(60)]])


def some_queries(places, count):
    """So many places to ask about: some of these, middles of some, which are as near to several, and any others
    beside them."""
    queries = []
    for _ in range(count):
        few = random.choices(places, k=random.choice([1, 2, 2, 4, 8]))
        middle = tuple(sum(xs) // len(few) for xs in zip(*few))
        aside = tuple(min(16383, max(0, x + random.choice([-1, 0, 0, 1]))) for x in middle)
        queries.append(random.choice([middle, middle, aside,
                                      tuple(random.choice([0, 9, 8192, 16383]) for _ in range(3))]))
    return queries


def file_of_queries():
    """A file of version 4 whose points have many ties, and places to ask about that are as near to several of them."""
    points, edits, radii = random.choice([file_of_takes, file_of_points])()
    whole = points + [p for _, p in edits]
    return points, edits, radii, 4, some_queries(whole, random.choice([0, 1, 5, 20, 60]))


def near_agrees(file):
    """Whether `near` tells what the plain program does, by one worker, and by more where no edit takes one of the
    opening four."""
    points, edits, _, _, queries = file
    crew = ('--workers', random.choice(['2', '3', '8', '64']), '--grid', random.choice(['1', '2', '4', '8', '16']))
    if not is_solid(points):
        return run(file, command='near') == run(file, *crew, command='near') == (6, '')
    left = replies_of([(True, p) for p in points] + edits, order_of_one(points, edits))[1]
    wanted = (0, near(left, queries))
    return run(file, command='near') == wanted and (not is_anchored(points, edits)
                                                    or run(file, *crew, command='near') == wanted)


def edit_line(edit):
    sign = '=' if edit[0] is None else '+' if edit[0] else '-'
    return ' '.join((sign, *('%d %d %d' % p for p in edit[1:])))


def file_of_moves():
    """A file of version 2, 3 or 4 whose edits move points by small steps, to places that are taken and from places
    that are empty too, among adds and takes of the same few places; its points have many ties."""
    kind = random.choice([lattice_points, sphere_points, prism_points, nearly_flat_points, None])
    side = random.choice([2, 3, 5, 16384])
    whole = kind() if kind else list({tuple(random.randrange(side) for _ in range(3)) for _ in range(16)})
    low = random.choice([0, 0, 4090, 8185]) if kind or side < 6 else 0
    whole = [(low + x, low + y, low + z) for x, y, z in whole]
    random.shuffle(whole)
    points = whole[:random.randrange(5, 12)]
    known, edits = list(points), []
    for _ in range(random.randrange(1, 14)):
        a = random.choice(known) if random.random() < 0.9 else random.choice(whole)
        b = tuple(min(16383, max(0, x + random.choice([-1, 0, 0, 1, 2])))
                  for x in a) if random.random() < 0.7 else random.choice(whole)
        edits.append(random.choices([(None, a, b), (True, b), (False, a)], [6, 2, 1])[0])
        known += [b, b]
    if random.random() < 0.5 and is_solid(points):
        four = [points[i] for i in opening_four(points)]
        edits = [edit for edit in edits if edit[0] or edit[1] not in four]
    version = random.choice([2, 3, 4])
    radii = [random.randrange(40 * (16 if version > 2 else 1)) for _ in range(random.randrange(3))]
    return points, edits, radii, version, some_queries(known, random.randrange(9) if version > 3 else 0)


def text_of(points, edits, radii, version=1, queries=()):
    lines = [f'mesh3 {version}', 'points', *('%d %d %d' % p for p in points), 'edits', *map(edit_line, edits), 'radii',
             *map(str, radii)]
    return '\n'.join([*lines, *(['queries', *('%d %d %d' % p for p in queries)] if version > 3 else []), 'end', ''])


def is_anchored(points, edits):
    """Whether no edit takes one of the opening four, or moves it away."""
    return not {points[i] for i in opening_four(points)} & {edit[1] for edit in edits if not edit[0]}


def run(file, *words, command='shape'):
    done = subprocess.run([PROGRAM, command, *words], input=text_of(*file), capture_output=True, text=True, check=False)
    return done.returncode, done.stdout


def order_told(text):
    """The tags of the order block."""
    lines = text.split('\n')
    return [int(tag)
            for tag in lines[len(lines) - lines[::-1].index(next(x for x in lines[::-1] if x.startswith('order '))):-2]]


def agrees(file, few):
    """Whether the program agrees with the plain one on a file: by one worker, and by many over grids of all sizes,
    or a few of these."""
    points, edits, radii, version, queries = file if len(file) > 3 else (*file, 1, [])
    crews = [('--workers', workers, '--grid', grid) for workers in ('2', '3', '8', '64')
             for grid in ('1', '2', '4', '8', '16')]
    crews = random.sample(crews, few or len(crews))
    if not is_solid(points):
        return run(file, '--order') == run(file, *random.choice(crews)) == (6, '')
    one = order_of_one(points, edits)
    if run(file, '--order') != (0, report(points, edits, radii, one, version=version)):
        return False
    left = replies_of([(True, p) for p in points] + edits, one)[1]
    least = steps(left)
    if run(file, command='steps') != (0, least) or not parts_agree(file, left, ()):
        return False
    if version > 3 and run(file, command='near') != (0, near(left, queries)):
        return False
    if is_anchored(points, edits):
        if not parts_agree(file, left, crews[0]):
            return False
        wanted = report(points, edits, radii, one, False, version)
        if run(file, *crews[0], command='steps') != (0, least):
            return False
        return all(run(file, *crew) == (0, wanted) for crew in crews)
    for crew in crews[:2]:
        status, text = run(file, '--order', *crew)
        order = order_told(text) if status == 0 else []
        if not keeps(points, edits, order) or text != report(points, edits, radii, order, version=version):
            return False
    return True


def main():
    kinds = {'--radii': lambda: with_many_radii(*drawn_file()), '--takes': file_of_takes, '--points': file_of_points,
             '--moves': file_of_moves, '--near': file_of_queries}
    kind = kinds.get(sys.argv[1] if len(sys.argv) > 1 else '')
    words = sys.argv[2:] if kind else sys.argv[1:]
    count, seed = (int(word) for word in (words + ['200', '1'][len(words):])[:2])
    random.seed(seed)
    failed = 0
    for _ in range(count):
        file = kind() if kind else drawn_file()
        if not (near_agrees(file) if kind is file_of_queries else agrees(file, 1 if kind else 0)):
            failed += 1
            print(text_of(*file), end='')
    print(f'{count - failed} passed, {failed} failed')
    sys.exit(failed > 0)


if __name__ == '__main__':
    main()
