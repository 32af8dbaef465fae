"""Makes the input of the program `worked_cases`, and the text that it is to print, from the definitions alone.

What a mesh, its faces, a bucket and a refill are to say is found by the plain program of `tools/try random`, which
was written from the definitions and not from the code, and tries all quadruples and triples. Edits are played on
sets of points, moves among them. The cases of walks were worked by hand, and some of texts. Those of the lowest
layers are made by `tools/make layers`, those of edit files of all versions by `tools/make files`, and those of meshes
that are read and checked by `tools/make meshes`, and scenes of boards, tables and runs by `tools/make scenes`.

usage: tools/make cases
writes crates/worked_cases/stdin and crates/worked_cases/stdout

usage: tools/make cases --drawn COUNT [SEED [PROGRAM]]     by hand, not part of the gate
gives the built program so many drawn edit lists, half of whose edits are moves, and compares its answers
"""
import math
import os
import random
import subprocess
import sys
from itertools import combinations, islice

from plain import file_cases as files, layer_cases as layers, mesh_cases as meshes, random_cases as plain
from plain import table_scenes as scenes
from plain.case_words import FOUR, bucket_of, cells_of, named, word, words

TOP = os.path.join(os.path.dirname(os.path.realpath(__file__)), '../..')
CUBE = [(x, y, z) for x in (0, 2) for y in (0, 2) for z in (0, 2)]
INNER = [*FOUR, (1, 1, 1)]
CORNERS = [*FOUR, (2, 2, 2)]
TENT = [(0, 0, 0), (2, 0, 0), (0, 2, 0), (2, 2, 0), (1, 1, 2)]
APART = [(0, 0, 0), (0, 0, 9000), (0, 9000, 0), (9000, 0, 0)]
AROUND = [*APART, (100, 100, 100)]
LETTERS = {'Inserted': 'I', 'Duplicate': 'D', 'Removed': 'R', 'Missing': 'M', 'Flat': 'F', 'Moved': 'V',
           'Occupied': 'O'}


def move(a, b):
    """An edit is whether it adds, and its point; a move has neither, and the two places."""
    return None, a, b


def edit_word(edit):
    if edit[0] is None:
        return f'={word(edit[1])}>{word(edit[2])}'
    return ('+' if edit[0] else '-') + word(edit[1])


def places(points, cell):
    return '-'.join(str(points.index(p)) for p in cell)


def cell_words(cell):
    return ('Full ' if len(cell) == 4 else 'Open ') + words(cell)


def edited(points, edit):
    """The reply of an edit of a set of points, and the set behind it."""
    adds, p, *goal = edit
    if adds:
        return ('Duplicate', points) if p in points else ('Inserted', points | {p})
    if p not in points:
        return 'Missing', points
    if goal and goal[0] in points:
        return 'Occupied', points
    then = points - {p} | set(goal)
    if not plain.is_solid(then):
        return 'Flat', points
    return ('Moved' if goal else 'Removed'), then


def made_of(points, edits):
    """The order in which one thread makes the lines, their replies, and the points that are left."""
    lines = [(True, p) for p in points] + edits
    four = plain.opening_four(points)
    order = four + [i for i in range(len(lines)) if i not in four]
    replies, left = {}, set()
    for i in order:
        reply, left = edited(left, lines[i])
        replies[i] = LETTERS[reply]
    return order, replies, sorted(left)


def mesh_case(grid, points, edits, word='mesh'):
    order, replies, left = made_of(points, edits)
    history = ''.join(f' {i}{replies[i]}' for i in order)
    cells = ' '.join(places(left, c) for c in cells_of(left))
    yield f'{word} {grid}; {words(points)}; {" ".join(map(edit_word, edits))}'
    yield f'{history} by sets {"".join(replies[i] for i in order)}; points {words(left)}; cells {cells}'


def faces_case(grid, points):
    left = sorted(set(points))
    cells = cells_of(left)
    full = [c for c in cells if len(c) == 4]
    yield f'faces {grid}; {words(points)}'
    text = ''
    for size in (1, 2, 3):
        for face in sorted({s for c in full for s in combinations(c, size)}):
            inside = [places(left, c) for c in cells if set(face) <= set(c)]
            text += f' {places(left, face)} in {" ".join(inside)};'
    yield text + ''.join(f' {places(left, c)}' for c in full)


def joined(numbers):
    return '-'.join('.' if n is None else str(n) for n in numbers)


def row_words(left):
    """The rows of a mesh: cells and the hull by numbers of points, and what lies across the facets of the cells."""
    full, hull = list(plain.full_cells(left)), plain.open_cells(left)
    beside = {}
    for number, cell in enumerate(full):
        for facet in combinations(cell, 3):
            beside.setdefault(facet, []).append(number)
    others = []
    for number, cell in enumerate(full):
        facets = [tuple(p for p in cell if p != corner) for corner in cell]
        others.append(joined(next((m for m in beside[f] if m != number), None) for f in facets))
    cells = [joined(map(left.index, cell)) for cell in full]
    triangles = [joined(map(left.index, cell)) for cell in hull]
    lists = (('points', words(left)), ('cells', ' '.join(cells)), ('across', ' '.join(others)),
             ('hull', ' '.join(triangles)))
    return '; '.join(f'{name} {rows}' for name, rows in lists)


def nearest_to(left, q):
    return min(left, key=lambda p: (sum((x - y) ** 2 for x, y in zip(p, q)), p))


def handle_case(points, edits, looks):
    left, replies = set(points), ''
    for edit in edits:
        reply, left = edited(left, edit)
        replies += LETTERS[reply]
    left = sorted(left)
    told = ''.join(f' {"at" if q in left else "off"} {word(nearest_to(left, q))}' for q in looks)
    yield f'handle {words(points)}; {" ".join(map(edit_word, edits))}; {words(looks)}'
    yield f'replies {replies}; {row_words(left)}; looks{told} empty'


def least_words(points, full, size):
    """The faces of a size with the least alphas that admit them, in sixteenths: their own, or a larger one's."""
    for face in sorted({s for q in full for s in combinations(q, size)}):
        around = {s for q in full for k in range(size, 5) for s in combinations(q, k) if set(face) <= set(s)}
        squares = [plain.least_of(points, t) for t in around]
        least = math.ceil(16 * min(square for square in squares if square is not None))
        yield joined(map(points.index, face)), least


def levels_case(points):
    left = sorted(set(points))
    full = list(plain.full_cells(left))
    edges, triangles = (' '.join(f'{t}:{least}' for t, least in least_words(left, full, size)) for size in (2, 3))
    cells = ' '.join(str(math.ceil(16 * plain.least_of(left, q))) for q in full)
    yield f'levels {words(points)}'
    yield f'edges {edges}; triangles {triangles}; cells {cells}'


def across(grid, points, cells, cell, facet, b):
    """What lies across a facet of a Full cell, with the bucket b alone in hand."""
    if all(bucket_of(grid, p) != b for p in facet):
        return f'needs {bucket_of(grid, min(facet))}'
    return cell_words(next(c for c in cells if c != cell and set(facet) <= set(c)))


def bucket_case(grid, points, b):
    """The first cell at each point of the bucket is a Full one, whose facets lie opposite its points in their order."""
    left = sorted(set(points))
    cells = cells_of(left)
    inside = [p for p in left if bucket_of(grid, p) == b]
    copies = [c for c in cells if any(bucket_of(grid, p) == b for p in c)]
    entries = [p for p in points if bucket_of(grid, p) == b]
    text = f' {len(inside)} points {len(copies)} cells {len(entries)} entries'
    for p in inside:
        star = [c for c in cells if p in c]
        assert len(star[0]) == 4
        beyond = [across(grid, left, cells, star[0], [q for q in star[0] if q != v], b) for v in star[0]]
        cells_there = ' '.join(map(cell_words, star))
        text += f'; at {cells_there} counted {cells_there} across {" ".join(beyond)}'
    yield f'bucket {grid}; {words(points)}; {b}'
    yield text


def refill_case(grid, points, held, v):
    """The point's own bucket is among those in hand, and one that is not in hand is alone of its kind."""
    left = sorted(set(points))
    cells, rest = cells_of(left), [p for p in left if p != v]
    gone = [c for c in cells if v in c]
    away = [int(b) for b in held.split()[1:]] if held.startswith('but') else []
    needed = sorted({bucket_of(grid, p) for c in gone for p in c} & set(away))
    yield f'refill {grid}; {words(points)}; {held}; {word(v)}'
    if needed:
        yield f'needs {needed[0]}'
    elif not plain.is_solid(rest):
        yield 'flat'
    else:
        fresh = [c for c in cells_of(rest) if c not in cells]
        yield f'gone {" ".join(places(left, c) for c in gone)}; fresh {" ".join(places(left, c) for c in fresh)}'


def grid_case(size, points):
    yield f'grid {size}; {words(points)}'
    if size not in (1, 2, 4, 8, 16):
        yield 'no grid'
    else:
        yield f'size {size} count {size ** 3} at' + ''.join(f' {bucket_of(size, p)}' for p in points)


def enter_case(grid, edits):
    points, entries, text = set(), [], 'entered'
    for adds, p in edits:
        (points.add if adds else points.discard)(p)
        entries.append(p)
        b = bucket_of(grid, p)
        text += f' {b} {sum(bucket_of(grid, q) == b for q in points)} {sum(bucket_of(grid, q) == b for q in entries)}'
    yield f'enter {grid}; {" ".join(map(edit_word, edits))}'
    yield text


def walk_cases():
    far = 'walk 2; 0,0,0 100,8192,0 100,8192,8192 100,16383,0'
    four = f'walk 4; {words(FOUR)}; all'
    yield from ((f'{four}; 1,1,1', 'at, here Full 0,0,0 0,0,2 0,2,0 2,0,0'),
                (f'{four}; 5,5,5', 'at, moved, here Open 0,0,2 0,2,0 2,0,0'),
                (f'{far}; 0; 8000,0,0', 'at, needs 2'), (f'{far}; ; 8000,0,9000', 'needs 1'),
                (f'{far}; all; 100,8192,0', 'at, to no new point'))


def near_cases():
    apart = 'near 2; 0,0,0 0,0,9000 0,9000,0 9000,0,0'
    yield from ((f'{apart}; 0; 9000,0,0', 'at, moved, needs 4'),
                (f'{apart}; 0 4; 9000,0,0', 'at, moved, here 9000,0,0'),
                (f'{apart}; all; 4500,4500,4500', 'at, here 0,0,0'), (f'{apart}; 2; 0,9000,4500', 'at, here 0,9000,0'),
                (f'{apart}; 3; 9000,0,0', 'needs 4'), (f'{apart}; ; 0,0,9000', 'needs 1'))


HEAD, EMPTY = 'mesh3 1|points|', 'mesh3 1|points|edits|radii|'
BAD_TEXTS = [
    ('', '', 0, '', '1: Truncated'), ('mesh3 5|', '', 0, '', '1: Section'), ('mesh3 1|edits|', '', 0, '', '2: Section'),
    (HEAD, '', 0, 'radii|', '3: Section'), (HEAD, '', 0, '1 2|', '3: Field'), (HEAD, '', 0, '1  2 3|', '3: Field'),
    (HEAD, '', 0, 'edits|* 1 2 3|', '4: Field'), (EMPTY, '', 0, '1073741824|', '5: Range'),
    (EMPTY, '1|', 17, 'end|', '21: TooMany'),
    (EMPTY, '', 0, 'end||', '6: Section'), (EMPTY, '', 0, 'end~|', '5: Field'), (EMPTY, '', 0, '', '5: Truncated'),
    (EMPTY, '', 0, '|', '5: Field'), (EMPTY, '', 0, 'edits|', '5: Section'),
    (HEAD, '0 0 0|', 262144, '1 2 x|', '262147: TooMany'),
    (HEAD, '0 0 0|', 262143, 'edits|+ 0 0 0|- 0 0 0|', '262148: TooMany'), (HEAD, '', 0, '1 16384 x|', '3: Field'),
    (HEAD, '', 0, '1 16384 0|', '3: Range'), (HEAD, '', 0, '1 -1 0|', '3: Range'), (HEAD, '', 0, '+1 2 3|', '3: Field'),
    (HEAD, '', 0, '- 2 3|', '3: Field'), (HEAD, '', 0, '1 2 3 |', '3: Field'),
    (HEAD, '', 0, '1 2 18446744073709551616|', '3: Range'),
    (HEAD, '', 0, 'edits|+ 1 2 99999|', '4: Range'), (HEAD, '', 0, 'edits|+1 2 3|', '4: Field'),
]
FILES = [
    (HEAD, '', 0, '007 2 3|edits|radii|end|',
     '1 lines 1 points 0 edits 0 radii 0 queries in mesh3 1|points|7 2 3|edits|radii|end|'),
    (EMPTY, '1|', 16, 'end|',
     '0 lines 0 points 0 edits 16 radii 0 queries in mesh3 1|points|edits|radii|' + '1|' * 16 + 'end|'),
    (EMPTY, '', 0, 'end', '0 lines 0 points 0 edits 0 radii 0 queries in mesh3 1|points|edits|radii|end|'),
    (HEAD, '0 0 0|', 262144, 'edits|radii|end|', '262144 lines 262144 points 0 edits 0 radii 0 queries'),
    (HEAD, '', 0, '-0 -00 0|edits|radii|end|',
     '1 lines 1 points 0 edits 0 radii 0 queries in mesh3 1|points|0 0 0|edits|radii|end|'),
    (HEAD, '', 0, '0 0 0|007 2 16383|edits|+ 1 1 1|- 1 1 -0|radii|3|1073741823|end',
     '4 lines 2 points 2 edits 2 radii 0 queries in mesh3 1|points|0 0 0|7 2 16383|edits|+ 1 1 1|- 1 1 0|'
     'radii|3|1073741823|end|'),
]
CORNERS_OF_ALL = 'mesh3 1|points|0 0 0|16383 0 0|0 16383 0|0 0 16383|edits|'
DRAWN = [(0, 0, ''), (1, 1, '+ 8419 2879 5056|'),
         (4, 7, '+ 9782 4903 5434|+ 11337 16265 1682|+ 16017 15895 3992|- 11337 16265 1682|')]

MESHES = [
    ('a tetrahedron', FOUR, []),
    ('a tie, whose greatest point is outside', CORNERS, []),
    ('a point beyond a facet, inside the sphere', INNER, []),
    ('that point is added and taken', FOUR, [(True, (1, 1, 1)), (False, (1, 1, 1))]),
    ('a cube, with five ties', CUBE, []),
    ('its greatest corner is taken', CUBE, [(False, (2, 2, 2))]),
    ('its least corner is taken, with which the history begins', CUBE, [(False, (0, 0, 0))]),
    ('a point is taken whose link is flat, but the rest is solid', CORNERS, [(False, (2, 2, 2))]),
    ('the top of a pyramid cannot be taken, a corner of its base can', TENT, [(False, (1, 1, 2)), (False, (0, 0, 0))]),
    ('a point is added twice and taken twice', FOUR, [(k, (5, 5, 5)) for k in (True, True, False, False)]),
    ('a point stands there twice, and three points lie on one line',
     [(0, 0, 0), (0, 0, 0), (2, 0, 0), (4, 0, 0), (0, 2, 0), (0, 0, 2)], []),
    ('a point moves from within to the hull, and back', INNER,
     [move((1, 1, 1), (5, 5, 5)), move((5, 5, 5), (1, 1, 1))]),
    ('one of the hull moves within, and out again', CUBE, [move((2, 2, 2), (1, 1, 1)), move((1, 1, 1), (3, 3, 3))]),
    ('the point with which the history begins moves', INNER, [move((0, 0, 0), (1, 0, 0)), move((1, 0, 0), (0, 0, 1))]),
    ('no point moves to a place that is taken, nor to its own', INNER,
     [move((1, 1, 1), (0, 0, 0)), move((1, 1, 1), (1, 1, 1)), move((0, 0, 0), (2, 0, 0))]),
    ('no point moves that is not there, wherever it would', FOUR,
     [move((5, 5, 5), (6, 6, 6)), move((5, 5, 5), (0, 0, 0)), move((5, 5, 5), (5, 5, 5))]),
    ('a move would leave points of a plane', FOUR, [move((2, 0, 0), (0, 3, 3)), move((0, 0, 0), (1, 1, 0)),
                                                    move((2, 0, 0), (3, 0, 0))]),
    ('the top of a pyramid moves, though it cannot be taken', TENT,
     [(False, (1, 1, 2)), move((1, 1, 2), (1, 1, 0)), move((1, 1, 2), (3, 3, 5)), (False, (3, 3, 5)),
      move((3, 3, 5), (1, 1, 2))]),
    ('a corner of its base moves into the place of the top, and away', TENT,
     [move((1, 1, 2), (1, 1, 4)), move((0, 0, 0), (1, 1, 2)), move((1, 1, 2), (0, 0, 0))]),
    ('a point moves far and back, on a grid into another bucket', AROUND,
     [move((100, 100, 100), (9000, 9000, 9000)), move((9000, 9000, 9000), (100, 100, 100))]),
    ('all of four far points move, one by one', AROUND,
     [move((0, 0, 0), (0, 0, 16383)), move((0, 0, 9000), (9000, 9000, 0)), move((0, 9000, 0), (5000, 1, 2)),
      move((9000, 0, 0), (16383, 16383, 1)), (True, (0, 0, 0)), (False, (100, 100, 100))]),
    ('what moved is added, taken and moved again', CORNERS,
     [move((2, 2, 2), (2, 2, 0)), (True, (2, 2, 2)), (True, (2, 2, 0)), (False, (2, 2, 0)), move((2, 2, 2), (2, 2, 0)),
      (False, (2, 2, 2))]),
]


def drawn_edits(draw, places, points):
    """Edits, half of them moves, at drawn places; half of them of a point that may well be there."""
    for _ in range(14):
        kind, b = draw.choice((True, False, None, None)), draw.choice(places)
        a = draw.choice((b, draw.choice(points)))
        yield move(a, draw.choice(places)) if kind is None else (kind, a)


def drawn_meshes(seed=20240229):
    """Meshes of a lattice of few places, near and far, so that many replies and ties come."""
    draw = random.Random(seed)
    for step in (1, 8000):
        places = [(x * step, y * step, z * step) for x in range(3) for y in range(3) for z in range(3)]
        for count in (5, 7, 9):
            points = draw.sample(places, count)
            if plain.is_solid(points):
                yield points, list(drawn_edits(draw, places, points))


def drawn_cases(seed):
    """Such meshes without end, each on a drawn grid."""
    draw = random.Random(seed)
    while True:
        for points, edits in drawn_meshes(draw.random()):
            yield mesh_case(draw.choice((1, 2, 4, 8, 16)), points, edits)


def compare_drawn(count, seed=1, program=os.path.join(TOP, 'crates/worked_cases/out/worked_cases')):
    """Tells which drawn lists the program answers in another way, and how many replies of each kind there were."""
    asked, told = zip(*islice(drawn_cases(seed), count))
    done = subprocess.run([program], input='\n'.join([*asked, '']), capture_output=True, text=True, check=True)
    answers = done.stdout.split('\n')[:-1]
    wrong = [i for i in range(count) if i >= len(answers) or answers[i] != told[i]]
    for i in wrong[:10]:
        print(f'{asked[i]}\nis to be {told[i]}\nand is {answers[i] if i < len(answers) else "missing"}')
    replies = ''.join(line.split(';')[0].split(' by sets ')[1] for line in told)
    print(', '.join(f'{replies.count(letter)} {word}' for word, letter in LETTERS.items()))
    print(f'{count - len(wrong)} passed, {len(wrong)} failed')
    return len(wrong) > 0


def all_cases():
    for name, points, edits in MESHES:
        for grid in (1, 4, 16):
            yield name, mesh_case(grid, points, edits)
    for points, edits in drawn_meshes():
        for grid in (1, 4, 16):
            yield 'drawn edits', mesh_case(grid, points, edits)
    for points, edits in drawn_meshes():
        for grid in (1, 4, 16):
            begun = mesh_case(grid, points[:2] + points + points[2:4], edits, 'begun')
            yield 'points put in at once, two of them twice', begun
    for name, points, edits in MESHES[:6]:
        if plain.is_solid(points):
            yield 'a handle, ' + name, handle_case(points, edits, [*points[:2], (1, 1, 1), (16383, 0, 7)])
    for points, edits in drawn_meshes():
        yield 'handles and drawn edits', handle_case([*points, points[0]], edits,
                                                     [*points[:2], (1, 0, 1), (9000, 8000, 9)])
    yield 'handles that stay empty', ('handle 0,0,0 2,0,0 0,2,0 2,2,0; ; ', 'flat')
    yield 'handles that stay empty', ('handle 0,0,0 2,0,0 0,2,0 2,2,16384; ; ', 'outside')
    for points in (FOUR, CUBE, [*INNER, FOUR[1]]):
        yield 'least alphas', levels_case(points)
    yield 'least alphas of no mesh', ('levels 0,0,0 2,0,0 0,2,0 2,2,0', 'flat')
    for flat in ([], [(0, 0, 0), (2, 0, 0), (0, 2, 0), (2, 2, 0), (1, 1, 0)]):
        yield 'points of a plane have no four', (f'mesh 4; {words(flat)};', 'no four independent points')
    for name, points in (('a tetrahedron and its faces', FOUR), ('a cube and its faces', CUBE)):
        yield name, faces_case(4, points)
    for size in (1, 2, 4, 8, 16, 0, 3, 5, 6, 7, 9, 12, 15, 17, 32, 4294967295):
        yield 'sizes of grids', grid_case(size, [])
    for size, p in ((2, (8192, 0, 8191)), (1, (16383,) * 3), (16, (16383,) * 3), (16, (1024, 2048, 3072))):
        yield 'numbers of buckets', grid_case(size, [p])
    yield 'numbers of buckets', grid_case(2, [(0, 0, 0), (0, 0, 9000), (0, 9000, 0), (9000, 0, 0)])
    yield 'entries of one point', enter_case(2, [(k, (0, 0, 0)) for k in (True, True, False, False)])
    yield 'entries in two buckets', enter_case(2, [(True, (0, 0, 0)), (True, (8192, 0, 8191)),
                                                   (False, (8192, 0, 8191))])
    yield 'one of four buckets in hand', bucket_case(2, APART, 0)
    yield 'the only bucket of a grid', bucket_case(1, APART, 0)
    for grid in (1, 16):
        for points, v in ((INNER, (1, 1, 1)), (CUBE, (2, 2, 2)), (CUBE, (0, 0, 0)), (CORNERS, (2, 2, 2)),
                          (TENT, (0, 0, 0))):
            yield 'refills', refill_case(grid, points, 'all', v)
    yield 'a flat rest', refill_case(4, TENT, 'all', (1, 1, 2))
    for b in range(1, 8):
        yield 'a refill without a bucket', refill_case(2, AROUND, f'but {b}', (100, 100, 100))
    yield from (('walks', case) for case in walk_cases())
    yield from (('walks to the nearest point', case) for case in near_cases())
    for front, middle, times, end, fault in BAD_TEXTS:
        yield 'texts that are no file', (f'file {times}; {front}; {middle}; {end}', f'line {fault}')
    for front, middle, times, end, told in FILES:
        yield 'texts of files', (f'file {times}; {front}; {middle}; {end}', ' ' + told)
    for question, told in files.all_cases():
        yield 'texts of all versions', (question, told)
    for count, start, lines in DRAWN:
        yield 'drawn files', (f'draw {count}; {start}', f'{CORNERS_OF_ALL}{lines}radii|16384|262144|4194304|end|')


def main():
    lines = (*layers.all_lines(), *meshes.all_lines(), *named(all_cases()), *scenes.all_lines())
    asked, told = zip(*lines)
    for name, lines in (('stdin', asked), ('stdout', told)):
        with open(os.path.join(TOP, 'crates/worked_cases', name), 'w', encoding='utf-8') as file:
            file.write('\n'.join([*lines, '']))
    print(f'{sum(not line.startswith("#") for line in asked)} cases')


if __name__ == '__main__':
    if sys.argv[1:2] == ['--drawn']:
        sys.exit(compare_drawn(*map(int, sys.argv[2:4]), *sys.argv[4:]))
    main()
