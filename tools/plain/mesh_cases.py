"""Makes the cases of meshes that are read and checked, which `tools/make cases` puts into the input of the program
`worked_cases`, and the text that is to be printed, from the definitions alone.

The reader is one of its own, and cells, sides and spheres are those of the plain program of `tools/try random`. Some
answers were worked by hand besides.

usage: tools/make meshes [DRAWN [SEED]]
prints each case with its answer below it; with a number, so many drawn cases and nothing else
"""
import random
import re
import sys
from itertools import combinations, product

from plain import random_cases as plain

sys.dont_write_bytecode = True

A, B, C, D = FOUR = [(0, 0, 0), (0, 0, 2), (0, 2, 0), (2, 0, 0)]
CUBE = [(x, y, z) for x in (0, 2) for y in (0, 2) for z in (0, 2)]
INNER = [A, B, C, (1, 1, 1), D]
WORDS = ('Inserted', 'Duplicate', 'Removed', 'Missing', 'Flat', 'Moved', 'Occupied')
HEADS = (('replies', 262144, 1), ('points', 262144, 3), ('cells', 16777216, 4), ('hull', 16777216, 3))
NUMBER = re.compile('-?[0-9]+')


# ---- the reader

class Fault(Exception):
    """Why a text is of no mesh: the line, and the word."""


def numbers(line, count):
    fields = line.split(' ')
    return [int(f) for f in fields] if len(fields) == count and all(map(NUMBER.fullmatch, fields)) else None


def read(text):
    """The four lists of a text in which a line feed is written as a bar."""
    lines = text.split('|')
    if lines[-1] == '':
        lines.pop()
    taken = []

    def due():
        if len(taken) == len(lines):
            raise Fault(len(lines) + 1, 'Truncated')
        taken.append(lines[len(taken)])
        return taken[-1]

    def need(right, why):
        if not right:
            raise Fault(len(taken), why)

    need(due() == 'mesh3-out 1', 'Section')
    lists = []
    for word, most, width in HEADS:
        line = due()
        count = numbers(line.removeprefix(word + ' '), 1) if line.startswith(word + ' ') else None
        need(count is not None, 'Section')
        need(0 <= count[0] <= most, 'TooMany')
        lists.append([])
        for _ in range(count[0]):
            line = due()
            if word == 'replies':
                need(line in WORDS, 'Field')
                lists[0].append(line)
                continue
            told = numbers(line, width)
            need(told is not None, 'Field')
            if word == 'points':
                need(all(0 <= c <= 16383 for c in told), 'Range')
            else:
                need(all(0 <= i < len(lists[1]) for i in told) and told == sorted(set(told)), 'Range')
            need(not lists[-1] or lists[-1][-1] < tuple(told), 'Range')
            lists[-1].append(tuple(told))
    need(due() == 'end', 'Section')
    if len(taken) < len(lines):
        due()
        need(False, 'Section')
    return lists


# ---- the verdict

def sign(number):
    return (number > 0) - (number < 0)


def outside(a, b, c, d, e):
    return plain.outside(a, b, c, d, e) if plain.orientation(a, b, c, d) > 0 else plain.outside(b, a, c, d, e)


def first_inside(points, cell, corners, among):
    for e in among:
        if e not in cell and not outside(*corners, points[e]):
            return 'inside', cell, (e,)
    return None


def flaw_of_full(points, cell):
    corners = [points[i] for i in cell]
    if plain.orientation(*corners) == 0:
        return 'flat', cell
    return first_inside(points, cell, corners, range(len(points)))


def flaw_of_triple(points, cell):
    corners = [points[i] for i in cell]
    if plain.collinear(*corners):
        return 'flat', cell
    sides = [sign(plain.orientation(*corners, p)) for p in points]
    for pair in combinations(range(len(points)), 2):
        if sides[pair[0]] * sides[pair[1]] < 0:
            return 'sides', cell, pair
    off = [i for i, side in enumerate(sides) if side]
    flat = [i for i, side in enumerate(sides) if not side]
    return first_inside(points, cell, [*corners, points[off[0]]], flat) if off else None


def facets_of(cell):
    """Triples before pairs; a pair is one with the infinite vertex."""
    if len(cell) == 4:
        return [(0, t) for t in combinations(cell, 3)]
    return [(1, p) for p in combinations(cell, 2)] + [(0, cell)]


def verdict(points, cells, hull):
    if not cells and not hull:
        return ('empty',)
    for cell in cells + hull:
        flaw = flaw_of_full(points, cell) if len(cell) == 4 else flaw_of_triple(points, cell)
        if flaw:
            return flaw
    every = [f for cell in cells + hull for f in facets_of(cell)]
    for facet in sorted(set(every)):
        if every.count(facet) != 2:
            return 'facet', facet[1]
    return None


# ---- cases

def text_of(points, cells, hull, replies=None):
    replies = ['Inserted'] * len(points) if replies is None else replies
    lines = ['mesh3-out 1']
    for (word, _, _), rows in zip(HEADS, (replies, points, cells, hull)):
        lines.append(f'{word} {len(rows)}')
        lines += [row if isinstance(row, str) else ' '.join(map(str, row)) for row in rows]
    return '|'.join([*lines, 'end', ''])


def lists_of(points):
    index = {p: i for i, p in enumerate(points)}
    both = plain.full_cells(points), plain.open_cells(points)
    return [[tuple(index[p] for p in c) for c in cells] for cells in both]


def dashed(cells):
    return ''.join(' ' + '-'.join(map(str, c)) for c in cells)


def case(text, worked=None):
    """The line that is asked, and its answer; a worked answer is the end of it."""
    try:
        replies, points, cells, hull = read(text)
    except Fault as fault:
        told = 'line {}: {}'.format(*fault.args)
    else:
        flaw = verdict(points, cells, hull)
        told = ''.join(f' {r}' for r in replies) + '; points' + ''.join(' %d,%d,%d' % p for p in points)
        told += f'; cells{dashed(cells)}; hull{dashed(hull)};'
        told += f' bad {flaw[0]}{dashed(flaw[1:])}' if flaw else ' good'
    assert worked is None or told.endswith(worked), (told, worked)
    return f'check {text}', told


def cases_by_hand():
    yield 'a mesh that is read and judged'
    four = text_of(FOUR, *lists_of(FOUR))
    yield case(four, ' good')
    yield case(four.replace('cells 1', 'cells 2'), 'line 14: Field')
    yield case(four.replace('mesh3-out 1', 'mesh3-out 2'), 'line 1: Section')
    yield case(four.replace('Inserted|' * 4, '|'.join(WORDS[3:]) + '|'), ' good')
    cells, hull = lists_of(CUBE)
    yield case(text_of(CUBE, cells, hull), ' good')
    yield 'the first flaw of a mesh that is none'
    yield case(text_of(CUBE, [c for c in cells if c != (3, 5, 6, 7)], hull), ' bad facet 3-5-6')
    yield case(text_of(INNER, [(0, 1, 2, 4)], []), ' bad inside 0-1-2-4 3')
    yield case(text_of(CUBE, [(0, 1, 2, 3)], []), ' bad flat 0-1-2-3')
    yield case(text_of(CUBE, cells, hull[:-1]))
    yield case(text_of(CUBE, cells, []))
    yield case(text_of(CUBE, [], hull))
    yield case(text_of(CUBE, [], []), ' bad empty')
    yield case(text_of([], [], []), ' bad empty')
    yield case(text_of(INNER, [], [(0, 1, 3)]), ' bad sides 0-1-3 2-4')
    yield case(text_of([A, B, (0, 0, 4), C], [], [(0, 1, 2)]), ' bad flat 0-1-2')
    yield case(text_of([A, B, C, (0, 2, 2), D], [], [(0, 1, 2), (1, 2, 3)]))
    yield case(text_of([A, B, (0, 1, 1), C, D], [], [(0, 1, 3)]))
    yield case(text_of(CUBE[:4], [], [(0, 1, 2), (1, 2, 3)]), ' bad facet 0-1-2')


def cases_of_faults():
    four = text_of(FOUR, *lists_of(FOUR))
    yield 'the text of a mesh, cut at each of its bytes'
    yield from (case(four[:n]) for n in range(len(four)))
    yield 'texts that are of no mesh'
    turned = (
        ('mesh3-out 1', 'mesh3 1', '1: Section'), ('replies 4', 'points 4', '2: Section'),
        ('replies 4', 'replies  4', '2: Section'),
        ('replies 4', 'replies', '2: Section'), ('replies 4', 'replies 4 ', '2: Section'),
        ('replies 4', 'replies -1', '2: TooMany'),
        ('replies 4', 'replies 262145', '2: TooMany'), ('replies 4', 'replies 5', '7: Field'),
        ('replies 4', 'replies 3', '6: Section'),
        ('Inserted', 'inserted', '3: Field'), ('Inserted', 'Inserted ', '3: Field'), ('Inserted', '', '3: Field'),
        ('points 4', 'points 262145', '7: TooMany'), ('points 4', 'points 18446744073709551620', '7: TooMany'),
        ('points 4', 'points 0', '8: Section'), ('points 4', 'points x', '7: Section'), ('0 0 2', '0 0', '9: Field'),
        ('0 0 2', '0 0 2 0', '9: Field'), ('0 0 2', '0 0 +2', '9: Field'), ('0 0 2', '0 0 16384', '9: Range'),
        ('0 0 2', '0 0 -1', '9: Range'), ('0 0 2', '0 0 0', '9: Range'), ('0 0 2', '0 3 0', '10: Range'),
        ('cells 1', 'cells 16777217', '12: TooMany'), ('cells 1', 'cells 0', '13: Section'),
        ('0 1 2 3', '0 1 2', '13: Field'),
        ('0 1 2 3', '0 1 2 4', '13: Range'), ('0 1 2 3', '0 1 3 2', '13: Range'), ('0 1 2 3', '0 1 1 3', '13: Range'),
        ('0 1 2 3', '-1 1 2 3', '13: Range'), ('0 1 2 3', '0 1 2 18446744073709551619', '13: Range'),
        ('hull 4', 'hull 16777217', '14: TooMany'),
        ('hull 4', 'hull 3', '18: Section'), ('hull 4', 'hull 5', '19: Field'), ('|0 1 3|', '|0 1 2|', '16: Range'),
        ('|0 1 3|', '|0 1 4|', '16: Range'), ('|0 2 3|1 2 3|', '|1 2 3|0 2 3|', '18: Range'),
        ('|0 1 3|', '|0 1 3~|', '16: Field'),
        ('end|', 'end ', '19: Section'), ('end|', 'end||', '20: Section'), ('end|', 'end|end|', '20: Section'),
        ('end|', '', '19: Truncated'),
        ('end|', 'shape 1|', '19: Section'), ('replies 4', 'replies 16777217', '2: TooMany'),
        ('end|', 'order 0|end|', '19: Section'))
    for old, new, worked in turned:
        assert old in four
        yield case(four.replace(old, new, 1), f'line {worked}')
    yield 'texts of a mesh in another writing'
    for old, new in (('end|', 'end'), ('replies 4', 'replies 0004'), ('|0 0 2|', '|-0 00 002|'),
                     ('0 1 2 3', '-0 01 2 0003'), ('hull 4', 'hull 000000000000000000000000004')):
        yield case(four.replace(old, new, 1), ' good')


def drawn_points(draw):
    kind, count = draw.choice(('near', 'plane', 'wide', 'sphere')), draw.randint(4, 8)
    if kind == 'near':
        points = {tuple(draw.randint(0, 2) for _ in range(3)) for _ in range(count)}
    elif kind == 'plane':
        points = {(draw.randint(0, 3), draw.randint(0, 3), draw.choice((0, 0, 0, 1))) for _ in range(count)}
    elif kind == 'sphere':
        places = product(range(7), repeat=3)
        points = set(draw.sample([p for p in places if sum((c - 3) ** 2 for c in p) == 9], count))
    else:
        points = {tuple(draw.randint(0, 16383) for _ in range(3)) for _ in range(count)}
    return sorted(points)


def mutilated(draw, points, cells, hull):
    for _ in range(draw.randint(1, 2)):
        way = draw.random()
        if way < .3 and cells:
            cells = [c for c in cells if c != draw.choice(cells)]
        elif way < .5 and hull:
            hull = [c for c in hull if c != draw.choice(hull)]
        elif way < .8:
            cells = sorted({*cells, draw.choice(list(combinations(range(len(points)), 4)))})
        else:
            hull = sorted({*hull, draw.choice(list(combinations(range(len(points)), 3)))})
    return cells, hull


def broken(draw, text):
    """A text with a byte taken, put or turned, or a line taken, put twice or exchanged."""
    way, n = draw.randrange(5), draw.randrange(1, len(text))
    if way == 0:
        return text[:n] + text[n + 1:]
    if way == 1:
        return text[:n] + draw.choice('0123456789- |x') + text[n:]
    if way == 2:
        return text[:n] + draw.choice('0123456789- |x') + text[n + 1:]
    lines = text.split('|')[:-1]
    i, j = draw.randrange(len(lines)), draw.randrange(len(lines))
    if way == 3:
        lines[i], lines[j] = lines[j], lines[i]
    else:
        lines[i:i + 1] = draw.choice(([], [lines[i]] * 2))
    return '|'.join([*lines, ''])


def drawn_cases(count, seed):
    draw = random.Random(seed)
    for number in range(count):
        points = drawn_points(draw)
        while len(points) < 4:
            points = drawn_points(draw)
        cells, hull = lists_of(points) if plain.is_solid(points) else ([], [])
        if number % 4:
            cells, hull = mutilated(draw, points, cells, hull)
        text = text_of(points, cells, hull, [draw.choice(WORDS) for _ in range(draw.randrange(3))])
        yield case(broken(draw, text) if number % 4 == 3 else text)


def all_lines():
    """Each line of the input with its answer; a name is its own."""
    drawn = 'drawn meshes, most of them mutilated', *drawn_cases(60, 20240301)
    for part in (cases_by_hand(), cases_of_faults(), drawn):
        for one in part:
            yield ('# ' + one,) * 2 if isinstance(one, str) else one


if __name__ == '__main__':
    drawn = [int(w) for w in sys.argv[1:]]
    for asked, answer in drawn_cases(drawn[0], (drawn[1:] or [1])[0]) if drawn else all_lines():
        print(asked, answer, sep='\n')
