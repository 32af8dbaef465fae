"""Reports of `delaunay` as arrays of numpy: what `mesh` and `shape` write, what `steps` and `parts --off` do.

A section of a report is read when it is first asked for. A fault names its line; what nobody asks for is only counted.
"""
import functools
import re

import numpy as np
from mesh3 import GREATEST, KINDS, MOST_LINES, NO_ALPHA, REPLIES, Trouble, read_bytes, shown

LETTERS = b'abcdefghijklmnopqrstuvwxyz'


def in_columns(block, count, width):
    """The numbers of `count` lines of `width` numbers, shape (count, width), or None where the text is not just these.

    One blank stands between two numbers, a line feed behind the last of a line, and each has one to eleven digits.
    """
    chars = np.frombuffer(block, dtype=np.uint8)
    ends = np.flatnonzero(chars <= 32)
    if block.translate(None, b'0123456789 \n') or len(ends) != count * width:
        return None
    lengths = np.diff(ends, prepend=-1) - 1
    feeds = (chars[ends] == 10).reshape(count, width)
    if lengths.min() < 1 or lengths.max() > 11 or feeds[:, :-1].any() or not feeds[:, -1].all():
        return None
    return np.fromstring(block.decode(), dtype=np.int64, sep=' ').reshape(count, width)


class Lines:
    """The lines of a text, taken from the front; a fault names the line."""

    def __init__(self, data, name):
        self.name = shown(name)
        self.data = data if data.endswith(b'\n') or not data else data + b'\n'
        self.ends = np.flatnonzero(np.frombuffer(self.data, dtype=np.uint8) == 10)
        self.next = 0

    def fault(self, number, why):
        return Trouble(f'{self.name}: line {number}: {why}')

    def start(self, i):
        return 0 if i == 0 else int(self.ends[i - 1]) + 1

    def line(self):
        if self.next == len(self.ends):
            raise self.fault(self.next + 1, 'the report ends here')
        text = self.data[self.start(self.next):int(self.ends[self.next])]
        self.next += 1
        return text

    def skip(self, count):
        """Passes over so many lines: the index of the first, and how many."""
        if self.next + count > len(self.ends):
            raise self.fault(len(self.ends) + 1, 'the report ends here')
        self.next += count
        return self.next - count, count

    def section(self, word):
        """Passes over a line `WORD N` and N lines behind it."""
        match = re.fullmatch(word + rb' ([0-9]{1,9})', self.line())
        if not match:
            raise self.fault(self.next, f"'{word.decode()} N' was expected")
        return self.skip(int(match.group(1)))

    def finish(self):
        if self.next != len(self.ends):
            raise self.fault(self.next + 1, 'nothing was expected behind the end')

    def block(self, place):
        first, count = place
        return self.data[self.start(first):int(self.ends[first + count - 1]) + 1] if count else b''

    def numbers(self, place, width, most):
        """So many lines of `width` numbers, each below `most`: an array of whole numbers of shape (count, width)."""
        first, count = place
        if not count:
            return np.zeros((0, width), dtype=np.int64)
        block = self.block(place)
        values = in_columns(block, count, width)
        if values is not None and values.max() < most:
            return values
        good = re.compile(rb'[0-9]{1,11}' + rb' [0-9]{1,11}' * (width - 1))
        for i, line in enumerate(block.split(b'\n')[:count]):
            if not good.fullmatch(line):
                raise self.fault(first + i + 1, f'{width} numbers were expected')
            if max(map(int, line.split())) >= most:
                raise self.fault(first + i + 1, 'a number is too great')
        raise self.fault(first + 1, f'{width} numbers a line were expected')

    def words(self, place, words):
        """So many lines, each one of these words, as places among them."""
        first, count = place
        places = {word.encode(): i for i, word in enumerate(words)}
        values = [places.get(line) for line in self.block(place).split(b'\n')[:count]]
        if None in values:
            raise self.fault(first + values.index(None) + 1, f'one of {", ".join(words)} was expected')
        return np.array(values, dtype=np.int64)

    def steps(self, place, width):
        """So many lines of `width` indices and a least alpha, or `none`, which is told as NO_ALPHA."""
        first, count = place
        if not count:
            return np.zeros((0, width), dtype=np.int64), np.zeros(0, dtype=np.int64)
        block = self.block(place)
        values = in_columns(block.replace(b' none\n', b' %d\n' % NO_ALPHA), count, width + 1)
        if values is not None:
            return values[:, :width], values[:, width]
        good = re.compile(rb'[0-9]{1,6}' + rb' [0-9]{1,6}' * (width - 1) + rb' ([0-9]{1,11}|none)')
        for i, line in enumerate(block.split(b'\n')[:count]):
            if not good.fullmatch(line):
                raise self.fault(first + i + 1, f'{width} indices and an alpha were expected')
        raise self.fault(first + 1, f'{width} indices and an alpha a line were expected')

    def faces(self, place, width, most):
        """So many lines of `width` indices and a kind: arrays of indices, and of kinds as places in KINDS."""
        first, count = place
        if not count:
            return np.zeros((0, width), dtype=np.int64), np.zeros(0, dtype=np.int64)
        block = self.block(place)
        kinds = kinds_of(block, self.ends[first:first + count] - self.start(first))
        if kinds is not None:
            faces = in_columns(block.translate(None, LETTERS).replace(b' \n', b'\n'), count, width)
            if faces is not None and faces.max() < most:
                return faces, kinds
        good = re.compile(rb'[0-9]{1,9}' + rb' [0-9]{1,9}' * (width - 1) + rb' (singular|regular|interior)')
        for i, line in enumerate(block.split(b'\n')[:count]):
            if not good.fullmatch(line):
                raise self.fault(first + i + 1, f'{width} indices and a kind were expected')
            if max(map(int, line.split()[:-1])) >= most:
                raise self.fault(first + i + 1, 'an index is too great')
        raise self.fault(first + 1, f'{width} indices and a kind a line were expected')


def kinds_of(block, ends):
    """The kinds that lines end with, as places in KINDS, or None where a line has none or other letters."""
    chars = np.frombuffer(block, dtype=np.uint8)
    if np.diff(ends, prepend=-1).min() < 10:
        return None
    tails = np.stack([chars[ends - back] for back in range(9, 0, -1)], axis=1)
    kinds = np.full(len(ends), -1)
    letters = 0
    for kind, word in enumerate(KINDS):
        tail = np.frombuffer(b' ' + word.encode(), dtype=np.uint8)
        has = (tails[:, 9 - len(tail):] == tail).all(axis=1)
        kinds[has] = kind
        letters += int(has.sum()) * len(word)
    if (kinds < 0).any() or len(block) - len(block.translate(None, LETTERS)) != letters:
        return None
    return kinds


class Shape:
    """The block of a radius: the admitted faces as arrays of indices of points, with their kinds as places in KINDS.

    `radius` is the number that the report has: a squared radius, or sixteenths of one, as the edit file counts.
    """

    def __init__(self, lines, radius, n):
        self.radius = radius
        self._lines = lines
        self._n = n
        self._at = {word: lines.section(word) for word in (b'points', b'edges', b'triangles', b'cells')}

    def _faces(self, word, width):
        return self._lines.faces(self._at[word], width, self._n)

    @functools.cached_property
    def _points(self):
        return self._faces(b'points', 1)

    @functools.cached_property
    def _edges(self):
        return self._faces(b'edges', 2)

    @functools.cached_property
    def _triangles(self):
        return self._faces(b'triangles', 3)

    points = property(lambda self: self._points[0])
    point_kinds = property(lambda self: self._points[1])
    edges = property(lambda self: self._edges[0])
    edge_kinds = property(lambda self: self._edges[1])
    triangles = property(lambda self: self._triangles[0])
    triangle_kinds = property(lambda self: self._triangles[1])

    @functools.cached_property
    def cells(self):
        return self._lines.numbers(self._at[b'cells'], 4, self._n)


class Report:
    """A report of `delaunay mesh` or `shape`: points (n, 3), cells (m, 4), hull (k, 3), and a Shape for each radius."""

    def __init__(self, lines):
        if lines.line() != b'mesh3-out 1':
            raise lines.fault(1, "'mesh3-out 1' was expected: is this a report?")
        self._lines = lines
        self._at = {word: lines.section(word) for word in (b'replies', b'points', b'cells', b'hull')}
        n = self._at[b'points'][1]
        self.shapes = []
        while (text := lines.line()) != b'end':
            shape = re.fullmatch(rb'shape ([0-9]{1,11})', text)
            tags = re.fullmatch(rb'order ([0-9]{1,9})', text)
            if shape:
                self.shapes.append(Shape(lines, int(shape.group(1)), n))
            elif tags:
                self._at[b'order'] = lines.skip(int(tags.group(1)))
            else:
                raise lines.fault(lines.next, "'shape R', 'order N' or 'end' was expected")
        lines.finish()

    @functools.cached_property
    def replies(self):
        return self._lines.words(self._at[b'replies'], REPLIES)

    @functools.cached_property
    def points(self):
        return self._lines.numbers(self._at[b'points'], 3, GREATEST + 1)

    @functools.cached_property
    def cells(self):
        return self._lines.numbers(self._at[b'cells'], 4, self._at[b'points'][1])

    @functools.cached_property
    def hull(self):
        return self._lines.numbers(self._at[b'hull'], 3, self._at[b'points'][1])

    @functools.cached_property
    def order(self):
        """The tags of the history's lines, or None where the report was made without --order."""
        return self._lines.numbers(self._at[b'order'], 1, MOST_LINES)[:, 0] if b'order' in self._at else None

    def shape(self, radius):
        """The first block whose head has this number, or the only one where no number is given."""
        if not self.shapes:
            raise Trouble('the report has no shape: make it by `delaunay shape`')
        if radius is None:
            if len(self.shapes) > 1:
                raise Trouble(f'the report has several radii: choose one by --radius ({self.numbers()})')
            return self.shapes[0]
        for shape in self.shapes:
            if shape.radius == radius:
                return shape
        raise Trouble(f'the report has no shape for {radius}: it has {self.numbers()}')

    def numbers(self):
        return ', '.join(str(shape.radius) for shape in self.shapes)


class Surface:
    """What `delaunay parts --off` writes: all points, and the triangles that bound a part, turned outwards."""

    def __init__(self, lines):
        if lines.line() != b'OFF':
            raise lines.fault(1, "'OFF' was expected: is this what `delaunay parts --off` wrote?")
        counts = re.fullmatch(rb'([0-9]{1,6}) ([0-9]{1,7}) 0', lines.line())
        if not counts:
            raise lines.fault(2, "'POINTS TRIANGLES 0' was expected")
        self.points = lines.numbers(lines.skip(int(counts.group(1))), 3, GREATEST + 1)
        first, count = lines.skip(int(counts.group(2)))
        rows = lines.numbers((first, count), 4, max(len(self.points), 4))
        wrong = np.flatnonzero((rows[:, 0] != 3) | (rows[:, 1:] >= len(self.points)).any(axis=1))
        if len(wrong):
            raise lines.fault(first + int(wrong[0]) + 1, "'3 I J K' was expected, with the indices of three points")
        if lines.next != len(lines.ends):
            raise lines.fault(lines.next + 1, 'nothing was expected behind the triangles')
        self.triangles = rows[:, 1:]


class Steps:
    """What `delaunay steps` writes: the edges, triangles and tetrahedra, arrays of indices, each with its least alpha.

    An alpha is a squared radius in sixteenths of the grid's unit; NO_ALPHA where no alpha admits the face.
    """

    def __init__(self, lines):
        if lines.line() != b'mesh3-steps 1':
            raise lines.fault(1, "'mesh3-steps 1' was expected: is this what `delaunay steps` wrote?")
        widths = ((b'edges', 2), (b'triangles', 3), (b'cells', 4))
        read = [lines.steps(lines.section(word), width) for word, width in widths]
        if lines.line() != b'end':
            raise lines.fault(lines.next, "'end' was expected")
        lines.finish()
        (self.edges, self.edge_alphas), (self.triangles, self.triangle_alphas), (self.cells, self.cell_alphas) = read

    def point_count(self):
        """How many points there are: each is a corner of a tetrahedron."""
        return int(self.cells.max()) + 1 if len(self.cells) else 0

    def kinds(self):
        """The faces of two, three and four points, each kind with its least alphas."""
        return [(self.edges, self.edge_alphas), (self.triangles, self.triangle_alphas), (self.cells, self.cell_alphas)]


def read_surface(name):
    return Surface(Lines(read_bytes(name), name))


def read_report(name):
    return Report(Lines(read_bytes(name), name))


def read_steps(name):
    return Steps(Lines(read_bytes(name), name))


def read_drawable(name):
    """A report, or a surface where the text is OFF."""
    lines = Lines(read_bytes(name), name)
    return Surface(lines) if lines.data.startswith(b'OFF\n') else Report(lines)
