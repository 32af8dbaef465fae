"""Runs every command of the built program on files of 262,144 lines, the most that there may be, and compares what it
writes, by checksum, with what `tools/make full-size` makes of them from the definitions.

    tools/try large [PROGRAM [LINES]]

The first file has points, edits and 2,000 queries; the second is the first with zeros before its numbers, so that it
has 16 MiB, the greatest text; in the third each line is a point, and it is asked for its parts at the least alpha of
one part. Each line tells the time on the clock and the peak of memory of a run. It takes some twenty minutes, fewer
with fewer LINES, and needs numpy, scipy, GUDHI and GNU time. The last line is 'N passed, M failed'.
"""
import hashlib
import os
import subprocess
import sys
import tempfile

import numpy

from plain import TOP
from plain.full_file import drawn_file
from plain.full_size import BEYOND, Shape, parts_text, report_text, replies_of, texts

LINES = 262_144
GREATEST = 16 * 1024 * 1024


def padded(text):
    """The text with zeros before the numbers of its first lines, so that it is as long as may be."""
    lines = text.split('\n')
    missing, last = GREATEST - len(text), lines.index('edits')
    each, more = divmod(missing, last - 2)
    for number in range(2, last):
        lines[number] = '0' * (each + (number - 2 < more)) + lines[number]
    made = '\n'.join(lines)
    assert len(made) == GREATEST
    return made


class Parts:
    """Sets that are joined, and how many there are."""

    def __init__(self, count):
        self.above, self.count = list(range(count)), 0

    def first(self, one):
        while self.above[one] != one:
            self.above[one] = self.above[self.above[one]]
            one = self.above[one]
        return one

    def join(self, one, other):
        one, other = self.first(one), self.first(other)
        if one != other:
            self.above[other] = one
            self.count -= 1


def least_alpha_of_one_part(shape):
    """The least alpha at which each point is in an admitted cell and these are one part."""
    alphas, order = shape.of_cells.tolist(), numpy.argsort(shape.of_cells, kind='stable').tolist()
    beside, covers = shape.beside.tolist(), int(shape.by_cells['points'].max())
    there, parts = [False] * len(alphas), Parts(len(alphas))
    for at, cell in enumerate(order):
        there[cell] = True
        parts.count += 1
        for other in beside[cell]:
            if other >= 0 and there[other]:
                parts.join(cell, other)
        alpha = alphas[cell]
        if alpha >= covers and parts.count == 1 and (at + 1 == len(order) or alphas[order[at + 1]] > alpha):
            return alpha
    return BEYOND


def asked(count):
    """Of files of so many lines: what each run is called, its words, what it is given, and what it is to write."""
    drawn = drawn_file(count * 7 // 8, count - count * 7 // 8)
    wanted = dict(texts(drawn))
    given = wanted.pop('input.mesh3')
    for words, text in wanted.items():
        yield words, words.split(), wanted['mesh'] if words == 'check' else given, text
    yield 'mesh of the greatest text', ['mesh'], padded(given), wanted['mesh']
    points, _, _ = drawn_file(count, 0)
    lines = [' '.join(map(str, point)) for point in points]
    given = '\n'.join(['mesh3 1', 'points', *lines, 'edits', 'radii', 'end', ''])
    replies, left = replies_of(points, [])
    shape = Shape(left)
    yield 'mesh of points alone', ['mesh'], given, report_text(replies, shape.points, shape.cells, shape.hull)
    yield 'parts --most 1', ['parts', '--most', '1'], given, parts_text(shape, least_alpha_of_one_part(shape))


def run(program, words, given, room):
    """The checksum of what the program writes, its status, the time that it takes, and its peak of memory in MB."""
    given_at, out_at, used_at = (os.path.join(room, name) for name in ('given', 'out', 'used'))
    with open(given_at, 'w', encoding='ascii') as file:
        file.write(given)
    with open(given_at, 'rb') as source, open(out_at, 'wb') as out:
        measured = ['/usr/bin/time', '-q', '-f', '%e %M', '-o', used_at, program, *words]
        done = subprocess.run(measured, stdin=source, stdout=out, check=False)
    with open(out_at, 'rb') as out, open(used_at, encoding='ascii') as used:
        made, (taken, peak) = hashlib.sha256(out.read()).hexdigest(), map(float, used.read().split())
    return made, done.returncode, taken, peak / 1024


def main(words):
    program = os.path.realpath(words[0] if words else os.path.join(TOP, 'crates/delaunay/out/delaunay'))
    assert os.access(program, os.X_OK), f'there is no program {program}'
    passed = failed = 0
    with tempfile.TemporaryDirectory() as room:
        for name, called, given, wanted in asked(int(words[1]) if len(words) > 1 else LINES):
            made, status, taken, peak = run(program, called, given, room)
            right = status == 0 and made == hashlib.sha256(wanted.encode()).hexdigest()
            passed, failed = passed + right, failed + (not right)
            print(f'{"ok" if right else "WRONG"} {name}: status {status}, {len(wanted):,} bytes, {taken:.2f} s, '
                  f'{peak:.0f} MB', flush=True)
    print(f'{passed} passed, {failed} failed')
    return failed > 0


if __name__ == '__main__':
    sys.exit(main(sys.argv[1:]))
