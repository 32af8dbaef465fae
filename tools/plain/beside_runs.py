"""Runs a program over drawn edit files by one worker and by two, and compares the texts.

The files are those of `tools/try random`: small and full of ties, with takes, moves, and edits that take one of the
opening four. One worker edits a mesh without buckets and two edit the table, so that each is a check on the other, and
no slow plain program is run. Where no edit takes one of the opening four, the texts of `mesh` must be equal. Else the
lines are made again by one worker in the order that the two tell, and the mesh and each line's reply must be the same.
A file on which the two differ is printed. The last line is 'N passed, M failed (A of all anchored)'.

usage: tools/try beside [FILES] [SEED] [PROGRAM]   (10000 1, the built program)
"""
import random
import sys

from plain import random_cases as drawn

KINDS = [drawn.drawn_file, drawn.file_of_takes, drawn.file_of_moves]


def whole(file):
    """A drawn file with its version and its queries."""
    return file if len(file) > 3 else (*file, 1, [])


def parts_of(text):
    """The replies of a report, a list of words, and the lines behind them up to the order block or the end."""
    lines = text.split('\n')
    count = int(lines[1].split()[1])
    behind = lines[2 + count:]
    order = next((i for i, line in enumerate(behind) if line.startswith('order ')), behind.index('end'))
    return lines[2:2 + count], behind[:order]


def made_again(file, order):
    """The replies and the mesh that one worker makes of a file's lines in an order of two."""
    points, edits, radii, version, queries = file
    lines = [(True, p) for p in points] + edits
    again = [lines[place] for place in order]
    status, text = drawn.run(([edit[1] for edit in again[:4]], again[4:], radii, version, queries), command='mesh')
    return parts_of(text) if status == 0 else None


def agree(file):
    """Whether one worker and two make the same of a file, and whether no edit of it takes one of the opening four."""
    points, edits, *_ = file
    crew = ('--workers', '2', '--grid', random.choice(['1', '2', '4', '8', '16']))
    if not drawn.is_solid(points):
        return drawn.run(file, command='mesh') == drawn.run(file, *crew, command='mesh') == (6, ''), False
    if drawn.is_anchored(points, edits):
        one = drawn.run(file, command='mesh')
        return one[0] == 0 and one == drawn.run(file, *crew, command='mesh'), True
    status, text = drawn.run(file, '--order', *crew, command='mesh')
    if status != 0:
        return False, False
    order = drawn.order_told(text)
    replies, mesh = parts_of(text)
    if not drawn.keeps(points, edits, order):
        return False, False
    return made_again(file, order) == ([replies[place] for place in order], mesh), False


def main(words):
    if len(words) > 3:
        raise SystemExit(__doc__)
    count, seed = (int(word) for word in (words + ['10000', '1'][len(words):])[:2])
    if len(words) > 2:
        drawn.PROGRAM = words[2]
    random.seed(seed)
    failed = anchored = 0
    for _ in range(count):
        file = whole(random.choice(KINDS)())
        same, kept = agree(file)
        anchored += kept
        if not same:
            failed += 1
            print(drawn.text_of(*file), end='')
    print(f'{count - failed} passed, {failed} failed ({anchored} of all anchored)')
    sys.exit(failed > 0)


if __name__ == '__main__':
    main(sys.argv[1:])
