"""Prints an edit file at full size: 65,536 lines of points and edits, a radius and 2,000 queries; or, with --cloud, one
of 131,072 points alone, of which several workers make the cells by threads; or, with --edited, one of 110,000 points,
of which they do so too, and 400 edits.

    tools/make full-file [--cloud | --edited]

It is drawn by a rule of its own. Of the edits every fourth takes a point, and every fourth moves one; the first
thousand points stay, so the opening four do. tools/cases runs every command on it, beside what `tools/make full-size`
makes.
"""
import sys

from plain import random_cases

POINTS, EDITS, QUERIES, START = 56_000, 9_536, 2_000, 20261130
CLOUD = 131_072
EDITED, LINES = 110_000, 400
RADIUS = 16 * 90_000  # in sixteenths of a squared distance


def drawn(count):
    """So many places in a ball, of which no face of the grid has several, by a linear congruence."""
    state, places = START, []
    while len(places) < count:
        place = []
        for _ in range(3):
            state = (state * 6364136223846793005 + 1442695040888963407) % 2**64
            place.append((state >> 33) % 16384)
        if sum((x - 8192)**2 for x in place) < 8000**2:
            places.append(tuple(place))
    return places


def drawn_file(count=POINTS, lines=EDITS):
    """Points, and edits of which every fourth takes a point, and every fourth moves one; the first points stay. And
    queries."""
    places = drawn(count + lines + QUERIES)
    points, more, queries = places[:count], places[count:-QUERIES], places[-QUERIES:]
    edits = []
    for i, place in enumerate(more):
        known = points[1000 + 5 * i % (count - 1000)]
        edits.append((False, known) if i % 4 == 1 else (None, known, place) if i % 4 == 3 else (True, place))
    return points, edits, queries


def drawn_cloud():
    """Points alone."""
    return drawn(CLOUD), [], []


def drawn_edited():
    """So many points that threads make their cells, and edits."""
    return drawn_file(EDITED, LINES)


DRAWN = {(): drawn_file, ('--cloud',): drawn_cloud, ('--edited',): drawn_edited}


def text(given):
    """The text of what was drawn, of version 4."""
    points, edits, queries = given
    return random_cases.text_of(points, edits, [RADIUS], 4, queries)


if __name__ == '__main__':
    print(text(DRAWN[tuple(sys.argv[1:])]()), end='')
