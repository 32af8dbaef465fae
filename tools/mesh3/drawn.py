"""What a page draws: points, triangles and loose edges with their stops, and the numbers of parts, loops and voids."""
import numpy as np
from mesh3.bars import longest
from mesh3.betti import betti_numbers, reached

LASTING = 1.25  # a shape that lasts over such a ratio of radii tells of the cloud; of random points none does
MOST_TRIANGLES = 1500000  # of more a page keeps those that are seen at some radii


class Drawn:
    """Faces by the stops at which they are seen.

    `points` (n, 3) whole; `alphas` (m,) of the stops; `triangles` (t, 3) ascending, with `turned` (t,) where the last
    two corners are to be swapped to look outwards, and `triangle_stops` (t, 3): when it is in, at one tetrahedron that
    is in, and inside. `edges` (e, 2) with `edge_stops` (e, 2): when it is in, and when a triangle at it is. `changes`
    (4, m): what each stop adds to parts, loops, voids and tetrahedra, or None.

    `has_sides` tells whether triangles are turned outwards, and bound a solid. With edits `lives` has for triangles
    and edges the frame at which each comes and the one at which it goes, and `frames` what each edit did.
    """

    def __init__(self, points, alphas):
        self.points, self.alphas = points, alphas
        self.triangles, self.turned = np.zeros((0, 3), dtype=np.int64), np.zeros(0, dtype=bool)
        self.triangle_stops = np.zeros((0, 3), dtype=np.int64)
        self.edges, self.edge_stops = np.zeros((0, 2), dtype=np.int64), np.zeros((0, 2), dtype=np.int64)
        self.changes, self.has_sides = None, True
        self.lives, self.frames, self.chosen, self.all_triangles = None, None, None, 0
        self.bars = None  # rows (dimension, stop of birth, stop of death), the longest of each dimension first

    def numbers(self):
        """Parts, loops, voids and tetrahedra at each stop, shape (4, m)."""
        return None if self.changes is None else np.cumsum(self.changes, axis=1)

    def by_stops(self):
        """Puts triangles and edges in order of their stops."""
        for name in ('triangle', 'edge'):
            stops = getattr(self, f'{name}_stops')
            order = np.argsort(stops[:, 0], kind='stable')
            setattr(self, f'{name}s', getattr(self, f'{name}s')[order])
            setattr(self, f'{name}_stops', stops[order])
            if name == 'triangle':
                self.turned = self.turned[order]
            if self.lives:
                self.lives[name] = self.lives[name][order]

    def thinned(self):
        """Of very many triangles keeps those that are seen at some stops, as many as may be, spread over the radii."""
        self.all_triangles = len(self.triangles)
        if self.all_triangles <= MOST_TRIANGLES or len(self.alphas) < 65:
            return
        low, high = extent_of(self)
        for count in (400, 300, 200, 150, 110, 80, 60, 45, 34, 25, 18, 12):
            wanted = np.geomspace(low, high, count) ** 2
            chosen = np.unique(np.append(np.searchsorted(self.alphas, wanted, side='right') - 1,
                                         [0, len(self.alphas) - 1]))
            seen, seen_edges = (seen_at(stops, chosen) for stops in (self.triangle_stops, self.edge_stops))
            if seen.sum() <= MOST_TRIANGLES:
                break
        self.chosen = chosen
        self.triangles, self.turned = self.triangles[seen], self.turned[seen]
        self.triangle_stops = self.triangle_stops[seen]
        self.edges, self.edge_stops = self.edges[seen_edges], self.edge_stops[seen_edges]


def seen_at(stops, chosen):
    """Which faces are seen at one of the chosen stops: they come in at it or before, and are not covered yet."""
    return np.searchsorted(chosen, stops[:, 0]) < np.searchsorted(chosen, stops[:, -1])


def of_filtration(filtration):
    """What a page draws of a filtration with its points."""
    f = filtration
    drawn = Drawn(f.points, f.alphas)
    turned = f.turned()
    seen = f.all_stops > f.triangle_stops
    drawn.triangles, drawn.turned = f.triangles[seen], (turned[:, 1] > turned[:, 2])[seen]
    drawn.triangle_stops = np.stack([f.triangle_stops, f.some_stops, f.all_stops], axis=1)[seen]
    covered = f.first_triangles()
    loose = covered > f.edge_stops
    drawn.edges = f.edges[loose]
    drawn.edge_stops = np.stack([f.edge_stops, covered], axis=1)[loose]
    drawn.has_sides = f.sides is not None
    numbers = betti_numbers(f)
    if numbers is not None:
        drawn.bars = longest(f)
        numbers = np.concatenate([numbers, [reached(f.cell_stops, f.never)]])
        drawn.changes = np.diff(numbers, axis=1, prepend=0)
    return drawn


def of_surface(surface):
    """What a page draws of the triangles that bound a part, as they are turned."""
    drawn = Drawn(surface.points, np.zeros(1, dtype=np.int64))
    corners = np.stack([np.roll(surface.triangles, -i, axis=1) for i in range(3)])
    least = surface.triangles.argmin(axis=1)
    rows = corners[least, np.arange(len(least))]  # the least corner first
    drawn.turned = rows[:, 1] > rows[:, 2]
    drawn.triangles = np.sort(rows, axis=1)
    drawn.triangle_stops = np.tile([0, 0, 1], (len(rows), 1))
    return drawn


def extent_of(drawn):
    """The least and the greatest root of an alpha between which a slider has most of its way.

    From where one in a hundred edges is in to where 97 in a hundred triangles are inside or never will be, and up to
    the last change of a number within four times that.
    """
    alphas = drawn.alphas.astype(float)
    last = len(alphas) - 1
    if last < 1:
        return 1.0, 2.0
    starts = drawn.edge_stops[:, 0] if len(drawn.edges) else drawn.triangle_stops[:, 0]
    low = alphas[max(1, min(last, int(np.quantile(starts, 0.01))))] if len(starts) else alphas[1]
    some = drawn.triangle_stops[:, 1]
    some = some[some <= last]
    high = alphas[int(np.quantile(some, 0.97))] if len(some) else alphas[last]
    if drawn.changes is not None:
        changed = alphas[np.flatnonzero((drawn.changes[:3] != 0).any(axis=0))]
        high = max(high, changed[changed <= 16 * high].max(initial=0))
    high = max(high, 4 * low)
    return float(np.sqrt(low)), float(np.sqrt(high))


def steady(drawn, count=4):
    """The shapes that last longest: runs of stops over which parts, loops and voids stay, by the ratio of their radii.

    Gives dictionaries `from`, `to` (behind the last stop), `at` (the stop in the middle) and `numbers`, by radius; the
    last run, which never ends, and those without a tetrahedron are left out.
    """
    numbers = drawn.numbers()
    if numbers is None or len(drawn.alphas) < 65:
        return []
    starts = np.flatnonzero((drawn.changes[:3] != 0).any(axis=0))
    starts = starts[drawn.alphas[starts] > 0]
    if len(starts) < 2:
        return []
    roots = np.sqrt(drawn.alphas.astype(float))
    ratios = roots[starts[1:]] / roots[starts[:-1]]
    long = np.flatnonzero((ratios > 1.08) & (numbers[3, starts[:-1]] > 0))
    runs = list(zip(ratios[long].tolist(), starts[long].tolist(), starts[long + 1].tolist()))
    kept = sorted(sorted(runs, reverse=True)[:count], key=lambda run: run[1])
    return [{'from': start, 'to': to, 'numbers': numbers[:3, start].tolist(), 'lasts': ratio,
             'at': int(np.searchsorted(roots, np.sqrt(roots[start] * roots[to]), side='right')) - 1}
            for ratio, start, to in kept]


def first_stop(drawn, runs):
    """The stop that a page opens at: in the run that lasts longest, where one does; else where nothing changes any more
    and the cloud is one solid; of a few radii the last."""
    if runs and max(run['lasts'] for run in runs) > LASTING:
        return max(runs, key=lambda run: run['lasts'])['at']
    numbers = drawn.numbers()
    if numbers is None or len(drawn.alphas) < 65:
        return len(drawn.alphas) - 1
    changed = np.flatnonzero((drawn.changes[:3] != 0).any(axis=0))
    return int(max(changed[-1], np.flatnonzero(2 * numbers[3] >= numbers[3, -1])[0]))
