"""Makes the scenes that `tools/make cases` puts into the input of the program `worked_cases`, and the text that is to
be printed, from the definitions alone.

A model of a table and its passes, written from docs/DEFINITIONS.md and not from the code, says what each scene comes
to: which edit meets which bucket, the numbers and the replies, what is left over, and the lists that are dealt. Cells
and touched buckets are found by the plain program of `tools/try random`, by trial of all quadruples and triples. Boards
come from `tools/make boards`, runs of the top call from `tools/make runs`.

usage: tools/make scenes
prints each line with its answer below it
"""
import random

from plain import board_events as boards, random_cases as plain, run_cases as runs
from plain.case_words import FOUR, bucket_of, cells_of, named, word, words

FIRST = [(100, 100, 100), (100, 100, 120), (100, 120, 100), (120, 100, 100)]
EIGHT = [(x, y, z) for x in (100, 120) for y in (100, 120) for z in (100, 120)]
FAR = [(x, y, z) for x in (16000, 16020) for y in (16000, 16020) for z in (16000, 16020)]
SIXTEEN = FIRST + [p for p in EIGHT if p not in FIRST] + FAR
NEAR, BESIDE, AWAY = (110, 110, 110), (105, 105, 105), (16010, 16010, 16010)


def pair_word(pair):
    """A pair is its tag, whether it adds, and its point; a move has None there, and behind its point the new place."""
    tag, adds, p, *goal = pair
    return f'{tag}={word(p)}>{word(*goal)}' if goal else f'{tag}{"+" if adds else "-"}{word(p)}'


def pair_words(pairs):
    return ' '.join(map(pair_word, pairs))


def lost(points, adds, p):
    """The cells that go where a new point comes, or those at a point that goes."""
    before = set(cells_of(points))
    return before - set(cells_of(points | {p})) if adds else {c for c in before if p in c}


def touched(grid, points, adds, p, *goal):
    """The buckets of the edit's points, and of the points of all cells that it takes away; a move is found as its new
    place that comes, and then the old one that goes."""
    cells = set()
    if not goal:
        cells = lost(points, adds, p) if adds != (p in points) else cells
    elif p in points and goal[0] not in points:
        cells = lost(points, True, goal[0]) | lost(points | {goal[0]}, False, p)
    return {bucket_of(grid, q) for q in {p, *goal}.union(*cells)}


class Table:
    """A table: its history, as number, worker, tag, reply; its points; and who holds which bucket."""

    def __init__(self, grid, points):
        self.grid, self.points, self.held = grid, set(points), {}
        self.history = [None] * len(points)
        self.first = len(points)

    def reply(self, adds, p, *goal):
        if adds:
            return 'Duplicate' if p in self.points else 'Inserted'
        if p not in self.points:
            return 'Missing'
        if self.points & set(goal):
            return 'Occupied'
        if not plain.is_solid(self.points - {p} | set(goal)):
            return 'Flat'
        return 'Moved' if goal else 'Removed'

    def commit(self, who, pair):
        """The number and the reply of an edit that is made."""
        tag, adds, p, *goal = pair
        number, reply = len(self.history), self.reply(adds, p, *goal)
        if reply in ('Inserted', 'Removed', 'Moved'):
            self.points = self.points | {p} if adds else self.points - {p} | set(goal)
        self.history.append((number, who, tag, reply))
        return number, reply

    def shot(self):
        points = sorted(self.points)
        cells = ''.join(' ' + '-'.join(str(points.index(p)) for p in c) for c in cells_of(points))
        return f' {len(self.history)} entries{cells};'

    def made(self):
        return ' made' + ''.join(f' {n}:{by}:{tag}:{reply}' for n, by, tag, reply in self.history[self.first:])


class Pass:
    def __init__(self, table, first, parts, left, seen):
        self.table, self.first, self.parts, self.left, self.seen = table, first, parts, left, seen

    def told(self):
        return f' pass {self.first} parts {self.parts} left {self.left} seen {self.seen};'

    def split(self, parts, left):
        self.parts, self.left, self.seen = self.parts - parts, self.left - left, len(self.table.history)
        return Pass(self.table, self.first + self.parts, parts, left, self.seen)

    def join(self, other):
        self.parts, self.left, self.seen = self.parts + other.parts, self.left + other.left, max(self.seen, other.seen)

    def busy(self, own, buckets):
        """The bucket of another pass that a claim of these meets. Those of the edit's own points come first, in their
        order; the order of the others no clause tells, so no more than one of them may be held."""
        met = [b for b in (*own, *sorted(buckets)) if b in self.table.held]
        assert len(set(met)) < 2 or met[0] in own
        return f' busy {met[0]} word {self.table.held[met[0]] + 1};' if met else None

    def edit(self, pair):
        if self.left == 0:
            return ' spent;'
        own = [bucket_of(self.table.grid, p) for p in pair[2:]]
        busy = self.busy(own, touched(self.table.grid, self.table.points, *pair[1:]))
        if busy:
            return busy
        number, reply = self.table.commit(self.first, pair)
        self.left, self.seen = self.left - 1, number + 1
        return f' number {number} {reply};'

    def watched(self, pair):
        """The answer of an edit, and the moments of which its gate is told: none where nothing is left to make."""
        answer = self.edit(pair)
        moments = {' busy': ' Start Done', ' spen': ''}.get(answer[:5], ' Start Ready Committed Done')
        return f'{answer} told{moments};'

    def shot(self):
        """Buckets are claimed from 0 on, so the least one that is held is met."""
        if self.table.held:
            b = min(self.table.held)
            return f' busy {b} word {self.table.held[b] + 1};'
        self.seen = len(self.table.history)
        return self.table.shot()

    def work(self, pairs):
        over, points = [], set()
        for pair in pairs:
            if points & set(pair[2:]) or self.edit(pair).startswith(' busy'):
                over.append(pair[0])
                points |= set(pair[2:])
        return ' left over' + ''.join(f' {tag}' for tag in over) + ';'

    def follow(self, orders):
        if orders[:1] == ['work']:
            return self.work(orders[1:])
        text = ''
        for order in orders:
            if order == 'look':
                self.seen = len(self.table.history)
                text += f' look {self.seen};'
            else:
                text += self.shot() if order == 'shot' else self.watched(order)
        return text


def order_words(orders):
    return ' '.join(o if isinstance(o, str) else pair_word(o) for o in orders)


def passes_scene(grid, points, parts, allowance, others, given, first, later):
    table = Table(grid, points)
    one = Pass(table, 0, parts, allowance, len(points))
    text = one.told()
    other = one.split(others, given)
    text += one.told() + other.told() + other.follow(first) + other.told()
    one.join(other)
    text += one.told() + one.follow(later) + table.made()
    yield (f'passes {grid}; {words(points)}; {parts} {allowance}; {others} {given}; '
           f'{order_words(first)}; {order_words(later)}')
    yield text


def kept_scene(grid, points, number, moment, pair, meanwhile, later):
    """Kept at Start or Done the pass holds nothing; at Ready it has not committed, at Committed it has."""
    table = Table(grid, points)
    zero = Pass(table, 0, 2, 16, len(points))
    before = zero.told()
    passes = zero, zero.split(1, 8)
    kept, free = passes[number], passes[1 - number]
    early = moment in ('Committed', 'Done')
    buckets = touched(grid, table.points, *pair[1:])
    told = kept.edit(pair) if early else None
    if moment in ('Ready', 'Committed'):
        table.held = {b: kept.first for b in buckets}
    text = before + free.follow(meanwhile)
    table.held = {}
    told = told or kept.edit(pair)
    text += f' kept{told}' + free.follow(later) + table.made()
    yield (f'kept {grid}; {words(points)}; {number} {moment}; {pair_word(pair)}; '
           f'{order_words(meanwhile)}; {order_words(later)}')
    yield text


def meet_scene(grid, points, one, two):
    yield f'meet {grid}; {words(points)}; {pair_words((one, two))}'
    yield f' true true {len(points) + 2} entries'


def segments_of(pairs):
    """Pairs cut into segments: one that shares a point with an earlier one of the present segment begins a new one
    where either moves."""
    segments = [[]]
    for pair in pairs:
        if any(set(pair[2:]) & set(other[2:]) and None in (pair[1], other[1]) for other in segments[-1]):
            segments.append([])
        segments[-1].append(pair)
    return segments


def lines_of(points, edits):
    """The places of the opening four, and the lines of a file: its points as adds and its edits, with their places."""
    return plain.opening_four(points), [(tag, *line) for tag, line in enumerate([*((True, p) for p in points), *edits])]


def deal_scene(workers, points, edits):
    """The lines but the opening four, cut into segments, each line to the worker that the key of its point modulo
    their number names."""
    four, lines = lines_of(points, edits)
    text = ''
    for segment in segments_of([line for line in lines if line[0] not in four]):
        lists = [[] for _ in range(workers)]
        for tag, _, (x, y, z), *_ in segment:
            lists[(x * 2**28 + y * 2**14 + z) % workers].append(tag)
        text += ' segment' + ''.join(' list' + ''.join(f' {tag}' for tag in tags) + ';' for tags in lists)
    yield f'deal {workers}; {words(points)}; {pair_words(lines[len(points):])}'
    yield text


def make_scene(grid, points, workers, edits):
    """The replies and the set of one thread, which all workers have where the file is anchored or each segment has
    one order."""
    four, lines = lines_of(points, edits)
    table = Table(grid, [])
    replies = {}
    for line in sorted(lines, key=lambda line: line[0] not in four):
        replies[line[0]] = table.commit(0, line)[1]
    yield f'make {grid}; {words(points)}; {workers}; {pair_words(lines[len(points):])}'
    yield ''.join(f' {replies[line[0]]}' for line in lines) + ';' + table.shot()


def drawn_moves(seed, corners, side, count):
    """Points and edits of an anchored file: corners that stay, and adds, takes and moves among a few places of a
    small box between them."""
    draw = random.Random(seed)
    places = draw.sample([(x, y, z) for x in range(1, side) for y in range(1, side) for z in range(1, side)], 9)
    edits = []
    for _ in range(count):
        kind = draw.choice((True, True, False, None, None, None))
        edits.append((kind, *(draw.choice(places) for _ in range(1 if kind is not None else 2))))
    return [*corners, *places[:4]], edits


def beside_scene(grid, points, count, lists):
    pairs = sum(map(len, lists))
    yield f'beside {grid}; {words(points)}; {count}; ' + '; '.join(map(pair_words, lists))
    yield (f' pass 0 parts {len(lists) + 1} left 1024 seen {len(points)}; {count} snapshots {count} right '
           f'{count} going on; the end right '
           f'{len(points) + pairs} made or left over')


def drawn_lists(seed, workers, length, box, moves=False):
    """A list of edits for each worker, over points of its own in a small box at the corner of eight buckets; half of
    them moves, if asked."""
    draw = random.Random(seed)
    low, side = box
    points = draw.sample([(low + x, low + y, low + z) for x in range(side) for y in range(side) for z in range(side)],
                         3 * workers)
    tag, lists = 100, []
    for worker in range(workers):
        own, pairs = points[3 * worker:3 * worker + 3], []
        for _ in range(length):
            if moves and draw.random() < 0.5:
                pairs.append(move(tag, draw.choice(own), draw.choice(own)))
            else:
                pairs.append((tag, draw.random() < 0.6, draw.choice(own)))
            tag += 1
        lists.append(pairs)
    return lists


def take(tag, p):
    return tag, False, p


def add(tag, p):
    return tag, True, p


def move(tag, a, b):
    return tag, None, a, b


def all_scenes():
    yield 'a pass is split off, looks, adds a point, takes a snapshot and is joined', passes_scene(
        1, FOUR, 2, 10, 1, 4, ['look', add(7, (1, 1, 1)), 'shot'], ['shot'])
    yield 'a pass without allowance', passes_scene(1, FOUR, 2, 10, 1, 0, [add(7, (1, 1, 1)), 'look', 'shot'],
                                                   [add(7, (1, 1, 1))])
    yield 'a pass that spends its allowance', passes_scene(4, FOUR, 3, 10, 2, 1, [add(1, (1, 1, 1)), add(2, (1, 1, 1))],
                                                           [take(3, (1, 1, 1))])
    yield 'every reply', passes_scene(
        2, SIXTEEN[:5], 64, 20, 63, 10, [add(1, NEAR), add(2, NEAR), take(3, NEAR), take(4, NEAR), 'shot'],
        [take(5, SIXTEEN[4]), take(6, SIXTEEN[0]), 'shot', 'look'])
    yield ('a pass kept at Ready: a snapshot meets its bucket, an edit far away does not, '
           'nor does one after it'), kept_scene(
        2, SIXTEEN, 0, 'Ready', add(0, NEAR), ['shot', add(1, AWAY), 'look'], ['shot'])
    yield 'an edit in the bucket of a kept pass, and again when that one has ended', kept_scene(
        2, SIXTEEN, 1, 'Ready', add(0, NEAR), ['shot', add(1, BESIDE)], ['shot', add(1, BESIDE)])
    yield 'a kept pass whose edit is seen by the ticket, and whose bucket is not at home', kept_scene(
        2, SIXTEEN, 0, 'Committed', add(0, NEAR), ['look', 'shot', add(1, AWAY)], ['shot'])
    yield 'the same by the other pass', kept_scene(
        2, SIXTEEN, 1, 'Committed', add(0, NEAR), ['look', 'shot', add(1, AWAY)], ['shot'])
    yield 'a pass that is kept before its first claim and after its last release', kept_scene(
        2, SIXTEEN, 0, 'Start', add(0, NEAR), ['look', 'shot', add(1, BESIDE), 'shot'], ['shot'])
    yield 'a pass that is kept before its first claim and after its last release', kept_scene(
        2, SIXTEEN, 1, 'Done', add(0, NEAR), ['look', 'shot', add(1, BESIDE), 'shot'], [take(2, BESIDE), 'shot'])
    yield 'a take kept at Ready, and its replies around it', kept_scene(
        2, SIXTEEN, 0, 'Ready', take(0, (120, 120, 120)), [take(1, AWAY), add(2, (120, 120, 119)), 'shot'],
        [add(3, (120, 120, 120)), 'shot'])
    yield 'what is busy each time is left over, and so is what comes later of its point', kept_scene(
        2, SIXTEEN, 1, 'Ready', add(0, NEAR), ['work', add(20, BESIDE), take(21, BESIDE), add(22, AWAY)], [])
    yield 'work that nothing is in the way of', kept_scene(
        2, SIXTEEN, 0, 'Done', add(0, NEAR), ['work', add(20, BESIDE), take(21, BESIDE), add(22, AWAY)], [])
    yield 'every reply of a move', passes_scene(
        2, [*FOUR, NEAR], 2, 20, 1, 10,
        [move(1, AWAY, NEAR), move(2, NEAR, FOUR[0]), move(3, NEAR, NEAR), move(4, NEAR, AWAY), 'shot'],
        [take(5, AWAY), move(6, FOUR[3], (1, 1, 0)), move(7, FOUR[3], (3, 3, 3)), 'shot', 'look'])
    yield 'moves across buckets, and back', passes_scene(
        4, [(100, 100, 100), (100, 100, 9000), (100, 9000, 100), (9000, 100, 100), (200, 200, 200)], 2, 20, 1, 10,
        [move(1, (200, 200, 200), (9000, 9000, 9000)), move(2, (9000, 100, 100), (16383, 1, 5000)), 'shot'],
        [move(3, (9000, 9000, 9000), (200, 200, 200)), move(4, (100, 100, 100), (5000, 5000, 5000)), 'shot'])
    there = (16005, 16005, 16005)
    yield 'a move into a bucket of a kept pass, and again when that one has ended', kept_scene(
        2, SIXTEEN, 1, 'Ready', add(0, AWAY), [move(1, SIXTEEN[0], there), 'look'],
        [move(1, SIXTEEN[0], there), 'shot'])
    yield 'a move out of a bucket of a kept pass, and again when that one has ended', kept_scene(
        2, SIXTEEN, 0, 'Ready', add(0, NEAR), [move(1, SIXTEEN[0], there)],
        [move(1, SIXTEEN[0], there), move(2, there, SIXTEEN[0])])
    yield 'a move within a bucket beside a kept pass, and moves that change nothing', kept_scene(
        2, SIXTEEN, 0, 'Ready', add(0, NEAR),
        [move(1, FAR[7], AWAY), move(2, FAR[7], AWAY), move(3, AWAY, FAR[0]), move(4, NEAR, AWAY)],
        [move(5, NEAR, BESIDE), 'shot'])
    yield 'a move kept at Ready: edits of both its buckets meet it', kept_scene(
        2, SIXTEEN, 1, 'Ready', move(0, SIXTEEN[7], there), [add(1, NEAR), add(2, AWAY), 'shot', 'look'],
        [add(1, NEAR), add(2, AWAY), 'shot'])
    yield 'a kept move that the ticket tells of', kept_scene(
        2, SIXTEEN, 0, 'Committed', move(0, SIXTEEN[7], BESIDE), ['look', add(1, NEAR), move(2, FAR[0], AWAY)],
        [add(1, NEAR), 'shot'])
    yield 'what shares a point with a pair left over is left over too, whichever of them moves', kept_scene(
        2, SIXTEEN, 1, 'Ready', add(0, NEAR),
        ['work', add(20, BESIDE), move(21, AWAY, BESIDE), add(22, AWAY), move(23, FAR[7], there), move(24, there, AWAY),
         take(25, there), take(26, FAR[6])], [])
    yield 'two workers that see each other at Ready', meet_scene(2, SIXTEEN, add(16, NEAR), add(17, AWAY))
    edits = [(True, (1, 1, 1)), (False, (1, 1, 1)), (True, (5, 5, 5)), (True, (0, 0, 7)), (False, (0, 0, 2))]
    for workers in (1, 2, 3, 64):
        yield 'lines that are dealt', deal_scene(workers, [(0, 0, 0), *FOUR, (4, 0, 0)], edits)
    five = [(None, (9, 9, 9), (1, 1, 1)), (None, FOUR[0], FOUR[0]), (None, FOUR[0], (1, 1, 0)),
            (None, FOUR[0], (1, 1, 1)), (True, FOUR[0])]
    for workers in (1, 8):
        yield 'moves are dealt in segments', deal_scene(workers, FOUR, five)
        yield 'moves of one point, by one worker and by many', make_scene(1, FOUR, workers, five)
    corners = [(0, 0, 0), (0, 0, 40), (0, 40, 0), (40, 0, 0)]
    for seed in range(20, 28):
        workers = (1, 2, 3, 5, 8, 16, 33, 64)[seed - 20]
        points, edits = drawn_moves(seed, corners, 5, 14)
        yield 'drawn moves are dealt in segments', deal_scene(workers, points, edits)
        yield 'drawn moves are made', make_scene((1, 2, 4, 8, 16)[seed % 5], points, workers, edits)
    yield 'two workers that move points and see each other at Ready', meet_scene(
        2, [*SIXTEEN, NEAR, AWAY], move(18, NEAR, BESIDE), move(19, AWAY, there))
    box = [(8190, 8190, 8190), (8190, 8190, 8196), (8190, 8196, 8190), (8196, 8190, 8190)]
    apart = [(100, 100, 100), (100, 100, 16000), (100, 16000, 100), (16000, 100, 100)]
    yield 'four writers far apart, and a reader beside them', beside_scene(
        2, apart, 6, [[add(100 + 5 * i + k, (x + k, y + 1, z + 2)) for k in range(5)]
                      for i, (x, y, z) in enumerate(apart)])
    for seed in range(1, 7):
        grid = (1, 2, 4, 8, 16, 2)[seed - 1]
        yield 'four writers where buckets meet, and a reader beside them', beside_scene(
            grid, box, 8, drawn_lists(seed, 4, 10, (8189, 8)))
    for seed in range(7, 10):
        yield 'four writers that move points where buckets meet, and a reader beside them', beside_scene(
            2 ** (seed - 6), box, 8, drawn_lists(seed, 4, 10, (8189, 8), moves=True))


def all_lines():
    """Each line of the input with its answer; a name is its own."""
    yield ('# boards',) * 2
    yield from boards.played()[0]
    yield from named(all_scenes())
    yield from runs.all_lines()


if __name__ == '__main__':
    for asked, told in all_lines():
        print(asked, told, sep='\n')
