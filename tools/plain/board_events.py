"""Makes the boards and events that `tools/make scenes` puts among the scenes, and the text that is to be printed, from
the definitions alone.

The model below was written from docs/DEFINITIONS.md and not from the code: a board, what each event makes of it, and
when it is good. A complex is that of the plain program of `tools/try random`. After every event it looks whether the
board is good, and after each pair of commits by two passes whether they commute. The first three boards are worked by
hand; the others are drawn, with few points, many of them at the borders of buckets.

usage: tools/make boards [BOARDS] [SEED]   (24 1)
prints each line with its answer below it, and what was played
"""
import copy
import random
import sys

from plain.case_words import FOUR, bucket_of, cells_of
from plain.random_cases import is_solid

# ---- edits and histories

def without(points, p):
    return [q for q in points if q != p]


def reply_to(points, edit):
    """An edit is its kind and its point; a move has its two places."""
    kind, p = edit[:2]
    if kind == 'add':
        return 'Duplicate' if p in points else 'Inserted'
    if p not in points:
        return 'Missing'
    if kind == 'take':
        return 'Removed' if is_solid(without(points, p)) else 'Flat'
    if edit[2] in points:
        return 'Occupied'
    return 'Moved' if is_solid(without(points + [edit[2]], p)) else 'Flat'


def after(points, edit):
    reply = reply_to(points, edit)
    if reply == 'Inserted':
        return sorted(points + [edit[1]])
    if reply == 'Removed':
        return without(points, edit[1])
    if reply == 'Moved':
        return sorted(without(points + [edit[2]], edit[1]))
    return points


def replay(history):
    points = []
    for entry in history:
        points = after(points, entry['edit'])
    return points


def with_entry(history, by, tag, edit):
    return history + [dict(number=len(history), by=by, tag=tag, edit=edit, reply=reply_to(replay(history), edit))]


# ---- buckets

def gone_with(points, p):
    """The cells that a new point takes away."""
    left = set(cells_of(points + [p]))
    return [c for c in cells_of(points) if c not in left]


def cells_at(points, p):
    return [c for c in cells_of(points) if p in c]


def touched(grid, points, edit):
    kind, p = edit[:2]
    reached = set(edit[1:])
    if kind == 'add' and p not in points:
        reached.update(*gone_with(points, p))
    if kind == 'take' and p in points:
        reached.update(*cells_at(points, p))
    if kind == 'move' and p in points and edit[2] not in points:
        reached.update(*gone_with(points, edit[2]), *cells_at(points + [edit[2]], p))
    return {bucket_of(grid, q) for q in reached}


def share(grid, b, history):
    points = replay(history)
    return ([p for p in points if bucket_of(grid, p) == b],
            [c for c in cells_of(points) if any(bucket_of(grid, p) == b for p in c)],
            [e for e in history if bucket_of(grid, e['edit'][1]) == b])


# ---- boards

def opening(grid, parts, allowance, history):
    count = grid**3
    first = dict(first=0, parts=parts, left=allowance, seen=len(history), since=len(history), held=[None] * count)
    return dict(grid=grid, parts=parts, most=len(history) + allowance, opening=history, ticket=len(history),
                words=[0] * count,
                homes=[share(grid, b, history) for b in range(count)], views=[first] + [None] * (parts - 1))


def check_good(board, history):
    count, start = board['grid']**3, len(board['opening'])
    live = [v for v in board['views'] if v]
    assert len(board['words']) == len(board['homes']) == count and len(board['views']) == board['parts']
    assert all(v is None or v['first'] == n for n, v in enumerate(board['views']))
    assert all(e['number'] == i and e['reply'] == reply_to(replay(history[:i]), e['edit'])
               for i, e in enumerate(history))
    assert history[:start] == board['opening'] and board['ticket'] == len(history) and is_solid(replay(history))
    for b in range(count):
        shown = share(board['grid'], b, history)
        holders = [v for v in live if v['held'][b] is not None]
        assert board['homes'][b] in (None, shown) and all(v['held'][b] == shown for v in holders)
        assert (board['words'][b] == 0) == (board['homes'][b] is not None)
        assert [v['first'] + 1 for v in holders] == ([board['words'][b]] if board['words'][b] else [])
    for v in live:
        own = [e for e in history[start:] if v['first'] <= e['by'] < v['first'] + v['parts']]
        assert v['parts'] > 0 and v['first'] + v['parts'] <= board['parts'] and v['since'] <= v['seen'] <= len(history)
        assert all(e['number'] < v['seen'] for e in own)
    for part in range(board['parts']):
        assert sum(v['first'] <= part < v['first'] + v['parts'] for v in live) == 1
    assert all(e['by'] < board['parts'] for e in history[start:])
    assert len(history) + sum(v['left'] for v in live) <= board['most'] <= 2**32


def play(board, history, event):
    """The answer, and the board and the history after it."""
    kind, n, *rest = event
    new = copy.deepcopy(board)
    view = new['views'][n] if n < len(new['views']) else None
    idle = lambda v: all(c is None for c in v['held'])
    short = ('short', board, history)
    if view is None:
        return short
    if kind == 'claim':
        b, = rest
        if b >= len(new['words']) or view['held'][b] is not None:
            return short
        if new['words'][b]:
            return 'taken %d' % new['words'][b], board, history
        new['words'][b], view['held'][b], new['homes'][b] = n + 1, new['homes'][b], None
    elif kind == 'commit':
        tag, edit = rest
        if view['left'] == 0 or any(view['held'][b] is None for b in touched(new['grid'], replay(history), edit)):
            return short
        history = with_entry(history, n, tag, edit)
        new['ticket'] += 1
        view.update(left=view['left'] - 1, seen=new['ticket'],
                    held=[c and share(new['grid'], b, history) for b, c in enumerate(view['held'])])
    elif kind == 'release':
        b, = rest
        if b >= len(new['words']) or view['held'][b] is None:
            return short
        new['words'][b], new['homes'][b], view['held'][b] = 0, view['held'][b], None
    elif kind == 'look':
        view['seen'] = new['ticket']
    elif kind == 'split':
        parts, left = rest
        if not idle(view) or not 0 < parts < view['parts'] or left > view['left']:
            return short
        other = view['first'] + view['parts'] - parts
        view.update(parts=view['parts'] - parts, left=view['left'] - left, seen=new['ticket'])
        new['views'][other] = dict(first=other, parts=parts, left=left, seen=new['ticket'], since=new['ticket'],
                                   held=[None] * len(new['words']))
    elif kind == 'join':
        m, = rest
        other = new['views'][m] if m < len(new['views']) else None
        if other is None or not idle(view) or not idle(other) or m != view['first'] + view['parts']:
            return short
        view.update(parts=view['parts'] + other['parts'], left=view['left'] + other['left'],
                    seen=max(view['seen'], other['seen']))
        new['views'][m] = None
    return 'done', new, history


def figures(board):
    return ([c and c[:2] for c in board['homes']],
            [v and (v['first'], [c and c[:2] for c in v['held']]) for v in board['views']])


def check_commuting(board, history, event, board1, history1, edits):
    """After this commit, commits by other passes that are done could have come before it."""
    n = event[1]
    for m, view in enumerate(board1['views']):
        for edit in edits if view and m != n else []:
            answer, board2, history2 = play(board1, history1, ('commit', m, 5, edit))
            if answer == 'done':
                first, middle, between = play(board, history, ('commit', m, 5, edit))
                second, last, both = play(middle, between, event)
                assert first == second == 'done' and figures(last) == figures(board2)
                assert both[-1]['reply'] == history1[-1]['reply'] and both[-2]['reply'] == history2[-1]['reply']


# ---- the lists

CORNERS = [(0, 0, 0), (16383, 0, 0), (0, 16383, 0), (0, 0, 16383)]
MIDDLE, NEAR, FAR = (1, 1, 1), (5, 5, 5), (9000, 9000, 9000)

# each with its answers, worked by hand
WORKED = [
    (1, 2, 2, FOUR, [('split', 0, 1, 1), ('claim', 0, 0), ('claim', 1, 0), ('commit', 1, 7, ('add', MIDDLE)),
                     ('commit', 0, 7, ('add', MIDDLE)), ('commit', 0, 8, ('take', MIDDLE)), ('join', 0, 1),
                     ('release', 0, 0),
                     ('join', 0, 1)],
     ['done', 'done', 'taken 1', 'short', 'done', 'short', 'short', 'done', 'done']),
    (2, 1, 5, FOUR, [('claim', 0, 0), ('commit', 0, 9, ('add', FAR)), ('claim', 0, 7), ('commit', 0, 9, ('add', FAR)),
                     ('release', 0, 7), ('release', 0, 0)],
     ['done', 'short', 'done', 'done', 'done', 'done']),
    (1, 2, 10, FOUR, [('split', 0, 1, 4), ('look', 1), ('claim', 1, 0), ('commit', 1, 7, ('add', MIDDLE)),
                      ('release', 1, 0),
                      ('join', 0, 1), ('split', 0, 1, 9), ('claim', 1, 0), ('commit', 1, 8, ('take', MIDDLE)),
                      ('release', 1, 0),
                      ('claim', 0, 0), ('commit', 0, 9, ('add', MIDDLE))],
     ['done'] * 11 + ['short']),
    # a move touches the buckets of both its places, also where the reply is Missing or Occupied
    (2, 1, 5, FOUR + [MIDDLE], [('claim', 0, 0), ('commit', 0, 1, ('move', MIDDLE, FAR)), ('claim', 0, 7),
                                ('commit', 0, 1, ('move', MIDDLE, FAR)), ('commit', 0, 2, ('move', MIDDLE, FAR)),
                                ('commit', 0, 3, ('move', FAR, FAR)), ('commit', 0, 4, ('move', FAR, FOUR[0])),
                                ('release', 0, 7), ('commit', 0, 5, ('move', FAR, FAR)),
                                ('commit', 0, 6, ('move', MIDDLE, FAR)), ('commit', 0, 7, ('move', FOUR[0], FAR)),
                                ('commit', 0, 8, ('move', MIDDLE, MIDDLE))],
     ['done', 'short', 'done', 'done', 'done', 'done', 'done', 'done', 'short', 'short', 'short', 'done']),
    # Flat, then Moved, then Missing; then nothing may be edited
    (1, 1, 3, FOUR, [('claim', 0, 0), ('commit', 0, 1, ('move', FOUR[1], (0, 3, 3))),
                     ('commit', 0, 2, ('move', FOUR[1], (3, 0, 0))), ('commit', 0, 3, ('move', FOUR[1], (2, 0, 0))),
                     ('commit', 0, 4, ('move', FOUR[0], (1, 0, 0)))],
     ['done'] * 4 + ['short']),
    # both places lie in one bucket, and the cells around them reach into three others
    (2, 1, 2, CORNERS + [MIDDLE],
     [('claim', 0, 0), ('commit', 0, 1, ('move', MIDDLE, NEAR)), ('claim', 0, 1), ('claim', 0, 2),
      ('commit', 0, 1, ('move', MIDDLE, NEAR)), ('claim', 0, 4), ('commit', 0, 1, ('move', MIDDLE, NEAR)),
      ('commit', 0, 2, ('move', NEAR, MIDDLE))],
     ['done', 'short', 'done', 'done', 'short', 'done', 'done', 'done']),
]


def word(p):
    return ','.join(map(str, p))


def words_of(event):
    if event[0] == 'commit':
        _, by, tag, (kind, *places) = event
        return f"commit {by} {tag}{dict(add='+', take='-', move='=')[kind]}{'>'.join(map(word, places))}"
    return ' '.join(map(str, event))


class Texts:
    def __init__(self):
        self.events, self.answers = [], []

    def begin(self, grid, parts, allowance, points):
        self.events.append(f"board {grid}; {' '.join(map(word, points))}; {parts} {allowance}")
        self.answers.append('board')

    def event(self, event, answer, board):
        self.events.append(words_of(event))
        words = ['%d:%d' % (b, w) for b, w in enumerate(board['words']) if w]
        self.answers.append(' '.join([answer, str(board['ticket']), *words]))


def history_of(points):
    """That of the program, where the first four points are independent: all points are added in turn."""
    history = []
    for p in points:
        history = with_entry(history, 0, 0, ('add', p))
    return history


def drawn_event(rnd, board, history, edits):
    live = [v['first'] for v in board['views'] if v]
    n = rnd.choice(live) if rnd.random() < .95 else rnd.randrange(len(board['views']) + 1)
    count, roll = len(board['words']), rnd.random()
    held = [b for b, w in enumerate(board['words']) if w == n + 1]
    if roll < .2:
        return [('claim', n, rnd.randrange(count + (rnd.random() < .1)))]
    if roll < .6:
        edit = rnd.choice(edits)
        need = sorted(touched(board['grid'], replay(history), edit)) if rnd.random() < .8 else []
        return [('claim', n, b) for b in need if b not in held] + [('commit', n, rnd.randrange(99), edit)]
    if roll < .78:
        return [('release', n, b) for b in held] or [('release', n, rnd.randrange(count))]
    if roll < .82:
        return [('look', n)]
    give = [('release', n, b) for b in held] if rnd.random() < .8 else []
    if roll < .92:
        return give + [('split', n, rnd.randrange(1, 3), rnd.randrange(6))]
    after_n = board['views'][n]['parts'] + n if n in live else 0
    return give + [('join', n, after_n if rnd.random() < .8 else rnd.randrange(len(board['views']) + 1))]


def drawn_board(rnd, texts, counts):
    grid, parts = rnd.choice([1, 2, 2, 2, 4]), rnd.choice([1, 2, 3, 3, 4])
    border = 16384 // grid
    near = [0, 5, 9000, 16383, border - 1, border % 16384]
    corners = rnd.choice([FOUR, CORNERS])
    pool = [tuple(rnd.choice(near) for _ in range(3)) for _ in range(5)] + [MIDDLE]
    points = corners + rnd.sample(pool, rnd.randrange(3))
    allowance = rnd.choice([3, 8, 20])
    history = history_of(points)
    board = opening(grid, parts, allowance, history)
    texts.begin(grid, parts, allowance, points)
    edits = [(kind, p) for kind in ('add', 'add', 'take') for p in pool + corners]
    edits += [('move', *rnd.choices(pool + corners, k=2)) for _ in edits]
    for turn in range(18):
        for event in [('split', 0, 1, 2)] if turn == 0 else drawn_event(rnd, board, history, edits):
            answer, board1, history1 = play(board, history, event)
            check_good(board1, history1)
            texts.event(event, answer, board1)
            if event[0] == 'commit' and answer == 'done':
                check_commuting(board, history, event, board1, history1, rnd.sample(edits, 4))
                told = event[3][0], history1[-1]['reply']
                counts[told] = counts.get(told, 0) + 1
            counts[event[0], answer[:5]] = counts.get((event[0], answer[:5]), 0) + 1
            board, history = board1, history1


def played(boards=24, seed=1):
    """The lines with their answers, and how often each event was played with each answer."""
    rnd, texts, counts = random.Random(seed), Texts(), {}
    for grid, parts, allowance, points, events, wanted in WORKED:
        history = history_of(points)
        board = opening(grid, parts, allowance, history)
        texts.begin(grid, parts, allowance, points)
        for event, want in zip(events, wanted):
            answer, board, history = play(board, history, event)
            check_good(board, history)
            assert answer == want, (event, answer, want)
            texts.event(event, answer, board)
    for _ in range(boards):
        drawn_board(rnd, texts, counts)
    return list(zip(texts.events, texts.answers)), counts


if __name__ == '__main__':
    lines, counts = played(*map(int, sys.argv[1:]))
    for asked, answer in lines:
        print(asked, answer, sep='\n')
    print(len(lines), 'lines:', counts)
