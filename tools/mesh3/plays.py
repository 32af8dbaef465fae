"""What each edit of a file does to all alpha complexes at once: faces that come and go, for a page that plays them.

The program itself says it: what it writes of the file up to each edit is laid beside what it wrote before.
"""
import numpy as np
from mesh3 import REPLIES, progress
from mesh3.betti import betti_numbers, reached
from mesh3.drawn import Drawn
from mesh3.filtration import of_steps

MOST_PLAYED = 200  # edits that are shown one by one
MOST_WORK = 300000  # points times edits that are shown one by one
NEVER = 1 << 40  # in place of an alpha that is not there


def hashes(rows):
    """A number for each row, equal for equal rows; different rows hardly ever share one."""
    values = np.zeros(len(rows), dtype=np.uint64)
    for column in rows.T:
        values = (values ^ column.astype(np.uint64)) * np.uint64(0x9E3779B97F4A7C15)
        values ^= values >> np.uint64(29)
    return values


class Lives:
    """Rows of whole numbers that come and go: each with the frame at which it comes and the one at which it goes."""

    def __init__(self, width):
        self.rows, self.lives = [np.zeros((0, width), dtype=np.int64)], [np.zeros((0, 2), dtype=np.int64)]
        self.now, self.ids, self.count = self.rows[0], np.zeros(0, dtype=np.int64), 0
        self.died = {}

    def step(self, rows, frame):
        """Takes the rows of a frame, each once: the rows that went since the one before, and those that came."""
        _, old, new = np.intersect1d(hashes(self.now), hashes(rows), return_indices=True)
        same = (self.now[old] == rows[new]).all(axis=1)
        old, new = old[same], new[same]
        stayed, known = np.zeros(len(self.now), dtype=bool), np.zeros(len(rows), dtype=bool)
        stayed[old], known[new] = True, True
        gone, came = self.now[~stayed], rows[~known]
        self.died[frame] = self.ids[~stayed]
        ids = np.zeros(len(rows), dtype=np.int64)
        ids[new] = self.ids[old]
        ids[~known] = np.arange(self.count, self.count + len(came))
        self.rows.append(came)
        self.lives.append(np.tile([frame, -1], (len(came), 1)))
        self.now, self.ids, self.count = rows, ids, self.count + len(came)
        return gone, came

    def told(self, frames):
        """All rows, and for each the frame at which it comes and the one at which it goes, or `frames`."""
        lives = np.concatenate(self.lives)
        lives[:, 1] = frames
        for frame, ids in self.died.items():
            lives[ids, 1] = frame
        return np.concatenate(self.rows), lives


class Points:
    """The points that are there after each line, by the replies."""

    def __init__(self, edits, replies):
        self.lines, self.replies = edits.edits, replies[len(edits.points):]
        self.there = {tuple(p) for p in edits.places.tolist()}
        self.done = 0

    def after(self, count):
        """The points after so many edit lines, whole, ascending."""
        for (_, line), reply in zip(self.lines[self.done:count], self.replies[self.done:count]):
            numbers, word = tuple(int(word) for word in line.split()[1:]), REPLIES[reply]
            if word in ('Removed', 'Moved'):
                self.there.remove(numbers[:3])
            if word in ('Inserted', 'Moved'):
                self.there.add(numbers[-3:])
        self.done = count
        return np.array(sorted(self.there))


def alphas_at(filtration, stops):
    return np.where(stops < filtration.never, filtration.alphas[np.minimum(stops, filtration.never - 1)], NEVER)


def faces_of(f, names):
    """Rows of triangles, edges and tetrahedra of a filtration, points by their names, stops by their alphas."""
    turned = f.turned()
    seen = f.all_stops > f.triangle_stops
    stops = [alphas_at(f, s)[seen] for s in (f.triangle_stops, f.some_stops, f.all_stops)]
    triangles = np.column_stack([names[f.triangles[seen]], *stops, (turned[:, 1] > turned[:, 2])[seen]])
    covered = f.first_triangles()
    loose = covered > f.edge_stops
    edges = np.column_stack([names[f.edges[loose]], alphas_at(f, f.edge_stops)[loose], alphas_at(f, covered)[loose]])
    return triangles, edges, names[f.cells]


def changes_of(f):
    """What each alpha adds to parts, loops, voids and tetrahedra: rows (alpha, four numbers), without idle ones."""
    numbers = np.concatenate([betti_numbers(f), [reached(f.cell_stops, f.never)]])
    changes = np.diff(numbers, axis=1, prepend=0)
    busy = (changes != 0).any(axis=0)
    return np.column_stack([f.alphas[busy], changes[:, busy].T])


def less(rows, others):
    """Rows of changes less others: by their alphas, without idle ones."""
    both = np.concatenate([rows, others * [1, -1, -1, -1, -1]])
    alphas, place = np.unique(both[:, 0], return_inverse=True)
    sums = np.zeros((len(alphas), 4), dtype=np.int64)
    np.add.at(sums, place.ravel(), both[:, 1:])
    busy = (sums != 0).any(axis=1)
    return np.column_stack([alphas[busy], sums[busy]])


def counts_of(edits):
    """After how many edit lines a frame stands: none, each of the first ones, and all."""
    singly = min(MOST_PLAYED, max(1, MOST_WORK // max(1, len(edits.points))), len(edits.edits))
    return [*range(singly + 1), *([len(edits.edits)] if singly < len(edits.edits) else [])]


def words_of(edits, replies, count, before, gone, came):
    """What a frame says of the lines from `before` to `count`."""
    if not count:
        return 'no edit is made yet'
    if count - before > 1:
        return f'the other {count - before:,} edits at once'
    number, line = edits.edits[before]
    reply = REPLIES[replies[len(edits.points) + before]]
    went = f'{gone} tetrahedra went, {came} came' if gone or came else 'nothing changes'
    return f'line {number}: {line}, {reply}: {went}'


def drawn_of(edits, program):
    """What a page draws of an edit file with edits, frame by frame; and what it says of those it does not show singly.

    `edits` is an Edits of the inputs, `program` a Program.
    """
    replies = program.mesh(edits.text(len(edits.edits))).replies
    counts, walk = counts_of(edits), Points(edits, replies)
    sets = [walk.after(count) for count in counts]
    points = np.unique(np.concatenate(sets), axis=0)
    keys = (points[:, 0] << 28) | (points[:, 1] << 14) | points[:, 2]
    lives = {name: Lives(width) for name, width in (('triangle', 7), ('edge', 4), ('cell', 4))}
    frames, last = [], np.zeros((0, 5), dtype=np.int64)
    for frame, (count, there) in enumerate(zip(counts, sets)):
        progress(f'edit {frame} of {len(counts) - 1}')
        f = of_steps(program.steps(edits.text(count))).with_points(there, 'the edit file')
        names = np.searchsorted(keys, (there[:, 0] << 28) | (there[:, 1] << 14) | there[:, 2])
        triangles, edge_rows, cells = faces_of(f, names)
        lives['triangle'].step(triangles, frame)
        lives['edge'].step(edge_rows, frame)
        gone, came = lives['cell'].step(cells, frame)
        now = changes_of(f)
        gone, came = (gone, came) if frame else (gone[:0], came[:0])
        text = words_of(edits, replies, count, counts[frame - 1] if frame else 0, len(gone), len(came))
        single = not frame or count - counts[frame - 1] == 1
        frames.append({'text': text, 'changes': less(now, last), 'gone': gone if single else gone[:0],
                       'came': came if single else came[:0]})
        last = now
    return put_together(points, lives, frames), notes_of(edits, counts)


def notes_of(edits, counts):
    singly = len(counts) - 1 if counts[-1] == len(counts) - 1 else len(counts) - 2
    if singly == len(edits.edits):
        return [f'{singly} edits']
    return [f'the first {singly:,} of {len(edits.edits):,} edits one by one, the others at once']


def put_together(points, lives, frames):
    """What is drawn, of rows with alphas and the frames at which they come and go."""
    triangles, of_triangles = lives['triangle'].told(len(frames))
    edges, of_edges = lives['edge'].told(len(frames))
    alphas = np.unique(np.concatenate([[0], triangles[:, 3:6].ravel(), edges[:, 2:].ravel(),
                                       *(frame['changes'][:, 0] for frame in frames)]))
    alphas = alphas[alphas < NEVER]
    drawn = Drawn(points, alphas)
    drawn.triangles, drawn.turned = triangles[:, :3], triangles[:, 6] == 1
    drawn.triangle_stops = np.searchsorted(alphas, triangles[:, 3:6])
    drawn.edges, drawn.edge_stops = edges[:, :2], np.searchsorted(alphas, edges[:, 2:])
    for frame in frames:
        frame['changes'][:, 0] = np.searchsorted(alphas, frame['changes'][:, 0])
    drawn.changes = np.zeros((4, len(alphas)), dtype=np.int64)
    drawn.changes[:, frames[0]['changes'][:, 0]] = frames[0]['changes'][:, 1:].T
    drawn.lives = {'triangle': of_triangles, 'edge': of_edges}
    drawn.frames = frames
    return drawn

