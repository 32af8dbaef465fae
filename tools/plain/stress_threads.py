"""Has eight threads edit one mesh where its buckets meet, and judges what they leave by the plain program of `tools/try
random`.

Each file has a thousand edits of a score of points in small boxes at corners of buckets, so that nearly every edit
touches buckets of others and many claims fail. The order that the program tells must keep the file; the replies, the
points that are left and the cells must be those of the lines in that order, by trial of all quadruples and triples. For
each file it is told how many lines stand in another place than by one worker. With --moves most lines move one of a few
points to one of many places there. The last line is 'N passed, M failed'. By hand, not part of the gate.

usage: tools/try threads [--moves] [FILES] [SEED] [WORKERS]   (20 1 8)
"""
import random
import subprocess
import sys

from plain import random_cases as plain


def drawn_file(grid):
    """Points around a corner of eight buckets, and edits of them; the four with which the mesh begins lie far away."""
    corner = 16384 // grid
    four = [(0, 0, 0), (16383, 0, 0), (0, 16383, 0), (0, 0, 16383)]
    near = [tuple(corner + random.randrange(-3, 3) for _ in range(3)) for _ in range(16)]
    edits = [(random.random() < 0.6, random.choice(near)) for _ in range(1000)]
    return four, edits, []


def file_of_moves(grid):
    """The same with few points and many places around the corner, to which most lines move a point, so that a
    segment has several lines whose points are neighbours."""
    four, _, _ = drawn_file(grid)
    corner = 16384 // grid
    place = lambda: tuple(corner + random.randrange(-5, 5) for _ in range(3))
    points, edits = [place() for _ in range(14)], []
    there = set(points)
    for _ in range(600):
        kind = random.random()
        p, q = random.choice(sorted(there)), place()
        edits.append((None, p, q) if kind < 0.8 else (True, q) if kind < 0.9 and len(there) < 16 else (False, p)
                     if len(there) > 8 else (True, q))
        there = plain.replies_of([(True, x) for x in four + sorted(there)] + edits[-1:], range(len(there) + 5))[1]
        there = set(there) - set(four)
    return four + points, edits, [], 2


def judged(file, grid, workers):
    """Whether the program is right, and how many lines stand in another place than by one worker."""
    words = ['mesh', '--order', '--workers', str(workers), '--grid', str(grid)]
    done = subprocess.run([plain.PROGRAM, *words], input=plain.text_of(*file), capture_output=True, text=True,
                          check=False)
    if done.returncode:
        return False, 0
    points, edits, *_ = file
    order = plain.order_told(done.stdout)
    moved = sum(a != b for a, b in zip(order, plain.order_of_one(points, edits)))
    return plain.keeps(points, edits, order) and done.stdout == plain.report(points, edits, [], order), moved


def main():
    moves = sys.argv[1:2] == ['--moves']
    words = [int(word) for word in sys.argv[1 + moves:]]
    files, seed, workers = words + [20, 1, 8][len(words):]
    random.seed(seed)
    failed = 0
    for _ in range(files):
        grid = random.choice([2, 4, 8, 16])
        file = file_of_moves(grid) if moves else drawn_file(grid)
        right, moved = judged(file, grid, workers)
        print(f'grid {grid}: {moved} of {len(file[0]) + len(file[1])} lines in another place', 'right' if right
              else 'WRONG', flush=True)
        if not right:
            failed += 1
            print(plain.text_of(*file), end='')
    print(f'{files - failed} passed, {failed} failed')
    return failed > 0


if __name__ == '__main__':
    sys.exit(main())
