"""Cases of tools/betti: parts, loops and voids beside GUDHI's persistence of the same filtration, at every alpha.

`run` tries a small cloud; `at_length` five clouds, which takes minutes (`tools/try betti`).
"""
import math
import os
import subprocess
import tempfile

from tool_cases import CASES, PROGRAM, counts, expect, is_built, library, refused, skip, tool


def drawn_cloud(count, seed):
    """Points in general position, drawn by numpy: whole, each once, ascending."""
    import numpy as np
    points = np.random.default_rng(seed).integers(0, 16384, size=(count, 3))
    return np.unique(points, axis=0)


def steps_by_gudhi(points):
    """What `delaunay steps` is to write of points in general position, by GUDHI's alpha complex: its text."""
    import gudhi
    tree = gudhi.AlphaComplex(points=points.tolist(), precision='exact').create_simplex_tree()
    faces = {2: [], 3: [], 4: []}
    for face, value in tree.get_filtration():
        if len(face) > 1:
            alpha = math.ceil(16 * value)
            faces[len(face)].append((*sorted(face), alpha if alpha < 1 << 34 else 'none'))
    lines = ['mesh3-steps 1']
    for word, size in (('edges', 2), ('triangles', 3), ('cells', 4)):
        lines.append(f'{word} {len(faces[size])}')
        lines += [' '.join(map(str, row)) for row in sorted(faces[size], key=lambda row: row[:-1])]
    return '\n'.join([*lines, 'end', ''])


def rows_of(text):
    """The faces of a text of steps, each with its alpha: pairs."""
    for line in text.split('\n'):
        words = line.split()
        if words and words[0].isdigit() and words[-1] != 'none':
            yield [int(word) for word in words[:-1]], int(words[-1])


def tree_of(text, n):
    """GUDHI's tree of the faces of a text of steps, with its persistence computed."""
    import gudhi
    tree = gudhi.SimplexTree()
    for i in range(n):
        tree.insert([i], 0.0)
    for face, alpha in rows_of(text):
        tree.insert(face, float(alpha))
    tree.compute_persistence(homology_coeff_field=2)
    return tree


def by_gudhi(tree, alphas):
    """Parts, loops and voids at each alpha by GUDHI's intervals, shape (3, alphas)."""
    import numpy as np
    numbers = []
    for dimension in range(3):
        spans = tree.persistence_intervals_in_dimension(dimension).reshape(-1, 2)
        births, deaths = np.sort(spans[:, 0]), np.sort(spans[:, 1])
        numbers.append(np.searchsorted(births, alphas, side='right') - np.searchsorted(deaths, alphas, side='right'))
    return np.array(numbers)


def table(text):
    """The columns alpha, parts, loops and voids of a table, shape (4, lines)."""
    import numpy as np
    return np.array([[int(row[0]), *map(int, row[2:])] for row in
                     (line.split(',') for line in text.strip().split('\n')[1:])]).T


def beside_gudhi(what, steps, n, work):
    """The table of all alphas beside GUDHI's numbers; the short one and the pairs beside these."""
    import numpy as np
    name, pairs = os.path.join(work, 'numbers.steps'), os.path.join(work, 'pairs.csv')
    with open(name, 'w', encoding='ascii') as file:
        file.write(steps)
    tree = tree_of(steps, n)
    status, out, err = tool('betti', name, '--all')
    if status:
        expect(f'{what}: {err}', False)
        return
    alphas, *numbers = table(out.decode())
    wanted = by_gudhi(tree, alphas)
    expect(f'{what}: parts, loops and voids at {len(alphas)} alphas are those of GUDHI',
           set(alphas.tolist()) == {0, *(alpha for _, alpha in rows_of(steps))} and (numbers == wanted).all())
    some = alphas[np.linspace(0, len(alphas) - 1, 10).astype(int)].tolist()
    told = [(tree.persistent_betti_numbers(a, a) + [0, 0, 0])[:3] for a in some]
    expect(f'{what}: and those of persistent_betti_numbers at ten', told == by_gudhi(tree, np.array(some)).T.tolist())
    status, out, err = tool('betti', name, '--pairs', pairs)
    short, *few = table(out.decode())
    kept = np.append(True, (np.diff(wanted, axis=1) != 0).any(axis=0))
    expect(f'{what}: the short table has the lines that change', short.tolist() == alphas[kept].tolist()
           and (np.array(few) == wanted[:, kept]).all())
    lines = [line.split(',') for line in open(pairs, encoding='ascii').read().split('\n')[1:-1]]
    peers = sorted((d, birth, death) for d in range(3) for birth, death in tree.persistence_intervals_in_dimension(d))
    ours = sorted((int(d), float(birth), math.inf if death == 'none' else float(death)) for d, birth, death in lines)
    expect(f'{what}: {len(ours)} pairs', ours == peers)


def small(work):
    """Numbers that are known without a program: a cube, by hand, and what is refused."""
    status, out, err = tool('betti', os.path.join(CASES, '04-cube.steps'))
    # eight corners; at 4 |edge|^2 twelve edges, five loops; at 4 |diagonal|^2 all sides, one void; then all
    expect(f'a cube: {err}', status == 0 and table(out.decode()).T.tolist() ==
           [[0, 8, 0, 0], [16, 1, 5, 0], [32, 1, 0, 1], [48, 1, 0, 0]])
    name = os.path.join(work, 'cube.png')
    status, out, err = tool('betti', os.path.join(CASES, '04-cube.steps'), '--picture', name)
    expect(f'a picture: {err}', status == 0 and open(name, 'rb').read(4) == b'\x89PNG')
    refused('a report', 'betti', os.path.join(CASES, '04-cube.shape'), said='steps')
    refused('steps that are cut', 'betti', '-', given=b'mesh3-steps 1\nedges 3\n0 1 4\n', said='line')
    cube = os.path.join(CASES, '04-cube.steps')
    refused('a picture of no kind', 'betti', cube, '--picture', f'{name}.odd', said='odd')


def edited(seed):
    """An edit file of 80 drawn points with 24 edits, adds, takes and moves."""
    import numpy as np
    draw = np.random.default_rng(seed)
    rows = [f'{x} {y} {z}' for x, y, z in draw.integers(0, 16384, size=(110, 3)).tolist()]
    lines = ['mesh3 2', 'points', *rows[:80], 'edits']
    for i in range(8):
        lines += [f'+ {rows[80 + i]}', f'- {rows[10 + i]}', f'= {rows[30 + i]} {rows[90 + i]}']
    return '\n'.join([*lines, 'radii', 'end', ''])


def played(work):
    """The numbers that a page has after each of some edits, beside GUDHI's of what the program writes up to it."""
    import numpy as np
    from mesh3 import inputs, plays
    if not is_built():
        return
    edits, program = inputs.Edits(edited(3).encode(), 'edits'), inputs.Program(PROGRAM)
    drawn, notes = plays.drawn_of(edits, program)
    expect(f'25 frames: {notes}', len(drawn.frames) == 25 and notes == ['24 edits'])
    changes = np.zeros_like(drawn.changes)
    for count, frame in enumerate(drawn.frames):
        np.add.at(changes.T, frame['changes'][:, 0], frame['changes'][:, 1:])
        if count not in (0, 1, 2, 3, 11, 24):
            continue
        steps = program.run('steps', edits.text(count)).decode()
        n = 1 + max(max(face) for face, _ in rows_of(steps))
        numbers, tree = np.cumsum(changes, axis=1), tree_of(steps, n)
        expect(f'after {count} edits parts, loops and voids are those of GUDHI',
               (numbers[:3] == by_gudhi(tree, drawn.alphas)).all())
        alphas = sorted(alpha for face, alpha in rows_of(steps) if len(face) == 4)
        expect('and tetrahedra those of the program',
               numbers[3].tolist() == np.searchsorted(alphas, drawn.alphas, side='right').tolist())


def run(work):
    small(work)
    if library('gudhi') is None:
        return
    played(work)
    points = drawn_cloud(300, 11)
    beside_gudhi('300 drawn points', steps_by_gudhi(points), len(points), work)


# ---- at length


def clouds():
    """Five clouds, each with a name and real coordinates: drawn, a ring, two balls, a lattice, and linked chains."""
    import numpy as np
    draw = np.random.default_rng(5)
    yield 'drawn points', draw.random((4000, 3))
    u, v = draw.random((2, 4000)) * 2 * np.pi
    ring = 1.25 + 0.4 * np.cos(v)
    yield 'a ring', np.stack([ring * np.cos(u), ring * np.sin(u), 0.4 * np.sin(v)], axis=1)
    ball = draw.normal(size=(3000, 3))
    ball /= np.linalg.norm(ball, axis=1)[:, None]
    yield 'a hollow ball in another', np.concatenate([ball, 0.4 * ball[:800]]) + draw.normal(scale=0.01, size=(3800, 3))
    yield 'a lattice', np.stack(np.meshgrid(*[np.arange(12.0)] * 3), axis=-1).reshape(-1, 3)
    t = np.linspace(0, 2 * np.pi, 600, endpoint=False)
    chain = np.stack([np.cos(t), np.sin(t), 0 * t], axis=1)
    other = np.stack([1 + np.cos(t), 0 * t, np.sin(t)], axis=1)
    yield 'two linked chains', np.concatenate([chain, other]) + draw.normal(scale=0.02, size=(1200, 3))


def at_length():
    """Tries five clouds from points to numbers, by the program."""
    import numpy as np
    if not is_built() or library('gudhi') is None:
        return 1
    with tempfile.TemporaryDirectory() as work:
        for what, points in clouds():
            name = os.path.join(work, 'cloud.npy')
            np.save(name, points)
            edits = tool('points', name)[1]
            steps = subprocess.run([PROGRAM, 'steps'], input=edits, capture_output=True, check=True).stdout.decode()
            n = len({line for line in edits.decode().split('\nedits')[0].split('\n')[2:]})
            beside_gudhi(what, steps, n, work)
            print(f'{what}: {n} points', flush=True)
    print(f"{counts['passed']} passed, {counts['failed']} failed")
    return 1 if counts['failed'] else 0
