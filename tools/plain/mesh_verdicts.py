"""Runs the built program's `check` over the cases of meshes and over drawn ones, most of them mutilated, beside the
plain reader and the plain verdict of `mesh_cases`.

usage: tools/try meshes [DRAWN [SEED]]
The last line is 'N passed, M failed'.
"""
import os
import subprocess
import sys

from plain import TOP, mesh_cases


def expected(text):
    """What `check` writes of a text with bars for line feeds, the line that it tells, and its status."""
    try:
        _, points, cells, hull = mesh_cases.read(text)
    except mesh_cases.Fault as fault:
        return '', 'delaunay: line {}: {}\n'.format(*fault.args), 5
    flaw = mesh_cases.verdict(points, cells, hull)
    if not flaw:
        return 'mesh3-check 1\ngood\n', '', 0
    named = [flaw[0], *(i for part in flaw[1:] for i in part)]
    return f'mesh3-check 1\nbad {" ".join(map(str, named))}\n', 'delaunay: bad mesh\n', 10


def try_program(cases):
    """Runs the built program over each text of the cases: whether each was told as it is to be."""
    program, counts = os.path.join(TOP, 'crates/delaunay/out/delaunay'), {'passed': 0, 'failed': 0}
    for asked, _ in cases:
        text = asked.removeprefix('check ')
        given = text.replace('|', '\n').replace('~', '\r').encode()
        done = subprocess.run([program, 'check'], input=given, capture_output=True, timeout=60, check=False)
        got = done.stdout.decode(), done.stderr.decode(), done.returncode
        counts['passed' if got == expected(text) else 'failed'] += 1
        if got != expected(text):
            print(f'failed: {text}: {got}, and not {expected(text)}')
    print('{passed} passed, {failed} failed'.format(**counts))
    return counts['failed'] == 0


if __name__ == '__main__':
    drawn = [int(word) for word in sys.argv[1:]]
    count, seed = [*drawn, *(0, 1)[len(drawn):]]
    stored = [line for line in mesh_cases.all_lines() if not line[0].startswith('#')]
    sys.exit(not try_program([*stored, *mesh_cases.drawn_cases(count, seed)]))
