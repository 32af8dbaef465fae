"""Cases of tools/report: meshes that others made, and what `check` says of them."""
import os
import subprocess

from plain import mesh_verdicts
from tool_cases import CASES, PROGRAM, expect, is_built, refused, tool


def judged(report):
    """The status of the built program's `check` of a report, and what it writes."""
    done = subprocess.run([PROGRAM, 'check'], input=report, capture_output=True, timeout=60, check=False)
    return done.returncode, done.stdout.decode()


def meshes_of_others(work):
    """Meshes that CGAL and Qhull made, with the verdicts of `plain.mesh_cases`; our own are good."""
    built = is_built()
    wanted = {'cgal-random.mesh': 'good', 'cgal-lattice.mesh': 'good', 'qhull-random.vtk': 'good',
              'qhull-lattice.vtk': 'bad flat 0 1 3 4', 'cgal-hull.off': 'bad facet 0 1 2'}
    for name, verdict in wanted.items():
        status, out, err = tool('report', os.path.join(CASES, 'peers', name))
        expect(f'{name} is read: {err}', status == 0 and not err)
        text, _, ends = mesh_verdicts.expected(out.decode().replace('\n', '|'))
        expect(f'{name}: {text}', text == f'mesh3-check 1\n{verdict}\n')
        if built:
            ours = judged(out)
            expect(f'check of {name}: {ours}', ours == (ends, text))
    for name in ('04-cube.mesh', '10-prism-coplanar-caps.mesh'):
        with open(os.path.join(CASES, name), 'rb') as file:
            report = file.read()
        vtk = os.path.join(work, 'ours.vtk')
        tool('export', os.path.join(CASES, name), vtk)
        status, out, err = tool('report', vtk)
        lists = report[report.index(b'points'):]
        expect(f'{name}, exported and read again: {err}', status == 0 and out == b'mesh3-out 1\nreplies 0\n' + lists)


def bad_meshes(work):
    empty = os.path.join(work, 'points.off')
    with open(empty, 'w', encoding='ascii') as file:
        file.write('OFF\n3 1 0\n0 0 0\n0 0 1.5\n0 1 0\n3 0 1 2\n')
    refused('a point that is not whole', 'report', empty, said='point 1')
    status, out, err = tool('report', empty, '--round')
    expect('a point that is moved', status == 0 and b'\n0 0 2\n' in out and '0.5' in err)
    with open(empty, 'w', encoding='ascii') as file:
        file.write('OFF\n3 1 0\n0 0 0\n0 0 0\n0 1 0\n3 0 1 2\n')
    refused('points that fall together', 'report', empty, said='0 0 0')
    with open(empty, 'w', encoding='ascii') as file:
        file.write('OFF\n3 1 0\n0 0 0\n0 0 16384\n0 1 0\n3 0 1 2\n')
    refused('a coordinate past the grid', 'report', empty, said='16383')
    refused('a file that is not there', 'report', os.path.join(work, 'none.vtk'), said='none.vtk')


def run(work):
    meshes_of_others(work)
    bad_meshes(work)
