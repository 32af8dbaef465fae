"""Cases of tools/export: readers of others read what it writes, and judge volumes and directions."""
import collections
import json
import os
import re
import shutil
import subprocess
import textwrap

from tool_cases import CASES, PROGRAM, TOOLS, expect, is_built, library, refused, skip, surfaces, tool, volume_of

CUBE = os.path.join(CASES, '04-cube.shape')


def tetrahedra(work):
    import meshio
    status, out, err = tool('export', CUBE, '-', '--what', 'neighbours')
    across = b'1 -1 -1 -1\n3 2 0 -1\n4 -1 -1 1\n4 -1 -1 1\n-1 5 3 2\n-1 -1 -1 4\n'
    expect(f'neighbours of the cube: {err}', status == 0 and out == across)
    for suffix in ('vtk', 'vtu', 'mesh', 'msh', 'xdmf'):
        name = os.path.join(work, f'cube.{suffix}')
        if suffix == 'xdmf' and library('h5py') is None:
            continue
        status, out, err = tool('export', CUBE, name)
        expect(f'tetrahedra to {suffix}: {err}', status == 0 and len(meshio.read(name).cells_dict['tetra']) == 6)
    for suffix in ('ply', 'off', 'stl', 'obj'):
        name = os.path.join(work, f'none.{suffix}')
        refused(f'tetrahedra to {suffix}', 'export', CUBE, name, said=f'{suffix} has no tetrahedra')
        expect(f'no file of {suffix} is left', not os.path.exists(name))
        refused(f'faces to {suffix}', 'export', CUBE, name, '--what', 'faces', '--radius', '3', said='has no points')
    name = os.path.join(work, 'x.mesh')
    refused('faces to medit', 'export', CUBE, name, '--what', 'faces', '--radius', '3', said='mesh has no points')
    name = os.path.join(work, 'lines.vtk')
    status, out, err = tool('export', CUBE, name, '--edits', os.path.join(CASES, '04-cube.in'))
    lines = sorted(meshio.read(name).point_data['line'].ravel().tolist())
    expect(f'the line of each point: {err}', status == 0 and lines == list(range(3, 11)))
    refused('another edit file', 'export', CUBE, name, '--edits', os.path.join(CASES, '01-tetrahedron.in'),
            said='not the edit file')
    moves = os.path.join(CASES, '70-moves-out-of-a-corner')
    status, out, err = tool('export', f'{moves}.mesh', name, '--edits', f'{moves}.in')
    lines = meshio.read(name).point_data['line'].ravel().tolist()
    expect(f'the line of a point that was moved: {lines}, {err}', status == 0 and lines == [12, 6, 5, 11, 4])


def triangles(work):
    for what, words in (('hull', ()), ('boundary', ('--radius', '3'))):
        for suffix in ('ply', 'off', 'stl', 'obj', 'vtu'):
            name = os.path.join(work, f'{what}.{suffix}')
            status, out, err = tool('export', CUBE, name, '--what', what, *words)
            volume, mesh = volume_of(name)
            expect(f'the {what} to {suffix}: 12 triangles that enclose 8: {volume}, {err}',
                   status == 0 and abs(volume - 8) < 1e-6 and len(mesh.cells_dict['triangle']) == 12)
    import meshio
    name = os.path.join(work, 'lines.vtu')
    tool('export', CUBE, name, '--what', 'hull', '--edits', os.path.join(CASES, '04-cube.in'))
    lines = sorted(meshio.read(name).point_data['line'].ravel().tolist())
    expect(f'the line of each point of the hull: {lines}', lines == list(range(3, 11)))
    name = os.path.join(work, 'faces.vtu')
    status, out, err = tool('export', CUBE, name, '--what', 'faces', '--radius', '3')
    kinds = meshio.read(name).cell_data['kind']
    expect(f'faces with kinds: {err}', status == 0 and [len(k) for k in kinds] == [8, 19, 18, 6])
    refused('nothing that bounds', 'export', CUBE, os.path.join(work, 'x.off'), '--what', 'boundary', '--radius', '1',
            said='no cell')


def radii(work):
    """A radius in the units of the first input, by the placing of tools/points; and those that nobody gave."""
    placing, name = os.path.join(work, 'cube.json'), os.path.join(work, 'units.ply')
    kept = {'origin': [10, 20, 30], 'scale': 2, 'radii': [{'radius': 0.8, 'line': 1}, {'radius': 0.9, 'line': 3}]}
    with open(placing, 'w', encoding='ascii') as file:
        json.dump(kept, file)
    status, out, err = tool('export', CUBE, name, '--what', 'boundary', '--radius', '0.9', '--placing', placing)
    volume, mesh = volume_of(name)
    expect(f'a radius in units of the cloud: {volume}, {err}', status == 0 and abs(volume - 1) < 1e-6 and
           mesh.points.min(axis=0).tolist() == [10, 20, 30])
    status, out, err = tool('export', CUBE, name, '--what', 'boundary', '--radius', '3', '--placing', placing)
    expect(f'the number of the report with a placing: {err}', status == 0)
    words = (CUBE, name, '--what', 'boundary', '--radius')
    refused('a radius that nobody gave', 'export', *words, '0.7', '--placing', placing, said='0.8, 0.9')
    refused('a length without a placing', 'export', *words, '0.9', said='--placing')
    refused('a radius that is none', 'export', *words, 'wide', said='a number was expected')
    refused('a radius that is not there', 'export', *words, '9', said='no shape for 9')
    refused('several radii, none chosen', 'export', CUBE, name, '--what', 'boundary', said='choose one')
    refused('a placing that is not there', 'export', *words, '3', '--placing', name + '.json', said='units.ply.json')
    refused('a placing that is none', 'export', *words, '3', '--placing', CUBE, said='no placing')


def bad_reports(work):
    data, name = open(CUBE, 'rb').read(), os.path.join(work, 'x.vtk')
    for what, given, said in (
            ('a report that is cut', data[:700], 'line'),
            ('a report with a letter', data.replace(b'0 0 2\n', b'0 o 2\n', 1), 'line 13'),
            ('a report with two blanks', data.replace(b'0 0 2\n', b'0  0 2\n', 1), 'line 13'),
            ('a report with a number too great', data.replace(b'0 0 2\n', b'0 0 16384\n', 1), 'line 13'),
            ('a report with a line of four', data.replace(b'0 0 2\n', b'0 0 2 2\n', 1), 'line 13'),
            ('a report with a line too many', data + b'end\n', 'behind the end'),
            ('no report', b'', 'standard input')):
        refused(what, 'export', '-', name, given=given, said=said)
    first = data.split(b'\n').index(b'shape 3')
    line = next(i for i, text in enumerate(data.split(b'\n')) if i > first and text.count(b' ') == 3) + 1
    words = ('export', '-', os.path.join(work, 'x.off'), '--what', 'boundary', '--radius', '3')
    for what, old, new in (('a kind that is none', b'regular', b'regulaar'), ('a face with a letter', b' ', b' x'),
                           ('a face without a kind', b' regular', b''), ('an index too great', b'0 ', b'8 ')):
        rows = data.split(b'\n')
        rows[line - 1] = rows[line - 1].replace(old, new, 1)
        refused(what, *words, given=b'\n'.join(rows), said=f'line {line}')
    refused('a format that nobody knows', 'export', CUBE, os.path.join(work, 'x.unknown'), said='x.unknown')
    refused('a folder that is not there', 'export', CUBE, os.path.join(work, 'none', 'x.vtk'), said='none')


# The least alphas of the faces of (0,0,0), (0,0,1), (0,1,0), (1,0,0), reckoned by hand: 4 |a-b|^2, and the circles' and
# the sphere's squared radii 2/4, 2/3 and 3/4 in sixteenths, rounded up; the triangle 1 2 3 is not Gabriel, so it comes
# with the tetrahedron.
STEPS = ('mesh3-steps 1\nedges 6\n0 1 4\n0 2 4\n0 3 4\n1 2 8\n1 3 8\n2 3 8\n'
         'triangles 4\n0 1 2 8\n0 1 3 8\n0 2 3 8\n1 2 3 12\ncells 1\n0 1 2 3 12\nend\n')


def filtrations(work):
    import numpy as np
    given = STEPS.encode()
    status, out, err = tool('export', '-', '-', '--what', 'filtration', given=given)
    rows = [line.split() for line in out.decode().splitlines()]
    places = {tuple(row[1:-1]): i for i, row in enumerate(rows)}
    expect(f'a simplex tree of 15 faces: {err}', status == 0 and len(rows) == 15 == len(places) and
           rows[-1] == ['3', '0', '1', '2', '3', '0.75'])
    expect('each face stands behind its own', all(places[tuple(r[1:-1][:i] + r[1:-1][i + 1:])] < k
                                                  for k, r in enumerate(rows) if len(r) > 3 for i in range(len(r) - 2)))
    expect('by least alpha', [float(row[-1]) for row in rows] == sorted(float(row[-1]) for row in rows))
    name = os.path.join(work, 'steps.npz')
    given_none = given.replace(b'1 2 3 12', b'1 2 3 none', 1)
    status, out, err = tool('export', '-', name, '--what', 'filtration', given=given_none)
    arrays = np.load(name)
    expect(f'arrays: {err}', arrays['triangles'].shape == (4, 3) and arrays['triangles_alpha'].tolist() == [8, 8, 8, -1]
           and arrays['tetrahedra_alpha'].tolist() == [12])
    for what, changed, said in (('steps that are cut', given[:60], 'line'),
                                ('steps with a letter', given.replace(b'0 2 4', b'0 2 x'), 'line 4'),
                                ('steps without an alpha', given.replace(b'0 2 4', b'0 2'), 'line 4')):
        refused(what, 'export', '-', name, '--what', 'filtration', given=changed, said=said)
    refused('a report in place of steps', 'export', CUBE, name, '--what', 'filtration', said='line 1')
    by_gudhi(work)


def by_gudhi(work):
    gudhi = library('gudhi')
    if gudhi is None:
        return
    handed_over(gudhi, work)
    beside_gudhi(gudhi, 'a tetrahedron', STEPS.encode(), [[0, 0, 0], [0, 0, 1], [0, 1, 0], [1, 0, 0]])
    for name in ('19-not-gabriel', '62-unit-corner'):
        points = set()
        for line in open(os.path.join(CASES, f'{name}.in'), encoding='ascii'):
            word = line.split()
            if len(word) >= 3:
                (points.discard if word[0] == '-' else points.add)(tuple(int(x) for x in word[-3:]))
        steps = open(os.path.join(CASES, f'{name}.steps'), 'rb').read()
        beside_gudhi(gudhi, name, steps, sorted(points))


def handed_over(gudhi, work):
    """The lines of `tools/export --help` hand a file to GUDHI's Python; the persistence is that of its own complex."""
    with open(os.path.join(TOOLS, 'export'), encoding='ascii') as file:
        code = re.findall(r'(?:^    .*\n)+', file.read().split('"""')[1], re.M)[0]
    name = os.path.join(work, 'scan.tree')
    points = [[0, 0, 0], [0, 0, 1], [0, 1, 0], [1, 0, 0]]
    tool('export', '-', name, '--what', 'filtration', given=STEPS.encode())
    told = {}
    exec(textwrap.dedent(code).replace('scan.tree', name), told)
    peer = gudhi.AlphaComplex(points=points, precision='exact').create_simplex_tree().persistence()
    ours, theirs = ([(dimension, *(round(x, 9) for x in ends)) for dimension, ends in pairs]
                    for pairs in (told['pairs'], peer))
    expect(f'the lines of the help: {ours}, {theirs}', sorted(ours) == sorted(theirs))


def beside_gudhi(gudhi, what, steps, points):
    """The faces are those of GUDHI's alpha complex, each with its value rounded up to a sixteenth."""
    status, out, err = tool('export', '-', '-', '--what', 'filtration', given=steps)
    tree = gudhi.SimplexTree()
    for line in out.decode().splitlines():
        row = line.split()
        tree.insert([int(v) for v in row[1:-1]], filtration=float(row[-1]))
    peer = gudhi.AlphaComplex(points=points, precision='exact').create_simplex_tree()
    ours = {tuple(face): value for face, value in tree.get_filtration()}
    theirs = {tuple(face): value for face, value in peer.get_filtration()}
    near = all(-1e-9 < ours[face] - theirs[face] < 1 / 16 + 1e-9 for face in ours if face in theirs)
    expect(f'{what}: {len(ours)} faces of {len(theirs)} of GUDHI', status == 0 and set(ours) == set(theirs) and near)


def part_surfaces(work):
    given = os.path.join(CASES, '01-tetrahedron.boundary_48')
    for suffix in ('off', 'stl', 'ply', 'vtu'):
        name = os.path.join(work, f'part.{suffix}')
        status, out, err = tool('export', given, name, '--what', 'surface')
        volume = volume_of(name)[0]
        expect(f'the boundary of a tetrahedron to {suffix} encloses 8/6: {volume}, {err}',
               status == 0 and abs(volume - 8 / 6) < 1e-6)
    data, name = open(given, 'rb').read(), os.path.join(work, 'x.off')
    for what, changed, said in (('a surface that is cut', data[:30], 'line'),
                                ('a face of two', data.replace(b'3 0 2 3', b'2 0 2 3'), "'3 I J K'"),
                                ('an index too great', data.replace(b'3 0 2 3', b'3 0 2 4'), 'line 9')):
        refused(what, 'export', '-', name, '--what', 'surface', given=changed, said=said)
    refused('a report in place of a surface', 'export', CUBE, name, '--what', 'surface', said='line 1')
    torus(work)


def torus(work):
    """The boundary of the one part of the drawn torus, judged by its edges and its volume: each edge once each way."""
    if not is_built():
        return
    drawn = tool('example-surface')[1]
    edits = tool('points', '--format', 'xyz', given=drawn)[1]
    done = subprocess.run([PROGRAM, 'parts', '--alpha', '100000000', '--off', '0'], input=edits, capture_output=True,
                          timeout=120, check=False)
    name = os.path.join(work, 'torus.off')
    with open(name, 'wb') as file:
        file.write(done.stdout)
    volume, mesh = volume_of(name)
    turned = mesh.cells_dict['triangle'].tolist()
    ways = collections.Counter((t[i], t[i - 2]) for t in turned for i in range(3))
    expect('the torus is watertight: each edge is met once in each direction',
           done.returncode == 0 and len(turned) > 5000 and
           all(n == 1 and ways[j, i] == 1 for (i, j), n in ways.items()))
    corners = {i for t in turned for i in t}
    expect(f'it is turned outwards and encloses {volume}', volume > 0)
    expect('it has one hole: as many edges as points and triangles', 2 * (len(corners) + len(turned)) == len(ways))
    for suffix in ('stl', 'ply'):
        again = os.path.join(work, f'torus.{suffix}')
        status, out, err = tool('export', name, again, '--what', 'surface')
        near = abs(volume_of(again)[0] / volume - 1) < 1e-5
        expect(f'the torus to {suffix} encloses as much: {err}', status == 0 and near)


def by_vtk(work):
    """VTK judges the files by itself: volumes and the direction of the hull's triangles."""
    vtk = library('vtk')
    if vtk is None:
        return
    reader = vtk.vtkXMLUnstructuredGridReader()
    reader.SetFileName(os.path.join(work, 'cube.vtu'))
    reader.Update()
    grid = reader.GetOutput()
    volume = 0.0
    for i in range(grid.GetNumberOfCells()):
        corners = [grid.GetCell(i).GetPoints().GetPoint(j) for j in range(4)]
        volume += abs(vtk.vtkTetra.ComputeVolume(*corners))
    expect('VTK reads six tetrahedra of the volume of the cube',
           grid.GetNumberOfCells() == 6 and abs(volume - 8) < 1e-9)
    stl = vtk.vtkSTLReader()
    stl.SetFileName(os.path.join(work, 'hull.stl'))
    stl.Update()
    mass = vtk.vtkMassProperties()
    mass.SetInputData(stl.GetOutput())
    expect('VTK finds the volume of the hull, whose triangles are turned outwards', abs(mass.GetVolume() - 8) < 1e-9)


def by_meshlab(work):
    server = shutil.which('meshlabserver')
    if server is None:
        skip('meshlabserver is not installed')
        return
    for suffix in ('ply', 'off'):
        out = os.path.join(work, f'again-{suffix}.obj')
        words = [server, '-i', os.path.join(work, f'hull.{suffix}'), '-o', out]
        subprocess.run(words, capture_output=True, timeout=120, check=False)
        text = open(out, encoding='ascii').read() if os.path.exists(out) else ''
        expect(f'meshlab opens the hull as {suffix}', text.count('\nf ') == 12)


def run(work):
    tetrahedra(work)
    triangles(work)
    radii(work)
    bad_reports(work)
    filtrations(work)
    part_surfaces(work)
    surfaces.run(work)
    by_vtk(work)
    by_meshlab(work)
