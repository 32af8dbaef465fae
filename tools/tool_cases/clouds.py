"""Cases of tools/points: files that libraries of others wrote, texts that are read, texts that are refused."""
import csv
import json
import os

from tool_cases import expect, inputs, library, losses, refused, tool
from tool_cases.given import GRID, POINTS, bad, grid_of, rows, taken, xyz

def text(what, lines, *words, points=GRID, said=''):
    taken(what, '-', '--format', 'csv', *words, given=lines.encode(), points=points, said=said)


def bad_text(what, lines, *words, said=''):
    refused(what, 'points', '--format', 'csv', *words, given=lines.encode(), said=said)


def commas(form):
    return rows(form).replace('.', ',')


def texts():
    text('blanks', rows('{} {} {}'))
    text('blanks, comments and empty lines', rows('{} {} {} # a comment', '# x\n\n// y\n'))
    text('tabs and the line ends of Windows, behind a mark of the order of bytes',
         '\ufeff' + rows('{}\t{}\t{}').replace('\n', '\r\n'))
    text('commas', rows('{},{},{}'))
    text('commas with blanks behind', rows('{}, {}, {}'))
    text('semicolons', rows('{};{};{}'))
    text('a header', rows('{},{},{}', 'x,y,z\n'))
    text('a header with an index in front', rows('{i},{},{},{}', 'id,X,Y,Z\n'))
    text('a header with units', rows('{};{};{}', 'x [m];y [m];z [m]\n'))
    text('a header of ParaView behind another column', rows('{i},{},{},{}', 'd,Points:0,Points:1,Points:2\n'))
    text('a header of surveyors', rows('{i};{};{};{}', 'id;Easting [m];Northing [m];Elevation [m]\n'))
    text('another of surveyors', rows('{},{},{}', 'East,North,Height_m\n'))
    text('quoted words', rows('"{}","{}","{}"', '"x","y","z"\n'))
    text('columns by number', rows('{i} {} {} {}'), '--columns', '2', '3', '4')
    text('columns by name', rows('{i},{},{},{}', 'a,b,c,d\n'), '--columns', 'b', 'c', 'd')
    text('more columns, which is told', rows('{} {} {} 255 0 0'), said='the first three of 6 columns')
    text('decimal commas between semicolons', commas('{};{};{}'), '--decimal-comma')
    text('decimal commas between blanks', commas('{} {} {}'), '--decimal-comma')
    text('decimal commas in quotes', commas('"{}","{}","{}"'), '--decimal-comma')
    text('a count', rows('{} {} {}', '5\n'))
    text('a molecule', rows('C {} {} {}', '5\nmethane, some of it\n'))
    text('a molecule without a comment', rows('C {} {} {}', '5\n\n'))
    text('two frames of a molecule', rows('H {} {} {}', '5\none\n') + rows('O {} {} {}', '5\ntwo\n'), said='the first')
    text('elements without a count', rows('Cl {} {} {}'))
    text('a molecule by atomic numbers', rows('6 {} {} {}', '5\na comment\n'), '--columns', '2', '3', '4')
    text('an index in front, which is told', rows('{i} {} {} {}'), said='is it an index',
         points=['0 0 0', '4096 6553 0', '8192 0 9830', '12287 0 0', '16383 819 1638'])


def texts_refused():
    bad_text('decimal commas between semicolons', commas('{};{};{}'), said='--decimal-comma')
    bad_text('decimal commas between blanks', '1,5 2,0 3,1\n2 1 1\n', said='line 1')
    bad_text('decimal commas in quotes', '"1,5","2,0","3,1"\n', said='line 1')
    bad_text('a thousand that is cut', '1,000.5 2 3\n', said='line 1')
    bad_text('blanks behind lines with commas', '1,2,3\n4 5 6\n', said='line 2')
    bad_text('a decimal point among decimal commas', '1,5;2;3\n1.5;2;3\n', '--decimal-comma', said='line 2')
    bad_text('two columns', '1 2\n3 4\n', said='three are wanted')
    bad_text('a column short', '0 0 0\n1 1\n', said='line 2')
    bad_text('a letter', '0 0 0\n1 a 0\n', said='line 2')
    bad_text('no input', '', said='no points')
    bad_text('nothing but a comment', '# nothing\n', said='no points')
    bad_text('a number that is none', '0 0 0\n0 nan 1\n', said='point 2')
    bad_text('a number that is too great', '0 0 0\n0 1e999 1\n', said='point 2')
    bad_text('fewer points than are counted', '4\n1 2 3\n4 5 6\n', said='4 points were announced, and 2 are there')
    bad_text('more points than are counted', '1\n1 2 3\n4 5 6\n', said='1 points were announced, and 2 are there')
    bad_text('fewer atoms than are counted', '3\nc\nC 1 2 3\nH 4 5 6\n', said='3 points were announced')
    bad_text('atomic numbers or coordinates', '2\nc\n6 1 2 3\n1 4 5 6\n', said='--columns 2 3 4')
    bad_text('an element that is missing', 'C 1 2 3\n4 4 5 6\n', said='line 2')
    bad_text('a header that names no axes', 'a,b,c,d\n1,2,3,4\n', said='--columns')
    bad_text('a header that names an axis twice', 'x,y,z,x\n1,2,3,4\n', said='--columns')
    bad_text('a column that is not there', '1 2 3\n', '--columns', '2', '3', '4', said='--columns 4')
    bad_text('a file that is no text', '1 2 3\n\0\n', said='--format')


def by_csv(work):
    """Tables as Python's csv writes them, with the words of a header and all words quoted, or none."""
    for name, words in (('excel.csv', {}), ('quoted.csv', {'quoting': csv.QUOTE_ALL}),
                        ('tabs.tsv', {'dialect': 'excel-tab'}), ('european.csv', {'delimiter': ';'})):
        name = os.path.join(work, name)
        with open(name, 'w', encoding='ascii', newline='') as file:
            writer = csv.writer(file, **words)
            writer.writerow(['name', 'x', 'y', 'z'])
            writer.writerows([f'p{i}', *point] for i, point in enumerate(POINTS))
        taken(f'csv: {name}', name)
        refused(f'csv: no such column, {name}', 'points', name, '--columns', 'x', 'y', 'w', said='--columns w')


def by_numpy(work, np):
    for name, array, words in (('array', np.array(POINTS), ()), ('single', np.array(POINTS, dtype='>f4'), ()),
                               ('whole', (np.array(POINTS) * 10).astype(int), ()),
                               ('wide', np.column_stack([np.zeros(5), POINTS]), ('--columns', '2', '3', '4'))):
        name = os.path.join(work, f'{name}.npy')
        np.save(name, array)
        taken(f'numpy: {name}', name, *words)
    named = np.zeros(5, dtype=[('x', 'f8'), ('i', 'i4'), ('y', 'f8'), ('z', 'f8')])
    named['x'], named['y'], named['z'] = np.array(POINTS).T
    np.save(os.path.join(work, 'named.npy'), named)
    taken('numpy: named columns', os.path.join(work, 'named.npy'))
    whole = np.array(POINTS)
    for what, arrays in (('an only array', {'cloud': whole}), ('points among others', {'time': [1], 'points': whole}),
                         ('an array without a name', {'arr_0': whole, 'mass': [2]})):
        np.savez(os.path.join(work, 'arrays.npz'), **arrays)
        taken(f'npz: {what}', os.path.join(work, 'arrays.npz'))
    np.savez_compressed(os.path.join(work, 'arrays.npz'), here=whole, there=whole)
    refused('npz: two arrays', 'points', os.path.join(work, 'arrays.npz'), said='here, there')
    for name, array, said in (('turned', np.array(POINTS).T, 'transpose'), ('flat', np.array(POINTS)[:, :2], '(5, 2)'),
                              ('words', np.array([['a', 'b', 'c']]), 'an array of shape (n, 3)')):
        name = os.path.join(work, f'{name}.npy')
        np.save(name, array)
        refused(f'numpy: {name}', 'points', name, said=said)
    with open(os.path.join(work, 'cut.npy'), 'wb') as file:
        file.write(open(os.path.join(work, 'array.npy'), 'rb').read()[:150])
    refused('numpy: a file that is cut', 'points', os.path.join(work, 'cut.npy'), said='cut.npy')
    np.savetxt(os.path.join(work, 'saved.txt'), POINTS)
    taken('numpy: a text of savetxt', os.path.join(work, 'saved.txt'))


def by_meshio(work, np):
    import meshio
    triangles = [('triangle', np.array([[0, 1, 2], [0, 2, 3], [2, 3, 4]], dtype=np.int32))]
    for suffix in ('ply', 'off', 'obj', 'vtk', 'vtu', 'stl', 'mesh', 'msh', 'xdmf', 'nas', 'inp'):
        name = os.path.join(work, f'meshio.{suffix}')
        if suffix == 'xdmf' and library('h5py') is None:
            continue
        meshio.Mesh(np.array(POINTS), triangles).write(name)
        taken(f'meshio: {suffix}', name)
    name = os.path.join(work, 'alone.ply')
    meshio.Mesh(np.array(POINTS), []).write(name)
    taken('meshio: a PLY of vertices alone', name)
    flat = os.path.join(work, 'flat.vtk')
    meshio.Mesh(np.array(POINTS)[:, :2], triangles).write(flat, file_format='vtu')
    refused('a suffix that says another format', 'points', flat, said='flat.vtk')


def by_open3d(work, np):
    open3d = library('open3d')
    if open3d is None:
        return
    cloud = open3d.geometry.PointCloud(open3d.utility.Vector3dVector(np.array(POINTS)))
    cloud.colors = open3d.utility.Vector3dVector(np.linspace(0, 1, 15).reshape(5, 3))
    for name, words in (('text.ply', {'write_ascii': True}), ('binary.ply', {}), ('text.pcd', {'write_ascii': True}),
                        ('binary.pcd', {}), ('cloud.pts', {}), ('cloud.xyz', {}), ('cloud.xyzrgb', {})):
        name = os.path.join(work, name)
        open3d.io.write_point_cloud(name, cloud, **words)
        taken(f'open3d: {name}', name)
    name = os.path.join(work, 'compressed.pcd')
    open3d.io.write_point_cloud(name, cloud, compressed=True)
    refused('open3d: a compressed PCD', 'points', name, said='DATA ascii')
    mesh = open3d.geometry.TriangleMesh(cloud.points, open3d.utility.Vector3iVector(np.array([[0, 1, 2], [1, 2, 3]])))
    mesh.vertex_colors = cloud.colors
    for suffix in ('obj', 'ply', 'off'):
        name = os.path.join(work, f'coloured.{suffix}')
        open3d.io.write_triangle_mesh(name, mesh)
        taken(f'open3d: coloured, {suffix}', name)


def by_vtk(work):
    vtk = library('vtk')
    if vtk is None:
        return
    points, dots = vtk.vtkPoints(), vtk.vtkCellArray()
    points.SetDataTypeToDouble()
    for point in POINTS:
        dots.InsertNextCell(1)
        dots.InsertCellPoint(points.InsertNextPoint(point))
    cloud = vtk.vtkPolyData()
    cloud.SetPoints(points)
    cloud.SetVerts(dots)
    for binary in (0, 1):
        writer, name = vtk.vtkPLYWriter(), os.path.join(work, f'vtk-{binary}.ply')
        writer.SetFileType(1 + binary)
        writer.SetFileName(name)
        writer.SetInputData(cloud)
        writer.Write()
        taken(f'vtk: a PLY of vertices alone, {binary}', name)


def molecules(work):
    ase, gemmi = library('ase'), library('gemmi')
    if ase is not None:
        import ase.io
        atoms = ase.Atoms('CHONC', positions=POINTS)
        for name, form in (('ase.xyz', 'xyz'), ('extended.xyz', 'extxyz'), ('ase.pdb', 'proteindatabank')):
            ase.io.write(os.path.join(work, name), atoms, format=form)
            taken(f'ase: {form}', os.path.join(work, name))
        ase.io.write(os.path.join(work, 'frames.xyz'), [atoms, atoms], format='xyz')
        taken('ase: two frames', os.path.join(work, 'frames.xyz'), said='the first is taken')
    if gemmi is not None:
        by_gemmi(work, gemmi)


def by_gemmi(work, gemmi):
    """Two models; the second residue has its atom at two places, of which the second is passed over."""
    structure, model, chain = gemmi.Structure(), gemmi.Model('1'), gemmi.Chain('A')
    for i, place in enumerate(POINTS):
        residue = gemmi.Residue()
        residue.name, residue.seqid = 'GLY', gemmi.SeqId(str(i + 1))
        for label, away in (('A', 0.0), ('B', 0.3)) if i == 1 else (('\0', 0.0),):
            atom = gemmi.Atom()
            atom.name, atom.element, atom.altloc = "C1'", gemmi.Element('C'), label
            atom.pos = gemmi.Position(place[0] + away, *place[1:])
            residue.add_atom(atom)
        chain.add_residue(residue)
    model.add_chain(chain)
    structure.add_model(model)
    other = model.clone()
    other.name = '2'
    structure.add_model(other)
    structure.setup_entities()
    structure.write_pdb(os.path.join(work, 'gemmi.pdb'))
    structure.make_mmcif_document().write_file(os.path.join(work, 'gemmi.cif'))
    for suffix in ('pdb', 'cif'):
        taken(f'gemmi: {suffix}', os.path.join(work, f'gemmi.{suffix}'), said='alternate places are left out: 1')
        taken(f'gemmi: {suffix} by its models', os.path.join(work, f'gemmi.{suffix}'), said='2 models')


PLY = ('ply\nformat ascii 1.0\n{}element vertex 4\nproperty float x\nproperty float y\nproperty float z\nend_header\n{}'
       '0 0 0\n1 0 0\n0 1 0\n0 0 1\n')
PCD = '# .PCD\nVERSION .7\nFIELDS x y z\nSIZE 4 4 4\nTYPE F F F\nCOUNT 1 1 1\nWIDTH 2\nHEIGHT 1\nPOINTS {}\nDATA {}\n'
PDB = 'ATOM      1  C   GLY A   1      {}   0.000   0.000  1.00  0.00           C\n'


def headers():
    """Files with headers, by hand: elements before the vertices, and what is wrong with a file."""
    for what, given in (('a PLY with an element before', PLY.format('element camera 1\nproperty int a\n', '7\n')),
                        ('a PLY with nothing before', PLY.format('', ''))):
        status, out, err = tool('points', '--format', 'ply', given=given.encode())
        expect(f'{what}: {err}', status == 0 and len(grid_of(out)) == 4 and grid_of(out)[1] == '16383 0 0')
    for what, form, given, said in (
            ('a PLY that lies about its count', 'ply', PLY.format('', '').replace('vertex 4', 'vertex 9'), '9 points'),
            ('a PLY without a header', 'ply', '0 0 0\n', 'no header'),
            ('a PLY of an unknown type', 'ply', PLY.format('', '').replace('float y', 'quad y'), 'line 5'),
            ('a PLY without z', 'ply', PLY.format('', '').replace('float z', 'float w'), 'no column z'),
            ('a PLY with a letter', 'ply', PLY.format('', '').replace('0 1 0', '0 a 0'), 'standard input'),
            ('a PCD without a header', 'pcd', '0 0 0\n', 'no header'),
            ('a PCD that is cut', 'pcd', PCD.format(3, 'ascii') + '1 2 3\n', '3 points were announced'),
            ('a binary PCD that is cut', 'pcd', PCD.format(3, 'binary') + '123412341234', '3 points were announced'),
            ('a PCD without fields', 'pcd', PCD.format(1, 'ascii').replace('FIELDS', 'NAMES'), 'FIELDS'),
            ('an OBJ with a word', 'obj', 'v 0 0 0\nv 1 a 0\n', 'line 2'),
            ('an OBJ without a vertex', 'obj', 'f 1 2 3\n', 'no points'),
            ('an OFF that is none', 'off', 'hello\n', 'OFF'),
            ('an OFF that is cut', 'off', 'OFF\n4 0 0\n0 0 0\n', '4 points were announced'),
            ('a PDB without an atom', 'pdb', 'HEADER\n', 'no points'),
            ('a PDB with a word', 'pdb', PDB.format('x.500'), 'line 1'),
            ('an mmCIF without atoms', 'cif', 'data_x\n', '_atom_site'),
            ('an mmCIF that is cut', 'cif', 'loop_\n_atom_site.id\n_atom_site.Cartn_x\n1\n', '2 values an atom'),
            ('an mmCIF without a place', 'cif', 'loop_\n_atom_site.id\n1\n', 'Cartn_x'),
            ('columns of a format without any', 'obj', 'v 0 0 0\n', '--columns')):
        words = ('--columns', '1', '2', '3') if said == '--columns' else ()
        refused(what, 'points', '--format', form, *words, given=given.encode(), said=said)


def placings(work):
    placing = os.path.join(work, 'placing.json')
    status, out, err = xyz(rows('{} {} {}'), '--radius', '0.5', '--radius', '1', '--placing', placing)
    with open(placing, encoding='ascii') as file:
        kept = json.load(file)
    lines = out.decode().split('\n')
    expect(f'the placing and its radii are kept: {kept}', status == 0 and kept['origin'] == [0, 0, 0] and
           kept['scale'] == 16383 / 3.2 and [pair['radius'] for pair in kept['radii']] == [0.5, 1] and
           [str(pair['line']) for pair in kept['radii']] == lines[lines.index('radii') + 1:-2])
    status, out, err = xyz('0 0 0\n1 2 3\n', '--scale', '10', '--origin', '-1', '0', '0')
    expect('a placing that is given', grid_of(out) == ['10 0 0', '20 20 30'])
    for lengths, title, squares in ((('.5',), 'mesh3 1', ['25']), (('.05',), 'mesh3 3', ['4']), ((), 'mesh3 1', []),
                                    (('.5', '.05'), 'mesh3 3', ['400', '4']), (('.03',), 'mesh3 3', ['1'])):
        words = [word for length in lengths for word in ('--radius', length)]
        lines = xyz('0 0 0\n1 2 3\n', '--scale', '10', '--origin', '0', '0', '0', *words)[1].decode().split('\n')
        expect(f'radii {lengths}: {lines}', lines[0] == title and lines[lines.index('radii') + 1:-2] == squares)
    bad('a scale alone', ('--scale', '10'), '--origin')
    bad('a place outside', ('--scale', '10', '--origin', '2', '0', '0'), 'outside 0 to 16383')
    bad('a radius that is too great', ('--radius', '9'), '--radius', '0 0 0\n1 1 1\n')
    bad('a radius below 0', ('--radius', '-1'), '--radius')
    bad('17 radii', ('--radius', '1') * 17, '16 radii')
    bad('every 0th point', ('--every', '0'), '--every')
    bad('too many points', (), '--every 2', '1 2 3\n' * 262145)
    refused('no format for standard input', 'points', given=b'0 0 0\n', said='--format')
    refused('a format that nobody knows', 'points', '--format', 'nothing', given=b'0 0 0\n', said='nothing')
    refused('a file that is not there', 'points', os.path.join(work, 'none.ply'), said='none.ply')
    status, out, err = xyz('1 2 3\n' * 262145, '--every', '2')
    expect('every other point', status == 0 and len(grid_of(out)) == 131073)


def run(work):
    import numpy as np
    texts()
    texts_refused()
    by_csv(work)
    by_numpy(work, np)
    by_meshio(work, np)
    by_open3d(work, np)
    by_vtk(work)
    molecules(work)
    headers()
    placings(work)
    inputs.run(work)
    losses.run()
