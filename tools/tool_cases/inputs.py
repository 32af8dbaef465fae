"""Cases of tools/points on what scanners, Qhull and TetGen write, on packed files, and on words that are no numbers."""
import bz2
import gzip
import importlib.util
import os
import shutil
import struct
import subprocess
import tarfile
import tempfile

from tool_cases import expect, refused, skip, tool
from tool_cases.given import POINTS, grid_of, rows, taken, xyz

OF_CGAL = '/usr/share/doc/libcgal-dev'  # where Debian's libcgal-demo puts the data of CGAL


# In place of the packages that unpack LAZ and read E57, which Debian does not have: what the tool calls of them.
LASPY = """def read(file):
    assert file.read(4) == b'LASF'
    return {axis: [row[i] for row in POINTS] for i, axis in enumerate('xyz')}
"""
PYE57 = """import numpy
class E57:
    def __init__(self, name):
        assert open(name, 'rb').read() == b'ASTM-E57'
        self.scan_count = 2
    def read_scan(self, index, ignore_missing_fields):
        rows = numpy.array(POINTS[2 * index:2 + 3 * index])
        return {f'cartesian{axis}': rows[:, i] for i, axis in enumerate('XYZ')}
"""


def by_packages():
    """LAZ by laspy and E57 by pye57, as stand-ins of both give them; without them one line names them."""
    with tempfile.TemporaryDirectory() as room:
        for name, text in (('laspy.py', LASPY), ('pye57.py', PYE57)):
            with open(os.path.join(room, name), 'w', encoding='ascii') as file:
                file.write(f'POINTS = {POINTS!r}\n{text}')
        before, os.environ['PYTHONPATH'] = os.environ.get('PYTHONPATH'), room
        taken('LAZ by laspy', '-', '--format', 'laz', given=las(form=0x80))
        taken('E57 by pye57', '-', '--format', 'e57', given=b'ASTM-E57')
        del os.environ['PYTHONPATH']
        if before is not None:
            os.environ['PYTHONPATH'] = before
    for form, package, given in (('laz', 'laspy', las(form=0x80)), ('e57', 'pye57', b'ASTM-E57')):
        if importlib.util.find_spec(package) is None:
            refused(f'{form} without {package}', 'points', '--format', form, given=given, said=f'where {package} is')


def las(version=2, form=0, wide=20, count=None, cut=0, points=POINTS):
    """A LAS as its specification has it: a header, and points of whole numbers, with a factor and a move an axis."""
    header = bytearray(375 if version == 4 else 227)
    header[:4], header[24:26] = b'LASF', bytes([1, version])
    count = len(points) if count is None else count
    struct.pack_into('<HI', header, 94, len(header), len(header))
    struct.pack_into('<BHI', header, 104, form, wide, 0 if version == 4 else count)
    struct.pack_into('<6d', header, 131, .01, .1, .2, 5, -7, 9)
    if version == 4:
        struct.pack_into('<Q', header, 247, count)
    whole = [[round((p[0] - 5) / .01), round((p[1] + 7) / .1), round((p[2] - 9) / .2)] for p in points]
    data = bytes(header) + b''.join(struct.pack('<3i', *p) + bytes(wide - 12) for p in whole)
    return data[:len(data) - cut]


def scanners():
    for what, words in (('LAS 1.2', {}), ('LAS 1.4', {'version': 4, 'form': 6, 'wide': 30}),
                        ('LAS with colours', {'form': 2, 'wide': 26})):
        taken(what, '-', '--format', 'las', given=las(**words))
    for what, words, said in (('LAZ that is none', {'form': 0x80}, 'by laszip or pdal'),
                              ('a LAS that is cut', {'cut': 9}, 'ends before'),
                              ('a LAS that lies about its count', {'count': 9}, '9 points of 20 bytes'),
                              ('a LAS without a point', {'points': []}, 'no points')):
        refused(what, 'points', '--format', 'las', given=las(**words), said=said)
    by_packages()
    refused('no LAS', 'points', '--format', 'las', given=b'LASF', said='no header')
    taken('PWN: points with normals', '-', '--format', 'pwn', given=rows('{} {} {} 0 0 1').encode())


def of_cgal(work):
    """Files that CGAL ships: their counts, and of LAS the bounds that the header tells, which others wrote."""
    if not os.path.exists(f'{OF_CGAL}/data.tar.gz'):
        skip('the data of CGAL are not installed (Debian: libcgal-demo)')
        return
    for archive, member, count in (('examples', 'examples/Point_set_processing_3/data/urban.las', 13511),
                                   ('examples', 'examples/Point_set_processing_3/data/pig_points.las', 468),
                                   ('data', 'data/points_3/oni.pwn', 1435), ('data', 'data/points_3/cube.pwn', 50000)):
        with tarfile.open(f'{OF_CGAL}/{archive}.tar.gz') as packed:
            data = packed.extractfile(member).read()
        name = os.path.join(work, os.path.basename(member))
        with open(name, 'wb') as file:
            file.write(data)
        status, out, err = tool('points', name)
        places = [[int(word) for word in line.split()] for line in grid_of(out)]
        expect(f'{member}: {len(places)} points, {err}', status == 0 and len(places) == count)
        if member.endswith('las'):
            high_x, low_x, high_y, low_y, high_z, low_z = struct.unpack_from('<6d', data, 179)
            extents = [high_x - low_x, high_y - low_y, high_z - low_z]
            wide = [round(extent * 16383 / max(extents)) for extent in extents]
            ours = [max(axis) - min(axis) for axis in zip(*places)]
            expect(f'{member}: as wide as its header tells: {ours}, {wide}',
                   all(abs(a - b) <= 1 for a, b in zip(ours, wide)))


def packed(work):
    import meshio
    import numpy as np
    vtu = os.path.join(work, 'packed.vtu')
    meshio.Mesh(np.array(POINTS), [('vertex', np.arange(5).reshape(5, 1))]).write(vtu)
    array = os.path.join(work, 'packed.npy')
    np.save(array, np.array(POINTS))
    for name in (vtu, array):
        with open(name, 'rb') as file, gzip.open(f'{name}.gz', 'wb') as sink:
            sink.write(file.read())
        taken(f'{name}.gz', f'{name}.gz')
    text = gzip.compress(rows('{} {} {}').encode())
    taken('a packed text on standard input', '-', '--format', 'xyz', given=text)
    refused('a packed text that is cut', 'points', '--format', 'xyz', given=text[:-9], said='unpacked by gzip')
    for ending, data in (('xyz.bz2', bz2.compress(b'0 0 0\n')), ('xyz.gz', b'0 0 0\n')):
        name = os.path.join(work, f'other.{ending}')
        with open(name, 'wb') as file:
            file.write(data)
        refused(f'a file {ending}', 'points', name, said='unpack it first')


def of_qhull(work):
    taken('Qhull', '-', '--format', 'txt', given=rows('{} {} {}', '3\n5\n').encode())
    taken('Qhull with words', '-', '--format', 'xyz', given=rows('  {} {}   {}', '3 rbox 5 D3\n5\n').encode())
    taken('Qhull, three points', '-', '--format', 'xyz', given=b'3\n3\n0 0 0\n2 0 0\n0 0 4\n',
          points=['0 0 0', '8192 0 0', '0 0 16383'])
    refused('Qhull with a point less', 'points', '--format', 'xyz', given=rows('{} {} {}', '3\n6\n').encode(),
            said='6 points were announced, and 5 are there')
    taken('three atoms and a number for a comment', '-', '--format', 'xyz', given=b'3\n7\nO 0 0 0\nH 2 0 0\nH 0 0 4\n',
          points=['0 0 0', '8192 0 0', '0 0 16383'])
    if shutil.which('rbox') is None:
        skip('rbox is not installed (Debian: qhull-bin)')
        return
    for words in (['100', 'D3'], ['100', 'n', 'D3'], ['64', 's', 'D3']):
        data = subprocess.run(['rbox', *words], capture_output=True, check=True).stdout
        status, out, err = tool('points', '--format', 'txt', given=data)
        expect(f'rbox {words}: {err}', status == 0 and len(grid_of(out)) == int(words[0]))


def of_tetgen(work):
    name = os.path.join(work, 'five.node')
    with open(name, 'w', encoding='ascii') as file:
        file.write(rows('{i} {} {} {}', '# five\n5 3 0 0\n'))
    taken('a .node of TetGen', name)
    for what, given, said in (('a .node of a plane', '2 2 0 0\n1 0 0\n2 0 1\n', 'a 3'),
                              ('a .node that is cut', '2 3 0 0\n1 0 0 0\n', '2 points were announced'),
                              ('a .node with a word', '1 3 0 0\n1 0 a 0\n', "'a'"), ('an empty .node', '', 'a 3')):
        refused(what, 'points', '--format', 'node', given=given.encode(), said=said)
    if shutil.which('tetgen') is None:
        skip('tetgen is not installed')
        return
    subprocess.run(['tetgen', '-Q', name], capture_output=True, check=False, timeout=60)
    taken('a .node that TetGen wrote', os.path.join(work, 'five.1.node'))


def words_that_are_none(work):
    for what, form, given, said in (
            ('an exponent of Fortran', 'xyz', '0 0 0\n1 4.7D-01 0\n', "line 2: '4.7D-01' is no number here: write"),
            ('a word', 'xyz', '0 0 0\n1 two 0\n', "line 2: 'two' is no number, and three were expected: --columns"),
            ('an empty word', 'csv', '0,0,0\n1,,0\n', "line 2: '' is no number"),
            ('a word of an OBJ', 'obj', 'v 0 0 0\nv 1 a 0\n', "not '1 a 0'"),
            ('a word of a PDB', 'pdb', f'ATOM  {"":24}   1.0     x.5     2.0\n', "'1.0     x.5     2.0'"),
            ('a word of an mmCIF', 'cif', 'loop_\n_atom_site.Cartn_x\n_atom_site.Cartn_y\n_atom_site.Cartn_z\n1 ? 3\n',
             "'1 ? 3'")):
        refused(what, 'points', '--format', form, given=given.encode(), said=said)
    for ending in ('mol2', 'sdf', 'm'):
        name = os.path.join(work, f'other.{ending}')
        with open(name, 'w', encoding='ascii') as file:
            file.write('1 2 3\n')
        refused(f'a file .{ending}', 'points', name, said='--format xyz reads lines of numbers')


def plain_texts():
    """Three numbers a line, which go straight to numpy, are read as with a comment, with which they do not."""
    for what, lines in (('exponents and signs', '+1e0 -2E-1 .5\n1. -.5 3\n\n0 0 0\n'), ('tabs', '0\t0 0\r\n1\t2 3\r\n'),
                        ('line ends of old', '0 0 0\r1 2 3\r'), ('no last line end', '0 0 0\n1 2 3'),
                        ('blanks around', '  0 0 0  \n 1 2 3 ')):
        plain, careful = xyz(lines), xyz(f'# careful\n{lines}')
        expect(f'{what}: {plain}, {careful}', plain[0] == 0 and plain[1] == careful[1])


def run(work):
    scanners()
    of_cgal(work)
    packed(work)
    of_qhull(work)
    of_tetgen(work)
    words_that_are_none(work)
    plain_texts()
