"""Points with real coordinates, from the files that people have: text of many kinds, and what meshio reads.

Each reader gives an array of shape (n, 3) in the units of the file. What could be read in two ways is refused with the
option that settles it; what is passed over is told by `warn`.
"""
import contextlib
import gzip
import io
import os
import re
import struct
import sys
import tempfile
import zlib

import meshio
import numpy as np
from mesh3 import Trouble, read_bytes, shown, tables

AXES = ('x', 'y', 'z')
POINT_ARRAYS = ('points', 'xyz', 'coords', 'positions', 'arr_0')  # what the points of an NPZ are called


def warn(text):
    """A line on standard error that does not stop the tool."""
    print(f'{os.path.basename(sys.argv[0])}: {text}', file=sys.stderr)


class Wanted:
    """How a file is to be read: its name, the columns of the coordinates, and whether the comma is the decimal sign."""

    def __init__(self, name, columns=None, decimal_comma=False):
        self.name = name
        self.columns = columns
        self.decimal_comma = decimal_comma

    def fault(self, why, number=None):
        return Trouble(f'{shown(self.name)}: {why}' if number is None else f'{shown(self.name)}: line {number}: {why}')


def of_text(data, wanted):
    return tables.points_of(data, wanted, warn)


# ---- arrays of numpy


def one_of(arrays, wanted):
    """The array of the points among those of an NPZ: the only one, or one of their usual names."""
    names = arrays.files
    name = names[0] if len(names) == 1 else next((name for name in POINT_ARRAYS if name in names), None)
    if name is None:
        raise wanted.fault(f'several arrays, {", ".join(names)}: name that of the points {" or ".join(POINT_ARRAYS)}')
    try:
        return arrays[name]
    except ValueError as error:
        raise wanted.fault(f'{name} cannot be read: {str(error).splitlines()[0]}') from None


def of_npy(data, wanted):
    try:
        array = np.load(io.BytesIO(data), allow_pickle=False)
    except (ValueError, OSError, EOFError) as error:
        raise wanted.fault(f'cannot be read as npy: {str(error).splitlines()[0]}') from None
    if not isinstance(array, np.ndarray):
        array = one_of(array, wanted)
    if array.dtype.names:
        columns = wanted.columns or AXES
        missing = [name for name in columns if name not in array.dtype.names]
        if missing:
            raise wanted.fault(f'no field {missing[0]} among {", ".join(array.dtype.names)}: name three by --columns')
        return np.column_stack([array[name].ravel().astype(float) for name in columns])
    if array.ndim != 2 or array.shape[1] < 3 or array.dtype.kind not in 'iuf':
        raise wanted.fault(f'an array of shape (n, 3) was expected, and this one is {array.shape} of {array.dtype}')
    if len(array) == 3 < array.shape[1]:
        raise wanted.fault(f'an array of shape {array.shape}: is it turned? Save its transpose')
    return np.asarray(array[:, tables.places(wanted, None, array.shape[1], warn)], dtype=float)


# ---- blocks of vertices, PLY and PCD: a header, then rows of one form


def rows_of(data, form, count, wanted):
    """So many rows from the front of `data`: of text where `form` is names alone, else by the form, a dtype of numpy.

    Gives the columns by name, and what is left of `data`.
    """
    if isinstance(form, np.dtype):
        if len(data) < count * form.itemsize:
            raise wanted.fault(f'{count} points were announced, and {len(data) // form.itemsize} are there')
        return np.frombuffer(data, dtype=form, count=count), data[count * form.itemsize:]
    lines = data.split(b'\n', count)
    rows = [line for line in lines[:count] if line.strip()]
    if len(rows) < count:
        raise wanted.fault(f'{count} points were announced, and {len(rows)} are there')
    return rows, lines[count] if len(lines) > count else b''


def columns_of(rows, names, wanted):
    """The three columns of the coordinates, of rows of `rows_of`."""
    columns = wanted.columns or AXES
    missing = [name for name in columns if name not in names]
    if missing:
        raise wanted.fault(f'no column {missing[0]} among {", ".join(names)}: name three by --columns')
    if isinstance(rows, np.ndarray):
        return np.column_stack([rows[name].astype(float).reshape(len(rows)) for name in columns])
    try:
        return np.loadtxt(rows, usecols=[names.index(name) for name in columns], ndmin=2, comments=None)
    except (ValueError, IndexError) as error:
        raise wanted.fault(f'a row of its points: {error}') from None


def of_las(data, wanted):
    """The points of a LAS of version 1.0 to 1.4: whole numbers by the scales and offsets of its header."""
    if len(data) < 227 or data[:4] != b'LASF':
        raise wanted.fault("cannot be read as las: no header that begins with 'LASF'")
    first, form, wide, count = struct.unpack('<I4xBHI', data[96:111])
    if data[24:26] >= b'\1\4' and len(data) >= 255:
        count = struct.unpack('<Q', data[247:255])[0] or count
    if form & 0xc0:
        return of_laz(data, wanted)
    if wide < 12 or first + count * wide > len(data):
        raise wanted.fault(f'{count} points of {wide} bytes were announced, and the file ends before')
    rows = np.frombuffer(data, dtype=np.dtype(('V', wide)), count=count, offset=first)
    whole = np.ndarray((count, 3), '<i4', rows, strides=(wide, 4))
    scales, offsets = np.frombuffer(data, '<f8', 6, 131).reshape(2, 3)
    return whole * scales + offsets


def first_line(error):
    """What an error of somebody else says, in a line."""
    return str(error).split('\n')[0] or type(error).__name__


def of_laz(data, wanted):
    """The points of a compressed LAS, by laspy, where that and what unpacks for it are installed."""
    try:
        import laspy
        las = laspy.read(io.BytesIO(data))
        return np.column_stack([np.asarray(las[axis], dtype=float) for axis in AXES])
    except ImportError:
        why = 'a compressed LAS (LAZ): it is read where laspy is installed (pip install "laspy[lazrs]")'
    except Exception as error:  # laspy has no one error; without what unpacks it has one of its own
        why = f'a compressed LAS (LAZ), which laspy does not read: {first_line(error)}'
    raise wanted.fault(f'{why}; else write it as LAS, by laszip or pdal translate')


def of_e57(data, wanted):
    """The points of all scans of an E57, by pye57, where that is installed."""
    try:
        import pye57
    except ImportError:
        raise wanted.fault('E57 is read where pye57 is installed (pip install pye57); else convert it, by '
                           '`pdal translate FILE FILE.las`') from None
    with tempfile.NamedTemporaryFile(suffix='.e57') as file:
        file.write(data)
        file.flush()
        try:
            whole = pye57.E57(file.name)
            scans = [whole.read_scan(i, ignore_missing_fields=True) for i in range(whole.scan_count)]
            rows = [np.column_stack([scan[f'cartesian{axis}'] for axis in 'XYZ']) for scan in scans]
        except Exception as error:  # pye57 has no one error
            raise wanted.fault(f'cannot be read as e57: {first_line(error)}') from None
    return np.concatenate(rows).astype(float) if rows else np.zeros((0, 3))


PLY_TYPES = {'char': 'i1', 'int8': 'i1', 'uchar': 'u1', 'uint8': 'u1', 'short': 'i2', 'int16': 'i2', 'ushort': 'u2',
             'uint16': 'u2', 'int': 'i4', 'int32': 'i4', 'uint': 'u4', 'uint32': 'u4', 'float': 'f4', 'float32': 'f4',
             'double': 'f8', 'float64': 'f8'}


def of_ply(data, wanted):
    """The vertices of a PLY, whatever else it has: meshio stops at vertices alone and at unknown elements."""
    head = re.match(rb'ply\r?\n(.*?)end_header\r?\n', data, re.S)
    if not head:
        raise wanted.fault("cannot be read as ply: no header from 'ply' to 'end_header'")
    order, elements = None, []
    for number, line in enumerate(head.group(1).decode('ascii', 'replace').splitlines(), 2):
        word = line.split()
        try:
            if word[:1] == ['format']:
                order = {'ascii': '', 'binary_little_endian': '<', 'binary_big_endian': '>'}[word[1]]
            elif word[:1] == ['element']:
                elements.append((word[1], int(word[2]), []))
            elif word[:1] == ['property']:
                elements[-1][2].append((word[-1], None if word[1] == 'list' else PLY_TYPES[word[1]]))
        except (KeyError, IndexError, ValueError):
            raise wanted.fault('no line of a PLY header', number) from None
    rest = data[head.end():]
    for name, count, properties in elements:
        if order is None or any(kind is None for _, kind in properties):
            break
        names = [of for of, _ in properties]
        form = np.dtype([(of, order + kind) for of, kind in properties]) if order else names
        rows, rest = rows_of(rest, form, count, wanted)
        if name == 'vertex':
            if not count:
                raise wanted.fault('no points')
            return columns_of(rows, names, wanted)
    raise wanted.fault("cannot be read as ply: no block of vertices stands before the first list")


def of_pcd(data, wanted):
    """Points of a PCD, ASCII or binary: the fields x, y and z."""
    head = re.match(rb'(.*?\nDATA +([a-z_]+)[ \t]*\r?\n)', data, re.S)
    if not head:
        raise wanted.fault("cannot be read as pcd: no header that ends in 'DATA ascii' or 'DATA binary'")
    words = {line.split()[0]: line.split()[1:] for line in head.group(1).decode('ascii', 'replace').splitlines()
             if line.strip() and not line.startswith('#')}
    try:
        names, kinds = words['FIELDS'], [f'<{kind.lower()}{size}' for kind, size in zip(words['TYPE'], words['SIZE'])]
        counts, count = [int(n) for n in words.get('COUNT', ['1'] * len(names))], int(words['POINTS'][0])
        form = np.dtype([(name, kind, (n,)) for name, kind, n in zip(names, kinds, counts)])
    except (KeyError, IndexError, ValueError, TypeError):
        raise wanted.fault('cannot be read as pcd: its header lacks FIELDS, SIZE, TYPE or POINTS') from None
    how = head.group(2)
    if how == b'binary_compressed':
        raise wanted.fault('a compressed PCD: write it as `DATA ascii`, by pcl_convert_pcd_ascii_binary FILE OUT 0')
    if how == b'ascii':
        names = [f'{name}{i}' if n > 1 else name for name, n in zip(names, counts) for i in range(n)]
    rows, _ = rows_of(data[head.end():], names if how == b'ascii' else form, count, wanted)
    return columns_of(rows, names, wanted)


# ---- vertices of OBJ and OFF, atoms of molecules


def of_obj(data, wanted):
    """The vertices of an OBJ, with or without colours: the first three numbers of each line `v`."""
    points = []
    for number, line in enumerate(data.decode('utf-8', 'replace').split('\n'), 1):
        if line.startswith(('v ', 'v\t')):
            try:
                points.append([float(word) for word in line.split()[1:4]])
            except ValueError:
                points.append([])
            if len(points[-1]) < 3:
                raise wanted.fault(f"three numbers were expected behind 'v', and not '{line[1:].strip()[:40]}'", number)
    return np.array(points).reshape(-1, 3)


def of_off(data, wanted):
    """The vertices of an OFF, with or without normals and colours: the first three numbers of each vertex."""
    lines = [line for line in re.sub(rb'#[^\n]*', b'', data).split(b'\n') if line.strip()]
    head = re.match(rb'\s*(?:ST)?C?N?OFF\s*([0-9]+)\s+[0-9]+(?:\s+[0-9]+)?\s*$', b' '.join(lines[:2]))
    head = head or re.match(rb'\s*(?:ST)?C?N?OFF\s+([0-9]+)\s+[0-9]+(?:\s+[0-9]+)?\s*$', lines[0] if lines else b'')
    if not head:
        raise wanted.fault("cannot be read as off: 'OFF' and the counts of its points and faces were expected")
    count, first = int(head.group(1)), 1 if len(lines[0].split()) > 1 else 2
    rows, _ = rows_of(b'\n'.join(lines[first:]), AXES, count, wanted)
    if not rows:
        raise wanted.fault('no points')
    return columns_of(rows, AXES, wanted)


def of_node(data, wanted):
    """The points of a .node of TetGen: how many there are and their dimension, then an index and three numbers each."""
    lines = [line for line in re.sub(rb'#[^\n]*', b'', data).split(b'\n') if line.strip()]
    head = lines[0].split() if lines else []
    if len(head) < 2 or not all(word.isdigit() for word in head) or head[1] != b'3':
        raise wanted.fault("cannot be read as node: how many points there are, and a 3, were expected")
    rows, _ = rows_of(b'\n'.join(lines[1:]), AXES, int(head[0]), wanted)
    if not rows:
        raise wanted.fault('no points')
    return columns_of(rows, ['index', *AXES], wanted)


def first_places(atoms, models):
    """Of atoms (place, residue, point) those of the first place told for each residue; the others are told."""
    first, kept = {}, []
    for place, residue, point in atoms:
        if not place or first.setdefault(residue, place) == place:
            kept.append(point)
    if len(kept) < len(atoms):
        warn(f'atoms at alternate places are left out: {len(atoms) - len(kept)}')
    if models > 1:
        warn(f'{models} models: the first is taken')
    return np.array(kept).reshape(-1, 3)


def of_pdb(data, wanted):
    """The atoms of the first model of a PDB, ATOM and HETATM, in angstroms: columns 31 to 54."""
    atoms, models, open_ = [], 0, True
    for number, line in enumerate(data.decode('ascii', 'replace').splitlines(), 1):
        if line.startswith('MODEL '):
            models += 1
            open_ = models == 1
        elif open_ and line.startswith(('ATOM  ', 'HETATM')):
            try:
                point = [float(line[30:38]), float(line[38:46]), float(line[46:54])]
            except ValueError:
                raise wanted.fault('three coordinates were expected in the columns 31 to 54, and not '
                                   f"'{line[30:54].strip()}'", number) from None
            atoms.append((line[16].strip(), line[21:27], point))
    return first_places(atoms, models)


CIF_WORD = re.compile(r"""'((?:[^'\n]|'(?=\S))*)'(?=\s|$)|"((?:[^"\n]|"(?=\S))*)"(?=\s|$)|(\S+)""")


def of_cif(data, wanted):
    """The atoms of the first model of an mmCIF: Cartn_x, Cartn_y and Cartn_z of its loop _atom_site."""
    lines = data.decode('utf-8', 'replace').splitlines()
    names = [i for i, line in enumerate(lines) if line.lower().startswith('_atom_site.')]
    if not names or names != list(range(names[0], names[0] + len(names))):
        raise wanted.fault('no loop of _atom_site, as mmCIF has it')
    columns = [lines[i].split()[0].split('.')[1].lower() for i in names]
    words, ends = [], []
    for number, line in enumerate(lines[names[-1] + 1:], names[-1] + 2):
        if line.startswith('#') or line.lower().startswith(('loop_', 'data_', '_')):
            break
        words += [''.join(groups) for groups in CIF_WORD.findall(line)]
        ends += [number] * (len(words) - len(ends))
    wide = len(columns)
    if len(words) % wide or not words:
        raise wanted.fault(f'{wide} values an atom were expected in its loop of _atom_site')
    try:
        x, y, z = (columns.index(f'cartn_{axis}') for axis in AXES)
    except ValueError:
        raise wanted.fault('its loop of _atom_site has no Cartn_x, Cartn_y, Cartn_z') from None
    rows = [words[i:i + wide] for i in range(0, len(words), wide)]
    of = {name: columns.index(name) if name in columns else None for name in
          ('pdbx_pdb_model_num', 'label_alt_id', 'label_asym_id', 'label_seq_id', 'auth_seq_id')}
    model = of['pdbx_pdb_model_num']
    atoms = []
    for i, row in enumerate(rows):
        if model is not None and row[model] != rows[0][model]:
            continue
        try:
            point = [float(re.sub(r'\([0-9]+\)$', '', row[at])) for at in (x, y, z)]
        except ValueError:
            told = ' '.join(row[at] for at in (x, y, z))
            raise wanted.fault(f"three coordinates were expected, and not '{told[:60]}'", ends[i * wide]) from None
        place = row[of['label_alt_id']] if of['label_alt_id'] is not None else '.'
        residue = tuple(row[at] for name, at in of.items() if at is not None and name.endswith(('asym_id', 'seq_id')))
        atoms.append(('' if place in '.?' else place, residue, point))
    return first_places(atoms, len({row[model] for row in rows}) if model is not None else 1)


# ---- any file


def unpacked(data, wanted):
    """What a file of gzip holds."""
    try:
        return gzip.decompress(data)
    except (OSError, EOFError, zlib.error) as error:
        raise wanted.fault(f'cannot be unpacked by gzip: {error}') from None


def by_meshio(name, data, form, wanted):
    """The points of a file that meshio reads: by its name, or where that is '-' of `data`, which has no name."""
    told = io.StringIO()
    try:
        with contextlib.redirect_stderr(told), contextlib.redirect_stdout(told):
            mesh = meshio.read(io.BytesIO(data) if name == '-' else name, file_format=form)
        points = np.asarray(mesh.points, dtype=float)
    except OSError:
        raise
    except SystemExit:  # meshio's readers have no one error, and leave the process at some inputs
        said = ' '.join(told.getvalue().split()) or 'meshio gives no reason'
        raise wanted.fault(f'cannot be read: {said}') from None
    except Exception as error:
        kind = form or os.path.splitext(name)[1].lstrip('.')
        raise wanted.fault(f'cannot be read as {kind}: {first_line(error)}') from None
    if points.ndim == 2 and points.shape[1] > 3:
        points = points[:, :3]
    return points


def by_ending(name, data, form, packed, wanted):
    """The points of a file that no reader here is for: by meshio, where it knows the form or the ending."""
    ending = os.path.splitext(name)[1].lower()
    if form is None and ending not in meshio.extension_to_filetypes:
        raise wanted.fault(f"'{ending}' is an unknown format: --format xyz reads lines of numbers, and --format takes "
                           'the name of any other that is known; else convert it, a scan by pdal, a molecule by obabel')
    if not packed or name == '-':
        return by_meshio(name, data, form, wanted)
    with tempfile.NamedTemporaryFile(suffix=ending) as file:
        file.write(data)
        file.flush()
        return by_meshio(file.name, data, form, wanted)


TEXT = ('xyz', 'xyzn', 'xyzrgb', 'pwn', 'npts', 'txt', 'csv', 'tsv', 'pts', 'asc', 'dat', 'qhull', '')
READERS = {'las': of_las, 'laz': of_las, 'e57': of_e57, 'npy': of_npy, 'npz': of_npy, 'ply': of_ply, 'pcd': of_pcd,
           'obj': of_obj, 'off': of_off, 'node': of_node, 'pdb': of_pdb, 'ent': of_pdb, 'cif': of_cif, 'mmcif': of_cif,
           **{suffix: of_text for suffix in TEXT}}
PACKED = ('gz', 'zip', 'bz2', 'xz', 'zst', '7z')


def read_points(name, form=None, columns=None, decimal_comma=False):
    """The points of a file, shape (n, 3), in its units; `form` is a suffix, or a name that meshio knows.

    What gzip packed is unpacked first: then the form is told by the ending before `.gz`.
    """
    wanted = Wanted(name, columns, decimal_comma)
    if form is None and name == '-':
        raise Trouble('standard input wants --format (xyz, csv, ply, ..)')
    data = read_bytes(name)
    packed = data.startswith(b'\x1f\x8b')
    if packed:
        data, name = unpacked(data, wanted), re.sub(r'\.gz$', '', name, flags=re.I)
    suffix = (os.path.splitext(name)[1] if form is None else form).lower().lstrip('.')
    if suffix in PACKED:
        raise wanted.fault('it is packed, and not by gzip: unpack it first')
    reader = READERS.get(suffix)
    if columns and reader not in (of_text, of_npy, of_ply, of_pcd):
        raise wanted.fault('--columns is for text, NPY, PLY and PCD')
    points = reader(data, wanted) if reader else by_ending(name, data, form and suffix, packed, wanted)
    if points.ndim != 2 or not len(points):
        raise wanted.fault('no points')
    if points.shape[1] != 3:
        raise wanted.fault(f'{points.shape[1]} coordinates a point, and 3 were expected')
    return points
