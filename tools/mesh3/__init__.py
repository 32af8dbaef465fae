"""The formats of `delaunay` for the tools: edit files here; reports, clouds and placings in the files beside.

Importing this module registers `mesh3` with meshio: a report is read as a mesh of tetrahedra, and a mesh is written as
an edit file of its points. Nothing here is proved: what the tools write is judged again by the program, or by whoever
reads it.
"""
import os
import sys

SYSTEM = '/usr/bin/python3'  # what apt-get installs is there, also where another python3 is the first of the path

try:
    import meshio
    import numpy as np
except ImportError as missing:
    if os.access(SYSTEM, os.X_OK) and os.path.realpath(sys.executable) != os.path.realpath(SYSTEM):
        os.execv(SYSTEM, [SYSTEM, *getattr(sys, 'orig_argv', [sys.executable, *sys.argv])[1:]])
    sys.exit(f'{os.path.basename(sys.argv[0])}: {sys.executable} has no {missing.name}: apt-get install '
             f'python3-{missing.name}, or {sys.executable} -m pip install {missing.name}')

GREATEST = 16383
MOST_LINES = 262144
MOST_RADII = 16
GREATEST_RADIUS = 1073741823  # a squared radius, as versions 1 and 2 count it
SIXTEENTHS = 16  # of a squared radius, as version 3 counts it
KINDS = ('singular', 'regular', 'interior')
REPLIES = ('Inserted', 'Duplicate', 'Removed', 'Missing', 'Flat', 'Moved', 'Occupied')
NO_ALPHA = 1 << 34  # a face that no alpha admits: each alpha is below it


class Trouble(Exception):
    """What is wrong with an input, in one line."""


def shown(name):
    """How an input is called in what is said of it."""
    return 'standard input' if name == '-' else name


def called():
    """What a tool was called as: `hanskup points` by the one command, `points` by its own file."""
    return os.path.basename(sys.argv[0])


def main(run):
    """Runs a tool: what is wrong comes as one line on standard error, with status 1; a reader that ends is no fault."""
    try:
        try:
            run()
        finally:
            sys.stdout.flush()
    except Trouble as trouble:
        print(f'{called()}: {trouble}', file=sys.stderr)
        sys.exit(1)
    except BrokenPipeError:
        os.dup2(os.open(os.devnull, os.O_WRONLY), 1)
        sys.exit(1)
    except OSError as error:
        print(f'{called()}: {error.filename or "output"}: {error.strerror}', file=sys.stderr)
        sys.exit(1)


def progress(text):
    """A line of progress, where somebody sits at a terminal."""
    if sys.stderr.isatty():
        print(f'\r{text}\033[K', end='', file=sys.stderr, flush=True)


def progress_done():
    if sys.stderr.isatty():
        print('\r\033[K', end='', file=sys.stderr, flush=True)


def read_bytes(name):
    if name == '-':
        if sys.stdin.isatty():
            print('reading from the terminal: end the input by Control-D', file=sys.stderr)
        return sys.stdin.buffer.read()
    with open(name, 'rb') as file:
        return file.read()


# ---- edit files


def write_edit_file(file, points, radii=(), version=1):
    """An edit file of whole points, shape (n, 3), to a file that takes text.

    Its radii are squared, in the square of the grid's unit, and from version 3 on in sixteenths of it.
    """
    file.write(f'mesh3 {version}\npoints\n')
    for start in range(0, len(points), 65536):
        rows = points[start:start + 65536].tolist()
        file.write(''.join(f'{x} {y} {z}\n' for x, y, z in rows))
    file.write('edits\nradii\n')
    file.write(''.join(f'{radius}\n' for radius in radii))
    file.write('end\n')


def lines_of_points(name, report):
    """For each point of the report the number of the line of the edit file that brought it."""
    bringing, index, reply, section = {}, {}, iter(report.replies.tolist()), None
    for i, p in enumerate(report.points.tolist()):
        index[tuple(p)] = i
    number = 0
    for number, line in enumerate(read_bytes(name).decode('ascii', 'replace').split('\n'), 1):
        if line in ('points', 'edits', 'radii', 'queries', 'end'):
            section = line
        elif section in ('points', 'edits') and line:
            try:
                point = tuple(int(word) for word in line.split()[-3:])
                word = REPLIES[next(reply)]
            except (ValueError, StopIteration):
                raise Trouble(f'{name}: line {number}: this is not the edit file of the report') from None
            if word in ('Inserted', 'Moved'):
                bringing[point] = number
            if word == 'Moved':
                point = tuple(int(word) for word in line.split()[1:4])
            if word in ('Removed', 'Moved'):
                bringing.pop(point, None)
    if set(bringing) != set(index):
        raise Trouble(f'{name}: this is not the edit file of the report')
    lines = np.zeros(len(index), dtype=np.int64)
    for point, line in bringing.items():
        lines[index[point]] = line
    return lines


# ---- meshio


def _read(name):
    from mesh3.reports import read_report
    report = read_report(str(name))
    return meshio.Mesh(report.points.astype(float), [('tetra', report.cells)])


def _write(name, mesh):
    points = np.rint(mesh.points).astype(np.int64)
    if len(points) and (points.min() < 0 or points.max() > GREATEST):
        raise Trouble(f'coordinates of an edit file are 0 to {GREATEST}: place the points first')
    with open(name, 'w', encoding='ascii') as file:
        write_edit_file(file, points)


meshio.register_format('mesh3', ['.mesh3'], _read, {'mesh3': _write})

# What callers find here too.
from mesh3.faces import against, boundary_of, hull_of, keys_of, neighbours_of  # noqa: E402,F401
from mesh3.faces import triangles_of, turned_outwards  # noqa: E402,F401
from mesh3.placing import Placing  # noqa: E402,F401
