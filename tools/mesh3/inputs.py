"""What tools are given: reports, steps, surfaces, edit files and clouds, told apart by how they begin; the program."""
import os
import re
import shutil
import subprocess
import sys
import tempfile

import numpy as np
from mesh3 import GREATEST, Trouble, read_bytes, shown
from mesh3.placing import Placing
from mesh3.reports import Lines, Report, Steps, Surface

TOOLS = os.path.dirname(os.path.dirname(os.path.realpath(__file__)))
# Where the program is, from the tools: of the repository, of a release, of the package.
PROGRAMS = ('../delaunay', '../../../bin/delaunay', 'bin/delaunay')
BESIDE = ('.out', '.report', '.mesh', '.shape', '.mesh3', '.in')
# Options of tools/points that a tool hands on, with how many words each has.
CLOUD_OPTIONS = {'--format': 1, '--columns': 3, '--every': 1, '--box': 6, '--decimal-comma': 0, '--drop-nan': 0}


def kind_of(data):
    """'report', 'steps', 'surface', 'edits' or 'cloud'."""
    for kind, start in (('report', b'mesh3-out '), ('steps', b'mesh3-steps '), ('surface', b'OFF\n')):
        if data.startswith(start):
            return kind
    return 'edits' if data[:6] == b'mesh3 ' and data[6:7].isdigit() else 'cloud'


class Given:
    """The inputs of a command line, each kind at most once: pairs of a name and its bytes."""

    def __init__(self, names):
        self.of = {}
        for name in names:
            data = read_bytes(name)
            kind = kind_of(data)
            if kind in self.of:
                raise Trouble(f'{shown(name)}: a second {kind}; one of each kind is taken')
            self.of[kind] = (name, data)
        self.first = os.path.basename(names[0]) if names[0] != '-' else 'standard input'

    def __contains__(self, kind):
        return kind in self.of

    def name(self, kind):
        return self.of[kind][0]

    def data(self, kind):
        return self.of[kind][1]

    def report(self):
        return Report(Lines(self.data('report'), self.name('report')))

    def steps(self):
        return Steps(Lines(self.data('steps'), self.name('steps')))

    def surface(self):
        return Surface(Lines(self.data('surface'), self.name('surface')))


class Program:
    """The program: the one that is named, the one beside these tools, or `delaunay` on the path."""

    def __init__(self, name=None):
        beside = (os.path.normpath(os.path.join(TOOLS, place)) for place in PROGRAMS)
        self.name = name or next((place for place in beside if os.access(place, os.X_OK)), shutil.which('delaunay'))
        if self.name is None:
            raise Trouble('no delaunay is beside the tools or on the path: name one by --program')

    def run(self, command, data):
        """What the program writes of an edit file; its own line is told where it ends with another status than 0."""
        quiet = None if sys.stderr.isatty() else subprocess.PIPE
        try:
            done = subprocess.run([self.name, command], input=data, stdout=subprocess.PIPE, stderr=quiet, check=False)
        except OSError as error:
            raise Trouble(f'{self.name}: {error.strerror}') from None
        if done.returncode:
            said = (done.stderr or b'').decode(errors='replace').strip().split('\n')[-1]
            raise Trouble(f'{command} ended with status {done.returncode}{said and ": "}{said}')
        return done.stdout

    def steps(self, data):
        return Steps(Lines(self.run('steps', data), 'what `delaunay steps` wrote'))

    def shape(self, data):
        return Report(Lines(self.run('shape', data), 'what `delaunay shape` wrote'))

    def mesh(self, data):
        return Report(Lines(self.run('mesh', data), 'what `delaunay mesh` wrote'))


def add_cloud_options(parser):
    """The options of tools/points that are handed on to it."""
    group = parser.add_argument_group('of a cloud, as tools/points takes them')
    for name, count in CLOUD_OPTIONS.items():
        words = {'nargs': count} if count > 1 else {'action': 'store_true'} if not count else {}
        group.add_argument(name, **words)


def cloud_words(words):
    """The words of these options, for tools/points."""
    handed = []
    for name, count in CLOUD_OPTIONS.items():
        value = getattr(words, name[2:].replace('-', '_'))
        if value not in (None, False):
            handed += [name, *([] if not count else [value] if count == 1 else value)]
    return handed


def placed(name, data, words, radii=(), is_told=True):
    """The edit file that tools/points makes of a cloud, as bytes, and the placing; what it says is handed on.

    The greatest rounding is noted in `words`. `radii` are in the units of the cloud. Where it is not told of the cloud,
    that was done before.
    """
    with tempfile.TemporaryDirectory() as work:
        edits, placing = os.path.join(work, 'edits'), os.path.join(work, 'placing')
        command = [sys.executable, os.path.join(TOOLS, 'points'), name, *cloud_words(words), '--output', edits,
                   '--placing', placing, *(word for radius in radii for word in ('--radius', radius))]
        done = subprocess.run(command, input=data if name == '-' else b'', stdout=subprocess.PIPE,
                              stderr=subprocess.PIPE, check=False)
        said = done.stderr.decode(errors='replace').strip()
        if done.returncode:
            raise Trouble(said.removeprefix('points: ') or f'{shown(name)}: tools/points refused it')
        found = re.search(r'greatest rounding (\S+) of', said)
        words.rounding = float(found[1]) if found else None
        if is_told:
            print(said, file=sys.stderr)
        return read_bytes(edits), Placing.read(placing)


class Edits:
    """An edit file in lines: its version, point lines and edit lines (number, words), as arrays and lists."""

    def __init__(self, data, name):
        self.head, self.points, self.edits = None, [], []
        section = None
        for number, line in enumerate(data.decode('ascii', 'replace').split('\n'), 1):
            if number == 1:
                self.head = line
            elif line in ('points', 'edits', 'radii', 'queries', 'end'):
                section = line
            elif line and section in ('points', 'edits'):
                (self.points if section == 'points' else self.edits).append((number, line))
        try:
            self.places = np.array([[int(word) for word in line.split()] for _, line in self.points])
        except ValueError:
            self.places = None
        if self.places is None or self.places.ndim != 2 or self.places.shape[1] != 3:
            raise Trouble(f'{shown(name)}: no edit file with points')

    def text(self, count):
        """The edit file with the first edit lines alone, as bytes."""
        lines = [self.head, 'points', *(line for _, line in self.points), 'edits',
                 *(line for _, line in self.edits[:count]), 'radii']
        end = ['queries', 'end', ''] if self.head == 'mesh3 4' else ['end', '']
        return '\n'.join(lines + end).encode()

    def left(self):
        """The points that all lines leave where none is refused as Flat: whole, ascending, each once."""
        there = {tuple(p) for p in self.places.tolist()}
        for _, line in self.edits:
            numbers = tuple(int(word) for word in line.split()[1:])
            if line[0] == '+':
                there.add(numbers)
            elif line[0] == '-':
                there.discard(numbers)
            elif numbers[:3] in there and numbers[3:] not in there:
                there.remove(numbers[:3])
                there.add(numbers[3:])
        return np.array(sorted(there))


def points_beside(given, words):
    """The points of steps, whole, shape (n, 3), and where they are from.

    From the other input or --points; else from a report or an edit file of the same stem beside the steps. A cloud
    wants the placing by which it came onto the grid.
    """
    if 'report' in given:
        return given.report().points, given.name('report')
    of = words.points
    if of is None and not ('edits' in given or 'cloud' in given):
        stem = os.path.splitext(given.name('steps'))[0]
        of = next((stem + suffix for suffix in BESIDE if os.path.exists(stem + suffix)), None)
        if of is None:
            raise Trouble(f'{shown(given.name("steps"))}: steps have no points: give their report, edit file or cloud '
                          'too, as another input or by --points')
    other = Given([of]) if of else given
    if 'report' in other:
        return other.report().points, other.name('report')
    if 'edits' in other:
        return Edits(other.data('edits'), other.name('edits')).left(), other.name('edits')
    if 'cloud' not in other:
        raise Trouble(f'{shown(of)}: no report, edit file or cloud')
    from mesh3.clouds import read_points
    points = read_points(other.name('cloud'), words.format, words.columns, bool(words.decimal_comma))
    points = points[np.isfinite(points).all(axis=1)][::int(words.every or 1)]
    placing = words.placing or Placing.onto_grid(points)
    whole = np.rint(placing.to_grid(points)).astype(np.int64)
    if whole.min() < 0 or whole.max() > GREATEST:
        raise Trouble(f'{shown(other.name("cloud"))}: its points come outside 0 to {GREATEST} by this placing')
    words.placing = placing
    return np.unique(whole, axis=0), other.name('cloud')
