"""The tables of `bench/figures`: the command of each, what it lacks, and how one is made, told and kept."""
import hashlib
import json
import os
import shutil
import subprocess
import sys
import threading
import time
from typing import NamedTuple

import peers

TOP = os.path.realpath(os.path.join(os.path.dirname(os.path.realpath(__file__)), '..'))
LIBRARY = 'python/hanskup/libdelaunay_c.so'
LONGEST = 3600  # seconds after which a bench is ended
LARGE = ['spread-262144', 'lattice-40', 'sphere-64000', 'torus-65536']
THREADED = ['spread-262144', 'terrain-262144', 'sphere-250000', 'torus-250000']
EDITED = ['drawn-65536', 'drawn-262140', 'spread-10000-half-taken', 'edited-60000', 'far-point-1000']


class Table(NamedTuple):
    """What makes a table: the words of its command, and those of one that tries the way alone, or None."""
    words: list
    small: list
    wants: str = ''  #: a file that is measured in place of the program
    made_by: str = ''  #: what makes that
    runs: str = '--runs'  #: the option that takes the number of runs; '' where it is the last word

    @property
    def bench(self):
        """The name of the bench, and of its peer."""
        return os.path.basename(self.words[0])


PACKAGE = {'wants': LIBRARY, 'made_by': 'python/build', 'runs': ''}
TABLES = {
    'cloud': Table(['bench/cloud', 'spread-10000', 'spread-65536', *LARGE], ['bench/cloud', 'spread-10000']),
    'threads': Table(['bench/cloud', '--workers', '1,2,4', *THREADED],
                     ['bench/cloud', '--workers', '1,2', 'spread-10000']),
    'mesh': Table(['bench/mesh', *EDITED], ['bench/mesh', 'far-point-1000']),
    'workers': Table(['bench/mesh', '--workers', '1,2,4,8', '--grids', '4,8,16', 'drawn-65536'],
                     ['bench/mesh', '--workers', '1,2', 'spread-10000-half-taken']),
    'moved': Table(['bench/mesh', '--workers', '1,2,4', '--grids', '8', 'moved-32768'], None),
    'moves': Table(['bench/moves'], ['bench/moves', '--points', '2000', '--moves', '500', '1'],
                   wants='crates/move_bench/out/move_bench', made_by='rt run in crates/move_bench'),
    'predicates': Table(['bench/predicates'], ['bench/predicates'], runs='',
                        wants='crates/predicate_bench/out/predicate_bench', made_by='rt run in crates/predicate_bench'),
    'shape': Table(['bench/shape'], ['bench/shape', '--count', '8192', '--radii', '3']),
    'steps': Table(['bench/steps'], ['bench/steps', '--count', '8192']),
    'parts': Table(['bench/steps', '--parts'], ['bench/steps', '--parts', '--count', '8192']),
    'near': Table(['bench/near'], ['bench/near', '--count', '8192', '--queries', '8192']),
    'check': Table(['bench/check'], ['bench/check', '--count', '8192']),
    'python': Table(['bench/python', '100000'], ['bench/python', '2000'], **PACKAGE),
    'page': Table(['bench/page'], ['bench/page', '--seconds', '1', 'ring-3000']),
}


class Made(NamedTuple):
    """A table: its lines, when its making began, the load before and behind it, and how many seconds it took."""
    lines: list
    day: str
    load: list
    seconds: float

    def row(self, first):
        """The cells of the row whose first cell is this, or else begins so, or None; of None those of the last row."""
        rows = self.rows()
        if first is None:
            return rows[-1] if rows else None
        found = [row for row in rows if row[0] == first] or [row for row in rows if row[0].startswith(first)]
        return found[0] if found else None

    def rows(self):
        """Its rows below the head, each its cells."""
        lines = [line for line in self.lines if line.startswith('|')]
        return [[cell.strip() for cell in line.strip().strip('|').split('|')] for line in lines[2:]]


def sum_of(name):
    with open(name, 'rb') as file:
        return hashlib.sha256(file.read()).hexdigest()[:16]


def told(*words):
    """The first line of what a command says, or that it has nothing to say."""
    done = subprocess.run(words, cwd=TOP, capture_output=True, text=True, check=False)
    return ' '.join((done.stdout or done.stderr or 'unknown').splitlines()[:1])


def processors():
    """Which processors the machine has, and how many."""
    with open('/proc/cpuinfo', encoding='ascii', errors='replace') as file:
        name = next((line.split(': ')[1].strip() for line in file if line.startswith('model name')), 'unknown')
    return f'{os.cpu_count()} processors ({name})'


def version_of_cgal():
    words = [os.environ.get('CXX', 'c++'), '-E', '-dM', '-x', 'c++', '-include', 'CGAL/version.h', '/dev/null']
    done = subprocess.run(words, capture_output=True, text=True, check=False).stdout
    return next((line.split()[-1] for line in done.splitlines() if line.startswith('#define CGAL_VERSION ')), 'unknown')


def machine(words):
    """What the figures are of: the commit, the program, the processor, the load, and how CGAL was built."""
    compiler = told(os.environ.get('CXX', 'c++'), '--version')
    return (f'{told("git", "log", "-1", "--format=%h of %cs")}; program {sum_of(words.program)}; {processors()}, '
            f'load {os.getloadavg()[0]:.1f} before; CGAL {version_of_cgal()}, '
            f'{" ".join(peers.FLAGS)} by {compiler}')


def python_with(*modules):
    """A Python that has these modules, or None."""
    words = ['-c', f'import {", ".join(modules)}']
    return next((python for python in (sys.executable, '/usr/bin/python3')
                 if subprocess.run([python, *words], capture_output=True, check=False).returncode == 0), None)


def lacks(name, words):
    """What a table lacks, and what helps, or nothing."""
    table = TABLES[name]
    if words.small and table.small is None:
        return 'which --small does'
    if table.wants and not os.path.exists(os.path.join(TOP, table.wants)):
        return f'{table.wants} is missing: {table.made_by}'
    if name.startswith('python') and python_with('numpy', 'scipy', 'gudhi') is None:
        return 'no Python here has numpy, scipy and gudhi'
    if name == 'page' and not any(shutil.which(b) for b in ('chromium', 'chromium-browser', 'google-chrome')):
        return 'there is no chromium'
    return None


class Kept:
    """Tables that were made before, a file each, by their commands and by what they measure."""

    def __init__(self, words):
        self.words = words
        os.makedirs(words.kept, exist_ok=True)

    def folder_of_peers(self):
        """A folder for the peers of these sources and options, so that each is built once."""
        names = sorted(name for name in os.listdir(peers.FOLDER) if name.endswith(('.cpp', '.h')))
        whole = ''.join(sum_of(os.path.join(peers.FOLDER, name)) for name in names)
        key = hashlib.sha256(f'{whole} {peers.FLAGS} {os.environ.get("CXX")} {processors()}'.encode()).hexdigest()[:16]
        folder = os.path.join(self.words.kept, f'peers-{key}')
        os.makedirs(folder, exist_ok=True)
        return folder

    def words_of(self, name):
        """The words of the command that makes a table."""
        table, runs = TABLES[name], [str(self.words.runs)]
        call = list(table.small if self.words.small else table.words)
        if not table.wants:
            call[1:1] = ['--program', self.words.program]
        return call[:1] + [table.runs, *runs] + call[1:] if table.runs else call + runs

    def call_of(self, name):
        """The same as it is told."""
        told_so = [os.path.relpath(word, TOP) if word.startswith(f'{TOP}/') else word for word in self.words_of(name)]
        return ('PYTHONPATH=python ' if name.startswith('python') else '') + ' '.join(told_so)

    def key(self, name):
        measured = os.path.join(TOP, TABLES[name].wants) if TABLES[name].wants else self.words.program
        bench = os.path.join(TOP, TABLES[name].words[0])
        return f'{self.words_of(name)[1:]} of {sum_of(measured)} by {sum_of(bench)}'.replace(self.words.program, '-')

    def file_of(self, name):
        return os.path.join(self.words.kept, f'{"small-" if self.words.small else ""}{name}.json')

    def found(self, name):
        """The table that is kept of the same command and of what it measures, or None."""
        try:
            with open(self.file_of(name), encoding='utf-8') as file:
                kept = json.load(file)
        except (FileNotFoundError, json.JSONDecodeError):
            return None
        return Made(**kept['made']) if kept['key'] == self.key(name) else None

    def told(self, name):
        made = self.found(name)
        return f'kept, of {made.day}' if made else 'to be made'

    def keep(self, name, made):
        with open(self.file_of(name) + '.new', 'w', encoding='utf-8') as file:
            json.dump({'key': self.key(name), 'made': made._asdict()}, file, indent=1)
        os.replace(self.file_of(name) + '.new', self.file_of(name))


def made_of(name, words, kept):
    """A table, printed behind its command: the one that is kept, or a new one; None where it failed."""
    made = None if words.anew else kept.found(name)
    print(f'\n`{kept.call_of(name)}`\n', flush=True)
    if made:
        print('\n'.join(made.lines))
    else:
        made = run(name, kept)
        if made is None:
            return None
        kept.keep(name, made)
    print(f'\nOf {made.day}, load {made.load[0]:.1f} before and {made.load[1]:.1f} behind, {made.seconds:.0f} s.',
          flush=True)
    return made


def run(name, kept):
    """Runs the command of a table, handing on what it prints: the table, or None where it failed."""
    call, world = kept.words_of(name), {**os.environ, peers.BUILT: kept.folder_of_peers()}
    if name.startswith('python'):
        call = [python_with('numpy', 'scipy', 'gudhi'), *call]
        world['PYTHONPATH'] = os.path.join(TOP, 'python')
    before, begun, lines = os.getloadavg()[0], time.time(), []
    with subprocess.Popen(call, cwd=TOP, env=world, stdout=subprocess.PIPE, text=True) as child:
        limit = threading.Timer(LONGEST, child.kill)
        limit.start()
        for line in child.stdout:
            print(line, end='', flush=True)
            lines.append(line.rstrip('\n'))
        limit.cancel()
    if child.returncode:
        print(f'\n{name}: failed, status {child.returncode}', flush=True)
        return None
    day = time.strftime('%Y-%m-%d', time.localtime(begun))
    return Made(lines, day, [before, os.getloadavg()[0]], time.time() - begun)
