"""How the programs that this one is measured beside are built: CGAL as a user who cares builds it, in this one place.

That is with optimization for the machine that measures and without assertions, and with -frounding-math, which CGAL
asks of this compiler. A peer reads its file at once, finds the vertex of a place in a table by hash, and writes its
text at once (`peer_text.h`); where edits come one by one it has CGAL's hierarchy for location. Run as a program:
peers.py NAME OUT builds the peer NAME.cpp.
"""
import os
import shutil
import subprocess
import sys
from concurrent.futures import ThreadPoolExecutor

FOLDER = os.path.dirname(os.path.realpath(__file__))
FLAGS = ['-O3', '-march=native', '-DNDEBUG', '-frounding-math', '-std=c++17']
LIBRARIES = ['-lgmp', '-lmpfr']
BUILT = 'BENCH_PEERS'  # names a folder in which peers stand that are built
# Of a bench the peer that has another name.
OTHERS = {'shape': 'shapes'}
# What a peer with threads takes besides (Debian: libtbb-dev).
THREADS = ['-DCGAL_LINKED_WITH_TBB', '-pthread', '-ltbb', '-ltbbmalloc', '-latomic']


def over(ours, theirs, digits=2):
    """A ratio as it is told, or a dash where the peer took less than is measured."""
    return f'{ours / theirs:.{digits}f}' if theirs > 0 else '-'


def build_all(folder, benches):
    """Builds the peers of benches that are not there yet into a folder, side by side."""
    names = {OTHERS.get(bench, bench) for bench in benches}
    names = [name for name in sorted(names) if os.path.exists(os.path.join(FOLDER, f'{name}.cpp'))
             and not os.path.exists(os.path.join(folder, name))]
    with ThreadPoolExecutor(len(os.sched_getaffinity(0))) as threads:
        list(threads.map(lambda name: os.replace(build(name, os.path.join(folder, f'{name}.new')),
                                                 os.path.join(folder, name)), names))


def build(name, out):
    """Builds the peer of a name as the file `out`, whose name is given back; or takes the one that is built."""
    built = os.path.join(os.environ.get(BUILT, ''), name)
    if BUILT in os.environ and os.path.exists(built):
        return shutil.copy(built, out)
    source = os.path.join(FOLDER, f'{name}.cpp')
    with open(source, encoding='ascii') as file:
        text = file.read()
    libraries = (LIBRARIES if 'CGAL/' in text else []) + (THREADS if 'tbb/' in text else [])
    subprocess.run([os.environ.get('CXX', 'c++'), *FLAGS, '-o', out, source, *libraries], check=True)
    return out


if __name__ == '__main__':
    if len(sys.argv) != 3:
        sys.exit(__doc__)
    build(*sys.argv[1:])
