"""Cases of the tools for users: how one is run, judged and counted."""
import os
import shutil
import subprocess

TOOLS = os.path.dirname(os.path.dirname(os.path.realpath(__file__)))
TOP = os.path.dirname(TOOLS)
CASES = os.path.join(TOP, 'cases')
PROGRAM = os.path.join(TOP, 'crates/delaunay/out/delaunay')
counts = {'passed': 0, 'failed': 0, 'skipped': 0}


def tool(name, *words, given=b''):
    """Runs a tool: its status, its standard output as bytes, its standard error as text."""
    words = [os.path.join(TOOLS, name), *words]
    done = subprocess.run(words, input=given, capture_output=True, timeout=300, check=False)
    return done.returncode, done.stdout, done.stderr.decode(errors='replace')


def expect(what, holds):
    counts['passed' if holds else 'failed'] += 1
    if not holds:
        print(f'failed: {what[:2000]}')


def skip(what):
    counts['skipped'] += 1
    print(f'skipped: {what}')


def refused(what, name, *words, given=b'', said=''):
    """One clear line, status 1, and nothing on standard output."""
    status, out, err = tool(name, *words, given=given)
    expect(f'{what}: status {status}, {err!r}', status == 1 and not out and err.count('\n') == 1 and said in err)


def library(name):
    """A module that is there on this machine, or None, which is told."""
    try:
        return __import__(name)
    except ImportError:
        skip(f'{name} is not installed')
        return None


def is_built():
    """Whether the program is there and as new as its sources; no case is to build it."""
    told = subprocess.run([os.path.join(TOP, 'delaunay'), '--version'], capture_output=True, check=False).stdout
    if b'\nbuilt' in told:
        return True
    skip('the program is not built, or older than its sources')
    return False


def browser():
    """A browser without a window, or None."""
    return next((b for b in ('chromium', 'chromium-browser', 'google-chrome') if shutil.which(b)), None)


def volume_of(name):
    """What the triangles of a file enclose, above 0 where they are turned outwards; and the mesh as meshio reads it."""
    import meshio
    import numpy as np
    mesh = meshio.read(name)
    a, b, c = (mesh.points[mesh.cells_dict['triangle'][:, i]] for i in range(3))
    return float(np.einsum('ij,ij->i', np.cross(a, b), c).sum()) / 6, mesh
