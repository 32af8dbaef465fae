#!/usr/bin/env python3
"""Hanskup's tools in one command.

usage: hanskup TOOL [WORDS]

    points   makes the input of `delaunay` from your points: text, LAS, LAZ, PLY, PDB, .., in your own units
    draw     makes a page for a browser, with every alpha shape under one slider, or a picture
    export   writes meshes, surfaces and filtrations for other programs: VTK, PLY, STL, OFF, GUDHI, numpy
    report   turns another program's mesh into a report that `delaunay check` can judge
    betti    counts parts, loops and voids at every radius, as a table and a picture
    tiles    triangulates a large cloud in tiles, by many processes
    example  prints a sample cloud of 3,000 points

hanskup TOOL --help tells what a tool takes; hanskup --version tells the version.
"""
import contextlib
import importlib.util
import os
import runpy
import sys

SYSTEM = '/usr/bin/python3'  # what apt-get installs is there, also where another python3 is the first of the path
HERE = os.path.dirname(os.path.realpath(__file__))
# Where the tools are, from here: within the package, beside the program of a release, in the repository.
PLACES = ('_tools', '../share/hanskup/tools', '../../tools')
TOOLS = {'points': 'points', 'draw': 'draw', 'export': 'export', 'report': 'report', 'betti': 'betti',
         'example': 'example-surface'}


def folder_of_tools():
    """The folder with the tools; ends with a line where there is none."""
    for place in PLACES:
        folder = os.path.normpath(os.path.join(HERE, place))
        if os.path.exists(os.path.join(folder, 'example-surface')):
            return folder
    sys.exit('hanskup: the tools are not here: install the wheel of a release, or use its folder')


def version():
    """The version: of the package where this is a part of it, else what the release says of itself."""
    sources = os.path.join(HERE, '../share/hanskup/SOURCES')
    if os.path.exists(sources):
        with open(sources, encoding='utf-8') as file:
            return file.readline().split()[-1]
    return runpy.run_path(os.path.join(HERE, '_version.py'))['__version__']


def run_tiles(words):
    """Takes this process over for the command of tiles, whose workers are processes of their own."""
    if os.path.basename(HERE) == 'hanskup' and os.path.exists(os.path.join(HERE, 'tiles.py')):
        paths = [os.path.dirname(HERE), *filter(None, [os.environ.get('PYTHONPATH')])]
        os.environ['PYTHONPATH'] = os.pathsep.join(paths)
    python = sys.executable if importlib.util.find_spec('numpy') or not os.access(SYSTEM, os.X_OK) else SYSTEM
    os.execv(python, [python, '-m', 'hanskup.tiles', *words])


def run_tool(name, words):
    """Runs a tool as a program of its own that is called `hanskup NAME`."""
    path = os.path.join(folder_of_tools(), TOOLS[name])
    with open(path, encoding='utf-8') as file:
        code = compile(file.read(), path, 'exec')
    sys.argv = [f'hanskup {name}', *words]
    exec(code, {'__name__': '__main__', '__file__': path})


def main():
    """The command. What stands behind the name of a tool is for the tool."""
    words = sys.argv[1:]
    if not words or words[0] in ('-h', '--help', 'help'):
        with contextlib.suppress(BrokenPipeError):
            print(__doc__.strip(), file=sys.stdout if words else sys.stderr, flush=True)
        sys.exit(0 if words else 2)
    if words[0] in ('--version', 'version'):
        print(f'hanskup {version()}')
    elif words[0] == 'tiles':
        run_tiles(words[1:])
    elif words[0] in TOOLS:
        run_tool(words[0], words[1:])
    else:
        print(f'hanskup: {words[0]} is no tool: they are {", ".join([*TOOLS, "tiles"])}', file=sys.stderr)
        sys.exit(2)


if __name__ == '__main__':
    main()
