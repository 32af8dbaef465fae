"""Makes the wheel of hanskup: `pip install ./python` calls it, and so does tools/release. It wants Python alone.

The package calls its library by `ctypes`, so one wheel serves every Python 3 on Linux with glibc 2.17 or later. The
bytes of a wheel go by the files in it alone.
"""
import base64
import hashlib
import os
import runpy
import sys
import zipfile

HERE = os.path.dirname(os.path.abspath(__file__))
LIBRARY = 'hanskup/libdelaunay_c.so'
PROGRAM = 'hanskup/_tools/bin/delaunay'
TAG = 'py3-none-manylinux2014_x86_64'
METADATA = """Metadata-Version: 2.1
Name: hanskup
Version: {version}
Summary: 3D Delaunay triangulations and alpha shapes that you can edit, by a library that is proved correct
Keywords: Delaunay,triangulation,alpha shape,alpha complex,tetrahedra,mesh,surface reconstruction,Voronoi,\
point cloud,persistent homology,computational geometry
Classifier: Development Status :: 4 - Beta
Classifier: Intended Audience :: Developers
Classifier: Intended Audience :: Science/Research
Classifier: Operating System :: POSIX :: Linux
Classifier: Programming Language :: Python :: 3
Classifier: Topic :: Scientific/Engineering :: Mathematics
Classifier: Topic :: Scientific/Engineering :: Visualization
Classifier: Typing :: Typed
Requires-Python: >=3.9
Requires-Dist: numpy>=1.21
Requires-Dist: scipy; extra == "all"
Requires-Dist: meshio; extra == "all"
Requires-Dist: matplotlib; extra == "all"
Provides-Extra: all
Description-Content-Type: text/markdown

""".replace('\\\n', '')
COMMANDS = """[console_scripts]
hanskup = hanskup.__main__:main
"""
# The tools of the command `hanskup`, in the folder tools of the repository.
TOOLS = ('points', 'export', 'draw', 'betti', 'report', 'example-surface', 'mesh3')
WHEEL = f"""Wheel-Version: 1.0
Generator: hanskup_wheel
Root-Is-Purelib: false
Tag: {TAG}
"""
VERSION = '"""The version, written when the wheel was made."""\n__version__ = {!r}\n'


def version():
    """The version, as the repository tells it, without a look at the package itself, which wants numpy."""
    return runpy.run_path(os.path.join(HERE, 'hanskup/_version.py'))['__version__']


def read(name):
    with open(os.path.join(HERE, name), 'rb') as file:
        return file.read()


def tools():
    """The files of the tools by their names within the folder of tools; none where the repository is not around."""
    top = os.path.join(os.path.dirname(HERE), 'tools')
    for name in TOOLS:
        whole = os.path.join(top, name)
        found = [(here, each) for here, _, names in os.walk(whole) for each in names if '__pycache__' not in here]
        for place in [whole] * os.path.isfile(whole) + sorted(os.path.join(*pair) for pair in found):
            yield os.path.relpath(place, top), place


def contents(library, told, program=None):
    """The files of the wheel of this version by their names in it, but for the list of them.

    `program` is what the tools run, or None: then they take the one on the path.
    """
    if told == '0+unknown':
        sys.exit('hanskup: CHANGELOG.md, which has the version, is not beside this folder: install from the repository')
    names = sorted(os.listdir(os.path.join(HERE, 'hanskup')))
    files = {f'hanskup/{name}': read(f'hanskup/{name}') for name in names if name.endswith('.py') or name == 'py.typed'}
    files['hanskup/_version.py'] = VERSION.format(told).encode()
    files[LIBRARY] = read(library)
    files |= {f'hanskup/_tools/{name}': read(place) for name, place in tools()}
    if program:
        files[PROGRAM] = read(program)
    files[f'hanskup-{told}.dist-info/METADATA'] = METADATA.format(version=told).encode() + read('README.md')
    files[f'hanskup-{told}.dist-info/entry_points.txt'] = COMMANDS.encode()
    files[f'hanskup-{told}.dist-info/WHEEL'] = WHEEL.encode()
    return files


def line_of(name, data):
    """What the list says of a file."""
    digest = base64.urlsafe_b64encode(hashlib.sha256(data).digest()).rstrip(b'=').decode()
    return f'{name},sha256={digest},{len(data)}\n'


def make(folder, library, told, program=None):
    """Writes the wheel of this version with this library into a folder, and gives its name."""
    files, record = contents(library, told, program), f'hanskup-{told}.dist-info/RECORD'
    files[record] = (''.join(line_of(*item) for item in files.items()) + f'{record},,\n').encode()
    wheel = f'hanskup-{told}-{TAG}.whl'
    with zipfile.ZipFile(os.path.join(folder, wheel), 'w', zipfile.ZIP_DEFLATED, compresslevel=9) as archive:
        for name, data in files.items():
            entry = zipfile.ZipInfo(name, (1980, 1, 1, 0, 0, 0))
            entry.compress_type = zipfile.ZIP_DEFLATED
            entry.create_system = 3  # Unix, whose permissions these are
            entry.external_attr = (0o100755 if name in (LIBRARY, PROGRAM) else 0o100644) << 16
            archive.writestr(entry, data)
    return wheel


# What pip calls (PEP 517).

def build_wheel(wheel_directory, config_settings=None, metadata_directory=None):
    library = os.path.join(HERE, LIBRARY)
    if not os.path.exists(library):
        sys.exit('hanskup: the library is not built: run python/build first, which wants the kit, or install the wheel '
                 'of a release')
    return make(wheel_directory, library, version())


def build_sdist(sdist_directory, config_settings=None):
    sys.exit('hanskup: there is no package of sources: the library is built in the repository, by python/build')
