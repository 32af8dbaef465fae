"""Lays a release out in a folder, and packs it: the same bytes from the same inputs."""
import lzma
import os
import shutil
import sys
import tarfile
import tempfile

from packed import TOP, Refused, links, read, run, texts
from packed.sources import LIBRARY, PROGRAM, commit, faults, sum_of

sys.path.insert(0, os.path.join(TOP, 'python'))
import hanskup_wheel  # noqa: E402

DOCS = ('RELEASE', 'FORMATS', 'WORDS', 'PROMISE', 'DEFINITIONS', 'BINDINGS', 'SCALE', 'TESTED')
LINKS = {'delaunay': 'bin/delaunay', 'hanskup': 'bin/hanskup', 'tools': 'share/hanskup/tools',
         'SOURCES': 'share/hanskup/SOURCES', 'lib/libdelaunay_c.so': 'libdelaunay_c.so.1'}
AS_IT_STANDS = {
    'tools/packed/files/delaunay': 'bin/delaunay', 'tools/packed/files/words.sh': 'libexec/hanskup/words.sh',
    **{f'tools/packed/files/{name}.sh': f'libexec/hanskup/{name}.sh' for name in ('faults', 'progress')},
    'tools/packed/help.txt': 'share/hanskup/help.txt', 'python/hanskup/__main__.py': 'bin/hanskup',
    'python/c/delaunay_c.h': 'include/delaunay_c.h', 'python/c/hanskup.hpp': 'include/hanskup.hpp',
    'CHANGELOG.md': 'CHANGELOG.md'}


def copies():
    """What is packed as it stands in the repository: its place there, and in the release."""
    yield from AS_IT_STANDS.items()
    for tool in hanskup_wheel.TOOLS:
        for name in run('git', 'ls-files', f'tools/{tool}').split():
            yield name, f'share/hanskup/{name}'
    for name in DOCS:
        yield f'docs/{name}.md', 'README.md' if name == 'RELEASE' else f'docs/{name}.md'
    for name in run('git', 'ls-files', 'examples').split():
        yield name, name
    for name in run('git', 'ls-files', 'python/examples', 'python/c/*.c', 'python/c/*.cpp', 'python/c/put.h').split():
        yield name, name.replace('python/examples', 'examples/python').replace('python/c', 'examples/c')


def one_library(target):
    """The static library with what it takes of the kit, as one object in which only its calls have names for others."""
    kit = os.path.dirname(run('rt', 'doc').splitlines()[0])
    with tempfile.TemporaryDirectory() as room:
        one = os.path.join(room, 'delaunay_c.o')
        run('ld', '-r', '-o', one, '--whole-archive', LIBRARY.name, os.path.join(kit, 'c/liblibc_c.a'))
        run('objcopy', '--strip-debug', '--wildcard', '--keep-global-symbol=delaunay_c_*', one)
        run('ar', 'rcsD', target, one)


def build(folder, version):
    """What is made of the program and the library."""
    os.makedirs(os.path.join(folder, 'libexec/hanskup'), exist_ok=True)
    run('strip', '-o', os.path.join(folder, 'libexec/hanskup/delaunay'), PROGRAM.name)
    shared = os.path.join(folder, 'lib/libdelaunay_c.so.1')
    run('python/build', '--link', shared)
    run('strip', '--strip-unneeded', shared)
    one_library(os.path.join(folder, 'lib/libdelaunay_c.a'))
    hanskup_wheel.make(folder, shared, version, os.path.join(folder, 'libexec/hanskup/delaunay'))


def lay_out(folder, version, is_proved):
    """The whole release, in a folder that is there and empty."""
    for name, text in texts.made(version, is_proved).items():
        put(os.path.join(folder, name), text)
    places = dict(copies())
    for name, place in places.items():
        os.makedirs(os.path.dirname(os.path.join(folder, place)), exist_ok=True)
        if name.endswith('.md'):
            put(os.path.join(folder, place), links.placed_links(read(name), name, place, places))
        else:
            shutil.copy(os.path.join(TOP, name), os.path.join(folder, place))
    build(folder, version)
    for name, target in LINKS.items():
        os.symlink(target, os.path.join(folder, name))
    put(os.path.join(folder, 'SHA256SUMS'), ''.join(f'{sum_of(os.path.join(folder, name))}  {name}\n'
                                                    for name in files_of(folder)))


def put(name, text):
    os.makedirs(os.path.dirname(name), exist_ok=True)
    with open(name, 'w', encoding='utf-8') as file:
        file.write(text)


def files_of(folder):
    """The names of all files, in order, without links."""
    names = [os.path.relpath(os.path.join(here, name), folder) for here, _, found in os.walk(folder) for name in found]
    return sorted(name for name in names if not os.path.islink(os.path.join(folder, name)))


def as_of(time):
    """What an archive says of a file: nobody's, of this time, for all to read."""
    def told(entry):
        entry.uid = entry.gid = 0
        entry.uname = entry.gname = ''
        entry.mtime = time
        entry.mode = 0o755 if entry.isdir() or entry.issym() or entry.mode & 0o100 else 0o644
        return entry
    return told


def pack(out, is_proved):
    """Makes the release in the folder OUT, as a folder and as an archive, whose name it gives. Raises Refused."""
    if is_proved and faults():
        raise Refused(faults()[0])
    version = hanskup_wheel.version() + ('' if is_proved else '+unproved')
    name = f'hanskup-{version}-linux-x86_64'
    folder, archive = os.path.join(out, name), os.path.join(out, f'{name}.tar.xz')
    shutil.rmtree(folder, ignore_errors=True)
    os.makedirs(folder)
    lay_out(folder, version, is_proved)
    with lzma.open(archive, 'w', preset=6 | lzma.PRESET_EXTREME) as packed:
        with tarfile.open(fileobj=packed, mode='w', format=tarfile.PAX_FORMAT) as tar:
            tar.add(folder, name, filter=as_of(int(commit()[1])))  # names in order
    return archive
