"""Cases of a release: what is built is packed, unpacked where nothing else is, and used as a newcomer would."""
import glob
import os
import re
import shlex
import shutil
import signal
import subprocess
import sys
import tarfile
import time

from packed import options, usage
from packed.links import dead_links
from tool_cases import CASES, PROGRAM, TOP, expect, is_built, skip, volume_of
from tool_cases.wrapper import begun, read_to_end, screen

LIBRARY = os.path.join(TOP, 'crates/delaunay_c/out/libdelaunay_c.a')
CPP = """#include <delaunay_c.h>
#include <cstdio>
#include <vector>
int main() {
    std::vector<delaunay_c_place> given{{0, 0, 0}, {4, 0, 0}, {0, 4, 0}, {0, 0, 4}, {9, 9, 9}}, points(5);
    std::vector<delaunay_c_cell> cells(9), neighbours(9);
    std::vector<delaunay_c_triangle> hull(9);
    delaunay_c_mesh_sizes sizes;
    int status = delaunay_c_mesh(given.data(), 5, points.data(), 5, cells.data(), 9, neighbours.data(), 9,
                                 hull.data(), 9, &sizes);
    std::printf("%d %d %d %d\\n", status, int(sizes.points), int(sizes.cells), int(sizes.hull));
}
"""
CMAKE = """cmake_minimum_required(VERSION 3.16)
project(user CXX)
set(CMAKE_CXX_STANDARD 17)
find_package(delaunay_c REQUIRED)
find_package(delaunay_c {number} EXACT REQUIRED)
add_executable(by_default user.cpp)
target_link_libraries(by_default PRIVATE delaunay_c::delaunay_c)
add_executable(by_shared user.cpp)
target_link_libraries(by_shared PRIVATE delaunay_c::shared)
find_package(hanskup {number} REQUIRED)
add_executable(by_header "{root}/examples/c/vectors.cpp")
target_link_libraries(by_header PRIVATE hanskup::hanskup)
foreach(other 0.1 {number}.1 99)
    find_package(delaunay_c ${{other}} QUIET)
    if(delaunay_c_FOUND)
        message(FATAL_ERROR "a version that it is not was found: ${{other}}")
    endif()
endforeach()
"""
RUST = """#[repr(C)] #[derive(Clone, Copy)] struct Place { x: i64, y: i64, z: i64 }
#[repr(C)] struct Handle { mesh: *mut u8 }
#[repr(C)] #[derive(Debug)] struct Sizes { points: u64, cells: u64, hull: u64 }
#[link(name = "delaunay_c", kind = "static")]
extern "C" {
    fn delaunay_c_open(handle: *mut Handle, given: *const Place, len: usize) -> u8;
    fn delaunay_c_counts(handle: *mut Handle, sizes: *mut Sizes) -> u8;
    fn delaunay_c_close(handle: *mut Handle);
}
fn main() {
    let given = [[0, 0, 0], [4, 0, 0], [0, 4, 0], [0, 0, 4], [9, 9, 9]].map(|[x, y, z]| Place { x, y, z });
    let (mut handle, mut sizes) = (Handle { mesh: std::ptr::null_mut() }, Sizes { points: 0, cells: 0, hull: 0 });
    unsafe {
        let status = delaunay_c_open(&mut handle, given.as_ptr(), 5) + delaunay_c_counts(&mut handle, &mut sizes);
        println!("{} {} {} {}", status, sizes.points, sizes.cells, sizes.hull);
        delaunay_c_close(&mut handle);
    }
}
"""
# Four points off one plane and one on the other side of a face of theirs: two tetrahedra, and all sides but that face.
FIVE = b'0 5 2 6\n'
PYTHON = """import hanskup, numpy
cube = numpy.array([[i & 1, i >> 1 & 1, i >> 2 & 1] for i in range(8)]) * 2
mesh = hanskup.delaunay(cube)
print(hanskup.__version__, len(mesh.cells), len(mesh.hull))
"""


def call(words, **how):
    """What a command comes to: its status, and what it wrote."""
    done = subprocess.run(words, capture_output=True, timeout=300, check=False, **how)
    return done.returncode, done.stdout, done.stderr


def packed(work):
    """The release of what is built, unpacked in a folder of its own; for trials where it is not proved. Or None."""
    if not os.path.exists(LIBRARY) or not shutil.which('rt'):
        return skip('the library for C is not built: no release is made')
    out = os.path.join(work, 'out')
    status, told, err = call([os.path.join(TOP, 'tools/release'), out])
    if status:
        print(f'trying what is built, since {err.decode().strip()}')
        status, told, err = call([os.path.join(TOP, 'tools/release'), '--unproved', out])
    expect(f'what is built is packed: {err.decode()}', status == 0)
    place = os.path.join(work, 'a place')
    with tarfile.open(told.decode().strip()) as tar:
        tar.extractall(place)
    return os.path.join(place, os.listdir(place)[0])


def empty_root(root, work):
    """A call of the wrapper where nothing else is but a shell and the C library, by chroot where that is allowed."""
    cage, alone = os.path.join(work, 'cage'), ['env', '-i']
    program = os.path.join(root, 'libexec/hanskup/delaunay')
    for needs in ('/bin/sh', program):
        told = call(['ldd', needs])[1].decode()
        for name in [*re.findall(r'(/\S+) \(0x', told), '/bin/sh']:
            os.makedirs(os.path.dirname(cage + name), exist_ok=True)
            shutil.copy(name, cage + name)
    shutil.copytree(root, f'{cage}/release', symlinks=True)
    chroot = shutil.which('chroot', path=f'{os.environ["PATH"]}:/usr/sbin:/sbin') or 'chroot'
    for way in ([chroot, cage], ['unshare', '--map-root-user', chroot, cage]):
        if call([*alone, *way, '/bin/sh', '-c', ':'])[0] == 0:
            return [*alone, *way, '/release/bin/delaunay']
    skip('an empty root: neither chroot nor unshare is allowed here')
    return [*alone, f'{cage}/release/bin/delaunay']


def in_an_empty_root(root, work):
    """The examples, a refusal, help and version."""
    delaunay = empty_root(root, work)
    for name, command, stored in (('cube', 'mesh', 'txt'), ('sphere', 'mesh', 'txt'), ('cloud', 'shape', 'shape')):
        with open(f'{TOP}/examples/{name}.mesh3', 'rb') as given, open(f'{TOP}/examples/{name}.{stored}', 'rb') as want:
            told = call([*delaunay, command, '--workers', '2'], stdin=given)
            expect(f'{command} of {name} in an empty root: {told}', told == (0, want.read(), b''))
    told = call([*delaunay, 'mesh'], input=b'scan')
    expect(f'a refusal there: {told}', told[:2] == (5, b'') and told[2].count(b'\n') == 2 and
           told[2].startswith(b'delaunay: line 1: Section\nexpected an edit file: '))
    told = call([*delaunay, 'mehs'])
    expect(f'a word there: {told}',
           told[:2] == (2, b'') and told[2].startswith(b'delaunay: usage\nmehs is no command\n'))
    told = call([*delaunay, '--help'])
    with open(f'{TOP}/tools/packed/help.txt', 'rb') as file:
        expect(f'help there: {told}', told == (0, file.read(), b''))
    told = call([*delaunay, '--version'])
    expect(f'a version there: {told}', told[0] == 0 and told[1].startswith(b'delaunay of Hanskup ') and not told[2])


def rows_of_words():
    """The rows of cases/words: what is wanted, and the words."""
    with open(f'{CASES}/words', encoding='utf-8') as file:
        rows = [line.rstrip('\n').split('|') for line in file if not line.startswith('#')]
    return [(row[0], row[1:]) for row in rows]


def words(root):
    """Through the wrapper come the program's own statuses and bytes; behind its line of usage something is told."""
    wrapper = os.path.join(root, 'bin/delaunay')
    for want, given in rows_of_words():
        if any(word in ('help', '-h', '--help', '--version') for word in given):
            continue
        name = f'{CASES}/{want.split(".")[0]}.in'
        name = name if os.path.exists(name) else os.devnull
        if want != 'usage' and os.path.exists(name) and os.path.getsize(name) > 10000:
            continue
        with open(name, 'rb') as file, open(name, 'rb') as same:
            own, ours = call([PROGRAM, *given], stdin=file), call([wrapper, *given], stdin=same)
        whole = ours == own if want != 'usage' else (
            ours[:2] == own[:2] and ours[2].startswith(b'delaunay: usage\n') and b'\nusage: delaunay ' in ours[2])
        expect(f'words {given}: {ours}, and of the program {own}', whole)
    for given, said in (('mehs', 'mehs is no command'), ('mesh --workers 0', '--workers 0 is not taken'),
                        ('mesh scan.mesh3', 'no file that can be read'), ('gen --count 3', '--start is missing'),
                        ('near --order', '--order is not taken'), ('parts --alpha', 'a number is missing')):
        told = call([wrapper, *given.split()])
        expect(f'{given}: {told}', told[0] == 2 and not told[1] and said in told[2].decode().splitlines()[1])


def program_of(pid):
    """The file that a process runs, or nothing where it has ended."""
    try:
        return os.readlink(f'/proc/{pid}/exe')
    except OSError:
        return ''


def process(root, work):
    """Signals reach the program, and its streams are its own; also by a link, from elsewhere."""
    link, program = os.path.join(work, 'a link'), os.path.join(root, 'libexec/hanskup/delaunay')
    os.symlink(os.path.join(root, 'bin/delaunay'), link)
    for number in (signal.SIGTERM, signal.SIGHUP, signal.SIGINT):
        with subprocess.Popen([link, 'mesh'], stdin=subprocess.PIPE, stdout=subprocess.PIPE, cwd='/') as child:
            until, below = time.time() + 10, []
            while time.time() < until and not below:
                with open(f'/proc/{child.pid}/task/{child.pid}/children', encoding='ascii') as file:
                    below = [pid for pid in file.read().split() if program_of(pid) == program]
                time.sleep(0.01)
            child.send_signal(number)
            ended = child.wait(10)
            expect(f'signal {number} ends the wrapper and the program: {ended}, {below}',
                   ended == -number and below and program_of(below[0]) != program)
    child, terminal = begun(root, {**os.environ, 'TERM': 'xterm'}, 'mesh')
    time.sleep(5)
    with open(f'{TOP}/examples/cube.mesh3', 'rb') as given, open(f'{TOP}/examples/cube.txt', 'rb') as want:
        out, _ = child.communicate(given.read())
        told = read_to_end(terminal)
        expect(f'at a terminal it says that it waits: {told!r}', child.returncode == 0 and out == want.read() and
               re.search(r'delaunay mesh: \d s, step 1 of 3: waiting for its input', told) and screen(told) == [''])
    with open(f'{TOP}/examples/cube.mesh3', 'rb') as given, open('/dev/full', 'wb') as full:
        done = subprocess.run([link, 'mesh'], stdin=given, stdout=full, stderr=subprocess.PIPE, check=False)
    expect(f'a full device: {done}', done.returncode == 4 and done.stderr == b'delaunay: write fault\n')


def from_c(root, work):
    """C by pkg-config and statically, and what the library wants of others."""
    world = {**os.environ, 'PKG_CONFIG_PATH': f'{root}/lib/pkgconfig'}
    program, source = os.path.join(work, 'cube'), f'{root}/examples/c/cube.c'
    with open(f'{TOP}/python/c/cube.stdout', 'rb') as file:
        stored = file.read()
    if shutil.which('pkg-config'):
        told = call(['pkg-config', '--cflags', '--libs', 'delaunay_c'], env=world)
        told = call(['cc', source, *shlex.split(told[1].decode()), '-o', program])
        expect(f'C by pkg-config: {told}', told[0] == 0)
        told = call([program], env={'LD_LIBRARY_PATH': f'{root}/lib'})
        expect(f'it runs: {told}', told == (0, stored, b''))
        told = call(['pkg-config', '--cflags', '--libs', 'hanskup'], env=world)
        words = [f'{root}/examples/c/vectors.cpp', *shlex.split(told[1].decode()), '-o', program]
        told = call(['c++', '-std=c++17', *words])
        expect(f'C++ by pkg-config: {told}', told[0] == 0)
        expect('it runs', call([program, 'rest'], env={'LD_LIBRARY_PATH': f'{root}/lib'})[0] == 0)
    else:
        skip('there is no pkg-config')
    told = call(['cc', source, f'-I{root}/include', f'{root}/lib/libdelaunay_c.a', '-o', program])
    expect(f'C, static: {told}', told[0] == 0 and call([program], env={}) == (0, stored, b''))
    named = call(['nm', '--defined-only', '--extern-only', f'{root}/lib/libdelaunay_c.a'])[1].decode()
    names = [line.split()[2] for line in named.splitlines() if len(line.split()) == 3]
    expect(f'its names: {names}', len(names) >= 11 and all(name.startswith('delaunay_c_') for name in names))
    wanted = call(['objdump', '-T', f'{root}/lib/libdelaunay_c.so.1'])[1].decode()
    newest = max(tuple(map(int, it.split('.'))) for it in re.findall(r'GLIBC_([\d.]+)', wanted))
    expect(f'manylinux2014 has glibc 2.17, and the shared object wants {newest}', newest <= (2, 17))


def from_others(root, work):
    """C++17 by CMake, and Rust by `link`."""
    for name, text in (('user.cpp', CPP), ('user.rs', RUST)):
        with open(os.path.join(work, name), 'w', encoding='utf-8') as file:
            file.write(text)
    number = re.search(r'hanskup-(\d+\.\d+)', root)[1]
    with open(os.path.join(work, 'CMakeLists.txt'), 'w', encoding='utf-8') as file:
        file.write(CMAKE.format(number=number, root=root))
    if shutil.which('cmake') and shutil.which('c++'):
        made = f'{work}/made'
        told = call(['cmake', '-S', work, '-B', made, f'-DCMAKE_PREFIX_PATH={root}'])
        expect(f'CMake finds it: {told[2].decode()}', told[0] == 0)
        told = call(['cmake', '--build', made])
        expect(f'C++ is built: {told}', told[0] == 0)
        for name in ('by_default', 'by_shared'):
            told = call([f'{made}/{name}'])
            expect(f'C++ {name}: {told}', told == (0, FIVE, b''))
        expect('the header for C++, by CMake', call([f'{made}/by_header', 'rest'])[0] == 0)
        linked = call(['ldd', f'{made}/by_default'])[1]
        expect('the default is the static library', b'delaunay_c' not in linked)
    else:
        skip('there is no cmake')
    if shutil.which('rustc') and call(['rustc', '--version'])[0] == 0:
        told = call(['rustc', '-L', f'{root}/lib', '-o', f'{work}/user', f'{work}/user.rs'])
        expect(f'Rust is built: {told}', told[0] == 0)
        expect('Rust', call([f'{work}/user']) == (0, FIVE, b''))
    else:
        skip('there is no rustc')


def from_python(root, work):
    """The wheel in a new room without an index, and `pip install` of the folder; without a library, one line."""
    room = os.path.join(work, 'room')
    if call([sys.executable, '-m', 'venv', '--system-site-packages', room])[0]:
        return skip('this Python has no venv')
    wheel = glob.glob(f'{root}/hanskup-*.whl')[0]
    told = call([f'{room}/bin/pip', 'install', '--no-index', wheel])
    expect(f'the wheel is installed: {told}', told[0] == 0)
    version = os.path.basename(wheel).split('-')[1]
    told = call([f'{room}/bin/python', '-c', PYTHON], cwd=work, env={'PATH': '/usr/bin:/bin'})
    expect(f'it runs: {told}', told == (0, f'{version} 6 12\n'.encode(), b''))
    commands(room, work)
    told = call([f'{room}/bin/pip', 'uninstall', '--yes', 'hanskup'])
    expect(f'it goes: {told}', told[0] == 0 and call([f'{room}/bin/python', '-c', PYTHON], cwd=work)[0] != 0)
    copy = os.path.join(work, 'repository')
    shutil.copytree(f'{TOP}/python', f'{copy}/python', ignore=shutil.ignore_patterns('*.so', '__pycache__'))
    shutil.copy(f'{TOP}/CHANGELOG.md', copy)
    told = call([f'{room}/bin/pip', 'install', '--no-index', f'{copy}/python'])
    expect(f'without a library: {told}', told[0] != 0 and b'the library is not built: run python/build' in told[2])
    shutil.copy(f'{root}/lib/libdelaunay_c.so.1', f'{copy}/python/hanskup/libdelaunay_c.so')
    told = call([f'{room}/bin/pip', 'install', '--no-index', f'{copy}/python'])
    expect(f'pip install ./python: {told}', told[0] == 0)
    told = call([f'{room}/bin/python', '-c', PYTHON], cwd=work)
    expect(f'it runs: {told}', told[0] == 0 and told[1].endswith(b' 6 12\n'))
    return None


METADATA = """from importlib.metadata import metadata
told = metadata('hanskup')
print(sorted(key for key in ('Summary', 'Keywords', 'Classifier', 'Description-Content-Type', 'Requires-Python',
                             'Author', 'License') if told[key]), len(told.get_payload()) > 1000)
"""


def commands(room, work):
    """What pip tells of the package, and its command, which brings the program along: a page from anywhere."""
    told = call([f'{room}/bin/python', '-c', METADATA], cwd=work)
    expect(f'what it is: {told}', told[1].decode() == "['Classifier', 'Description-Content-Type', 'Keywords', "
           "'Requires-Python', 'Summary'] True\n")
    hanskup, cloud = f'{room}/bin/hanskup', os.path.join(work, 'cloud.xyz')
    status, text, err = call([hanskup, 'example'])
    expect(f'a sample cloud: {status}, {err}', status == 0 and text.count(b'\n') == 3000)
    with open(cloud, 'wb') as file:
        file.write(text)
    for words, made in (([cloud, 'of-wheel.html'], 'of-wheel.html'), ([cloud, 'of-wheel.png', '--radius', '0.3'],
                                                                     'of-wheel.png')):
        told = call([hanskup, 'draw', *words], cwd=work, env={'PATH': '/usr/bin:/bin'})
        expect(f'hanskup draw {words}: {told}', told[0] == 0 and os.path.getsize(os.path.join(work, made)) > 10000)


def door(root, work):
    """What a newcomer finds: links that lead somewhere, a README that says what it is, one command for the tools."""
    dead = dead_links(root)
    expect(f'no link is dead: {dead}', dead == [])
    with open(f'{root}/README.md', encoding='utf-8') as file:
        text = file.read()
    expect('the README says what it is', text.startswith('# Hanskup\n') and '3D Delaunay' in text.split('\n\n')[1] and
           'licence' in text[:1000])
    with open(f'{root}/include/delaunay_c.h', encoding='ascii') as file:
        expect('the header says what is within the library', 'but the C library: link either' in file.read())
    for tool in ('points', 'draw', 'export', 'report', 'betti', 'example'):
        status, out, err = call([f'{root}/hanskup', tool, '--help'], cwd=work)
        expect(f'hanskup {tool} --help: {status}, {err}', status == 0 and f'usage: hanskup {tool}'.encode() in out)
    told = call([f'{root}/hanskup', '--version'])
    expect(f'a version: {told}', told[0] == 0 and told[1].decode().split()[1] in root)
    told = call([f'{root}/hanskup', 'dwar'])
    expect(f'no tool: {told}', told[0] == 2 and b'points, draw, export' in told[2])
    told = call(['bash', '-c', f'set -o pipefail; {root!r}/hanskup example | head -n 1'])
    expect(f'a reader that ends: {told}', told[1].count(b'\n') == 1 and not told[2])


def completions(root):
    """Each shell offers of each command what the help says that it takes."""
    bash = f'. {root!r}/share/bash-completion/completions/delaunay; COMP_WORDS=(delaunay {{}}); COMP_CWORD={{}}; '
    bash += '_delaunay; echo "${{COMPREPLY[@]}}"'
    zsh = 'compadd() { shift; print -- $@ }; words=(delaunay {}); CURRENT=$(({} + 1)); . '
    zsh = zsh.replace('{ ', '{{ ').replace(' }', ' }}') + f'{root!r}/share/zsh/site-functions/_delaunay'
    for shell, line in (['bash', '-c'], bash), (['zsh', '-fc'], zsh):
        if not shutil.which(shell[0]):
            skip(f'there is no {shell[0]}')
            continue
        for command, rest in usage().items():
            told = call([*shell, line.format(f"{command} ''", 2)])
            expect(f'{shell[0]} completes {command}: {told}', told[1].decode().split() == options(rest) and not told[2])
        told = call([*shell, line.format("''", 1)])
        expect(f'{shell[0]} completes the commands: {told}',
               told[1].decode().split() == [*usage(), '--help', '--version'] and not told[2])
        told = call([*shell, line.format("mesh --grid ''", 3)])
        expect(f'{shell[0]} completes a grid: {told}', told[1] == b'1 2 4 8 16\n' and not told[2])


def man_page(root):
    if not shutil.which('man') or not shutil.which('nroff'):
        return skip('there is no man')
    world = {**os.environ, 'MANPATH': f'{root}/share/man', 'MANWIDTH': '100', 'LC_ALL': 'C.UTF-8'}
    status, told, err = call(['man', '--warnings', '-P', 'cat', 'delaunay'], env=world)
    text = re.sub(r'\s+', ' ', told.decode().replace('‐', '-'))
    expect(f'the page: {status}, {err.decode()}', status == 0 and not err)
    lines = [f'delaunay {command} {rest}' for command, rest in usage().items()]
    wanted = [*lines, 'NAME', 'EXIT STATUS', 'delaunay: no four independent points', 'delaunay: bad mesh', '--most K']
    expect(f'it has all: {text}', all(line in text for line in wanted))
    return None


def first_surface(root):
    """The lines of docs/RELEASE.md from the archive's folder to a surface, within a minute."""
    with open(f'{root}/README.md', encoding='utf-8') as file:
        block = re.search(r'(?:^    .*\n)+', file.read().split('## A first surface\n')[1], re.M)[0]
    lines, begun = [line.strip() for line in block.splitlines()], time.time()
    for line in lines:
        told = call(['bash', '-c', f'set -o pipefail; {line}'], cwd=root)
        expect(f'`{line}`: {told}', told[0] == 0)
    took = time.time() - begun
    with open(f'{TOP}/README.md', encoding='utf-8') as file:
        expect('they are those of the README', set(lines) <= {line.strip() for line in file})
    made = os.path.exists(f'{root}/surface.ply') and volume_of(f'{root}/surface.ply')[0]
    expect(f'a surface in {took:.1f} s, of volume {made}', took < 60 and len(lines) == 5 and made > 0)
    expect('and a page', os.path.getsize(f'{root}/page.html') > 100000)


def run(work):
    sys.dont_write_bytecode = True
    root = packed(work) if is_built() else None
    if not root:
        return
    door(root, work)
    in_an_empty_root(root, work)
    words(root)
    process(root, work)
    from_c(root, work)
    from_others(root, work)
    from_python(root, work)
    completions(root)
    man_page(root)
    first_surface(root)
