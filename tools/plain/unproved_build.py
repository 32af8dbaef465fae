"""Builds the program, or the library for C, at full optimization without proving it, to measure a change before its
proof.

    tools/make unproved OUT [REGEX]              the program; REGEX: functions that are not to be inlined, as
                                                 '^cell_stars::', so that callgrind and perf tell them apart
    tools/make unproved delaunay_c OUT.a [REGEX] the library; as crates/delaunay_c/out/libdelaunay_c.a it is what
                                                 `python/build --link` links and tools/binding-cases tries

The sources may lack clauses and proofs, and what is built is no product of the gate. It takes some three minutes; its
times are some 5 % above those of a proved build.
"""
import contextlib
import os
import re
import shutil
import subprocess
import sys
import tempfile

from plain import TOP
from plain.program_module import compiled, kept_apart, kit_folder, kit_libraries, module_of

FULL = ['-O3', '-mllvm', '-trap-unreachable', '-mllvm', '-no-x86-call-frame-opt', '-mllvm', '-disable-machine-licm',
        '-mllvm', '-disable-postra-machine-licm', '-mllvm', '-sink-common-insts=false', '-fno-crash-diagnostics']

LIBRARY = 'delaunay_c'

# What calls write to, in a program that makes all of them so that none is left out.
VALUES = {
    'MeshHandle': 'MeshHandle::empty()', 'Place': 'place', 'u8': '0', 'u64': '0',
    'MeshSizes': 'MeshSizes { points: 0, cells: 0, hull: 0 }', 'PartSizes': 'PartSizes { cells: 0, parts: 0 }',
    'FaceSizes': 'FaceSizes { points: 0, edges: 0, triangles: 0, cells: 0 }',
    'Located': 'Located { kind: 0, a: place, b: place, c: place, d: place }'}

MAIN = '''
use mesh_handle::{{Located, MeshHandle, free}};
use mesh_rows::{{FaceSizes, MeshSizes, PartSizes, Place}};
use std::process::ExitCode;

fn main(rt: HostRuntime) -> ExitCode {{
    let alloc = rt.alloc();
    let mut sum = 0;
    let place = Place {{ x: 0, y: 0, z: 0 }};
    {values}
    {calls}
    free(alloc, its_meshhandle);
    ExitCode::from(sum)
}}
'''


def given_to(kind):
    """What a call is given of a kind."""
    if kind == 'Global':
        return 'alloc'
    if kind.endswith(']'):
        return kind[:kind.index('[')] + '[]'
    if kind.startswith('&mut '):
        return f'&mut its_{kind[5:].lower()}'
    return f'&{kind[1:].lower()}' if kind.startswith('&') else '1'


def caller_of(folder):
    """The main function of a program that makes each call of the library once."""
    calls = []
    for name in sorted(os.listdir(folder)):
        with open(os.path.join(folder, name), encoding='utf8') as file:
            found = re.findall(r'pub extern "C" fn (\w+)\(([^)]*)\)( -> u8)?', file.read())
        for call, words, answer in found:
            kinds = [word.split(':')[1].strip() for word in words.split(',') if word.strip()]
            made = f'{name[:-3]}::{call}({", ".join(map(given_to, kinds))});'
            calls.append(f'sum |= {made}' if answer else made)
    values = [f'let mut its_{kind.lower()} = {value};' for kind, value in VALUES.items()]
    return MAIN.format(values='\n    '.join(values), calls='\n    '.join(calls))


def library_module(room):
    """The module of the library, as text: of a copy in a room in which it is a program, whose main then goes."""
    top = os.path.join(room, 'copy')
    for crate in sorted(os.listdir(os.path.join(TOP, 'crates'))):
        for part in ('src', 'specs'):
            if os.path.isdir(os.path.join(TOP, 'crates', crate, part)):
                shutil.copytree(os.path.join(TOP, 'crates', crate, part), os.path.join(top, 'crates', crate, part))
    os.makedirs(os.path.join(top, 'examples'))
    for name in ('HANDLES', 'examples/cube.mesh3'):
        shutil.copy(os.path.join(TOP, name), os.path.join(top, name))
    with open(os.path.join(TOP, 'crates.txt'), encoding='utf8') as file, \
            open(os.path.join(top, 'crates.txt'), 'w', encoding='utf8') as to:
        to.write(file.read().replace(f'{LIBRARY} staticlib:', f'{LIBRARY}:'))
    sources = os.path.join(top, 'crates', LIBRARY, 'src')
    caller = caller_of(sources)
    os.rename(os.path.join(sources, 'lib.rt'), os.path.join(sources, 'main.rt'))
    with open(os.path.join(sources, 'main.rt'), 'a', encoding='utf8') as file:
        file.write(caller)
    text = module_of(top, room, LIBRARY)
    text = re.sub(rf'(define )internal ([^\n]*)(@"{LIBRARY}::\w+::{LIBRARY}_\w+")', r'\1\2\3', text)
    text = re.sub(rf'@"{LIBRARY}::\w+::({LIBRARY}_\w+)"', r'@\1', text)
    return text.replace('define i32 @main()', 'define internal i32 @main()')


def main(words):
    is_library = words[:1] == [LIBRARY]
    words = words[is_library:]
    if not 1 <= len(words) <= 2:
        raise SystemExit(__doc__)
    out = os.path.realpath(words[0])
    with tempfile.TemporaryDirectory() as room:
        text = library_module(room) if is_library else module_of(TOP, room)
        if len(words) == 2:
            text = kept_apart(text, re.compile(words[1]))
        made, kit = compiled(text, room, *FULL, *['-fPIC'] * is_library), kit_folder()
        if is_library:
            os.makedirs(os.path.dirname(out), exist_ok=True)
            with contextlib.suppress(FileNotFoundError):
                os.remove(out)
            subprocess.run(['ar', 'rcs', out, made], check=True)
        else:
            subprocess.run([f'{kit}/bin/rattle-link', '--target', 'x86_64-unknown-linux-gnu', '--toolchain',
                            f'{kit}/toolchain', '-o', out, made, *kit_libraries()], check=True)


if __name__ == '__main__':
    main(sys.argv[1:])
