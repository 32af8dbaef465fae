"""The texts of a release that are made: the man page, the completions, what finds the library, and what it is."""
import os
import re
import time

from packed import HERE, TOP, options, read, usage
from packed.sources import LIBRARY, PROGRAM, commit, record_of

PKG_CONFIG = """prefix=${{pcfiledir}}/../..
Name: delaunay_c
Description: Delaunay triangulations of points in space and their alpha complexes, proved
Version: {number}
Cflags: -I${{prefix}}/include
Libs: -L${{prefix}}/lib -ldelaunay_c
"""
PKG_CONFIG_OF_WRAPPER = """prefix=${{pcfiledir}}/../..
Name: hanskup
Description: Delaunay triangulations of points in space and their alpha complexes, for C++17 and later
Version: {number}
Requires: delaunay_c = {number}
Cflags: -I${{prefix}}/include
"""
CMAKE_VERSION = """set(PACKAGE_VERSION {number})
if(PACKAGE_FIND_VERSION VERSION_GREATER PACKAGE_VERSION
        OR (PACKAGE_FIND_VERSION_COUNT GREATER 0 AND NOT PACKAGE_FIND_VERSION_MAJOR EQUAL {major})
        OR (PACKAGE_FIND_VERSION_COUNT GREATER 1 AND NOT PACKAGE_FIND_VERSION_MINOR EQUAL {minor}))
    set(PACKAGE_VERSION_COMPATIBLE FALSE)
else()
    set(PACKAGE_VERSION_COMPATIBLE TRUE)
    if(PACKAGE_FIND_VERSION VERSION_EQUAL PACKAGE_VERSION)
        set(PACKAGE_VERSION_EXACT TRUE)
    endif()
endif()
if(CMAKE_SIZEOF_VOID_P AND NOT CMAKE_SIZEOF_VOID_P EQUAL 8)
    set(PACKAGE_VERSION_UNSUITABLE TRUE)
endif()
"""
UNPROVED = 'NOT PROVED: packed for trials, from whatever was built; a release has another name'


def numbers(version):
    """The version as the formats of others take it."""
    number = re.match(r'\d+(\.\d+)+', version)[0]
    return {'number': number, 'major': number.split('.')[0], 'minor': number.split('.')[1]}


def completion(name):
    """A completion of files/, in which the line with CASES becomes a line for each command."""
    with open(os.path.join(HERE, 'files', name), encoding='utf-8') as file:
        lines = file.read().splitlines()
    cases = [f"    {command}) all=({' '.join(options(rest))}) ;;" for command, rest in usage().items()]
    place = lines.index('    # CASES')
    text = '\n'.join(lines[:place] + cases + lines[place + 1:]) + '\n'
    return text.replace('COMMANDS', ' '.join(usage()))


def paragraphs():
    """The parts of the help behind the usage: a word in front and what is told of it, or a sentence without one."""
    for block in read('tools/packed/help.txt').split('\n\n')[1:]:
        if block.startswith('  '):
            for row in re.split(r'\n(?=  \S)', block.rstrip()):
                head, told = re.split(r' {2,}', row.strip(), maxsplit=1)
                yield head, re.sub(r'\s+', ' ', told)
        else:
            yield None, block.strip()


def roff(text):
    text = text.replace('\\', '\\e').replace('-', '\\-')
    return re.sub(r"^(?=[.'])", r'\\&', text, flags=re.M)


def statuses():
    """The rows of the table of statuses, each a status and when it comes."""
    table = re.search(r'^\| status \| when .*\n.*\n((?:\|.*\n)+)', read('docs/FORMATS.md'), re.M)[1]
    for row in table.splitlines():
        status, when, line = [cell.strip() for cell in row.strip('|').split('|')][:3]
        yield status, (f'{when} ({line})' if line else when).replace('`', '')


def man_page(version):
    day = time.strftime('%Y-%m-%d', time.gmtime(int(commit()[1])))
    lines = [f'.TH DELAUNAY 1 {day} "Hanskup {version}"', '.SH NAME',
             r'delaunay \- Delaunay triangulations in space, and their alpha complexes', '.SH SYNOPSIS', '.nf']
    lines += [roff(f'delaunay {command} {rest}') for command, rest in usage().items()] + ['.fi', '.SH DESCRIPTION']
    for head, told in paragraphs():
        lines += ['.TP', f'.B {roff(head)}', roff(told)] if head else ['.PP', roff(told)]
    lines.append('.SH EXIT STATUS')
    for status, when in statuses():
        lines += ['.TP', f'.B {status}', roff(when)]
    return '\n'.join(lines) + '\n'


def sources(version, is_proved):
    """What the release is made from: first what --version tells, then what the checker said."""
    kits = dict.fromkeys(record_of(built).get('kit', 'unknown') for built in (PROGRAM, LIBRARY))
    head = [f'delaunay of Hanskup {version}', f'sources: commit {commit()[0]}']
    if not is_proved:
        return '\n'.join([*head, UNPROVED, ''])
    head.append(f'proved with the kit {", ".join(kits)}')
    for built in (PROGRAM, LIBRARY):
        kept = record_of(built)
        head += ['', f'{os.path.basename(built.name)}, before it was stripped or linked: sha256 {kept["built"]}',
                 'The checker ended with these lines on what it is made of, or had proved the same before:']
        head += [f'{name} {told}' for name, told in kept.items() if told.startswith(('logic=', 'kept:'))]
    return '\n'.join(head) + '\n'


def made(version, is_proved):
    """Each text by its place in the release."""
    return {
        'lib/pkgconfig/delaunay_c.pc': PKG_CONFIG.format(**numbers(version)),
        'lib/pkgconfig/hanskup.pc': PKG_CONFIG_OF_WRAPPER.format(**numbers(version)),
        **{f'lib/cmake/{name}/{name}Config.cmake': read(f'tools/packed/files/{name}Config.cmake')
           for name in ('delaunay_c', 'hanskup')},
        **{f'lib/cmake/{name}/{name}ConfigVersion.cmake': CMAKE_VERSION.format(**numbers(version))
           for name in ('delaunay_c', 'hanskup')},
        'share/man/man1/delaunay.1': man_page(version),
        'share/bash-completion/completions/delaunay': completion('delaunay.bash'),
        'share/zsh/site-functions/_delaunay': completion('_delaunay'),
        'share/hanskup/SOURCES': sources(version, is_proved),
    }
