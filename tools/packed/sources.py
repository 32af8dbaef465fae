"""What a release is made from: the version, the commit, and what the checker said of the program and the library.

Beside what is built stands a record of it, NAME.proved, with the kit, a checksum of the sources from which it was
built, its own checksum, and the checker's last line on each crate. ./delaunay and python/build write it.
"""
import glob
import hashlib
import os
import re
from typing import NamedTuple

from packed import TOP, Refused, read, run


class Built(NamedTuple):
    """Something that the kit builds of a crate."""
    crate: str
    name: str  #: its file within the repository
    how: str  #: what builds it


PROGRAM = Built('delaunay', 'crates/delaunay/out/delaunay', './delaunay')
LIBRARY = Built('delaunay_c', 'crates/delaunay_c/out/libdelaunay_c.a', 'python/build')
BUILT = {it.crate: it for it in (PROGRAM, LIBRARY)}


def sum_of(name):
    with open(name, 'rb') as file:
        return hashlib.sha256(file.read()).hexdigest()


def below(crate, top=TOP):
    """The lines of crates.txt of a crate and of those that it stands on, by their names, without what rt counts."""
    with open(os.path.join(top, 'crates.txt'), encoding='utf-8') as file:
        rows = [line.split('#')[0].split(':') for line in file]
    deps = {row[0].split()[0]: row[1].split() for row in rows if len(row) == 2}
    found, wanted = {}, [crate]
    while wanted:
        name = wanted.pop()
        if name in deps and name not in found:
            found[name] = deps[name]
            wanted += deps[name]
    return found


def sum_of_sources(crate, top=TOP):
    """One checksum of all that a crate is built from, which goes by names and contents alone."""
    whole, crates = hashlib.sha256(), below(crate, top)
    whole.update(sum_of(os.path.join(top, 'HANDLES')).encode())
    for name in sorted(crates):
        whole.update(f'{name}: {" ".join(crates[name])}\n'.encode())
        for part in ('src', 'specs', 'proofs'):
            for file in sorted(glob.glob(f'{top}/crates/{name}/{part}/**/*.*', recursive=True)):
                whole.update(f'{os.path.relpath(file, top)} {sum_of(file)}\n'.encode())
    return whole.hexdigest()


def verdicts(text):
    """The checker's last line on each crate that it names in what it wrote, or that it kept the crate as proved."""
    found, crate = {}, None
    for line in text.splitlines():
        named = re.match(r'crate (\w+): |fn (\w+)::', line)
        kept = re.match(r'rt: (\w+) is (kept: .*)', line)
        if named:
            crate = named[1] or named[2]
        elif kept:
            found[kept[1]] = kept[2]
        elif line.startswith('logic=proved ') and crate:
            found[crate], crate = line, None
    return found


def kit():
    """The kit whose rt is on the path, in a line."""
    return run('rt', 'version').splitlines()[0]


def record_of(built):
    """What stands beside it, as `{'kit': .., 'sources': .., 'built': .., CRATE: 'logic=proved ..', ..}`; or nothing."""
    try:
        return dict(line.split(' ', 1) for line in read(built.name + '.proved').splitlines())
    except FileNotFoundError:
        return {}


def record(crate, sources, logs):
    """Writes the record of what was built of a crate, from these sources, as these files of the checker's words say.

    A crate that had not changed, of which it says nothing, keeps its line.
    """
    built, lines = BUILT[crate], record_of(BUILT[crate])
    for log in logs:
        with open(log, encoding='utf-8', errors='replace') as file:
            lines.update(verdicts(file.read()))
    if crate not in lines:
        raise Refused(f'{built.name}: the checker did not say that it is proved')
    head = {'kit': kit(), 'sources': sources,
            'built': sum_of(os.path.join(TOP, built.name))}
    lines = {**head, **{name: lines[name] for name in below(crate) if name in lines}}
    with open(os.path.join(TOP, built.name + '.proved'), 'w', encoding='utf-8') as file:
        file.writelines(f'{name} {told}\n' for name, told in lines.items())


def faults_of(built):
    """Why something that is built is not fit to be packed, at most one line."""
    if not os.path.exists(os.path.join(TOP, built.name)):
        return [f'{built.name} is missing: {built.how} builds it']
    kept, anew = record_of(built), f'rm {built.name} && {built.how}'
    if built.crate not in kept or kept['built'] != sum_of(os.path.join(TOP, built.name)):
        return [f'{built.name} was not built by {built.how}, so nothing says that it is proved: {anew}']
    if kept['sources'] != sum_of_sources(built.crate):
        return [f'{built.name} is older than its sources: {anew}']
    if built is LIBRARY and kept['kit'] != kit():  # a part of the kit is packed with it
        return [f'{built.name} was built with {kept["kit"]}, and rt is of another kit: {anew}']
    return []


def faults():
    """Why nothing is fit to be packed, a line each with what to do."""
    changed = run('git', 'status', '--porcelain').splitlines()
    more = f', and {len(changed) - 1} more are not' if changed[1:] else ''
    found = [f'{changed[0][3:]} is not committed{more}: commit first'] if changed else []
    return found + faults_of(PROGRAM) + faults_of(LIBRARY)


def commit():
    """The commit, and its time in seconds."""
    return run('git', 'log', '-1', '--format=%H %ct').split()


def tags():
    """What is to be tagged, a line for each version in CHANGELOG.md, the newest first."""
    told, known = [], run('git', 'tag').split()
    for version, rest in re.findall(r'^## (\d+(?:\.\d+)+)(.*)', read('CHANGELOG.md'), re.M):
        if rest.startswith(', not closed'):
            told.append(f'{version} is not closed: name it `## {version}: ..` in CHANGELOG.md, in a commit of its own')
            continue
        closed = run('git', 'log', '--reverse', '--format=%H', f'-S## {version}:', '--', 'CHANGELOG.md').split()[:1]
        heads = closed and re.findall(r'^## .*', run('git', 'show', f'{closed[0]}:CHANGELOG.md'), re.M)
        if f'v{version}' in known:
            told.append(f'{version} has its tag, v{version}')
        elif heads and heads[0].startswith(f'## {version}:'):
            told.append(f"to tag {version}: git tag --sign --message 'Hanskup {version}' v{version} {closed[0]}")
        else:
            told.append(f'{version} was named when a later one was open: no commit is to be tagged')
    return told
