"""Cases of tools/release: what it refuses and packs, in a repository that is laid out with a stub of the toolchain."""
import glob
import os
import shutil
import subprocess
import tarfile

from tool_cases import TOP, expect, skip

COPIED = ('tools/packed', 'tools/release', 'tools/plain/room.sh', 'tools/points', 'tools/mesh3', 'python/c',
          'python/hanskup', 'python/build', 'python/hanskup_wheel.py', 'python/README.md', 'docs',
          'hanskup', 'examples', 'delaunay', 'HANDLES')
CRATES = 'low:\nbeside:\ndelaunay: low\ndelaunay_c staticlib: low\n'
CHANGES = '# Changes\n\n## 0.8, not closed yet: more\n\n## 0.7: all\n\n## 0.6: some\n'
LIBRARY = """#include <stddef.h>
void *rattle_alloc(size_t, size_t);
int of_the_library;
int delaunay_c_mesh(void) { of_the_library++; return rattle_alloc(8, 8) != NULL; }
"""
HEAP = """#include <stdlib.h>
void *rattle_alloc(size_t size, size_t align) { (void)align; return malloc(size); }
"""
RT = """#!/usr/bin/env bash
case $1 in
version) echo "a stub of a kit${OTHER-}" ;;
doc) echo "$KIT/page" ;;
ci)
    [ -z "${REFUSED-}" ] || { echo 'the proof is refused' && exit 1; }
    mkdir -p crates/delaunay/out && printf 'int main(void) { return 2; }' | gcc -x c -o crates/delaunay/out/delaunay -
    while IFS=: read -r crate _; do
        crate=${crate% staticlib}
        [ -n "${SILENT-}" ] || printf 'fn %s::one: proved\\nlogic=proved functions=1 sum=0\\n' "$crate"
        echo "rt: $crate proved"
    done <crates.txt
    ;;
esac
"""
RATTLE = """#!/usr/bin/env bash
[ "$(basename "$PWD")" = delaunay_c ] && [ -e ../low/src/lib.rt ] && [ ! -e ../beside ] && [ "$1" = build ] || exit 1
case "$* " in *' --crate-type staticlib -o out/libdelaunay_c.a ') cp "$KIT/libdelaunay_c.a" out/ ;; *) exit 1 ;; esac
"""


def shell(place, line, **more):
    """A line of bash in the repository: its status, and what it said in all."""
    done = subprocess.run(['bash', '-c', line], cwd=place['top'], env={**place['world'], **more}, timeout=300,
                          stdin=subprocess.DEVNULL, stdout=subprocess.PIPE, stderr=subprocess.STDOUT, check=False)
    return done.returncode, done.stdout.decode(errors='replace')


def write(name, text):
    os.makedirs(os.path.dirname(name), exist_ok=True)
    with open(name, 'w', encoding='utf-8') as file:
        file.write(text)


def laid(work):
    """A repository of four crates without code, with a stub of the kit; all is committed, and nothing built."""
    top, kit = os.path.join(work, 'packed'), os.path.join(work, 'kit')
    for name in COPIED:
        whole = os.path.join(TOP, name)
        os.makedirs(os.path.dirname(os.path.join(top, name)), exist_ok=True)
        if os.path.isdir(whole):
            shutil.copytree(whole, os.path.join(top, name), ignore=shutil.ignore_patterns('*.so*', '__pycache__'))
        else:
            shutil.copy2(whole, os.path.join(top, name))
    for name in ('low', 'beside', 'delaunay', 'delaunay_c'):
        write(f'{top}/crates/{name}/src/lib.rt', f'//! {name}\n')
    write(f'{top}/crates.txt', CRATES)
    write(f'{top}/CHANGELOG.md', CHANGES)
    write(f'{top}/.gitignore', 'out/\nOUT*\n__pycache__/\n*.so\n*.so.1\n')
    write(f'{kit}/bin/rt', RT)
    write(f'{kit}/bin/rattle', RATTLE)
    write(f'{kit}/library.c', LIBRARY)
    write(f'{kit}/c/heap.c', HEAP)
    for name in ('rt', 'rattle'):
        os.chmod(f'{kit}/bin/{name}', 0o755)
    named = {f'GIT_{who}_{what}': 'somebody' for who in ('AUTHOR', 'COMMITTER') for what in ('NAME', 'EMAIL')}
    place = {'top': top, 'world': {**os.environ, **named, 'KIT': kit, 'PATH': f'{kit}/bin:{os.environ["PATH"]}'}}
    made = shell(place, 'git init -q && git add -A && git commit -qm all && cd "$KIT" && '
                 'gcc -fPIC -c library.c c/heap.c && ar rc libdelaunay_c.a library.o && ar rc c/liblibc_c.a heap.o')
    expect(f'a repository is laid out: {made[1]}', made == (0, ''))
    return place


def refused(place, what, said, before=':', after=':', **world):
    """One line that says what to do, and nothing is packed; before and after it the repository is changed."""
    expect(f'{what}: {before}', shell(place, before) == (0, ''))
    status, told = shell(place, 'tools/release OUT', **world)
    expect(f'{what}: {after}', shell(place, after) == (0, ''))
    expect(f'{what}: status {status}, {told!r}',
           status == 1 and said in told and told.count('\n') == 1 and not os.path.exists(f'{place["top"]}/OUT'))


def builds(place):
    """Both are built, with a record of what the checker said; without its word there is none."""
    refused(place, 'without a program', 'out/delaunay is missing: ./delaunay builds it')
    status, told = shell(place, './delaunay mesh', SILENT='yes')
    refused(place, 'a program of which the checker says nothing', 'nothing says that it is proved: rm crates/delaunay')
    status, told = shell(place, 'rm crates/delaunay/out/delaunay && ./delaunay mesh')
    expect(f'the program is built: {status}, {told}', status == 2 and 'built, in' in told)
    refused(place, 'without a library', 'libdelaunay_c.a is missing: python/build builds it')
    status, told = shell(place, 'python/build', REFUSED='yes')
    expect(f'a library that is refused: {told}', status == 1 and 'here\nthe proof is refused\nall that was' in told)
    status, told = shell(place, 'python/build', SILENT='yes')
    expect(f'a library of which the checker says nothing: {told}', status == 1 and 'did not say' in told)
    refused(place, 'the same', 'rm crates/delaunay_c/out/libdelaunay_c.a && python/build')
    status, told = shell(place, 'python/build')
    expect(f'the library is built: {status}, {told}', status == 0)
    links = shell(place, 'find . -type l; test -f python/hanskup/libdelaunay_c.so.1')
    expect(f'no link is left, at which rt ci would stop: {links}', links == (0, ''))


def refusals(place):
    """What is not committed, other than what was proved, or older than its sources; each is put right again."""
    back, program = 'git reset -q --hard HEAD~1', 'crates/delaunay/out/delaunay'
    refused(place, 'a file more', 'new is not committed: commit first', 'touch new', 'rm new')
    refused(place, 'a change', 'CHANGELOG.md is not committed', 'echo >>CHANGELOG.md', 'git checkout -q CHANGELOG.md')
    refused(place, 'another program', 'nothing says that it is proved',
            f'cp {program} OUT.program && cp /bin/true {program}', f'mv OUT.program {program}')
    refused(place, 'sources that changed', f'out/delaunay is older than its sources: rm {program} && ./delaunay',
            'echo >>crates/low/src/lib.rt && git commit -qam changed', back)
    refused(place, 'a crate more', 'out/delaunay is older than its sources',
            "sed -i 's/^delaunay:/& beside/' crates.txt && git commit -qam more", back)
    refused(place, 'another kit', 'libdelaunay_c.a was built with a stub of a kit, and rt is of another',
            OTHER=' again')
    status, told = shell(place, 'tools/release --proved OUT')
    expect(f'other words: {told}', status == 1 and 'tools/release --help tells the words' in told)


def packs(place):
    """A release, twice the same bytes, whatever the names of the folders; nothing that changed beside it matters."""
    name = 'hanskup-0.8.dev0-linux-x86_64'
    status, told = shell(place, 'tools/release OUT && echo >>crates/beside/src/lib.rt && touch crates/*/src/*')
    expect(f'a release: {status}, {told}', status == 0 and told.strip().endswith(f'OUT/{name}.tar.xz'))
    status, told = shell(place, 'rm -rf OUT.2; git checkout -q crates && umask 077 && TZ=Asia/Tokyo tools/release OUT.2'
                         f' && cmp OUT*/{name}.tar.xz && rm -rf OUT.2')
    expect(f'the same bytes in a second run: {told}', status == 0)
    folder = os.path.join(place['top'], 'OUT', name)
    status, told = shell(place, f'cd "{folder}" && sha256sum --check --quiet SHA256SUMS')
    expect(f'its checksums: {told}', status == 0)
    with open(f'{folder}/SOURCES', encoding='utf-8') as file:
        text = file.read()
    commit = shell(place, 'git rev-parse HEAD')[1].strip()
    whole = all(part in text for part in (
        'Hanskup 0.8.dev0\n', f'commit {commit}\n', 'proved with the kit a stub of a kit\n', 'libdelaunay_c.a, before',
        '\nlow logic=proved functions=1', '\ndelaunay logic=proved', '\ndelaunay_c logic=proved'))
    expect(f'its sources: {text}', whole and 'beside' not in text and 'NOT PROVED' not in text)
    told = subprocess.run([f'{folder}/delaunay', '--version'], capture_output=True, check=False).stdout.decode()
    expect(f'its version: {told}', text.startswith(told) and told.count('\n') == 3)
    shell(place, 'rm -rf OUT')


def unproved(place):
    """What is packed for trials says so everywhere."""
    status, told = shell(place, 'echo >>crates/low/src/lib.rt; tools/release --unproved OUT; git checkout -q crates')
    name = 'hanskup-0.8.dev0+unproved-linux-x86_64'
    expect(f'packed for trials: {told}', status == 0 and told.strip().endswith(f'OUT/{name}.tar.xz'))
    folder = os.path.join(place['top'], 'OUT', name)
    told = subprocess.run([f'{folder}/bin/delaunay', '--version'], capture_output=True, check=False).stdout.decode()
    with open(f'{folder}/SOURCES', encoding='utf-8') as file:
        text = file.read()
    expect(f'it says so: {told}', 'NOT PROVED' in told and '+unproved' in told and 'logic=proved' not in text)
    expect('and so does its wheel', glob.glob(f'{folder}/hanskup-0.8.dev0+unproved-*.whl'))
    with tarfile.open(f'{folder}.tar.xz') as tar:
        entries = tar.getmembers()
    expect('its files are nobody\'s, and for all to read', all(
        (it.uid, it.gid, it.uname) == (0, 0, '') and it.mode in (0o644, 0o755) for it in entries))
    shell(place, 'rm -rf OUT')


def tags(place):
    """What is to be tagged: a version whose heading was the newest when it was closed."""
    status, told = shell(place, 'tools/release --check')
    expect(f'all is there, and 0.8 open: {told}', status == 0 and told.startswith('0.8 is not closed') and
           '0.7 was named when' in told and 'git tag' not in told)
    shell(place, "sed -i 's/, not closed yet//' CHANGELOG.md && git commit -qam closed && touch later && git add later "
          '&& git commit -qm later')
    commit = shell(place, 'git rev-parse HEAD~1')[1].strip()
    status, told = shell(place, 'tools/release --check')
    expect(f'0.8 is to be tagged: {told}', f"git tag --sign --message 'Hanskup 0.8' v0.8 {commit}\n" in told)
    status, told = shell(place, 'git tag v0.8 HEAD~1; touch other; tools/release --check; rm other')
    expect(f'it has its tag: {told}', '0.8 has its tag' in told and 'not yet: other is not committed' in told)


def run(work):
    for wanted in ('gcc', 'git', 'ld', 'objcopy', 'strip'):
        if not shutil.which(wanted):
            return skip(f'there is no {wanted}: nothing is packed')
    place = laid(work)
    builds(place)
    refusals(place)
    packs(place)
    unproved(place)
    tags(place)
