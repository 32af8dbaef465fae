"""Refuses one allocation of the built program after another, and looks at what it answers.

A small library stands before the C library's allocator and refuses the Nth call for memory, for N of 1, 2, .. until a
run meets no refusal. A run is right where it ends as the undisturbed one, byte for byte, or with status 1, the line
`delaunay: out of memory` on standard error, and nothing on standard output. Then the same with the scenes of one
thread's passes and the meshes whose points move of `worked_cases`, which makes a refused call of the table or edit of
the mesh once more: it is right where it ends as the undisturbed one, or with another status than 0 and a front of its
output. The last line is 'N passed, M failed'. Needs a C compiler. By hand, not part of the gate.

usage: tools/try memory [PROGRAM [CASES]]
"""
import os
import re
import subprocess
import sys
import tempfile

TOP = os.path.join(os.path.dirname(os.path.realpath(__file__)), '../..')
LINE = b'delaunay: out of memory\n'
MOST = 5000  # refusals tried of one command
SHIM = r'''
#define _GNU_SOURCE
#include <dlfcn.h>
#include <errno.h>
#include <stdatomic.h>
#include <stddef.h>
#include <stdlib.h>
#include <unistd.h>

static atomic_long calls;
static long wanted = -1;

static int refuses(void) {
    if (wanted < 0) {
        const char *word = getenv("REFUSED_CALL");
        wanted = word ? atol(word) : 0;
    }
    if (atomic_fetch_add(&calls, 1) + 1 != wanted) return 0;
    if (write(9, "x", 1) != 1) _exit(99);
    errno = ENOMEM;
    return 1;
}

extern void *__libc_malloc(size_t);
extern void *__libc_calloc(size_t, size_t);
extern void *__libc_realloc(void *, size_t);
extern void *__libc_memalign(size_t, size_t);

void *malloc(size_t n) { return refuses() ? NULL : __libc_malloc(n); }
void *calloc(size_t n, size_t m) { return refuses() ? NULL : __libc_calloc(n, m); }
void *realloc(void *p, size_t n) { return refuses() ? NULL : __libc_realloc(p, n); }
void *aligned_alloc(size_t a, size_t n) { return refuses() ? NULL : __libc_memalign(a, n); }
int posix_memalign(void **p, size_t a, size_t n) {
    if (refuses()) return ENOMEM;
    *p = __libc_memalign(a, n);
    return *p ? 0 : ENOMEM;
}
'''


def case(name):
    with open(os.path.join(TOP, 'cases', name), 'rb') as file:
        return file.read()


COMMANDS = [
    (['mesh'], case('01-tetrahedron.in')),
    (['mesh', '--order'], case('13-edges-add-take.in')),
    (['shape'], case('04-cube.in')),
    (['shape', '--workers', '1', '--grid', '1'], case('18-four-replies.in')),
    (['mesh', '--workers', '4', '--grid', '2'], case('14-cube-take-corner.in')),
    (['gen', '--count', '1', '--start', '1'], b''),
    (['gen', '--count', '20', '--start', '7', '--text'], b''),
    (['draw'], b''),
]


def run(program, words, given, shim, call):
    """The status, both outputs, and whether a call for memory was refused."""
    read, write = os.pipe()
    env = {**os.environ, 'LD_PRELOAD': shim, 'REFUSED_CALL': str(call)}
    done = subprocess.run([program, *words], input=given, capture_output=True, env=env, pass_fds=[9], timeout=60,
                          check=False,
                          preexec_fn=lambda: os.dup2(write, 9))
    os.close(write)
    refused = os.read(read, 1)
    os.close(read)
    return done.returncode, done.stdout, done.stderr, bool(refused)


def is_right(usual, status, out, err):
    return (status, out, err) == usual or (status, out, err) == (1, b'', LINE)


def without_refused(out):
    """The output without what a refused try told its gate, Start and Done, before the call was made once more."""
    return re.sub(rb'\b(Start Done )+(?=Start)', b'', out)


def ends_early(usual, status, out, err):
    """Whether a run of scenes, one a line, ended as the undisturbed one, or where a refusal met it."""
    whole, told = without_refused(usual[1]), without_refused(out)
    return (status, told, err) == (usual[0], whole, usual[2]) or (status != 0 and whole.startswith(told))


def lines_of(begin, has=b''):
    """The lines of the cases that begin so and have these bytes, a run each."""
    with open(os.path.join(TOP, 'crates/worked_cases/stdin'), 'rb') as file:
        return [line for line in file if line.startswith(begin) and has in line]


def walk(program, words, given, shim, is_right=is_right):
    """How many refusals a command met, how many of its runs were wrong, and how many ended with the whole output."""
    usual = run(program, words, given, shim, 0)[:3]
    wrong = whole = 0
    for call in range(1, MOST + 1):
        status, out, err, refused = run(program, words, given, shim, call)
        if not refused:
            return call - 1, wrong, whole
        whole += (status, out) == usual[:2]
        if not is_right(usual, status, out, err):
            wrong += 1
            print(f'{" ".join(words)}: refused call {call}: status {status}, {len(out)} bytes, {err!r}')
    return MOST, wrong, whole


def main():
    built = [os.path.join(TOP, 'crates', name, 'out', name) for name in ('delaunay', 'worked_cases')]
    program, cases = (os.path.realpath(path) for path in (sys.argv[1:] + built[len(sys.argv) - 1:])[:2])
    met = failed = 0
    with tempfile.TemporaryDirectory() as room:
        source, shim = os.path.join(room, 'shim.c'), os.path.join(room, 'shim.so')
        with open(source, 'w', encoding='utf-8') as file:
            file.write(SHIM)
        subprocess.run([os.environ.get('CC', 'cc'), '-O1', '-shared', '-fPIC', '-o', shim, source], check=True)
        for words, given in COMMANDS:
            refusals, wrong, _ = walk(program, words, given, shim)
            print(f'{" ".join(words)}: {refusals} refusals met, {wrong} wrong answers')
            met, failed = met + refusals, failed + wrong
        for line in lines_of(b'passes ') + lines_of(b'mesh 4;', b'='):
            refusals, wrong, whole = walk(cases, [], line, shim, ends_early)
            name = line.split(b';')[0].decode()
            print(f'{name}: {refusals} refusals met, {whole} with the whole output, {wrong} wrong answers')
            met, failed = met + refusals, failed + wrong
    print(f'{met - failed} passed, {failed} failed')
    return failed > 0 or met == 0


if __name__ == '__main__':
    sys.exit(main())
