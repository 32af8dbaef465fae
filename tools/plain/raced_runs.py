"""Runs programs under ThreadSanitizer: every load and store of theirs is watched while threads edit one mesh.

    tools/try raced [FILES] [SEED]      (12 1)

They are built without proof, and all their functions are watched, but not the kit's two libraries in C nor what its
own compiler makes of the proved program. Each file is one of `tools/try threads`, whose edits meet where buckets do,
half of them with many moves, by 2, 3, 8 and 64 workers; and each command is run on a file of examples/. A run is right
where no race is reported and its bytes are those of a run that the plain program judges, or of one worker.

No command takes a snapshot: so `worked_cases` is run too, on its scenes of four threads of a caller that edit one mesh
by passes of their own, and of a fifth that calls `try_snapshot` meanwhile. Its answers are those of the plain program.

Then both lie: the order of the claim (a compare-exchange), and that of the release (a store), are taken away, and races
must be reported. What is found only by these two orders is found. Needs gcc with libtsan; the builds take 8 minutes on
a quiet machine. The last line is 'N passed, M failed'. By hand, not part of the gate.
"""
import os
import random
import re
import subprocess
import sys
import tempfile

from plain import TOP, random_cases, stress_threads, table_scenes
from plain.program_module import compiled, kit_libraries, module_of

OPTIONS = 'exitcode=66 history_size=4'
# LLVM calls these where libtsan of gcc has the plain names alone, which it watches.
PLAIN_NAMES = r'''
#include <string.h>
void *__tsan_memcpy(void *a, const void *b, size_t n) { return memcpy(a, b, n); }
void *__tsan_memmove(void *a, const void *b, size_t n) { return memmove(a, b, n); }
void *__tsan_memset(void *a, int b, size_t n) { return memset(a, b, n); }
'''
# Takes the order of the atomic steps away whose letters RELAX has: c of compare-exchanges, s of stores.
RELAXED = r'''
#include <stdlib.h>
#include <string.h>
typedef long word;
static int is_relaxed(char kind) { const char *all = getenv("RELAX"); return all && strchr(all, kind); }
word __real___tsan_atomic64_compare_exchange_val(volatile word *, word, word, int, int);
word __wrap___tsan_atomic64_compare_exchange_val(volatile word *at, word old, word new, int yes, int no) {
    int none = is_relaxed('c');
    return __real___tsan_atomic64_compare_exchange_val(at, old, new, none ? 0 : yes, none ? 0 : no);
}
void __real___tsan_atomic64_store(volatile word *, word, int);
void __wrap___tsan_atomic64_store(volatile word *at, word new, int order) {
    __real___tsan_atomic64_store(at, new, is_relaxed('s') ? 0 : order);
}
'''
WRAPPED = ('compare_exchange_val', 'store')


def built(room, crate):
    """Builds the watched program of a crate in a room, and the one that can lie; their paths."""
    room = os.path.join(room, crate)
    os.makedirs(room)
    text = module_of(TOP, room, crate)
    text = re.sub(r'^(attributes #\d+ = \{ )(nounwind "frame-pointer")', r'\1sanitize_thread \2', text, flags=re.M)
    text = text.replace(' "probe-stack"="inline-asm"', '')
    made = compiled(text, room, '-O1', '-fsanitize=thread')
    for name, source in (('names', PLAIN_NAMES), ('relaxed', RELAXED)):
        with open(f'{room}/{name}.c', 'w', encoding='utf8') as file:
            file.write(source)
        subprocess.run(['gcc', '-O1', '-fno-builtin', '-c', f'{room}/{name}.c', '-o', f'{room}/{name}.o'], check=True)
    link = ['gcc', '-fsanitize=thread', '-pie', made, f'{room}/names.o']
    last = [*kit_libraries(), '-Wl,--gc-sections']
    subprocess.run([*link, *last, '-o', f'{room}/watched'], check=True)
    wraps = [f'-Wl,--wrap=__tsan_atomic64_{name}' for name in WRAPPED]
    subprocess.run([*link, f'{room}/relaxed.o', *last, *wraps, '-o', f'{room}/lying'], check=True)
    return f'{room}/watched', f'{room}/lying'


def ran(program, words, text, relax=''):
    """What the program wrote, and how many races were reported."""
    done = subprocess.run([program, *words], input=text, capture_output=True, text=True, check=False,
                          env={**os.environ, 'TSAN_OPTIONS': OPTIONS, 'RELAX': relax})
    return done, done.stderr.count('WARNING: ThreadSanitizer')


def contended(count, seed):
    """Files whose edits meet, each with its grid."""
    random.seed(seed)
    for number in range(count):
        grid = random.choice((2, 4, 8))
        yield (stress_threads.file_of_moves if number % 2 else stress_threads.drawn_file)(grid), grid


def tries(watched, count, seed):
    """Whether each run of contended files, and of the commands, is right, with what it is of."""
    for number, (file, grid) in enumerate(contended(count, seed)):
        points, edits, *_ = file
        for workers in (2, 3, 8, 64):
            words = ['mesh', '--order', '--workers', str(workers), '--grid', str(grid)]
            done, races = ran(watched, words, random_cases.text_of(*file))
            order = random_cases.order_told(done.stdout) if done.returncode == 0 else []
            right = done.returncode == 0 and random_cases.keeps(points, edits, order) and \
                done.stdout == random_cases.report(points, edits, [], order)
            yield right and races == 0, f'file {number} by {workers} workers: {races} races'
    with open(os.path.join(TOP, 'examples/cube.mesh3'), encoding='utf8') as file:
        cube = file.read()
    for command in ('mesh', 'shape', 'steps', 'parts'):
        alone, _ = ran(watched, [command], cube)
        for workers in (2, 8, 64):
            done, races = ran(watched, [command, '--workers', str(workers)], cube)
            yield races == 0 and done.stdout == alone.stdout and done.returncode == 0, \
                f'{command} by {workers} workers: {races} races'


def snapshots():
    """Scenes in which threads of a caller edit one mesh and another takes snapshots of it, each with its answer."""
    scenes = (tuple(scene) for _, scene in table_scenes.all_scenes())
    return [(asked, told) for asked, told in scenes if asked.startswith('beside')]


def looks(watched):
    """Whether each of these scenes is answered right, with what it is of."""
    for number, (asked, told) in enumerate(snapshots()):
        done, races = ran(watched, [], asked + '\n')
        yield races == 0 and done.returncode == 0 and done.stdout == told + '\n', f'snapshots {number}: {races} races'


def lies(lying, what, runs):
    """Whether races are reported in some runs, each its words and its text, where an order is taken away."""
    for kind, order in (('c', 'the claim'), ('s', 'the release')):
        races = sum(ran(lying, *run, kind)[1] for run in runs)
        yield races > 0, f'{what} without the order of {order}: {races} races'


def main(words):
    count, seed = (int(word) for word in (*words, *('12', '1')[len(words):]))
    passed = failed = 0
    with tempfile.TemporaryDirectory() as room:
        watched, lying = built(room, 'delaunay')
        edits = [(['mesh', '--workers', '8', '--grid', str(grid)], random_cases.text_of(*file))
                 for file, grid in contended(2, seed)]
        cases, lying_cases = built(room, 'worked_cases')
        scenes = [([], asked + '\n') for asked, _ in snapshots()[1:3]]
        for right, what in (*tries(watched, count, seed), *lies(lying, 'edits', edits),
                            *looks(cases), *lies(lying_cases, 'snapshots', scenes)):
            passed, failed = passed + right, failed + (not right)
            print('ok' if right else 'WRONG', what, flush=True)
    print(f'{passed} passed, {failed} failed')
    return 1 if failed else 0


if __name__ == '__main__':
    sys.exit(main(sys.argv[1:]))
