"""Gives the built program inputs that are long and hard, and looks at its status, its line, its time and its memory.

Each is to be answered with its status and line, within ten seconds of processor time and 200 MB. The last line is 'N
passed, M failed'.

usage: tools/try long [PROGRAM]
"""
import os
import resource
import subprocess
import sys

TOP = os.path.join(os.path.dirname(os.path.realpath(__file__)), '../..')
LIMIT = 16 * 1024 * 1024
HEAD, EMPTY = b'mesh3 1\npoints\n', b'mesh3 1\npoints\nedits\nradii\n'
REST = b'0 0 1\n0 1 0\n1 0 0\nedits\nradii\nend\n'
LONG = 100000

INPUTS = [
    ('the limit without a line feed', b'0' * LIMIT, 5, b'line 1: Section'),
    ('one byte past the limit', b'0' * (LIMIT + 1), 7, b'input too long'),
    ('one line of spaces', HEAD + b' ' * (LIMIT - len(HEAD)), 5, b'line 3: Field'),
    ('a number of nines', HEAD + b'9' * LONG + b' 0 0\n' + REST, 5, b'line 3: Range'),
    ('a number of zeros', HEAD + b'0' * LONG + b' 0 0\n' + REST, 0, None),
    ('a negative number of nines', HEAD + b'-' + b'9' * LONG + b' 0 0\n' + REST, 5, b'line 3: Range'),
    ('a radius of nines', EMPTY + b'9' * LONG + b'\nend\n', 5, b'line 5: Range'),
    ('a million empty lines', b'\n' * 1000000, 5, b'line 1: Section'),
    ('a million empty lines behind the end', EMPTY + b'end\n' + b'\n' * 1000000, 5, b'line 6: Section'),
    ('a line more than there may be', HEAD + b'0 0 0\n' * 262145, 5, b'line 262147: TooMany'),
    ('twenty thousand equal points', HEAD + b'0 0 0\n' * 20000 + REST, 0, None),
    ('one place 262144 times', HEAD + b'7 7 7\n' * 262144 + b'edits\nradii\nend\n', 6, b'no four independent points'),
    ('every byte', bytes(range(256)) * 1000, 5, b'line 1: Section'),
]


def main():
    program = os.path.realpath(sys.argv[1] if len(sys.argv) > 1 else os.path.join(TOP, 'crates/delaunay/out/delaunay'))
    failed = 0
    for name, given, status, line in INPUTS:
        done = subprocess.run(
            ['sh', '-c', 'exec "$@"', '', program, 'mesh'], input=given, capture_output=True, check=False, timeout=300,
            preexec_fn=lambda: (resource.setrlimit(resource.RLIMIT_CPU, (10, 10)),
                                resource.setrlimit(resource.RLIMIT_AS, (1 << 30,) * 2)))
        told = b'' if line is None else b'delaunay: ' + line + b'\n'
        right = done.returncode == status and done.stderr == told and (status == 0) == (done.stdout != b'')
        if not right:
            failed += 1
            print(f'{name}: status {done.returncode}, {done.stderr[:100]!r}, {len(done.stdout)} bytes')
    peak = resource.getrusage(resource.RUSAGE_CHILDREN).ru_maxrss // 1024
    print(f'peak memory of the greatest {peak} MB')
    if peak > 200:
        failed += 1
    print(f'{len(INPUTS) - failed} passed, {failed} failed')
    return failed > 0


if __name__ == '__main__':
    sys.exit(main())
