"""Makes crates/hanskup/CALLING.md: what the library's calls are for, a proved caller, and the contracts of the calls.

The table is that of the head of `hanskup`, the caller is the program `tour` word for word, and the contracts are quoted
from the crates that `hanskup` passes on. With --check nothing is written; status 1 where the stored page differs, or
where the sample in the head of `hanskup` has a statement that stands nowhere in the tour.
"""
import os
import re
import sys

from plain import TOP

HEAD = 'crates/hanskup/src/lib.rt'
TOUR = ['crates/tour/src/main.rt', 'crates/tour/src/threads.rt']
PAGE = 'crates/hanskup/CALLING.md'
PASSED_ON = re.compile(r'^pub use (\w+)::(?:\{([^}]*)\}|(\w+));', re.M)
BEGINNING = """\
# Calling `hanskup`

A crate that calls the library has a line in crates.txt, as `mine: hanskup`, and imports by name what it calls. All is
proved: where a call has a clause under `requires`, the caller shows it, mostly from the clause of the call that made
the value. Made by `tools/make calling`, and compared by `tools/cases`.

"""
CONTRACTS = """\
## Contracts

Quoted from `src/` of the crates that `hanskup` passes on. `x.old` is what `x` points to at the call, `x.new` at the
return; the words are defined in docs/WORDS.md and in `specs/`. Calls without clauses are left out.
"""


def read(path):
    with open(os.path.join(TOP, path), encoding='utf-8') as file:
        return file.read()


def head_lines():
    return [line[4:] for line in read(HEAD).splitlines() if line.startswith('//!')]


def sample():
    """The statements of the sample in the head, without the words behind them."""
    text = '\n'.join(head_lines())
    lines = text.split('```')[1].splitlines()
    return [statement for statement in (line.split(' //')[0].strip() for line in lines) if statement]


def program(path):
    """A file of the tour without its head and its ghost imports."""
    lines = [line for line in read(path).splitlines() if not line.startswith(('//!', '#![', 'ghost use '))]
    return '\n'.join(lines).strip('\n')


def sources(crate):
    folder = os.path.join(TOP, 'crates', crate, 'src')
    return [read(f'crates/{crate}/src/{name}') for name in sorted(os.listdir(folder)) if name.endswith('.rt')]


def contract(texts, name):
    """The signature of a public function with its clauses, or nothing where it has none."""
    for text in texts:
        found = re.search(rf'^pub fn {name}\b.*?(?=^\{{)', text, re.M | re.S)
        if found:
            lines = [line for line in found.group().splitlines() if line.strip() and not line.lstrip().startswith('//')]
            return '\n'.join(lines) if any(re.match(r'\s+(requires|ensures)', line) for line in lines) else ''
    return ''


def contracts():
    """The contracts of all functions that the crate passes on, by the crates that they stand in."""
    for crate, names, only in PASSED_ON.findall(read(HEAD)):
        texts = sources(crate)
        functions = [name for name in re.findall(r'\w+', names or only) if name[0].islower()]
        quoted = [quote for quote in (contract(texts, name) for name in functions) if quote]
        if quoted:
            yield f'\n### `{crate}`\n\n```text\n' + '\n\n'.join(quoted) + '\n```\n'


def page():
    table = '\n'.join(line for line in head_lines() if line.startswith('|'))
    caller = '\n\n'.join(f'```rust\n{program(path)}\n```' for path in TOUR)
    return f'{BEGINNING}{table}\n\n## A caller\n\n{caller}\n\n{CONTRACTS}' + ''.join(contracts())


def strangers():
    """The statements of the sample that the tour has not."""
    toured = ' '.join(' '.join(program(path).split()) for path in TOUR)
    return [statement for statement in sample() if ' '.join(statement.split()) not in toured]


def main():
    if sys.argv[1:] != ['--check']:
        with open(os.path.join(TOP, PAGE), 'w', encoding='utf-8') as file:
            file.write(page())
        return
    wrong = [f'not in the tour: {statement}' for statement in strangers()]
    if read(PAGE) != page():
        wrong.append(f'tools/make calling: {PAGE} is not what the sources give')
    print('\n'.join(wrong) or f'{PAGE} is that of the sources')
    sys.exit(1 if wrong else 0)


if __name__ == '__main__':
    main()
