"""Lists the files of definitions that the promise of the top call rests on, lowest first, with their numbers of lines.

It begins with what the contract of `run` and the laws of its end cite, and follows the imports of each file. Types that
the compiler declares from the sources, and the words of the standard library, are left out.
"""
import os
import re

PROMISES = ['crates/delaunay_cli/src/top.rt', 'crates/command_ends/src/laws.rt']
TOP = os.path.join(os.path.dirname(os.path.realpath(__file__)), '../..')
CITED = re.compile(r'^\s*(?:ghost |pub )?use Rattle\.(\w+)\.specs\.([\w.]+?)(?:\.\{| as |$)')
IMPORT = re.compile(r'^(?:pub )?use [^{\n]*(?:\{[^}]*\})?.*\n', re.M)


def cited_in(path):
    """The files of definitions that a file imports from."""
    with open(path, encoding='utf-8') as file:
        for line in file:
            found = CITED.match(line)
            if found and found.group(1) != 'std' and not found.group(2).startswith('declared'):
                yield os.path.join('crates', found.group(1), 'specs', *found.group(2).split('.')) + '.antt'


def gather(path, files):
    for cited in cited_in(os.path.join(TOP, path)):
        if cited not in files and os.path.exists(os.path.join(TOP, cited)):
            files[cited] = None
            gather(cited, files)
            del files[cited]
            files[cited] = None


def main():
    files = {}
    for path in PROMISES:
        gather(path, files)
    total = 0
    for path in files:
        with open(os.path.join(TOP, path), encoding='utf-8') as file:
            lines = IMPORT.sub('', file.read()).split('\n')
        count = sum(1 for line in lines if line)
        total += count
        print(f'{count:5} {path}')
    print(f'{total:5} lines in {len(files)} files, imports and empty lines left out')


main()
