"""Tries planted bugs: changes of a line or two of a crate that its proof must not let through.

    tools/try plants                    lists the crates that have planted bugs, and how many
    tools/try plants CRATE ..           tries those stored for these crates (tools/plain/plants/CRATE)
    tools/try plants FILE CRATE         tries those of a file; - is standard input

A planted bug is a paragraph: a line `name: WORD`, and lines `file:`, `old:`, `new:` as in a must-fail edit (docs of the
kit: the old text stands once in that file). Of each it tells in a line what came of it:

    clause    a clause or a definition refuses it
    text      only the words of a proof do, which name what is gone: this says nothing of the contract
    limit     only a limit of the prover does
    stays     it is proved all the same: a contract to strengthen, or a change that means the same
    bad       it cannot be applied or read

Those stored were must-fail edits once, and were refused; the gate tries fewer, since each costs it a check. The crate
is proved on a copy of the repository, over what earlier runs of the kit kept; so this takes minutes a crate. By hand.
The status is 1 where one stays or is bad.
"""
import os
import re
import shutil
import subprocess
import sys
import tempfile

TOP = os.path.dirname(os.path.dirname(os.path.dirname(os.path.realpath(__file__))))
STORED = os.path.join(TOP, 'tools/plain/plants')
VERDICTS = (('NOT REFUSED', 'stays'), ('BAD EDIT', 'bad'), ('NOT TRIED', 'not tried'),
            ('only because a proof file', 'text'), ('only by a limit', 'limit'), ('refused', 'clause'))


def planted(text):
    """The planted bugs of a text, by name: the lines of each as a must-fail edit has them."""
    bugs = {}
    for paragraph in re.split(r'\n[ \t]*\n', text.strip('\n')):
        head, _, lines = paragraph.partition('\n')
        name = re.fullmatch(r'name: ([\w.-]+)', head)
        if not name or name[1] in bugs:
            raise SystemExit(f'tools/try plants: {head!r}: a line `name: WORD` of its own was expected')
        bugs[name[1]] = lines + '\n'
    return bugs


def verdict_of(line):
    """What a line of the kit says came of an edit, in a word."""
    return next((word for sign, word in VERDICTS if sign in line), 'not told')


def tried(crate, bugs):
    """Tries the bugs in a crate; a dictionary of each bug's name to its verdict and what the kit told."""
    with tempfile.TemporaryDirectory() as room:
        for part in ('crates', 'crates.txt', 'HANDLES'):
            path = os.path.join(TOP, part)
            if os.path.isdir(path):
                shutil.copytree(path, os.path.join(room, part), ignore=shutil.ignore_patterns('out', 'must-fail'))
            else:
                shutil.copy(path, room)
        folder = os.path.join(room, 'crates', crate, 'must-fail')
        os.makedirs(folder)
        for name, lines in bugs.items():
            with open(os.path.join(folder, name + '.edit'), 'w', encoding='utf8') as file:
                file.write(lines)
        ran = subprocess.run(['rt', 'must-fail', crate], cwd=room, capture_output=True, text=True, check=False)
    told = {}
    for line in (ran.stdout + ran.stderr).splitlines():
        found = re.search(r'must-fail \w+/([\w.-]+)\.edit: (.*)', line)
        if found and found[1] in bugs:
            told[found[1]] = (verdict_of(found[2]), found[2])
    return {name: told.get(name, ('not tried', ran.stdout.strip().splitlines()[-1:])) for name in bugs}


def stored(crate):
    """The planted bugs that are stored for a crate."""
    path = os.path.join(STORED, crate)
    if not os.path.isfile(path):
        raise SystemExit(f'tools/try plants: no planted bugs of {crate}; of {" ".join(sorted(os.listdir(STORED)))}')
    with open(path, encoding='utf8') as file:
        return planted(file.read())


def read(path):
    if path == '-':
        return sys.stdin.read()
    with open(path, encoding='utf8') as file:
        return file.read()


def main(words):
    if not words:
        for crate in sorted(os.listdir(STORED)):
            print(f'{crate:16} {len(stored(crate))}')
        return 0
    of_file = len(words) == 2 and not os.path.isdir(os.path.join(TOP, 'crates', words[0]))
    each = {words[1]: planted(read(words[0]))} if of_file else {crate: stored(crate) for crate in words}
    let_through = 0
    for crate, bugs in each.items():
        for name, (verdict, told) in sorted(tried(crate, bugs).items()):
            let_through += verdict not in ('clause', 'text', 'limit')
            print(f'{verdict:9} {crate} {name}: {told}'[:240], flush=True)
    return 1 if let_through else 0


if __name__ == '__main__':
    sys.exit(main(sys.argv[1:]))
