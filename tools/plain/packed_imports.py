"""Packs the imports of code, definitions and proofs.

    tools/make imports [FOLDER ..]      (without one: crates)

Lists of names of one module that stand one behind another, or with one name a line, become as few lines as fit 120
columns, each a whole import of its own; `rt fmt` keeps these. A file whose imports stand so already stays as it is. The
last line tells how many lines went.
"""
import glob
import os
import re
import sys

COLUMNS = 120
ONE = r'[ \t]*(?:pub |unfoldable |ghost )*use\s+[^\s{;]+?\.\{[^}]*\};?[ \t]*\n'
RUN = re.compile(rf'(?:^{ONE})+', re.M)
IMPORT = re.compile(r'([ \t]*(?:pub |unfoldable |ghost )*use\s+[^\s{;]+?\.\{)([^}]*)\}(;?)[ \t]*\n')


def packed(head, names, end):
    """The imports of a module's names as lines that fit."""
    lines, line = [], ''
    for name in names:
        longer = f'{line}, {name}' if line else name
        if line and len(f'{head}{longer}}}{end}') > COLUMNS:
            lines.append(line)
            longer = name
        line = longer
    return ''.join(f'{head}{each}}}{end}\n' for each in [*lines, line])


def packed_run(run):
    """Imports that stand one behind another, those of one module that are neighbours put together."""
    groups = []
    for head, names, end in IMPORT.findall(run.group()):
        listed = list(filter(None, map(str.strip, names.split(','))))
        if groups and groups[-1][0] == head:
            groups[-1][1].extend(listed)
        else:
            groups.append((head, listed, end))
    return ''.join(packed(*group) for group in groups)


def main(folders):
    fewer = 0
    for path in (path for folder in folders for path in glob.glob(folder + '/**/*', recursive=True)):
        if not path.endswith(('.antt', '.rt')) or f'{os.sep}out{os.sep}' in path:
            continue
        with open(path, encoding='utf8') as file:
            text = file.read()
        new = RUN.sub(packed_run, text)
        if new != text:
            fewer += text.count('\n') - new.count('\n')
            with open(path, 'w', encoding='utf8') as file:
                file.write(new)
    print(f'{fewer} lines fewer')


if __name__ == '__main__':
    main(sys.argv[1:] or ['crates'])
