"""Prints .github/CODEOWNERS: each group of crates.txt, by the comment above it, has a team; and what is no crate."""
import os

from plain import TOP

# The groups of crates.txt by a word of their comments, and the team of each; the last line that fits a path counts.
TEAMS = {'Whole numbers': 'predicates', 'Edits, files': 'files', 'laws of complexes': 'laws',
         'Cells by buckets': 'mesh', 'Threads.': 'threads', 'Faces, alpha': 'shapes', 'rows of numbers': 'bindings',
         'One crate': 'bindings', 'The program.': 'program', 'library for C': 'bindings',
         'Programs that show': 'program'}
OTHERS = [('*', 'maintainers'), ('/cases/', 'program'), ('/cases/promise-files', 'maintainers'),
          ('/tools/', 'tools'), ('/bench/', 'tools'), ('/python/', 'bindings')]
HEAD = """\
# Whose review a change asks for: crates by the groups of crates.txt, definitions and choices by all maintainers. The
# last line that fits a path counts. Made by `tools/make owners > .github/CODEOWNERS`; a team that the owner has not
# made yet is passed over.
"""


def groups():
    """The comment and the crates of each group of crates.txt."""
    found = []
    with open(os.path.join(TOP, 'crates.txt'), encoding='ascii') as file:
        for line in file.read().splitlines():
            if line.startswith('#'):
                found.append((line[2:], []))
            elif ':' in line:
                found[-1][1].append(line.split(':')[0].split()[0])
    return [(told, crates) for told, crates in found if crates]


def main():
    print(HEAD)
    print(''.join(f'{path:<30}  @hanskup/{team}\n' for path, team in OTHERS))
    for told, crates in groups():
        team = next(team for word, team in TEAMS.items() if word in told)
        print(f'# {told}\n' + ''.join(f'{f"/crates/{crate}/":<30}  @hanskup/{team}\n' for crate in crates))
    print(f'{"/crates/*/specs/":<30}  @hanskup/maintainers')


main()
