"""Programs over the definitions: they make what is stored, try what is built, and measure, behind the doors of tools/.

A door is a command of tools/ with a table of names; what stands behind a name is a module of this package, or a program
elsewhere in the repository, told by its path.
"""
import os
import runpy
import sys

TOP = os.path.realpath(os.path.join(os.path.dirname(os.path.realpath(__file__)), '../..'))


def open_door(told, table):
    """Runs what the first word names, with the other words; without a word the names are listed.

    `table` has for each name what stands behind it, and words of its own behind a path, and what that does, in a line.
    """
    door, names = os.path.basename(sys.argv[0]), sys.argv[1:]
    if not names or names[0] not in table:
        wide, asked = max(map(len, table)), names[:1] in ([], ['-h'], ['--help'])
        lines = [f'    {name:{wide}}  {what}' for name, (_, what) in table.items()]
        text = '\n'.join([told, '', f'usage: tools/{door} NAME [WORDS]', '', *lines])
        print(text, file=sys.stdout if asked else sys.stderr)
        sys.exit(0 if asked else 2)
    behind = table[names[0]][0]
    if '/' in behind:
        path, *first = behind.split()
        os.execv(os.path.join(TOP, path), [path, *first, *names[1:]])
    sys.argv = [f'tools/{door} {names[0]}', *names[1:]]
    runpy.run_module(f'plain.{behind}', run_name='__main__')
