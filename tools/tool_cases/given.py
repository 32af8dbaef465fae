"""The five points that cases of tools/points give, and how a run of the tool is judged."""
from tool_cases import expect, refused, tool

# Five points whose places on the grid follow by hand: the factor is 16383 / 3.2, and .2 of 3.2 comes to 1023.9 there.
POINTS = [[0, 0, 0], [1.6, 0, 0], [0, 2.4, 0], [0, 0, 3.2], [0.2, 0.4, 0.8]]
GRID = ['0 0 0', '8192 0 0', '0 12287 0', '0 0 16383', '1024 2048 4096']


def grid_of(out):
    """The point lines of an edit file."""
    lines = out.decode().split('\n')
    return lines[2:lines.index('edits')] if 'edits' in lines else lines


def taken(what, name, *words, given=b'', points=GRID, said=''):
    status, out, err = tool('points', name, *words, given=given)
    expect(f'{what}: status {status}, {grid_of(out)}, {err!r}', status == 0 and grid_of(out) == points and said in err)


def xyz(lines, *words):
    """Runs tools/points on a text: its status, output and errors."""
    return tool('points', '--format', 'xyz', *words, given=lines.encode())


def bad(what, words, said, lines='1 1 1\n'):
    refused(what, 'points', '--format', 'xyz', *words, given=lines.encode(), said=said)


def rows(form, head=''):
    """The five points as a text, each by a form of str.format."""
    return head + ''.join(form.format(*point, i=i) + '\n' for i, point in enumerate(POINTS))
