"""Cases of what tools/points tells of a cloud: points that fall together, far points, flat clouds; and what helps."""
from tool_cases import expect
from tool_cases.given import bad, grid_of, xyz

CLOUD = ''.join(f'{i % 10} {i // 10 % 10} {i // 100}\n' for i in range(1000))


def told(what, lines, *words, said=(), unsaid=()):
    status, out, err = xyz(lines, *words)
    expect(f'{what}: {status}, {err!r}', status == 0 and 'RuntimeWarning' not in err and
           all(word in err for word in said) and not any(word in err for word in unsaid))
    return out


def far_points():
    told('nothing is warned of', CLOUD, said=('0 given again, 0 fell together',), unsaid=('warning',))
    far = CLOUD + '1e6 0 0\n'
    told('far points are warned of', far, said=('% of the points fell', '--drop-outliers', '--box'))
    for words in (('--drop-outliers',), ('--drop-outliers', '20'), ('--box', '0', '0', '0', '9', '9', '9')):
        out = told(f'{words} helps', far, *words, said=('1 of 1001 points are left out',), unsaid=('warning',))
        expect(f'{words}: the other points are there', len(grid_of(out)) == 1000)


def given_again():
    """Points that are given three times are no loss; two that fall together on the grid are, where they are many."""
    told('points that are given three times', CLOUD * 3, said=('2000 given again, 0 fell together',),
         unsaid=('warning',))
    near = CLOUD + ''.join(f'{i / 1e6} 0 0\n' for i in range(1, 101))
    told('points that fall together', near, said=('0 given again, 100 fell together', '9.09 % of the points fell',
                                                  'the grid has 14 bits', '--box'), unsaid=('--drop-outliers',))
    told('one point ten times', '1 1 1\n' * 10, said=('9 given again', 'at least four'), unsaid=('%',))
    told('five points of a plane', '0 0 0\n1 0 0\n0 1 0\n1 1 0\n2 3 0\n', said=('one plane',))


def flat():
    """A terrain of 10 km by 10 km by 5 m: nothing is far, and the grid has steps of 0.61 m."""
    lines = ''.join(f'{i % 40 * 256.41} {i // 40 * 256.41} {(i * 7 % 11) * .5}\n' for i in range(1600))
    told('a flat terrain', lines, said=('warning: z is rounded by up to 0.279 of its 5', 'the grid has 14 bits',
                                        '--box'), unsaid=('--drop-outliers', 'degrees', '--scale'))
    lines = ''.join(f'{700 + i % 40 * 250} {i // 40 * 250} {i * 7 % 11}\n' for i in range(1600))
    told('a terrain by metres', lines, said=('warning: z is rounded by', '--scale 1 --origin 700 0 0'))
    told('and by its unit', lines, '--scale', '1', '--origin', '700', '0', '0', said=('greatest rounding 0 of',),
         unsaid=('warning',))
    lines = ''.join(f'{7.1 + i % 40 * .002:.4f} {46.1 + i // 40 * .002:.4f} {400 + i * 7 % 500}\n' for i in range(1600))
    told('degrees beside metres', lines, said=('warning: x is rounded', 'are x and y degrees', 'pyproj'))


def not_finite():
    told('points that are none are left out', '0 0 0\nnan 0 0\n1 1 1\n', '--drop-nan', said=('1 of 3',))
    bad('a cloud that is too small for its numbers', (), 'take another unit', '1e-310 0 0\n0 0 0\n0 1e-310 0\n')
    bad('a cloud that is too wide for its numbers', (), 'take another unit', '1e308 0 0\n-1e308 0 0\n0 1e308 0\n')
    told('a small cloud', '1e-300 0 0\n0 0 0\n0 1e-300 0\n0 0 1e-300\n', unsaid=('warning',))
    bad('places past all numbers', ('--scale', '1e300', '--origin', '0', '0', '0'), 'point 2 comes outside',
        '0 0 0\n1e300 0 0\n')


def left_out():
    bad('a box that leaves nothing', ('--box', '5', '5', '5', '6', '6', '6'), 'no points are left')
    bad('a box inside out', ('--box', '5', '5', '5', '4', '6', '6'), '--box')
    bad('outliers that are nearer than the middle', ('--drop-outliers', '.5'), '--drop-outliers')
    out = told('one point in each cube of an edge of 2', CLOUD, '--thin', '2')
    places = {tuple(x // 2 for x in point) for point in grid_by(out, 8)}
    expect('they are the first of each, in their order', len(grid_of(out)) == 125 == len(places) and
           sorted(grid_by(out, 8), key=lambda p: p[::-1]) == grid_by(out, 8) and
           all(x % 2 == 0 for point in grid_by(out, 8) for x in point))
    out = told('the first of two in a cube', '0 0 0\n9 0 0\n1 1 1\n9 9 9\n0 9 0\n', '--thin', '3')
    first = ['0 0 0', '16383 0 0', '16383 16383 16383', '0 16383 0']
    expect('it is the one that is given first', grid_of(out) == first)
    for length in ('0', '-1', 'nan', 'inf'):
        bad(f'--thin {length}', ('--thin', length), '--thin is a length')
    bad('too many points', (), '--every 2, --thin LENGTH', '1 2 3\n' * 262145)
    bad('too many points, and the package', (), 'Python package', '1 2 3\n' * 262145)


def grid_by(out, wide):
    """The points of an edit file in units of the cloud, which is so many wide."""
    return [[round(int(word) * wide / 16383) for word in line.split()] for line in grid_of(out)]


def run():
    far_points()
    given_again()
    flat()
    not_finite()
    left_out()
