"""The tables of docs/SPEED.md and of the first page: which rows of which tables they have, and in which words."""
import json
import os
import re
import sys
import time
from typing import NamedTuple

from figure_runs import TOP, processors, sum_of

COLUMNS = {'threads': (1, 3, 5, 6), 'python': (1, 3, 4), 'near': (0, 1, 2, 4), 'page': (1, 3, 4, 6)}
OTHERS = (1, 2, 3, 4)
BESIDE = '| {} | program | CGAL | program / CGAL | peak memory: program, CGAL |'


class Row(NamedTuple):
    """A row of a document: its words, the table that it is from, and how the row begins there; None: its last one."""
    told: str
    table: str
    row: str | None


CLOUD_BY_WORKERS, EDITS_BY_WORKERS = 'A cloud by several workers', 'Edits by several workers'
CLOUDS_BY_WORKERS = {
    'spread-262144': '262,144 drawn points', 'terrain-262144': 'as many on hills',
    'sphere-250000': '250,000 on a sphere', 'torus-250000': '250,000 on a torus'}
# Of each section of docs/SPEED.md the head of its table and its rows.
SPEED = {
    'A cloud': (BESIDE.format('cloud'), [
        Row('10,000 drawn points', 'cloud', 'spread-10000'),
        Row('65,536 drawn points', 'cloud', 'spread-65536'),
        Row('262,144 drawn points', 'cloud', 'spread-262144'),
        Row('the lattice of 40 x 40 x 40 points', 'cloud', 'lattice-40'),
        Row('64,000 points on a sphere', 'cloud', 'sphere-64000'),
        Row('65,536 points on a torus', 'cloud', 'torus-65536')]),
    CLOUD_BY_WORKERS: ('| cloud | 1, 2, 4 workers | 2, 4 / 1 | 1, 2, 4 / CGAL by as many threads '
                       '| peak memory of 4: program, CGAL |', []),
    'Edits': (BESIDE.format('file'), [
        Row('65,536 drawn edits, every fourth a take', 'mesh', 'drawn-65536'),
        Row('262,140 of these', 'mesh', 'drawn-262140'),
        Row('10,000 drawn points, and every other one taken', 'mesh', 'spread-10000-half-taken'),
        Row('60,000 points, and 5,000 edits', 'mesh', 'edited-60000'),
        Row('a far point added and taken 20 times over 1,000 on a sphere', 'mesh', 'far-point-1000')]),
    EDITS_BY_WORKERS: (
        '| grid | one worker, by the clock | 2, 4, 8 workers / one | one, 2, 4, 8 workers / CGAL |', []),
    'After the mesh': (BESIDE.format('command'), [
        Row('`shape` for 3 radii (`bench/shape`)', 'shape', '3'),
        Row('`shape` for 16 radii', 'shape', '16'),
        Row('`steps`, beside the alpha spectrum in floating point (`bench/steps`)', 'steps', 'double'),
        Row('`steps`, beside its exact comparison', 'steps', 'exact'),
        Row('`parts --most 1`, beside its optimal alpha (`bench/steps --parts`)', 'parts', 'parts'),
        Row('`near`, 65,536 drawn queries, beside `nearest_vertex` (`bench/near`)', 'near', None),
        Row('`check`, whole, beside `is_valid` without reading (`bench/check`)', 'check', 'good'),
        Row('`check` of the same without one cell', 'check', 'without a cell')]),
    'From Python': ('| call | package | peer | package / peer |', [
        Row("simplices and neighbours of 100,000 points, beside scipy's Delaunay", 'python',
            'delaunay, simplices, neighbors'),
        Row("`find_simplex` of 100,000 places in these, beside scipy's", 'python', 'find_simplex'),
        Row('`transform`', 'python', 'transform'),
        Row('linear interpolation there, beside `LinearNDInterpolator`', 'python', 'interpolate'),
        Row('`voronoi`, with the mesh', 'python', 'delaunay, voronoi'),
        Row('`vertex_neighbor_vertices`', 'python', 'vertex_neighbor_vertices'),
        Row('100,000 nearest points, beside `cKDTree.query`', 'python', 'nearest'),
        Row('the same, mesh or tree included', 'python', 'the first nearest, of all'),
        Row("their filtration, with the mesh (`faces=True`), beside GUDHI's AlphaComplex", 'python',
            'delaunay, filtration')]),
    'Pages': ("| page: here, plotly's | size | shown after | frames a second, turned | of the slider |", [
        Row(f'{count:,} points on a {kind}', 'page', f'{kind}-{count}')
        for kind, count in (('ring', 3000), ('ring', 100000))] + [
        Row('100,000 points in a cube', 'page', 'cube-100000')]),
    'Instructions': ('| by callgrind | instructions |', [
        Row('an edit of 1,000 to 3,000 drawn ones', 'instructions', 'edit'),
        Row('a point of a cloud of 4,000 to 12,000', 'instructions', 'point'),
        Row('a face of `steps`', 'instructions', 'face')])}
FIRST_PAGE = [
    Row("262,144 random points, 4 threads, by the clock, beside CGAL's Parallel_tag", 'threads', 'spread-262144 by 4'),
    Row("the same with one thread, beside CGAL's insertion of a range", 'cloud', 'spread-262144'),
    Row('65,536 random edits, a quarter of them deletions, beside CGAL edit by edit', 'mesh', 'drawn-65536'),
    Row("the full alpha filtration, after triangulating, beside CGAL's alpha spectrum", 'steps', 'double'),
    Row("alpha shapes at three radii, after triangulating, beside CGAL's", 'shape', '3'),
    Row("from Python, 100,000 points with neighbors, beside scipy's Delaunay (Qhull)", 'python',
        'delaunay, simplices, neighbors'),
    Row("from Python, the filtration of 100,000 points, beside GUDHI's AlphaComplex", 'python', 'delaunay, filtration'),
]
UNPROVED = 'an unproved build, some twentieth slower than a proved one'
HEAD_OF_FIRST = '| task: CPU seconds, best of {}, {} | here | peer | here / peer |'


def cell_of(table, place, cell):
    """A cell as the documents have it: seconds with their unit, ratios without a leading 0."""
    if table.startswith('python') and place in (1, 3):
        return f'{cell} s'
    return cell[1:] if re.fullmatch(r'0\.\d+', cell) else cell


def cells_of(made, row):
    """The cells of a row of a document behind its words, or None where its table was not made."""
    if row.table == 'instructions':
        with open(os.path.join(TOP, 'bench/instructions.json'), encoding='ascii') as file:
            return [f'{json.load(file)[row.row]:,}']
    found = made[row.table].row(row.row) if row.table in made else None
    if found is None:
        return None
    cells = [cell_of(row.table, place, found[place]) for place in COLUMNS.get(row.table, OTHERS)]
    return beside_plotly(cells, made['page'].row(f'{row.row}, plotly')) if row.table == 'page' else cells


def beside_plotly(cells, peer):
    """The cells of a page with those of plotly's page of the same behind each, where there is one."""
    if peer is None:
        return cells
    peers = [peer[place] for place in COLUMNS['page']]
    return [f'{cell.split()[0]}, {other}' for cell, other in zip(cells, peers)]


def table_of(head, rows):
    """A table of Markdown of its head and of rows of cells."""
    line = '|---' * (head.count('|') - 1) + '|'
    return '\n'.join([head, line, *(f'| {" | ".join(row)} |' for row in rows)])


def rows_of(made, section):
    """The rows of a section that were made, each its cells."""
    if section == EDITS_BY_WORKERS:
        return rows_by_grid(made['workers'].rows()) if 'workers' in made else []
    if section == CLOUD_BY_WORKERS:
        return rows_by_cloud(made['threads'].rows()) if 'threads' in made else []
    found = [(row, cells_of(made, row)) for row in SPEED[section][1]]
    return [[row.told, *cells] for row, cells in found if cells]


def rows_by_grid(rows):
    """Of the rows of `bench/mesh --workers`, one for each grid and number of workers, a row for each grid."""
    grids = {}
    for row in rows:
        grids.setdefault(row[1], []).append([cell_of('workers', 0, cell) for cell in row])
    return [[grid, of[0][3], ', '.join(row[4] for row in of[1:]), ', '.join(row[5] for row in of)]
            for grid, of in grids.items()]


def rows_by_cloud(rows):
    """Of the rows of `bench/cloud --workers`, one for each cloud and number of workers, a row for each cloud."""
    clouds = {}
    for row in rows:
        clouds.setdefault(row[0].split(' by ')[0], []).append([cell_of('threads', 0, cell) for cell in row])
    return [[CLOUDS_BY_WORKERS.get(name, name), ', '.join(row[1].removesuffix(' s') for row in of) + ' s',
             ', '.join(row[2] for row in of[1:]), ', '.join(row[5] for row in of), of[-1][6]]
            for name, of in clouds.items()]


def speed_page(made):
    """The tables of docs/SPEED.md, each behind its heading."""
    return [f'## {section}\n\n{table_of(head, rows_of(made, section))}' for section, (head, _) in SPEED.items()]


def first_page(made, words):
    """The table of the first page."""
    rows = [(row, cells_of(made, row)) for row in FIRST_PAGE]
    return table_of(HEAD_OF_FIRST.format(words.runs, 'the proved program' if is_proved(words) else 'an unproved build'),
                    [[row.told, *cells[:3]] for row, cells in rows if cells])


def is_proved(words):
    """Whether the program is one that ./delaunay has built and recorded, or said to be a proved one."""
    try:
        with open(f'{words.program}.proved', encoding='utf-8') as file:
            recorded = dict(line.split(' ', 1) for line in file.read().splitlines())
    except FileNotFoundError:
        return words.proved
    return words.proved or recorded.get('built', '').startswith(sum_of(words.program))


def conditions(made, words):
    """What stands in front of the tables: days, program, processor, load."""
    days = sorted({one.day for one in made.values()})
    loads = [load for one in made.values() for load in one.load]
    day = ' to '.join(time.strftime('%-d %B %Y', time.strptime(day, '%Y-%m-%d'))
                      for day in dict.fromkeys((days[0], days[-1])))
    what = 'the proved program' if is_proved(words) else UNPROVED
    load = f'a load of {min(loads):.0f} to {max(loads):.0f}, its own included'
    return f'Made on {day}, of {what}, with {processors()} and {load}.'


def put(text, section, table):
    """A document whose section has this table in place of its first one, or at its end."""
    head = f'\n## {section}\n'
    before, found, rest = text.partition(head)
    if not found:
        sys.exit(f'bench/figures: there is no section {section}')
    body, mark, behind = rest.partition('\n## ')
    old = re.search(r'(?:^\|.*\n?)+', body, re.M)
    table = f'{table}\n' if table else ''
    if old:
        body = body[:old.start()] + table + body[old.end():]
    elif table:
        body = body.rstrip('\n') + f'\n\n{table}'
    return before + head + body + mark + behind


def pages_of(made, words):
    """Writes the tables into docs/SPEED.md and README.md; all that must be there is to be made."""
    wanting = sorted({row.table for _, rows in SPEED.values() for row in rows
                      if row.table not in made and row.table != 'instructions'})
    if wanting:
        sys.exit(f'bench/figures: nothing is written without {", ".join(wanting)}')
    speed, readme = (os.path.join(words.into, name) for name in ('docs/SPEED.md', 'README.md'))
    with open(speed, encoding='utf-8') as file:
        text = file.read()
    for section, (head, _) in SPEED.items():
        rows = rows_of(made, section)
        text = put(text, section, table_of(head, rows) if rows else '')
    text = re.sub(r'^Made on .*?(?=\n\n)', lambda _: folded(conditions(made, words)), text, flags=re.S | re.M)
    with open(readme, encoding='utf-8') as file:
        first = put(file.read(), 'Speed', first_page(made, words))
    for name, whole in ((speed, text), (readme, first)):
        with open(name, 'w', encoding='utf-8') as file:
            file.write(whole)
        print(f'{name} is written')


def folded(text, wide=119):
    """A paragraph in lines of at most so many columns."""
    lines = ['']
    for word in text.split(' '):
        if lines[-1] and len(lines[-1]) + len(word) >= wide:
            lines.append('')
        lines[-1] += (' ' if lines[-1] else '') + word
    return '\n'.join(lines)
