"""A page for a browser: what is drawn of all radii, packed into one file, whose script needs nothing from outside.

The parts of the page stand in the folder `page` beside this file.
"""
import html
import json
import os

import numpy as np
from mesh3.drawn import extent_of, first_stop, steady
from mesh3.packing import Pack

PARTS = os.path.join(os.path.dirname(os.path.realpath(__file__)), 'page')
SCRIPTS = ('world', 'axis', 'bars', 'view', 'coarse', 'scene', 'picking', 'controls', 'page')
VIEW = (-1.05, 0.62)  # azimuth and elevation in radians
LEGENDS = ('surface of the solid', 'loose: bounds no tetrahedron')


def part(name):
    """A part of the page, without what is for its readers here: comments that are lines of their own, and indents."""
    with open(os.path.join(PARTS, name), encoding='utf-8') as file:
        lines = [line.strip() for line in file]
    return '\n'.join(line for line in lines if line and not line.startswith('// ')) + '\n'


def put_faces(pack, name, faces, stops, lives, turned=None):
    """Columns of faces: stops as differences, corners as differences, of triangles with the bit that turns them."""
    kinds = ('stop', 'some', 'all') if stops.shape[1] == 3 else ('stop', 'all')
    for i, kind in enumerate(kinds):
        column = stops[:, i] - stops[:, i - 1] if i else stops[:, 0]
        pack.put(f'{name}_{kind}', column, steps=i == 0)
    pack.put(f'{name}_i', faces[:, 0])
    pack.put(f'{name}_j', faces[:, 1] - faces[:, 0])
    if turned is not None:
        pack.put(f'{name}_k', 2 * (faces[:, 2] - faces[:, 1]) + turned)
    if lives is not None:
        pack.put(f'{name}_born', lives[:, 0])
        pack.put(f'{name}_died', lives[:, 1])


def packed(drawn):
    """All columns of what is drawn."""
    pack = Pack()
    for i, axis in enumerate('xyz'):
        pack.put(axis, drawn.points[:, i])
    pack.put('alphas', drawn.alphas, steps=True)
    lives = drawn.lives or {}
    # a triangle may be at a tetrahedron as soon as it is in: then it is never singular
    stops = np.maximum.accumulate(drawn.triangle_stops, axis=1)
    put_faces(pack, 'triangle', drawn.triangles, stops, lives.get('triangle'), drawn.turned)
    put_faces(pack, 'edge', drawn.edges, drawn.edge_stops, lives.get('edge'))
    if drawn.changes is not None:
        for name, row in zip(('parts', 'loops', 'voids', 'cells'), drawn.changes):
            pack.put(name, row)
    if drawn.chosen is not None:
        pack.put('chosen', drawn.chosen, steps=True)
    if drawn.frames is not None:
        changes = np.concatenate([frame['changes'] for frame in drawn.frames])
        for i, name in enumerate(('stop', 'parts', 'loops', 'voids', 'cells')):
            pack.put(f'change_{name}', changes[:, i])
        cells = [rows.ravel() for frame in drawn.frames for rows in (frame['gone'], frame['came'])]
        pack.put('moved_cells', np.concatenate(cells))
    return pack


def frames_of(drawn):
    """What the page is told of each frame: its words, and how many changes and tetrahedra it has."""
    return [{'text': frame['text'], 'changes': len(frame['changes']), 'gone': len(frame['gone']),
             'came': len(frame['came'])} for frame in drawn.frames]


def words_of(drawn, notes):
    """A line under the title: counts, and what is left out."""
    words = [f'{len(drawn.points):,} points' + (' in all' if drawn.frames is not None else '')]
    if drawn.changes is not None:
        if drawn.frames is None:
            words.append(f'{int(drawn.changes[3].sum()):,} tetrahedra')
        words.append(f'{len(drawn.alphas):,} radii')
    if drawn.chosen is not None:
        words.append(f'too many for a page: it stops at {len(drawn.chosen)} radii and leaves out '
                     f'{drawn.all_triangles - len(drawn.triangles):,} of {drawn.all_triangles:,} triangles, which are '
                     'seen at none of these; the numbers are those of all')
    return ', '.join([*words, *notes])


def page_of(drawn, title, placing=None, first=None, loose=True, notes=(), length=''):
    """The text of a page.

    `placing` gives lengths in the units of a scan, `first` the stop that it opens at, `loose` whether loose faces are
    shown, `notes` what stands behind the counts, and `length` the name of the unit, as mm.
    """
    bars = [] if drawn.bars is None else [list(map(int, bar)) for bar in drawn.bars]
    drawn.thinned()
    drawn.by_stops()
    runs = [] if drawn.frames is not None else steady(drawn)
    unit = 1 / placing.scale if placing else 1.0
    pack = packed(drawn)
    told = {
        'title': title, 'words': words_of(drawn, notes), 'columns': pack.told, 'unit': unit,
        'origin': placing.origin.tolist() if placing else [0.0, 0.0, 0.0], 'view': VIEW, 'steady': runs,
        'axis': [root / 4 * unit for root in extent_of(drawn)], 'loose': loose,
        'first': first_stop(drawn, runs) if first is None else first, 'turned': drawn.has_sides,
        'legend': LEGENDS if len(drawn.alphas) > 1 else ('surface of the part',), 'bars': bars, 'length': length,
        'frames': None if drawn.frames is None else frames_of(drawn),
    }
    script = "'use strict';\n" + '\n'.join(part(f'{name}.js') for name in SCRIPTS)
    page = part('page.html')
    for mark, text in (('@STYLE@', part('page.css')), ('@SCRIPT@', script), ('@TITLE@', html.escape(title)),
                       ('@META@', json.dumps(told).replace('<', '\\u003c')), ('@PACKED@', pack.text())):
        page = page.replace(mark, text)
    return page
