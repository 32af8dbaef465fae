"""Cases of bench/figures: what is kept is taken, what changed is made again, and no figure is written by hand."""
import contextlib
import io
import os
import re
import shutil
import sys
from types import SimpleNamespace

from tool_cases import TOP, expect

sys.path.insert(0, os.path.join(TOP, 'bench'))
import figure_pages
import figure_runs

STUB = """#!/bin/sh
echo "$@" >>"$0.calls"
printf '| file | program |\\n|---|---|\\n| one | 1.25 s |\\n'
exit "${STATUS-0}"
"""


def stub(work):
    """A bench that notes its calls, as a table, and what figures are asked for with it."""
    name, program = os.path.join(work, 'stub'), os.path.join(work, 'program')
    for file_name, text in ((name, STUB), (program, 'one program')):
        with open(file_name, 'w', encoding='ascii') as file:
            file.write(text)
    os.chmod(name, 0o755)
    return name, SimpleNamespace(program=program, kept=os.path.join(work, 'kept'), runs=1, small=False, anew=False,
                                 proved=False, into=work, names=['mesh'])


def calls(name):
    return open(f'{name}.calls', encoding='ascii').read().count('\n') if os.path.exists(f'{name}.calls') else 0


def keeping(work):
    """A table is made once, and again where its program, its runs or its command changed, or --anew asks for it."""
    name, words = stub(work)
    before, figure_runs.TABLES['mesh'] = figure_runs.TABLES['mesh'], figure_runs.Table([name], None)
    os.environ['STATUS'] = '1'
    expect('a table that fails is none', figure_runs.made_of('mesh', words, figure_runs.Kept(words)) is None)
    del os.environ['STATUS']
    counts = []
    for change in (None, None, 'runs', 'program', 'anew', None):
        if change == 'runs':
            words.runs = 2
        if change == 'program':
            with open(words.program, 'a', encoding='ascii') as file:
                file.write(', changed')
        words.anew = change == 'anew'
        made = figure_runs.made_of('mesh', words, figure_runs.Kept(words))
        counts.append(calls(name))
        expect(f'a row of it: {made.row("one")}', made.row('one') == made.row(None) == ['one', '1.25 s'])
    expect(f'what is kept is taken: {counts}', counts == [2, 2, 3, 4, 5, 5])
    with open(f'{words.kept}/mesh.json', 'w', encoding='ascii') as file:
        file.write('{"key"')
    figure_runs.made_of('mesh', words, figure_runs.Kept(words))
    expect('a file that was cut is made again', calls(name) == 6)
    words.small = True
    expect('--small says what it leaves out', 'small' in figure_runs.lacks('mesh', words))
    figure_runs.TABLES['mesh'] = before


def all_made():
    """A table of each name with all rows that the documents want, their cells 7.77."""
    cells = ['7.77 s', '7.77 s', '0.77', '7, 77 MB', '7.7', '7.7', '7', '7', '7']
    of_python = ['7.77', 'a peer', '7.77', '0.77']
    rows = {}
    for row in [row for _, some in figure_pages.SPEED.values() for row in some] + figure_pages.FIRST_PAGE:
        rows.setdefault(row.table, []).append([row.row or '7.77 s', *(of_python if 'python' in row.table else cells)])
    rows['workers'] = [['drawn', grid, workers, '7.77 s', '0.77', '0.77', '0.77'] for grid in ('4', '8', '16')
                       for workers in ('1', '2', '4', '8')]
    rows['threads'] = [[f'{cloud} by {workers}', *cells] for cloud in figure_pages.CLOUDS_BY_WORKERS
                       for workers in ('1', '2', '4')]
    return {name: figure_runs.Made(['| head |', '|---|', *(f'| {" | ".join(row)} |' for row in some)], '2026-01-02',
                                   [1.0, 2.0], 3.0) for name, some in rows.items() if name != 'instructions'}


def documents(work):
    """A folder with the two documents, and what they are written by."""
    os.makedirs(os.path.join(work, 'docs'), exist_ok=True)
    for name in ('README.md', 'docs/SPEED.md'):
        shutil.copy(os.path.join(TOP, name), os.path.join(work, name))
    return stub(work)[1]


def read(folder, name):
    with open(os.path.join(folder, name), encoding='utf-8') as file:
        return file.read()


def rows_of(text):
    return [line for line in text.splitlines() if line.startswith('| ')]


def writing(work):
    """What is written is all figures of the documents, and nothing else; they stay as short as they are to be."""
    words, made = documents(work), all_made()
    figure_pages.pages_of(made, words)
    for name in ('docs/SPEED.md', 'README.md'):
        old, new = read(TOP, name), read(work, name)
        figures = [line for line in rows_of(old) if re.search(r'\d (s|MB) \|', line)]
        left = [line for line in figures if line in rows_of(new)]
        expect(f'{name}: each row of figures is written: {left}', len(figures) > 5 and not left)
        told = {line.split('|')[1] for line in rows_of(old)} - {line.split('|')[1] for line in rows_of(new)}
        expect(f'{name}: no row goes, but a head that tells the program: {told}',
               all('unproved build' in word or 'proved program' in word for word in told))
    text = read(work, 'docs/SPEED.md')
    expect('an unproved program is told', 'Made on 2 January 2026, of an unproved build' in text)
    count = len([word for word in text.split() if re.search(r'[A-Za-z]', word)])
    expect(f'docs/SPEED.md has at most 900 words, figures aside: {count}', count <= 900)
    expect('and lines of 120 columns', all(len(line) <= 120 or line.startswith('|') for line in text.splitlines()))
    prose = [line for line in text.splitlines() if not line.startswith('|')]
    told = [line for line in prose if re.search(r'\d (s|ms|MB)\b|(^|\s)\.\d', line)]
    expect(f'no figure stands outside of the tables: {told}', not told)
    figure_pages.pages_of(made, words)
    expect('writing twice is writing once', read(work, 'docs/SPEED.md') == text)
    words.proved = True
    figure_pages.pages_of(made, words)
    expect('and a proved one', 'of the proved program' in read(work, 'docs/SPEED.md')
           and 'the proved program' in read(work, 'README.md'))
    del made['shape']
    try:
        figure_pages.pages_of(made, words)
        expect('nothing is written without a table', False)
    except SystemExit as error:
        expect(f'it is told what is wanting: {error}', 'shape' in str(error))


def run(work):
    room = os.path.join(work, 'figures')
    os.makedirs(room)
    with contextlib.redirect_stdout(io.StringIO()) as said:
        keeping(room)
        writing(room)
    print(''.join(line + '\n' for line in said.getvalue().splitlines() if line.startswith('failed: ')), end='')
