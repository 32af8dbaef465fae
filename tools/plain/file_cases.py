"""Makes the cases of edit files of all versions, which `tools/make cases` puts into the input of the program
`worked_cases`, and the text that is to be printed, from the definition alone.

The first line of a text tells its version, a row of the table here. A text is accepted where its lines are the first
line, and the lists of that version behind their words, each line of its form and range. A line is bad where the lines
before it begin an accepted text and with it they do not; so the fault is found by completing lines with words, and not
by reading on.

usage: tools/make files [DRAWN [SEED]]
prints each case with its answer below it; with a number, so many drawn cases and nothing else
"""
import random
import re
import sys
from typing import NamedTuple


class Row(NamedTuple):
    """What a version says: its number, and whether edit lines move points, the greatest radius, and queries."""
    number: int
    moves: bool
    greatest: int
    queries: bool


VERSIONS = {'mesh3 1': Row(1, False, 2 ** 30 - 1, False), 'mesh3 2': Row(2, True, 2 ** 30 - 1, False),
            'mesh3 3': Row(3, True, 2 ** 34 - 1, False), 'mesh3 4': Row(4, True, 2 ** 34 - 1, True)}
NUMBER = r'-?[0-9]+'
POINT = f'{NUMBER} {NUMBER} {NUMBER}'
LINES, RADII, QUERIES = 262_144, 16, 65_536


class File(NamedTuple):
    """The row of the version, and the lists: points as triples, edits as signs and triples, radii, and queries."""
    row: Row
    points: list
    edits: list
    radii: list
    queries: list


def value(word):
    """The value of a number of any length, -1 where it is negative."""
    digits = word.lstrip('-').lstrip('0') or '0'
    if digits != '0' and word[0] == '-':
        return -1
    return 10 ** 20 if len(digits) > 20 else int(digits)


def words_of(row):
    return ['points', 'edits', 'radii', *(['queries'] if row.queries else []), 'end']


def form_of(row, section):
    """The pattern of a section's lines."""
    if section == 'radii':
        return NUMBER
    if section == 'edits':
        return f'[+-] {POINT}' + (f'|= {POINT} {POINT}' if row.moves else '')
    return POINT


def in_range(row, section, line):
    most = row.greatest if section == 'radii' else 16_383
    return all(0 <= value(word) <= most for word in line.split(' ')[section == 'edits':])


def sections_of(lines, newest=4):
    """The row and the lines of each section up to the last one that is begun, whatever their form, or none."""
    row = VERSIONS.get(lines[0]) if lines else None
    if row is None or row.number > newest or lines[1:2] not in ([], ['points']):
        return None
    words, sections, place = words_of(row), {}, -1
    for line in lines[1:]:
        if line in words:
            if words.index(line) != place + 1:
                return None
            place += 1
            sections[line] = []
        else:
            sections[words[place]].append(line)
    return row, sections


def counts_fit(sections):
    return (len(sections.get('points', [])) + len(sections.get('edits', [])) <= LINES
            and len(sections.get('radii', [])) <= RADII and len(sections.get('queries', [])) <= QUERIES)


def file_of(lines, newest=4):
    """The file of lines, or none where no file has them."""
    found = sections_of(lines, newest)
    if found is None or 'end' not in found[1]:
        return None
    row, sections = found
    if sections['end'] or not counts_fit(sections):
        return None
    for section, own in sections.items():
        if not all(re.fullmatch(form_of(row, section), line) and in_range(row, section, line) for line in own):
            return None

    def numbers(line):
        return tuple(value(word) for word in line.split(' '))

    return File(row, [numbers(x) for x in sections['points']], [(x[0], numbers(x[2:])) for x in sections['edits']],
                [value(x) for x in sections['radii']], [numbers(x) for x in sections.get('queries', [])])


def begins(lines, newest=4):
    """Whether some file begins with these lines: all lists may be empty, so the words that are missing end one."""
    for title, row in VERSIONS.items():
        if lines and lines[0] != title:
            continue
        words = [title, *words_of(row)]
        for missing in range(len(words) + 1):
            if file_of([*lines, *words[len(words) - missing:]], newest) is not None:
                return True
    return False


def reason(lines, number):
    """Why line `number`, from 1, is bad, where the lines before it begin a file."""
    front, line = lines[:number - 1], lines[number - 1]
    if number <= 2 or 'end' in front:
        return 'Section'
    row, sections = sections_of(front)
    if line in words_of(row):
        return 'Section'
    section = list(sections)[-1]
    if not counts_fit({**sections, section: [*sections[section], line]}):
        return 'TooMany'
    return 'Range' if re.fullmatch(form_of(row, section), line) else 'Field'


def read(text, newest=4):
    """The file that a text is, or the number and the word of its fault."""
    lines = text.split('\n')
    lines = lines[:-1] if lines[-1] == '' else lines
    file = file_of(lines, newest)
    if file is not None:
        return file
    low, high = 0, 1  # of these first lines the first begin a file, and the second do not
    while high <= len(lines) and begins(lines[:high], newest):
        low, high = high, min(2 * high, len(lines) + 1)
    while high - low > 1:
        middle = (low + high) // 2
        low, high = (middle, high) if begins(lines[:middle], newest) else (low, middle)
    if high > len(lines):
        return len(lines) + 1, 'Truncated'
    return high, reason(lines, high)


def text_of(file):
    """The text that is written of a file."""
    edits = [f'{sign} ' + ' '.join(map(str, places)) for sign, places in file.edits]
    queries = ['queries', *('%d %d %d' % p for p in file.queries)] if file.row.queries else []
    return '\n'.join([f'mesh3 {file.row.number}', 'points', *('%d %d %d' % p for p in file.points), 'edits', *edits,
                      'radii',
                      *map(str, file.radii), *queries, 'end', ''])


def bar(text):
    return text.replace('\n', '|').replace('\r', '~')


def answer(text):
    found = read(text)
    if not isinstance(found, File):
        return f'line {found[0]}: {found[1]}'
    counts = (f' {len(found.points) + len(found.edits)} lines {len(found.points)} points {len(found.edits)} edits '
              f'{len(found.radii)} radii {len(found.queries)} queries')
    return f'{counts} in {bar(text_of(found))}'


def case(text):
    return f'file 0; {bar(text)}; ; ', answer(text)


# ---- drawn texts

def number(draw, most):
    kind = draw.random()
    if kind < .6:
        return str(draw.randrange(min(most + 1, 30)))
    if kind < .75:
        return str(draw.choice((most, most - 1, draw.randrange(most + 1))))
    return draw.choice(('0', '-0', '00', '007', '-00'))


def drawn_file(draw):
    title = draw.choice(list(VERSIONS))
    row = VERSIONS[title]
    coordinate = lambda: number(draw, 16_383)
    point = lambda: ' '.join(coordinate() for _ in range(3))
    sign = lambda: draw.choice('+-=' if row.moves else '+-')
    edit = lambda s: f'{s} {point()}' + (f' {point()}' if s == '=' else '')
    few = lambda: range(draw.randrange(4))
    lines = [title, 'points', *(point() for _ in few()), 'edits', *(edit(sign()) for _ in few()), 'radii',
             *(number(draw, row.greatest) for _ in few())]
    if row.queries:
        lines += ['queries', *(point() for _ in few())]
    return [*lines, 'end']


def spoiled(draw, lines):
    """Lines with something wrong, perhaps."""
    lines, at = list(lines), draw.randrange(len(lines))
    kind = draw.randrange(9)
    if kind == 0:
        lines[0] = draw.choice((*VERSIONS, 'mesh3 5', 'mesh3 0', 'mesh3 11', 'mesh3', 'mesh3 2 '))
    elif kind == 1:
        del lines[at]
    elif kind == 2:
        lines.insert(at, draw.choice(lines))
    elif kind == 3:
        lines.insert(at, draw.choice(('points', 'edits', 'radii', 'queries', 'end', '')))
    elif kind == 4:
        lines.insert(at, draw.choice(('= 1 2 3 4 5 6', '= 1 2 3', '= 1 2 3 4 5 6 7', '=1 2 3 4 5 6',
                                      '= 1 2 3 4 5 16384', '= 1 2 3  4 5 6',
                                      '= 1 2 16384 4 5 x', '= x 2 3 4 5 16384', '+ 1 2 3 4 5 6', '1 2 3 4 5 6',
                                      '= -1 2 3 4 5 6')))
    elif kind == 5:
        lines.insert(at, draw.choice(('1073741823', '1073741824', '17179869183', '17179869184', '1 2 3',
                                      '99999999999999999999999')))
    elif kind == 6 and lines[at]:
        place = draw.randrange(len(lines[at]))
        lines[at] = lines[at][:place] + draw.choice(' -+=0x\r') + lines[at][place + draw.randrange(2):]
    elif kind == 7:
        other = draw.randrange(len(lines))
        lines[at], lines[other] = lines[other], lines[at]
    elif kind == 8:
        lines = lines[:at]
    return lines


def drawn_case(draw):
    lines = drawn_file(draw)
    for _ in range(draw.choice((0, 0, 1, 1, 1, 2))):
        lines = spoiled(draw, lines) if lines else lines
    text = '\n'.join(lines) + draw.choice(('\n', '\n', ''))
    return case(text if lines else '')


# ---- all texts

HEADS = {number: f'mesh3 {number}\npoints\n' for number in (1, 2, 3, 4)}
TEXTS = [
    *(f'mesh3 {number}\npoints\nedits\nradii\nend\n' for number in range(6)),
    *(f'mesh3 {number}\npoints\nedits\nradii\nqueries\nend\n' for number in (1, 3, 4)),
    *(HEADS[number] + 'edits\n= 1 2 3 4 5 6\nradii\nend\n' for number in HEADS),
    *(HEADS[2] + f'edits\n{line}\n' for line in ('= 1 2 3', '= 1 2 3 4 5', '= 1 2 3 4 5 6 7', '=1 2 3 4 5 6',
                                                 '= 1 2 3  4 5 6', '= 1 2 3 4 5 6 ',
                                                '= 1 2 16384 4 5 6', '= 1 2 3 4 5 16384', '= 16384 2 3 4 5 x',
                                                 '= 1 2 x 4 5 16384', '= 1 2 -1 4 5 6',
                                                '== 1 2 3 4 5 6', '* 1 2 3 4 5 6', '+ 1 2 3 4 5 6', '=')),
    HEADS[2] + 'edits\n= 007 -0 3 4 5 16383\n+ 1 1 1\n- 2 2 2\nradii\nend',
    *(HEADS[number] + f'edits\nradii\n{radius}\nend\n' for number in HEADS
      for radius in (1_073_741_823, 1_073_741_824, 17_179_869_183, 17_179_869_184)),
    HEADS[3] + 'edits\nradii\n-1\n', HEADS[3] + 'edits\nradii\n0\n-0\n16\nend\n',
    HEADS[4] + 'edits\nradii\n1\nqueries\n007 1 2\n3 4 5\n3 4 5\nend\n', HEADS[4] + 'edits\nradii\nend\n',
    HEADS[4] + 'queries\n',
    HEADS[4] + 'edits\nradii\nqueries\n1 2\n', HEADS[4] + 'edits\nradii\nqueries\n1 2 16384\n',
    HEADS[4] + 'edits\nradii\nqueries\nqueries\n',
    HEADS[4] + 'edits\nradii\nqueries\nradii\n', HEADS[4] + 'edits\nradii\nqueries\n',
    HEADS[4] + 'edits\nradii\nqueries\nend\n\n',
    HEADS[1] + 'queries\n', HEADS[3] + 'queries\n', HEADS[3] + 'edits\nqueries\n',
]


def all_cases():
    for text in TEXTS:
        yield case(text)
    full = 'mesh3 4|points|edits|radii|queries|'
    yield f'file 65536; {full}; 1 2 3|; end|', ' 0 lines 0 points 0 edits 0 radii 65536 queries'
    yield f'file 65536; {full}; 1 2 3|; 1 2 3|', 'line 65542: TooMany'
    yield f'file 65536; {full}; 1 2 3|; radii|', 'line 65542: Section'
    draw = random.Random(7)
    for _ in range(60):
        yield drawn_case(draw)


if __name__ == '__main__':
    draw = random.Random(int(sys.argv[2]) if len(sys.argv) > 2 else 0)
    for question, told in all_cases() if len(sys.argv) < 2 else (drawn_case(draw) for _ in range(int(sys.argv[1]))):
        print(question, told, sep='\n')
