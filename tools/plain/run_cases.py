"""Makes the runs that `tools/make scenes` puts among the scenes, and the text that is to be printed, from the
definitions and formats alone.

A run's status goes by docs/FORMATS.md, and its fault by the model of `tools/make files`; its text is that of the plain
program of `tools/try random`, which tries all quadruples and triples. An end gives or takes so many bytes a call, so
the numbers of its calls, and what it has taken before one of them fails, are counted. The program reads 4,096 bytes at
a time.

usage: tools/make runs
prints each run with its answer below it
"""
from plain import file_cases as files
from plain import mesh_cases as meshes
from plain import random_cases as plain
from plain.case_words import FOUR, named

PAGE, LIMIT = 4096, 16_777_216
LINES = {0: '', 2: 'usage', 3: 'read fault', 4: 'write fault', 6: 'no four independent points', 7: 'input too long',
         10: 'bad mesh'}
TETRAHEDRON = plain.text_of(FOUR, [], [])
REPORT = plain.report(FOUR, [], [], range(4), False)


# ---- runs

class End:
    def __init__(self, step, *fails):
        self.step, self.fails = step, fails

    def words(self):
        return ' '.join(map(str, (self.step, *self.fails)))

    def takes(self, text):
        """What it has taken in the end, and whether a call failed. Each page of a text takes calls of its own."""
        taken, call = 0, 0
        while taken < len(text):
            call += 1
            if call in self.fails:
                return text[:taken], True
            taken += min(self.step, PAGE - taken % PAGE, len(text) - taken)
        return text, False

    def fails_to_give(self, count):
        """Whether a call fails before so many bytes and the end are given."""
        given, call = 0, 0
        while True:
            call += 1
            if call in self.fails:
                return True
            if given == count or given > LIMIT:
                return False
            given += min(self.step, PAGE, count - given)


ENOUGH = End(100_000)


def bar(text):
    return text.replace('\n', '|')


def edit_of(sign, numbers):
    """An edit as the plain program has it."""
    return (None, numbers[:3], numbers[3:]) if sign == '=' else (sign == '+', numbers)


def outcome_of_check(text, source, output):
    """The same of a report that is judged; nothing is kept."""
    if source.fails_to_give(len(text)):
        return 3, '', ''
    try:
        _, *lists = meshes.read(bar(text))
    except meshes.Fault as fault:
        return 5, 'line {}: {}'.format(*fault.args), ''
    flaw = meshes.verdict(*lists)
    named = ['bad', flaw[0], *(i for part in flaw[1:] for i in part)] if flaw else ['good']
    taken, failed = output.takes(f'mesh3-check 1\n{" ".join(map(str, named))}\n')
    return (4 if failed else 10 if flaw else 0), '', taken + '\0'


def outcome(words, text, source, output, kept, written=None):
    """The status, what is told and written, and what is kept. A text that is given is that of a reader, and no file
    is read."""
    if words == 'check':
        return outcome_of_check(text, source, output)
    reads = words.split()[:1] in (['mesh'], ['shape'], ['near'])
    if written is None and not reads:
        return 2, '', ''
    if written is None:
        if source.fails_to_give(len(text)):
            return 3, '', ''
        if len(text) > LIMIT:
            return 7, '', ''
        file = files.read(text)
        if not isinstance(file, files.File):
            return 5, f'line {file[0]}: {file[1]}', ''
        points, edits = file.points, [edit_of(*edit) for edit in file.edits]
        if not plain.is_solid(points):
            return 6, '', ''
        radii = file.radii if words.startswith('shape') else []
        order = plain.order_of_one(points, edits)
        if words.startswith('near'):
            left = plain.replies_of([(True, p) for p in points] + edits, order)[1]
            written = plain.near(left, file.queries)
        else:
            written = plain.report(points, edits, radii, order, '--order' in words, file.row.number)
    taken, failed = output.takes(written)
    return (4 if failed else 0), '', taken + '\0' + kept


def case(words, text, source=ENOUGH, output=ENOUGH, error=ENOUGH, kept='', written=None, times=None, moments=None):
    """A case whose input is written out, or stands there in three parts: the front, the middle so many times, and
    the end. With moments its gate is watched: what it is told of worker 0 and of the other one."""
    front, middle, end = text if times else (text, '', '')
    status, fault, rest = outcome(words, front + middle * (times or 0) + end, source, output, kept, written)
    taken, _, kept = rest.partition('\0')
    line = fault or LINES[status]
    told = error.takes(f'delaunay: {line}\n' if line else '')[0]
    verb, watched = ('watched', '; zero{}; other{}'.format(*moments)) if moments else ('run', '')
    yield (f'{verb} {times or 0}; {words}; {bar(front)}; {bar(middle)}; {bar(end)}; '
           f'{source.words()}; {output.words()}; {error.words()}')
    yield f'{status}; {bar(told)}; {bar(taken)};{kept}{watched}'


OF_FOUR = ' 0:0 1:0 2:0 3:0'


def all_cases():
    name = 'every read of the tetrahedron fails'
    for k in range(1, 9):
        yield name if k < 8 else 'the eighth read never comes', case('mesh', TETRAHEDRON, source=End(10, k),
                                                                     kept=OF_FOUR)
    name = 'every write of its report fails'
    for k in range(1, 17):
        written = case('mesh', TETRAHEDRON, output=End(10, k), kept=OF_FOUR)
        yield name if k < 16 else 'the sixteenth write never comes', written
    for k in (1, 2):
        yield 'the line of words that are refused cannot be told', case('draw', TETRAHEDRON, error=End(10, k))
    yield 'nor can that of a file that is refused', case('mesh', TETRAHEDRON[:30], error=End(10, 2))
    for count in range(len(TETRAHEDRON) + 1):
        yield 'every cut of its file', case('mesh', TETRAHEDRON[:count], kept=OF_FOUR)
    long = ('mesh3 1\npoints\n0 0 0\n2 0 0\n0 2 0\n', '0' * 1000, ' 0 2\nedits\nradii\nend\n')
    for k in (2, 3, 4):
        yield 'so many bytes are read at a time', case('mesh', long, source=End(100_000, k), kept=OF_FOUR, times=5)
    yield 'a number of a hundred thousand digits', case('mesh', long, kept=OF_FOUR, times=100)
    yield 'a number of a hundred thousand digits', case('mesh', (long[0], '9' * 1000, long[2]), times=100)
    yield 'the most bytes, without a line feed', case('mesh', ('', '0' * 1024, ''), times=LIMIT // 1024)
    yield 'one byte more', case('mesh', ('0', '0' * 1024, ''), times=LIMIT // 1024)
    yield 'the read behind the most bytes fails', case('mesh', ('', '0' * 1024, ''),
                                                       source=End(100_000, LIMIT // PAGE + 1), times=LIMIT // 1024)
    yield 'a million empty lines', case('mesh', ('mesh3 1\npoints\n', '\n' * 1000, ''), times=1000)
    yield 'eight workers, and a shape', case(
        'shape --workers 8 --grid 16', plain.text_of(FOUR, [], [1]), kept=OF_FOUR)
    yield 'a point is added and taken: of two workers the second makes both edits', case(
        'mesh --workers 2 --order', plain.text_of(FOUR, [(True, (1, 1, 1)), (False, (1, 1, 1))], []),
        kept=OF_FOUR + ' 4:1 5:1')
    made = ' Start Ready Committed Done'
    yield 'its gate is told of each edit of a worker', case(
        'mesh --workers 2 --order', plain.text_of(FOUR, [(True, (1, 1, 1)), (False, (1, 1, 1))], []),
        kept=OF_FOUR + ' 4:1 5:1',
        moments=('', made * 2))
    yield 'its gate is told of each edit of a worker', case(
        'mesh', plain.text_of(FOUR, [(True, (1, 1, 1)), (True, (1, 1, 1))], []), kept=OF_FOUR + ' 4:0 5:0',
        moments=(made * 2, ''))
    yield 'a duplicate, and three points on a line: one worker begins with four that are independent', case(
        'mesh', plain.text_of([FOUR[0], *FOUR[:2], (4, 0, 0), *FOUR[2:]], [], []), kept=' 0:0 2:0 4:0 5:0 1:0 3:0')
    yield 'a file that is refused', case('mesh', 'mesh3 1\npoints\n16384 0 0\n')
    moves = [(None, (9, 9, 9), (1, 1, 1)), (None, (0, 0, 0), (0, 0, 0)), (None, (0, 0, 0), (1, 1, 0)),
             (None, (0, 0, 0), (1, 1, 1)),
             (True, (0, 0, 0))]
    yield 'moves out of a corner, with each of their replies', case(
        'mesh --order', plain.text_of(FOUR, moves, [], 2), kept=OF_FOUR + ' 4:0 5:0 6:0 7:0 8:0')
    yield 'radii in sixteenths, and queries that are not used', case(
        'shape', plain.text_of([(0, 0, 0), (1, 0, 0), (0, 1, 0), (0, 0, 1)], [], [3, 4, 8, 11, 12], 4, [(1, 1, 1)]),
        kept=OF_FOUR)
    asked = plain.text_of(FOUR, [], [], 4, [(0, 0, 0), (1, 1, 1), (3, 3, 3), (2, 2, 0)])
    yield 'queries, one of them as near to each point', case('near', asked, kept=OF_FOUR)
    name = 'every write of their answers fails'
    for k in range(1, 7):
        yield name if k < 6 else 'the sixth write never comes', case('near', asked, output=End(10, k), kept=OF_FOUR)
    yield 'queries, a move and two workers', case(
        'near --workers 2 --grid 16', plain.text_of(FOUR, [(None, (2, 0, 0), (9, 9, 9))], [], 4,
                                                    [(9, 9, 8), (5, 5, 5)]), kept=OF_FOUR + ' 4:0')
    yield 'no queries', case('near', TETRAHEDRON, kept=OF_FOUR)
    yield 'queries in a version that has none', case('near', asked.replace('mesh3 4', 'mesh3 3'))
    for count in range(len(REPORT) + 1):
        yield 'every cut of a report, judged', case('check', REPORT[:count])
    bad = REPORT.replace('cells 1\n0 1 2 3\n', 'cells 0\n')
    yield 'a report without its cell', case('check', bad)
    name = 'every read of it fails'
    for k in range(1, 17):
        yield name if k < 16 else 'the sixteenth read never comes', case('check', bad, source=End(10, k))
    name = 'every write of its verdict fails'
    for k in range(1, 6):
        yield name if k < 5 else 'the fifth write never comes', case('check', bad, output=End(10, k))
    yield 'a version that is none', case('mesh', 'mesh3 5\npoints\n')
    yield 'a version that is none', case('near', 'mesh3 5\npoints\n')
    yield 'points in a plane', case('mesh', plain.text_of([(0, 0, 0), (2, 0, 0), (0, 2, 0), (2, 2, 0), (1, 1, 0)], [],
                                                          []))
    corners = 'mesh3 1\npoints\n0 0 0\n16383 0 0\n0 16383 0\n0 0 16383\nedits\n'
    drawn = corners + '+ 8419 2879 5056\nradii\n16384\n262144\n4194304\nend\n'
    yield 'a drawn file, its text and its summary', case('gen --count 1 --start 1 --text', 'no file', written=drawn)
    told = ('lines 5\nInserted 5\nDuplicate 0\nRemoved 0\nMissing 0\nFlat 0\npoints 5\ncells 4\nhull 4\n'
            'shape 16384 0 0 0\nshape 262144 0 0 0\nshape 4194304 0 0 0\n')
    for output in (ENOUGH, End(10, 3)):
        yield 'a drawn file, its text and its summary', case(
            'gen --count 1 --start 1', 'no file', output=output, written=told, kept=OF_FOUR + ' 4:0')


def all_lines():
    """Each line of the input with its answer; a name is its own."""
    return named(all_cases())


if __name__ == '__main__':
    for asked, answer in all_lines():
        print(asked, answer, sep='\n')
