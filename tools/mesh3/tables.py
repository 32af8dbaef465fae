"""Points from text: numbers between blanks, commas or semicolons, with or without a header, a count, or elements.

A text of three numbers a line and no more, as most are, goes straight to numpy.

A separator is settled for the whole file; a text that could be read in two ways is refused with the option that settles
it.
"""
import csv
import io
import re

import numpy as np

AXES = ('x', 'y', 'z')
NUMBER = re.compile(r'[+-]?((\d+\.?\d*|\.\d+)(e[+-]?\d+)?|nan|inf|infinity)', re.I)
ELEMENT = re.compile(r'[A-Za-z][A-Za-z0-9_+*-]{0,7}')
UNIT = r'_(m|mm|cm|km|um|nm|a|ft|in|coord|coordinate)$| *[\[(].*$'
COMMA = 'where the comma is the decimal sign, give --decimal-comma'


def is_number(word):
    return bool(NUMBER.fullmatch(word.strip()))


def plain_lines(data):
    """A text by its lines, whatever they end with."""
    return data.decode('utf-8-sig', 'replace').replace('\r\n', '\n').replace('\r', '\n').split('\n')


def lines_of(data, wanted):
    """The lines that have something beside a comment, with their numbers: pairs (number, line)."""
    if b'\0' in data:
        raise wanted.fault('no text: --format names another form')
    lines = plain_lines(data)
    if b'#' in data or b'//' in data:
        lines = [re.sub(r'(#|//).*', '', line) for line in lines]
    return [(number, line) for number, line in enumerate(lines, 1) if line.strip()]


# ---- a count before the points


def without_count(data, lines, wanted, warn):
    """The lines behind a first line that counts them, and whether they are a molecule's, with a comment before."""
    number, first = lines[0]
    if not re.fullmatch(r'\s*[0-9]+\s*', first) or len(lines) < 2:
        return lines, False
    count, raw = int(first), plain_lines(data)
    second = raw[number].split()
    rows = [(n, raw[n - 1]) for n in range(number + 2, number + 2 + count) if n <= len(raw) and raw[n - 1].strip()]
    if len(second) > 2 and all(map(is_number, second)) and not (rows and ELEMENT.fullmatch(rows[0][1].split()[0])):
        if len(lines) - 1 != count:
            raise wanted.fault(f'{count} points were announced, and {len(lines) - 1} are there', number)
        return lines[1:], False
    if len(rows) < count:
        raise wanted.fault(f'{count} points were announced, and {len(rows)} are there', number)
    rest = [line for n, line in lines if n > number + 1 + count]
    if rest and not re.fullmatch(r'\s*[0-9]+\s*', rest[0]):
        raise wanted.fault(f'{count} points were announced, and more lines are there', number)
    if rest:
        warn('several frames: the first is taken')
    return rows, True


def without_head_of_qhull(lines, wanted):
    """The lines behind the two that Qhull begins with, the dimension and how many points there are; None where a text
    does not begin so. Words may stand behind the dimension, as rbox writes them."""
    if len(lines) < 3 or not re.fullmatch(r'\s*3(\s+[A-Za-z].*)?\s*', lines[0][1]):
        return None
    count, first = lines[1][1].strip(), lines[2][1].split()
    if not count.isdigit() or len(first) != 3 or not all(map(is_number, first)):
        return None
    found = len(lines) - 2
    if int(count) == found:
        return lines[2:]
    if found == 3:  # a molecule of three atoms without elements, and a number for its comment
        return None
    raise wanted.fault(f'{count} points were announced, and {found} are there', lines[1][0])


# ---- separators


def unquoted(lines, wanted):
    """Lines with quoted words, as lines with ';' between words."""
    told = []
    for i, (number, line) in enumerate(lines):
        separator = ';' if ';' in re.sub('"[^"]*"', '', line) else ','
        words = [word.strip() for word in next(csv.reader([line], delimiter=separator))]
        points = [word.replace(',', '.') for word in words]
        if points != words and not wanted.decimal_comma and (i or any(map(is_number, points))):
            raise wanted.fault(f'a comma within a word: {COMMA}', number)
        told.append((number, ';'.join(points)))
    return ';', told


def separated(lines, wanted):
    """What stands between words, ';', ',' or None for blanks, and the lines with it, a decimal comma made a point."""
    has = {sign: any(sign in line for _, line in lines) for sign in ',;"'}
    if wanted.decimal_comma:
        pointed = next((number for number, line in lines if re.search(r'\d\.\d', line)), 0)
        if pointed:
            raise wanted.fault('a decimal point, and --decimal-comma was given', pointed)
    if has['"']:
        return unquoted(lines, wanted)
    if wanted.decimal_comma:
        return (';' if has[';'] else None), [(number, line.replace(',', '.')) for number, line in lines]
    if has[';']:
        both = next((number for number, line in lines if ',' in line), 0)
        if both:
            raise wanted.fault(f'both `;` and `,`: {COMMA}', both)
        return ';', lines
    if not has[',']:
        return None, lines
    lines = [(number, re.sub(r'[ \t]*,[ \t]*', ',', line.strip())) for number, line in lines]
    mixed = next((number for number, line in lines if ',' not in line or re.search(r'[\d.][ \t]+[-+.\d]', line)), 0)
    if mixed:
        raise wanted.fault(f'blanks between its numbers, and the file has commas: {COMMA}', mixed)
    return ',', lines


def split(line, separator):
    return line.split() if separator is None else [word.strip() for word in line.split(separator)]


# ---- columns


# What surveyors call the axes, once units are taken off.
OF_SURVEYS = {'easting': 'x', 'east': 'x', 'northing': 'y', 'north': 'y', 'elevation': 'z', 'elev': 'z', 'height': 'z',
              'altitude': 'z', 'up': 'z'}


def named(word):
    """What a word of a header calls: 'x' for X, x_m, `x [m]`, pos_x, Easting, and Points:0 as ParaView writes it."""
    word = word.strip().lower()
    of_points = re.fullmatch(r'(?:points|coords|coordinates|position)[:_. ]?([012xyz])', word)
    if of_points:
        return dict(zip('012', AXES)).get(of_points.group(1), of_points.group(1))
    word = re.sub(UNIT, '', re.sub(r'^(pos|coord|cartn)_', '', word))
    return OF_SURVEYS.get(word, word)


def place_of(column, wanted, header, wide):
    """The place of a column that is told by its name or by its number from 1."""
    if header and column in header:
        return header.index(column)
    if column.isdigit() and 1 <= int(column) <= wide:
        return int(column) - 1
    names = f', {", ".join(header)}' if header else ''
    raise wanted.fault(f'--columns {column}: the columns are 1 to {wide}{names}')


def places(wanted, header, wide, warn):
    """The places of the coordinates among `wide` columns: by --columns, by the header, or the first three."""
    if wanted.columns:
        return [place_of(column, wanted, header, wide) for column in wanted.columns]
    names = [named(word) for word in header or []]
    if all(axis in names for axis in AXES):
        if any(names.count(axis) > 1 for axis in AXES):
            raise wanted.fault(f'two columns of one name in {", ".join(header)}: name three by --columns')
        return [names.index(axis) for axis in AXES]
    if wide < 3:
        raise wanted.fault(f'{wide} columns, and three are wanted')
    if header and wide > 3:
        raise wanted.fault(f'no x, y and z in the header {", ".join(header)}: name three by --columns')
    if wide > 3:
        warn(f'the first three of {wide} columns are taken as x, y, z; --columns takes others')
    return [0, 1, 2]


def places_of_rows(lines, rows, header, molecule, wanted, warn):
    """The places of the coordinates in rows of words, which are of one length; elements before them are passed over."""
    wide, first = len(rows[0]), rows[0][0]
    if header and len(header) != wide:
        if wide > 3 and not wanted.columns:
            raise wanted.fault(f'{len(header)} words in the header, and {wide} columns: number three by --columns')
        header = None
    if wide > 3 and not header and not wanted.columns:
        if ELEMENT.fullmatch(first) and not is_number(first):
            bare = next((number for (number, _), row in zip(lines, rows) if is_number(row[0])), 0)
            if bare:
                raise wanted.fault('an element was expected, as before it', bare)
            return [1, 2, 3]
        if molecule and re.fullmatch(r'[0-9]{1,3}', first):
            raise wanted.fault('does it begin with the number of an element? then --columns 2 3 4, else 1 2 3',
                               lines[0][0])
    at = places(wanted, header, wide, warn)
    if not wanted.columns and not header and wide > 3 and counts_on([row[0] for row in rows]):
        warn('the first column counts the lines: is it an index? then give --columns 2 3 4')
    return at


def counts_on(words):
    """Whether the words are 0, 1, 2, .. or 1, 2, 3, .."""
    return len(words) > 3 and words[0] in ('0', '1') and all(w == str(i) for i, w in enumerate(words, int(words[0])))


# ---- the whole


def told_of(word):
    """What is wrong with a word that is no number, and what helps."""
    if word is None:
        return 'three numbers were expected'
    if re.fullmatch(r'[+-]?(\d+\.?\d*|\.\d+)d[+-]?\d+', word, re.I):
        return f"'{word}' is no number here: write the exponent of Fortran with an E, as by sed 's/[Dd]/E/g'"
    return f"'{word[:40]}' is no number, and three were expected: --columns takes other columns"


def plain_points(data):
    """The points of a text that is three numbers a line and no more; None where it is another, or in doubt."""
    if data.translate(None, b'0123456789+-.eE \t\r\n'):
        return None
    if any(len(line.split()) != 3 for line in data[:4096].split(b'\n', 2)[:2]):
        return None
    try:
        points = np.loadtxt(io.BytesIO(data), ndmin=2, comments=None)
    except ValueError:
        return None
    return points if points.shape[1] == 3 else None


def points_of(data, wanted, warn):
    """The points of a text, shape (n, 3)."""
    plain = None if wanted.columns or wanted.decimal_comma else plain_points(data)
    if plain is not None:
        return plain
    lines = lines_of(data, wanted)
    if not lines:
        raise wanted.fault('no points')
    behind = without_head_of_qhull(lines, wanted)
    lines, molecule = (behind, False) if behind else without_count(data, lines, wanted, warn)
    separator, lines = separated(lines, wanted)
    rows = [split(line, separator) for _, line in lines]
    header = None
    if len(rows) > 1 and not any(is_number(word) for word in rows[0]):
        header, rows, lines = rows[0], rows[1:], lines[1:]
    wide = len(rows[0])
    ragged = next((number for (number, _), row in zip(lines, rows) if len(row) != wide), 0)
    if ragged:
        raise wanted.fault(f'{wide} columns were expected, as before it', ragged)
    at = places_of_rows(lines, rows, header, molecule, wanted, warn)
    try:
        text = io.StringIO('\n'.join(line for _, line in lines))
        return np.loadtxt(text, delimiter=separator, usecols=at, ndmin=2, comments=None)
    except ValueError:
        number, word = next(((number, row[i]) for (number, _), row in zip(lines, rows) for i in at
                             if not is_number(row[i])), (None, None))
        raise wanted.fault(told_of(word), number) from None
