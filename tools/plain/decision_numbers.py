"""Numbers the decisions: each entry of docs/DECISIONS.md that has no number gets the next one, in their order.

A number is for good, and code, commits and other documents may cite it, as D-042: an entry keeps it where it is moved
or worded anew, and that of an entry that goes is not given again. The page itself tells which number is next. Entries
that have a number are left as they are. With --check nothing is written, and what is wrong is told, with status 1.
"""
import os
import re
import sys
import textwrap

from plain import TOP

PAGE = os.path.join(TOP, 'docs/DECISIONS.md')
ENTRY = re.compile(r'^- .*\n(?:  .*\n)*', re.M)
NUMBERED = re.compile(r'- D-(\d{3,}) ')
NEXT = re.compile(r'The\s+next is D-(\d{3,})\.')
LIST_SIGN = re.compile(r'^  (?:[-+*#]+|\d+[.)])(?: |$)', re.M)  # what a line may not begin with inside an entry


def filled(text):
    """An entry in lines of at most 120 columns, none of which begins as a list would."""
    for width in range(120, 90, -1):
        lines = textwrap.fill(text, width, initial_indent='- ', subsequent_indent='  ', break_on_hyphens=False,
                              break_long_words=False)
        if not LIST_SIGN.search(lines):
            return f'{lines}\n'
    raise SystemExit(f'tools/make decisions: no way to break {text[:60]}')


def numbered(page):
    """The page with a number for each entry, and with the next number that it tells."""
    told = NEXT.search(page)
    if told is None:
        raise SystemExit("tools/make decisions: the page does not tell 'The next is D-NNN.'")
    following = int(told.group(1))

    def entry(match):
        nonlocal following
        if NUMBERED.match(match.group()):
            return match.group()
        text = f'D-{following:03} {" ".join(match.group()[2:].split())}'
        following += 1
        return filled(text)

    page = ENTRY.sub(entry, page)
    return NEXT.sub(lambda told: told.group().replace(told.group(1), f'{following:03}'), page)


def faults(page):
    """What is wrong with the numbers of a page, a line each."""
    told = NEXT.search(page)
    found = [NUMBERED.match(entry) for entry in ENTRY.findall(page)]
    numbers = [int(match.group(1)) for match in found if match]
    wrong = [f'{len(found) - len(numbers)} entries have no number'] if len(numbers) < len(found) else []
    wrong += [f'D-{number:03} is there twice' for number in sorted(set(numbers)) if numbers.count(number) > 1]
    if told is None or any(number >= int(told.group(1)) for number in numbers):
        wrong.append('the next number is not above all')
    return wrong


def main():
    with open(PAGE, encoding='utf-8') as file:
        page = file.read()
    if sys.argv[1:] == ['--check']:
        wrong = faults(page)
        print('\n'.join(wrong) or f'{len(ENTRY.findall(page))} entries, each with a number')
        sys.exit(1 if wrong else 0)
    with open(PAGE, 'w', encoding='utf-8') as file:
        file.write(numbered(page))


if __name__ == '__main__':
    main()
