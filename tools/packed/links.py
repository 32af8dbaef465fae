"""Links of the documents in a release: each leads to where its file is packed, or is plain text where it is not."""
import os
import re

LINK = re.compile(r'!?\[([^\]]*)\]\(([^)\s]+)\)')


def outside_code(text, change):
    """The text with what `change` makes of each stretch of it that is no block of code."""
    parts = re.split(r'(^```.*?^```$)', text, flags=re.S | re.M)
    return ''.join(part if i % 2 else change(part) for i, part in enumerate(parts))


def placed_links(text, name, place, places):
    """The text of a document of the repository as it stands at its place in a release.

    `places` tells for each file of the repository that is packed where it is. Other links lose their target; a link to
    a place on the net, or within the document, stays.
    """
    def placed(found):
        told, link = found[1], found[2]
        path, sign, anchor = link.partition('#')
        if not path or re.match(r'[a-z]+:', link):
            return found[0]
        target = places.get(os.path.normpath(os.path.join(os.path.dirname(name), path)))
        if target is None:
            return told
        return f'[{told}]({os.path.relpath(target, os.path.dirname(place) or ".")}{sign}{anchor})'
    return outside_code(text, lambda part: LINK.sub(placed, part))


def dead_links(folder):
    """The relative links of the documents in a folder that lead to no file, or to no heading: lines `NAME: LINK`."""
    found = []
    for here, _, names in os.walk(folder):
        for name in (os.path.join(here, name) for name in names if name.endswith('.md')):
            with open(name, encoding='utf-8') as file:
                text = file.read()
            outside_code(text, lambda part, name=name: found.extend(dead_of(part, name, folder)) or part)
    return sorted(found)


def dead_of(text, name, folder):
    for found in LINK.finditer(text):
        path, _, anchor = found[2].partition('#')
        target = os.path.normpath(os.path.join(os.path.dirname(name), path)) if path else name
        if re.match(r'[a-z]+:', found[2]):
            continue
        if not os.path.exists(target) or (anchor and anchor not in headings(target)):
            yield f'{os.path.relpath(name, folder)}: {found[2]}'


def headings(name):
    """The anchors of a document's headings, as hosts of repositories make them."""
    with open(name, encoding='utf-8') as file:
        heads = re.findall(r'^#+ (.*)$', file.read(), re.M)
    return {re.sub(r'[^\w\- ]', '', head.strip().lower()).replace(' ', '-') for head in heads}
