"""Reads definitions and proofs as texts: which names a file declares, which it imports, and which it passes on.

Nothing is proved here. A declaration is what stands at the first column of an .antt file, from its head to the next; a
block `module _ (..) where` is one, named `module`, with all that stands in it.
"""
import collections
import glob
import os
import re

TOP = os.path.dirname(os.path.dirname(os.path.dirname(os.path.realpath(__file__))))
WORDS = 'pub|opaque|abbrev|unfoldable|record|data|ruleset|mutual|instance'
HEAD = re.compile(rf'^((?:(?:{WORDS}) )*)([^\s:({{]+)(?=[\s:({{])')
USE = re.compile(r'^((?:pub |unfoldable |ghost )*)use\s+([^\s{;]+?)(?:\.\{([^}]*)\}| as (\S+?))?;?[ \t]*$', re.M)
WORD = re.compile(r'[^\s(){}\[\],;.|↦←]+')
OF_A_GOAL = ('Answers.antt', 'Invariants.antt', 'Proof.antt')
NO_NAMES = {'use', 'mod', 'where', 'mutual', 'instance', 'unfolding', '--', ')', '])'}

Declaration = collections.namedtuple('Declaration', 'module name words first end is_public text')


class File:
    """An .antt or .rt file: its module, its declarations, and what each name means in it."""

    def __init__(self, path):
        self.path = path
        with open(path, encoding='utf8') as file:
            self.text = file.read()
        parts = os.path.relpath(path, os.path.join(TOP, 'crates')).rsplit('.', 1)[0].split('/')
        self.crate, self.kind = parts[0], parts[1]
        self.module = '.'.join(['Rattle', *parts])
        self.names, self.aliases, self.passed_on = {}, {}, set()
        for words, module, listed, alias in USE.findall(self.text):
            if not listed:
                self.aliases[alias or module.rsplit('.', 1)[-1]] = module
            for one in filter(None, map(str.strip, listed.split(','))):
                name, _, here = one.partition(' as ')
                self.names[here or name] = (module, name)
                if 'pub ' in words:
                    self.passed_on.add(here or name)

    def declarations(self):
        """The declarations of a file of definitions or proofs, in their order, each with all its equations."""
        lines = self.text.split('\n')
        heads = []
        for number, line in enumerate(lines):
            head = HEAD.match(line)
            if head and head[2] not in NO_NAMES and (not heads or heads[-1][1][2] != head[2] or head[2] == 'module'):
                heads.append((number, head))
        for (number, head), (end, _) in zip(heads, [*heads[1:], (len(lines), None)]):
            while end > number + 1 and (not lines[end - 1].strip() or lines[end - 1].startswith('--')):
                end -= 1
            text = '\n'.join(line for line in lines[number:end] if not line.strip().startswith('--'))
            yield Declaration(self.module, head[2], head[1], number, end, 'pub ' in head[1], text)

    def is_of_a_goal(self):
        """Whether the checker asks for what stands here by itself: answers, invariants and proofs of a function or a
        type."""
        return os.path.basename(self.path) in OF_A_GOAL or '.TheSendSync.' in self.module


def files_of(ending='antt'):
    """All files of crates/ with an ending, but what is built."""
    paths = glob.glob(os.path.join(TOP, 'crates/*/*/**', '*.' + ending), recursive=True)
    return [File(path) for path in sorted(paths) if '/out/' not in path]
