"""Counts what a house gathers: lines, dead lemmas, names with two meanings, statements that stand twice.

    tools/measure house             the counts
    tools/measure house --list      and what each of them counts

- lines of code, definitions and proofs, of these the imports; lines of proof a line of code
- lemmas that no goal reaches: by what each declaration names, from the answers, invariants and definitions on
- names that a `proofs/Cited` passes on and no other crate takes
- names of definitions that stand in two crates or more
- statements of lemmas that are the same up to their bound names, and how many of them are spare
- lemmas that speak of no word of this repository, outside of the crates of such laws

It reads texts alone, so each is a place to look at and no verdict.
"""
import collections
import re
import sys

from plain.proof_texts import USE, WORD, files_of

BASE = {'whole_ring', 'list_laws', 'conv_laws'}
TOKEN = re.compile(r'[(){}\[\],;|.]|[^\s(){}\[\],;|.]+')


class Names:
    """Who declares what, and whom each declaration names."""

    def __init__(self, files):
        self.files = {file.module: file for file in files}
        self.declared = {}
        for one in (one for file in files for one in file.declarations()):
            name = f'module {one.first}' if one.name == 'module' else one.name
            self.declared[one.module, name] = one

    def owner(self, module, name):
        """The declaration behind a name of a module, through what modules pass on."""
        for _ in range(9):
            if (module, name) in self.declared or module not in self.files:
                return (module, name)
            if name not in self.files[module].names:
                return (module, name)
            module, name = self.files[module].names[name]
        return (module, name)

    def named(self, file, text):
        """What a text of a file names, of its own file or another."""
        for name in set(WORD.findall(text)):
            yield self.owner(file.module, name)
        for alias, name in re.findall(r'([^\s(){}\[\],;.|]+)\.([^\s(){}\[\],;.|]+)', text):
            if alias in file.aliases:
                yield self.owner(file.aliases[alias], name)


def without_imports(text):
    return USE.sub('', text)


def is_rooted(one):
    """Whether a declaration of a lemma file counts as asked for: a list of rules, and a block with parameters."""
    return 'ruleset' in one.words or one.name == 'module'


def unreached(names, code):
    """Lemmas that nothing which the checker asks for reaches, with their lines."""
    reached, left = set(), []
    for file in code:
        left += [names.owner(module, name) for module, name in file.names.values()]
        left += names.named(file, without_imports(file.text))
    left += [key for key, one in names.declared.items()
             if '.proofs.' not in one.module or names.files[one.module].is_of_a_goal() or is_rooted(one)]
    while left:
        key = left.pop()
        if key not in reached:
            reached.add(key)
            one = names.declared.get(key)
            left += names.named(names.files[one.module], one.text) if one else []
    return [one for key, one in names.declared.items() if key not in reached and '.proofs.' in one.module]


def untaken(names, code):
    """Names that a Cited passes on and no other file takes."""
    taken = set()
    for file in [*names.files.values(), *code]:
        taken |= set(file.names.values())
        taken |= {(file.aliases[alias], name)
                  for alias, name in re.findall(r'([^\s(){}\[\],;.|]+)\.([^\s(){}\[\],;.|]+)', file.text)
                  if alias in file.aliases}
    return [(file.module, name) for file in names.files.values() if file.module.endswith('.proofs.Cited')
            for name in sorted(file.passed_on) if (file.module, name) not in taken]


def in_two_crates(names):
    """Public definitions whose name stands in two crates or more, with these."""
    crates = collections.defaultdict(set)
    for one in names.declared.values():
        if '.specs.' in one.module and one.is_public:
            crates[one.name].add(one.module.split('.')[1])
    return {name: sorted(of) for name, of in crates.items() if len(of) > 1}


def statement(one):
    """A lemma's statement with its bound names by number; nothing where it is no lemma."""
    lines = one.text.split('\n')
    end = next((n for n, line in enumerate(lines[1:], 1) if not line.startswith('    ')), len(lines))
    _, colon, told = ' '.join(line.strip() for line in lines[:end]).partition(' : ')
    if not colon or any(word in one.words for word in ('abbrev', 'record', 'data')) or 'goal' in WORD.findall(told):
        return None
    bound = {}
    for group in re.findall(r'[({]([^(){}:]+?) : ', told) + re.findall(r'λ ([^.()]+)\.', told):
        for name in group.split():
            bound.setdefault(name, f'v{len(bound)}')
    tokens = TOKEN.findall(told)
    is_type = tokens[-2:] == ['Type', '0']
    return None if len(tokens) < 6 or is_type else ' '.join(bound.get(token, token) for token in tokens)


def lemmas(names):
    """The lemmas of proofs/ with their statements, but the answers of goals."""
    for one in names.declared.values():
        if '.proofs.' in one.module and one.name != 'module' and not names.files[one.module].is_of_a_goal():
            told = statement(one)
            if told:
                yield one, told


def twice(names):
    """Statements that stand twice or more, with their lemmas."""
    same = collections.defaultdict(list)
    for one, told in lemmas(names):
        same[told].append(one)
    return {told: ones for told, ones in same.items() if len(ones) > 1}


def of_no_own_word(names):
    """Lemmas outside of the crates of laws whose statement names nothing that this repository declares."""
    own = {name for (module, name), one in names.declared.items() if '.specs.' in module or 'record' in one.words}
    for one, told in lemmas(names):
        file = names.files[one.module]
        if file.crate not in BASE:
            said = [names.owner(one.module, word)[0] for word in WORD.findall(told) if word in file.names]
            if not any(module.startswith('Rattle.') and not module.startswith('Rattle.std.') for module in said) and \
                    not own & set(WORD.findall(told)):
                yield one


def lines_of(files):
    return sum(file.text.count('\n') for file in files)


def told_lines(proofs, specs, code):
    imports = sum(match.group().count('\n') + 1 for file in proofs for match in USE.finditer(file.text))
    print(f'lines: code {lines_of(code)}, definitions {lines_of(specs)}, proofs {lines_of(proofs)}, '
          f'{lines_of(code) + lines_of(specs) + lines_of(proofs)} in all; of the proofs {imports} are imports; '
          f'{lines_of(proofs) / lines_of(code):.2f} lines of proof a line of code')


def main(words):
    files, code = files_of('antt'), files_of('rt')
    names = Names(files)
    told_lines([f for f in files if f.kind == 'proofs'], [f for f in files if f.kind == 'specs'], code)
    dead = unreached(names, code)
    doubles = twice(names)
    spare = [one for ones in doubles.values() for one in ones[1:]]
    std = list(of_no_own_word(names))
    counts = [
        ('lemmas that no goal reaches', dead),
        ('names of Cited that no other file takes', untaken(names, code)),
        ('names of definitions in two crates or more', sorted(in_two_crates(names).items())),
        ('statements that stand again', spare),
        ("lemmas on std's words alone", std),
    ]
    for what, found in counts:
        sized = [one for one in found if hasattr(one, 'end')]
        lines = f', {sum(one.end - one.first for one in sized)} lines' if sized else ''
        print(f'{what}: {len(found)}{lines}')
        if '--list' in words:
            for one in found:
                print('   ', f'{one.module} {one.name}' if hasattr(one, 'end') else ' '.join(map(str, one)))


if __name__ == '__main__':
    main(sys.argv[1:])
