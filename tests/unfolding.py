"""Checks the `unfolding` list of the theorem `marked_cases` in
crates/model/specs/Cases.antt: it must name every unfoldable definition that the
cases compute through, that is, each that is reached by name from `computed` and
`stated` through the definitions' right sides.  Where one is left out, the prover
only says that it took too many steps.

Run: python3 tests/unfolding.py [FOLDER]     (of the specs; default: the model's)

One check for each name; the last line is 'N passed, M failed'.
"""

import os
import re
import sys

SPECS = os.path.join(os.path.dirname(os.path.abspath(__file__)), '..', 'crates', 'model', 'specs')
CASES, THEOREM, ROOTS = 'Cases', 'marked_cases', ('computed', 'stated')

USE = re.compile(r'^use Rattle\.model\.specs\.(\w+)\.\{([^}]*)\}', re.M)
DECLARATION = re.compile(r'( *)(unfoldable |abbrev )?(?:pub )?([^\s(]+) :(?: |$)')
LIST = re.compile(r'^(?:pub )?%s :.*?^unfolding\b(.*?)^%s\b' % (THEOREM, THEOREM), re.M | re.S)


class File:
    """A file's imports from the other files, its declared names (and how far in
    each stands), which of them are unfoldable, and the words that each one's right
    sides use."""

    def __init__(self, text):
        text = re.sub(r'"[^"\n]*"', '""', text)
        text = re.sub(r'--.*', '', text)
        self.text = text
        self.imports = {name: file for file, names in USE.findall(text)
                        for name in re.split(r'[,\s]+', names) if name}
        self.indents, self.unfoldable, self.uses = {}, set(), {}
        lines = text.split('\n')
        for line in lines:
            found = DECLARATION.match(line)
            if found:
                self.indents.setdefault(found[3], set()).add(len(found[1]))
                if found[2] == 'unfoldable ':
                    self.unfoldable.add(found[3])
        for name, equation in self.equations(lines):
            self.uses.setdefault(name, set()).update(used(name, equation))

    def equations(self, lines):
        """Pairs of a name and one of its equations: a line that begins with the
        name, as far in as its declaration, and the lines further in below it."""
        name, parts, start = None, [], 0
        for line in lines + ['end']:
            words, indent = line.split(), len(line) - len(line.lstrip())
            if not words or (name is not None and indent > start):
                parts.append(line)
                continue
            if name is not None:
                yield name, '\n'.join(parts)
            begins = indent in self.indents.get(words[0], ()) and not DECLARATION.match(line)
            name, parts, start = (words[0] if begins else None), [line], indent


def used(name, equation):
    """The words on the right side of an equation but those that are bound in it
    and fields of records; of a projection, what it is taken of."""
    words = re.findall(r'[^\s(){},;]+', equation)
    if '=' not in words:
        return set()
    at = words.index('=')
    right = words[at + 1:] + ['']
    bound = set(words[:at]) - {name}
    for binder in re.findall(r'λ([^.]*)\.', equation):
        bound.update(binder.split())
    bound.update(re.findall(r'\blet (\S+) :', equation))
    heads = {word.split('.')[0] for word, after in zip(right, right[1:]) if after != '='}
    return heads - bound - {''}


def says(words, name):
    """Do the words use this name, whole or as an operator between its arguments?"""
    parts = [part for part in name.split('◌') if part]
    return name in words or ('◌' in name and parts != [] and words.issuperset(parts))


def read_files(folder):
    files = {}
    for entry in sorted(os.listdir(folder)):
        if entry.endswith('.antt'):
            with open(os.path.join(folder, entry), encoding='utf-8') as file:
                files[entry[:-5]] = File(file.read())
    return files


def reached(files):
    """The unfoldable definitions reached: {(file, name)}."""
    seen, waiting = set(), [(CASES, name) for name in ROOTS]
    while waiting:
        file, name = waiting.pop()
        if (file, name) in seen or file not in files or name not in files[file].indents:
            continue
        seen.add((file, name))
        here = files[file]
        words = here.uses.get(name, set())
        waiting += [(file, other) for other in here.indents if says(words, other)]
        waiting += [(origin, other) for other, origin in here.imports.items()
                    if other not in here.indents and says(words, other)]
    return {(file, name) for file, name in seen if name in files[file].unfoldable}


def faults(files):
    """For each name that is reached or listed, what is wrong with it, or None."""
    cases = files[CASES]
    found = LIST.search(cases.text)
    listed = found[1].split() if found else []
    needed = reached(files)
    for file, name in sorted(needed):
        if name not in listed:
            yield 'add %s (of %s.antt) to the unfolding list of %s' % (name, file, THEOREM)
        elif file != CASES and cases.imports.get(name) != file:
            yield 'import %s from %s.antt, for the unfolding list of %s' % (name, file, THEOREM)
        else:
            yield None
    remove = 'remove %s from the unfolding list of %s: %s'
    for name in sorted(set(listed) - {name for _, name in needed}):
        yield remove % (name, THEOREM, 'no case computes through it')
    for name in sorted({name for name in listed if listed.count(name) > 1}):
        yield remove % (name, THEOREM, 'it stands there twice')


def main():
    results = list(faults(read_files(sys.argv[1] if len(sys.argv) > 1 else SPECS)))
    wrong = [result for result in results if result is not None]
    for line in wrong:
        print('%s.antt: %s' % (CASES, line))
    print('%d passed, %d failed' % (len(results) - len(wrong), len(wrong)))
    return 1 if wrong or not results else 0


if __name__ == '__main__':
    sys.exit(main())
