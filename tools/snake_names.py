#!/usr/bin/env python3
"""Brings the names of this repository's own definitions and lemmas to snake case, in one go, after the kit's port.py.

usage: python3 tools/snake_names.py            at the top of the repository

A definition or a lemma is a name that a file of specs/, or a lemma file right in proofs/, declares. Names of types keep their capital.
A name written in camel case gets underscores; a dash becomes an underscore. What the proofs of functions declare (proofs/F/), names of
Rattle source, and names of the library stay. The texts of must-fail edits are turned too. Names that would fall together stay as they
are, and are printed; but where a lemma has its definition's name, it gets `_lem`, as the library's lemmas do.
"""

import collections
import glob
import re

STOP = r"\s(){}\[\],;.·`\""
DECLARED = re.compile(r"^[ ]*(?:abbrev |unfoldable )?(?:pub )?(?:abbrev )?(?:data |record )?([^\s:(){};,.]+(?: [^\s:(){};,.]+)*) :(?!=)", re.M)
LIBRARY = ("Rattle.std", "mathlib", "Prim", "native", "borrow", "lib.", "mir", "denote", "logic", "alloc")


# lemmas that would have their definition's name
LEMMAS = """accepted-text beyond-limit broken-line bytes-length count-after dynamics-rules ends-rule entry-of finding-text in-class in-range
limit-side low_sum number-place power-beyond power-factor record-length refused-text sample-at sample-of sample-read samples-line speed-at
speed-before sum-after tally-length tally-rules value-at verdict-line""".split()

# definitions whose new name stands elsewhere too, but for something else: their lemma of above, a function of source, a crate
APART = """acceptedText beyondLimit brokenLine bytesLength classTally countAfter countKept dynamicsRules endsRule findingText hexDigit inClass
joinClass limitSide limitsOf lowSum numberPlace powerBeyond powerFactor putLe recordLength refusedText sampleAt sampleOf sampleRead
samplesLine speedAt speedBefore sumAfter tallyBytes tallyLength tallyRules verdictLine""".split()


def files():
    return sorted(glob.glob("crates/*/specs/**/*.antt", recursive=True) + glob.glob("crates/*/proofs/**/*.antt", recursive=True) + glob.glob("crates/*/src/*.rt"))


def declaring(path):
    return "/specs/" in path or re.fullmatch(r"crates/\w+/proofs/[^/]+\.antt", path)


def snake(name):
    if not name[0].islower() or "◌" in name:
        return name
    name = name.replace("-", "_")
    name = re.sub(r"([a-z0-9])([A-Z])", lambda m: m.group(1) + "_" + m.group(2).lower(), name)
    return name


def tokens(text):
    return set(re.split("[" + STOP + "]+", text))


def library_names(texts):
    out = set()
    for t in texts.values():
        for m in re.finditer(r"^(?:ghost )?use ([\w.◌+*/^≤<≡\-]+)\.\{([^}]*)\}", t, re.M):
            if m.group(1).startswith(LIBRARY):
                out |= {w.strip().split(" as ")[0] for w in m.group(2).split(",")}
    return out


def main():
    texts = {p: open(p, encoding="utf-8").read() for p in files()}
    edits = {p: open(p, encoding="utf-8").read() for p in sorted(glob.glob("crates/*/must-fail/*.edit"))}
    declared = collections.defaultdict(set)
    for p, t in texts.items():
        if declaring(p):
            for m in DECLARED.finditer(t):
                for n in m.group(1).split():
                    declared[n].add(p)
    library = library_names(texts)
    turned = {}
    for n in declared:
        to = snake(n)
        if to != n and n not in library:
            turned[n] = to
    back = collections.defaultdict(set)
    for n, to in turned.items():
        back[to].add(n)
    for to, froms in sorted(back.items()):
        clash = [p for p, t in texts.items() if to in tokens(t) and any(n in tokens(t) for n in froms)]
        declared_there = to in declared
        in_library = to in library
        if len(froms) > 1 or declared_there or in_library or [p for p in clash if not p.endswith(".rt")]:
            print("together:", to, sorted(froms), "declared" if declared_there else "", "library" if in_library else "", clash[:4])
            for n in froms:
                del turned[n]
    # what was read by hand: a name of Rattle source, or of another module that is not imported beside, may be the same
    turned |= {n: snake(n) for n in APART}
    turned |= {n: snake(n) + "_lem" for n in LEMMAS}
    word = re.compile(r"(?<![^" + STOP + r"])([^" + STOP + r"]+)(?![^" + STOP + r"])")

    def turn(text):
        return word.sub(lambda m: turned.get(m.group(1), m.group(1)), text)

    for p, t in {**texts, **edits}.items():
        new = turn_source(t, turn) if p.endswith(".rt") else turn_edit(t, turn) if p.endswith(".edit") else turn(t)
        if new != t:
            open(p, "w", encoding="utf-8").write(new)
    print(len(turned), "names turned")


CLAUSE = re.compile(r"^\s*(ghost use |ghost |requires|ensures)")


def turn_source(text, turn):
    return "\n".join(turn(line) if CLAUSE.match(line) or "{ (" in line and "≡" in line else line for line in text.split("\n"))


def turn_edit(text, turn):
    antt = False
    out = []
    for line in text.split("\n"):
        if line.startswith("file:"):
            antt = line.rstrip().endswith(".antt")
        elif antt and (line.startswith("old:") or line.startswith("new:")):
            line = turn(line)
        out.append(line)
    return "\n".join(out)


main()
