"""Prints the table of document 01's marked cases and of R-4's averages as
crates/model/specs/Cases.antt states them; the theorem `marked_cases` there says
that the definitions give them.

Run: python3 tests/table.py
"""

import os
import re

CASES = os.path.join(os.path.dirname(os.path.abspath(__file__)),
                     '..', 'crates', 'model', 'specs', 'Cases.antt')


def rows(text):
    """(letter, what the case is, what is stated) for each case."""
    table = text[text.index('record Table'):text.index('computed : Table')]
    stated = text[text.index('stated = record {'):text.index('marked_cases :')]
    about = dict((m[1], m[0]) for m in re.findall(r'-- (.*)\n +pub (\w) :', table))
    values = re.findall(r'^  (\w) = (.*);$', stated, re.M)
    return [(letter, about[letter], value) for letter, value in values]


def main():
    with open(CASES, encoding='utf-8') as file:
        for letter, case, value in rows(file.read()):
            print('(%s) %s\n    %s' % (letter, case, value))


if __name__ == '__main__':
    main()
