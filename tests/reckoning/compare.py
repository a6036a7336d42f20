"""Compares the definitions of crates/model with the outside reckoning: the prover
computes the definitions' answers to random lists of calls, tallies, CO2 windows and
reports, and must find them equal to the reckoning's.

Run: python3 tests/reckoning/compare.py [--lists 300] [--verdicts 20] [--seed 1] ..

It writes a scratch repository of three crates, the model, the equations but for
the last of them, and these, into a temporary folder, and has `rt all check` prove
it.  The last equation is also tried with an answer that is wrong, which the prover
must refuse under `rt must-fail`; this checks its crate again, which is why that is
small.  The last line is 'N passed, M failed': the equations are proved as a whole
or not at all, so M is 0 or all of them.
"""

import argparse
import os
import random
import re
import shutil
import subprocess
import sys
import tempfile

import antt

ROOT = os.path.join(os.path.dirname(os.path.abspath(__file__)), '..', '..')
MODEL = os.path.join(ROOT, 'crates', 'model')

# Definition files, in the order of crates/model/specs/Lib.antt, and the names
# that the lists themselves use.
LIBRARY = """\
use Rattle.std.specs.Prelude.{true, false, [], ◌∷◌, ◌≡◌, refl, pos, negsuc}
use Rattle.model.specs.declared.Finding.TheVariants.{Rule, Exceeded, Clean}
use Rattle.model.specs.Trip as trip
use Rattle.model.specs.Trip.{number, judged, refused, empty}
use Rattle.model.specs.Blocks.{wrote, unwritten, checked, unchecked}
"""
FILES = ('Numbers', 'Records', 'Windows', 'Rules', 'Verdicts', 'Tallies', 'Co2Windows',
         'Refusals', 'Trip', 'Blocks', 'Report')
PER_FILE = 25


def unfoldable_names(file):
    """The definitions of a file that a proof must open to compute with them."""
    with open(os.path.join(MODEL, 'specs', file + '.antt'), encoding='utf-8') as text:
        return re.findall(r'^ *unfoldable pub (\S+) :', text.read(), re.M)


def header_and_unfolding():
    names = {file: unfoldable_names(file) for file in FILES}
    uses = ''.join('use Rattle.model.specs.%s.{%s}\n' % (file, ', '.join(names[file]))
                   for file in FILES)
    return LIBRARY + uses, 'unfolding ' + ' '.join(sum(names.values(), []))


def write(path, text):
    os.makedirs(os.path.dirname(path), exist_ok=True)
    with open(path, 'w', encoding='utf-8') as file:
        file.write(text)


def statement(k, left, right):
    return 'case-%d : %s ≡ %s' % (k, left, right)


def file_text(equations, first, header, unfolding):
    parts = [header]
    for k, (left, right) in enumerate(equations, first):
        parts.append('%s\n%s\ncase-%d = refl\n' % (statement(k, left, right), unfolding, k))
    return '\n'.join(parts)


def wrong_edit(k, left, right):
    """An edit that gives equation k a wrong answer: there is no refusal 0, and no
    report or list of calls here comes to nothing."""
    wrong = '[]' if left.startswith(('answers', 'report')) else 'unwritten 0'
    return ('# equation %d with a wrong answer\nfile: specs/Part%d.antt\nold: %s\nnew: %s\n'
            % (k, k // PER_FILE, statement(k, left, right), statement(k, left, wrong)))


def all_equations(options):
    rng = random.Random(options.seed)
    small = antt.small_lists(rng, options.lists)
    drives = antt.verdict_lists(rng, options.verdicts)
    edges = antt.edge_lists() if options.edges else []
    tallies = antt.tally_equations(rng, options.tallies)
    windows = antt.co2_equations(rng, options.co2)
    reports = antt.report_equations(rng, options.reports)
    print('%d small lists of calls, %d drives, %d drives on a rule\'s edge, %d tallies and joins, '
          '%d CO2 windows of a block, %d reports'
          % (len(small), len(drives), len(edges), len(tallies), len(windows), len(reports)))
    lists = [antt.list_equation(*calls) for calls in small + drives + edges]
    return lists + tallies + windows + reports


def write_crate(folder, equations, starts):
    """A crate of the equations from each of these starts on, a file for each."""
    texts = header_and_unfolding()
    write(os.path.join(folder, 'src', 'lib.rt'), '// Calls with their answers.\n')
    for start in starts:
        write(os.path.join(folder, 'specs', 'Part%d.antt' % (start // PER_FILE)),
              file_text(equations[start:start + PER_FILE], start, *texts))
    write(os.path.join(folder, 'specs', 'Lib.antt'),
          ''.join('pub mod Part%d\n' % (start // PER_FILE) for start in starts))


def write_repository(folder, equations):
    crates = os.path.join(folder, 'crates')
    shutil.copytree(MODEL, os.path.join(crates, 'model'),
                    ignore=shutil.ignore_patterns('must-fail', 'out'))
    write(os.path.join(folder, 'crates.txt'), 'model:\ncompared: model\nlast: model\n')
    starts = range(0, len(equations), PER_FILE)
    write_crate(os.path.join(crates, 'compared'), equations, starts[:-1])
    write_crate(os.path.join(crates, 'last'), equations, starts[-1:])
    last = len(equations) - 1
    write(os.path.join(crates, 'last', 'must-fail', 'wrong_answer.edit'), wrong_edit(last, *equations[last]))


def first_failure(folder):
    """What the first command says that fails on the scratch repository, or None."""
    for command in (['rt', 'all', 'check'], ['rt', 'must-fail']):
        run = subprocess.run(command, cwd=folder, text=True,
                             stdout=subprocess.PIPE, stderr=subprocess.STDOUT)
        if run.returncode != 0:
            return run.stdout
    return None


def main():
    parser = argparse.ArgumentParser(description='Compare the definitions with the outside reckoning.')
    parser.add_argument('--lists', type=int, default=300)
    parser.add_argument('--verdicts', type=int, default=20)
    parser.add_argument('--tallies', type=int, default=150)
    parser.add_argument('--co2', type=int, default=500)
    parser.add_argument('--reports', type=int, default=30)
    parser.add_argument('--no-edges', dest='edges', action='store_false')
    parser.add_argument('--seed', type=int, default=1)
    options = parser.parse_args()
    equations = all_equations(options)
    with tempfile.TemporaryDirectory() as folder:
        write_repository(folder, equations)
        said = first_failure(folder)
    tried = len(equations) + 1    # the equations and the wrong answer
    if said is None:
        print('%d passed, 0 failed' % tried)
        return 0
    print(said)
    print('0 passed, %d failed' % tried)
    return 1


if __name__ == '__main__':
    sys.exit(main())
