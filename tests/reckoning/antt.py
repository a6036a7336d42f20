"""Calls, tallies, CO2 windows and reports with their answers by the outside reckoning, as
terms and equations of the language antt, which the prover's `refl` checks by computing.
compare.py puts them into a scratch crate.
"""

import co2
import drives
import generate
import reference


# --- Text --------------------------------------------------------------------

def list_term(elements):
    """`x :: y :: []` in antt's signs; each element is closed by the caller."""
    return ' ∷ '.join(list(elements) + ['[]'])


def bytes_term(record):
    return '(%s)' % list_term(str(b) for b in record) if record else '[]'


def call_term(call):
    if call[0] in ('declare', 'sample'):
        return '(trip.%s %s)' % (call[0], bytes_term(call[1]))
    if call[0] == 'read':
        return '(trip.read %d)' % call[1]
    return 'trip.' + call[0]


def integer_term(n):
    return '(pos %d)' % n if n >= 0 else '(negsuc %d)' % (-n - 1)


def finding_term(finding):
    if finding == reference.FINDING_EXCEEDED:
        return 'Exceeded'
    return 'Clean' if finding == reference.FINDING_CLEAN else 'Rule %d' % finding


def answer_term(answer):
    if answer[0] == 'number':
        return '(number %s)' % integer_term(answer[1])
    if answer[0] == 'refused':
        return '(refused %d)' % answer[1]
    _, mask, exceeded, finding = answer
    return ('(judged (record { broken = %d; exceeded = %s; finding = %s }))'
            % (mask, bool_term(exceeded), finding_term(finding)))


def written_term(answer):
    """What a tally call writes, or its refusal."""
    if isinstance(answer, bytes):
        return 'wrote %s' % bytes_term(answer)
    return 'unwritten %d' % answer[1]


def bool_term(mark):
    return 'true' if mark else 'false'


def checked_term(answer):
    """What the check of CO2 windows comes to, or its refusal."""
    if answer.refusal:
        return 'unchecked %d' % answer.refusal
    return ('checked (record { complete = %d; normal = %d; pass = %s })'
            % (answer.complete, answer.normal, bool_term(answer.passed)))


def list_equation(calls, answers):
    return ('answers empty (%s)' % list_term(map(call_term, calls)),
            '(%s)' % list_term(map(answer_term, answers)))


def tally_equation(block, length):
    return ('tallied %s %d' % (bytes_term(block), length),
            written_term(reference.tally_block(block, length)))


def join_equation(a, b, length):
    return ('joined %s %s %d' % (bytes_term(a), bytes_term(b), length),
            written_term(reference.join(a, b, length)))


def co2_equation(block, record):
    return ('co2_checked %s %s' % (bytes_term(block), bytes_term(record)),
            checked_term(reference.co2_check(block, record)))


def report_equation(data):
    return 'report %s' % bytes_term(data), bytes_term(reference.report(data))


# --- The lists ---------------------------------------------------------------

def small_list(rng, max_calls=14, max_samples=8):
    """A short list: mostly one to three windows, then samples and reads."""
    maker = generate.Maker(rng, max_samples, fault_rate=rng.choice((0, 0.05, 0.2)))
    for _ in range(rng.choice((0, 1, 1, 2, 2, 3))):
        maker.declare()
    length = rng.randint(max(4, len(maker.calls)), max_calls)
    while len(maker.calls) < length:
        maker.step()
    return maker.calls, maker.answers


def function_list(rng, function, channel):
    """One window of that function on altitudes, or on NOx or channel 6 about zero, read after
    each sample; a verdict."""
    style = 'altitudes' if channel == 1 else 'drift'
    window = generate.random_window(rng, style)._replace(
        function=function, channel=channel, condition=0, low=0,
        high=rng.choice((0, 300, 700, 3000)))
    maker = generate.Maker(rng, 8, 0, style=style)
    maker.make(('declare', reference.encode_window(window)))
    for _ in range(rng.randint(3, 6)):
        maker.sample()
        maker.make(('read', 0))
    maker.make(('verdict',))
    return maker.calls, maker.answers


def small_lists(rng, count):
    """`count` lists: the fixed short ones, one in five on one function of altitudes, NOx or
    channel 6 in turn, and random ones."""
    fixed = generate.named_lists()
    drifting = [name for name in generate.drift_lists()
                if name not in ('drift-windows', 'drift-weights', 'drift-far-below')]
    names = ('case-a', 'case-b', 'case-i', 'order-closed', 'order-sample',
             'order-after-sample', 'order-17', 'read-numbers', 'edges-altitude',
             'edges-temperature', 'window-faults', 'window-edges', 'height-away-and-back',
             'height-after-clear', 'height-far-refused', 'height-near-refused',
             'edges-nox', *generate.extended_lists(), *generate.average_lists(), *drifting)
    lists = [fixed[name] for name in names][:count]
    while len(lists) < count:
        k = len(lists)
        lists.append(function_list(rng, k // 5 % 6, (1, 4, 6)[k // 30 % 3]) if k % 5 == 0
                     else small_list(rng))
    return lists


def verdict_lists(rng, count):
    """Drives of 60 to 90 samples, accelerating in all classes, and a verdict."""
    return [generate.verdict_list(rng, rng.randint(60, 90)) for _ in range(count)]


def edge_lists():
    """The short drives on either side of a rule's edge, those of weights about 0 and about
    the limit, and the limits of each speed class and count, with a verdict after each
    sample."""
    lists = []
    for edge in drives.all_edges():
        if not edge.whole:
            for drive in (edge.kept, edge.broken):
                lists.append(drives.calls_of(drive))
    lists += [drives.calls_of(drives.drift_drive(*each)) for each in generate.DRIFT_WEIGHTS]
    limits = [v + d for v in (10, 600, 900, 1000, 1450, 1600, 2999) for d in (-1, 0, 1)]
    lists.append(drives.judged_each(drives.calls_of(drives.drive_of(limits))[:-1]))
    return [(calls, reference.replay(calls)) for calls in lists]


# --- Tallies, CO2 windows and reports ----------------------------------------

def tally_equations(rng, count):
    """The blocks and joins for extended U, and those for U below zero; then blocks of up to six
    records and joins of random tallies, refusals included."""
    equations = [tally_equation(block, reference.TALLY_LENGTH)
                 for block in generate.band_blocks() + generate.drift_blocks()]
    equations += [join_equation(*case)
                  for case in generate.extended_join_cases() + generate.signed_join_cases()]
    while len(equations) < count:
        length = generate.random_out_length(rng)
        if len(equations) % 3 == 0:
            block = generate.random_block(rng)
            if len(block) <= 96:
                equations.append(tally_equation(block, length))
        else:
            a, b = generate.random_tally(rng), generate.random_tally(rng)
            equations.append(join_equation(a, b, length))
    return equations


def co2_equations(rng, count):
    """The named cases, and random ones of up to sixteen records."""
    cases = co2.named_cases()
    while len(cases) < count:
        case = co2.random_case(rng)
        if len(case.block) <= 256:
            cases.append(case)
    return [co2_equation(case.block, case.reference) for case in cases[:count]]


def report_equations(rng, count):
    """Reports of short drives, some cut within a record, some with a wrong second."""
    equations = []
    for k in range(count):
        data = drives.block_of(drives.random_drive(rng, rng.randint(0, 9)))
        if k % 3 == 1:
            data = data[:rng.randint(0, len(data))]
        if k % 3 == 2 and len(data) >= 32:
            data = data[:16] + data[:16] + data[32:]
        equations.append(report_equation(data))
    return equations
