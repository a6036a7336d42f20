"""Checks of the reckoning itself: the marked cases (a) to (i) of document 01,
the reports, rule 21 of document 02's R-1, the weights of its R-2, the averages of
its R-4, the CO2 windows of its R-5 and the NOx below zero of its R-6 by hand, the
rolling recount, the edge drives, and what the generator reaches.
Run: python3 tests/reckoning/selftest.py
"""

import glob
import os
import random
import re
import struct
import sys
from fractions import Fraction

import antt
import co2
import drives
import generate
import reference
from reference import (AVERAGE, COUNT, LARGEST, PERCENTILE, SMALLEST, SUM, TALLY_LENGTH,
                       CO2Window, Sample, Trip, Window)

RESULTS = []
EXAMPLES = os.path.join(os.path.dirname(os.path.abspath(__file__)),
                        '..', '..', 'examples', 'drives', '*.drive')


def check(name, got, expected):
    passed = got == expected
    RESULTS.append(passed)
    print('%s %s' % ('pass' if passed else 'FAIL', name))
    if not passed:
        print('     got %r, expected %r' % (got, expected))


def make_trip(windows, samples):
    """A trip with these windows and (speed, altitude, flow, nox) samples, and
    the answers of its sample calls."""
    trip = Trip()
    for window in windows:
        assert trip.declare(reference.encode_window(window))[0] == 'number'
    answers = []
    for second, values in enumerate(samples):
        fields = dict(second=second, speed=0, altitude=0, temperature=2931,
                      flow=0, nox=0, co2=0)
        fields.update(values)
        answers.append(trip.sample(reference.encode_sample(Sample(**fields))))
    return trip, answers


def window(function, channel, width, condition=0, low=0, high=3000):
    return Window(function, channel, condition, 0, width, 0, low, high)


# --- Marked cases ------------------------------------------------------------

def case_a():
    """Figure 1: values 4, 1, 3, 2, the second and fourth unqualified, w 3."""
    sums = []
    values = [(4, 1), (1, 0), (3, 1), (2, 0)]   # value, condition value
    for n in range(1, 5):
        trip, _ = make_trip([window(SUM, 0, 3, condition=4, low=1, high=1)],
                            [dict(speed=v, nox=q) for v, q in values[:n]])
        sums.append(trip.read(0))
    check('(a) sums', sums, [('number', k) for k in (4, 4, 7, 3)])


def case_b():
    """Largest, w 3, values 5, 3, 3: 4 moves; then 7: 7 moves."""
    trip, answers = make_trip([window(LARGEST, 0, 3)],
                              [dict(speed=v) for v in (5, 3, 3, 7)])
    check('(b) moves', answers[2:], [('number', 4), ('number', 7)])
    check('(b) held', trip.held(0), [3])


def case_c():
    check('(c) percentile of 1..20', reference.percentile(list(range(1, 21))), 19)
    check('(c) percentile of 1..21', reference.percentile(list(range(1, 22))), 20)
    for top, expected in ((20, 19), (21, 20)):
        trip, _ = make_trip([window(PERCENTILE, 0, 600)],
                            [dict(speed=v) for v in range(1, top + 1)])
        check('(c) read of 1..%d' % top, trip.read(0), ('number', expected))


def case_d():
    check('(d) empty report', reference.report(b''),
          b'samples 0\nbroken 000384e1\nverdict rule 0\n')
    one = reference.encode_sample(Sample(0, 1700, 100, 2931, 0, 0, 0))
    check('(d) report of one sample', reference.report(one),
          b'samples 1\nbroken 00038cfd\nverdict rule 0\n')
    check('report of 15 bytes', reference.report(one[:15]), b'refused 1 at 0\n')
    check('report of a second out of turn', reference.report(one + one),
          b'refused 3 at 1\n')


def case_e():
    for nox, mark in ((50, 0), (51, 1)):
        trip, _ = make_trip([], [dict(speed=500, flow=500, nox=nox)])
        check('(e) NOx %d' % nox, trip.verdict()[2], mark)


def case_f():
    for stops, broken in ((5, 1), (6, 0), (30, 0), (31, 1)):
        trip, _ = make_trip([], [dict(speed=0)] * stops + [dict(speed=300)] * (100 - stops))
        check('(f) %d stops' % stops, trip.verdict()[1] >> 8 & 1, broken)


def case_g():
    for p95, broken in ((48003, False), (48004, True)):
        for count in (1, 100):
            check('(g) P95 %d, N %d' % (p95, count),
                  reference.above_percentile_line(p95, 300 * count, count), broken)


def case_h():
    check('(h) A of 7', reference.accelerating(7), False)
    check('(h) A of 8', reference.accelerating(8), True)


def case_i():
    trip, _ = make_trip([window(AVERAGE, 1, 5)], [dict(altitude=-3), dict(altitude=-4)])
    check('(i) average of -3 and -4', trip.read(0), ('number', -4))


# --- Start and finish height (R-1) -------------------------------------------

def height_bits(answers):
    """Bit 21 of each verdict among these answers."""
    return [answer[1] >> 21 & 1 for answer in answers if answer[0] == 'verdict']


def height_cases():
    """"broken when it is 101 m or more, in either sense; an empty trip keeps it"."""
    for altitudes, broken in (
            ([], 0), ([0], 0), ([-500], 0), ([5000], 0), ([7, 7], 0), ([-500, -500], 0),
            ([0, 100], 0), ([0, 101], 1), ([100, 0], 0), ([101, 0], 1),
            ([-60, 40], 0), ([-60, 41], 1), ([40, -60], 0), ([41, -60], 1),
            ([-1, -101], 0), ([-1, -102], 1), ([-101, -1], 0), ([-102, -1], 1),
            ([-500, 5000], 1), ([5000, -500], 1),
            ([0, 500, 0], 0), ([0, -500, 100], 0), ([0, 0, 101], 1), ([101, 0, 0], 1),
            ([0, 101, 100], 0), ([0, 51, 102], 1), ([0, 101, 202, 101, 0], 0)):
        trip, _ = make_trip([], [dict(altitude=a) for a in altitudes])
        check('rule 21, altitudes %s' % altitudes, height_bits([trip.verdict()]), [broken])
    named = generate.named_lists()
    for name, bits in (
            ('height-away-and-back', [0, 0, 1, 0, 0, 1, 0, 1, 0, 0, 1, 1]),
            ('height-after-clear', [0, 0, 1, 0, 0, 0, 1, 1, 0, 0, 0, 1]),
            ('height-far-refused', [0] * 15), ('height-near-refused', [0] + [1] * 8)):
        check('rule 21, ' + name, height_bits(named[name][1]), bits)
    reasons = [answer[1] for name in ('height-far-refused', 'height-near-refused')
               for answer in named[name][1] if answer[0] == 'refused']
    check('the samples are refused for each reason', sorted(set(reasons)), [1, 2, 3, 4])
    check('a full trip after refused samples', generate.full_trip_list()[1][-3],
          ('verdict', 1 << 1, 0, 1))


# --- Extended conditions (R-2) -----------------------------------------------

# Temperature, altitude, whether the sample is extended.
EXTENDED = ((2659, 0, 0), (2660, 0, 1), (2661, 0, 1), (2728, 0, 1), (2729, 0, 1), (2730, 0, 0),
            (2931, 0, 0), (3030, 0, 0), (3031, 0, 1), (3032, 0, 1), (3079, 0, 1), (3080, 0, 1),
            (3081, 0, 0), (2000, 0, 0), (3500, 0, 0),
            (2931, 700, 0), (2931, 701, 1), (2931, 702, 1), (2931, 1299, 1), (2931, 1300, 1),
            (2931, 1301, 0), (2931, -500, 0), (2931, 5000, 0),
            (2700, 1400, 1), (2600, 800, 1), (3050, 5000, 1), (3500, 1300, 1),    # by one
            (2660, 700, 1), (2729, 1301, 1), (3031, 700, 1), (3080, 1301, 1),
            (2659, 701, 1), (2730, 1300, 1), (3030, 701, 1), (3081, 1300, 1),
            (2600, 1400, 0), (2659, 700, 0), (3081, 1301, 0), (2730, 700, 0), (3030, 1301, 0),
            (2660, 701, 1), (2700, 1000, 1), (3050, 1000, 1), (3080, 1300, 1))    # by two

# D, other U, extended U, exceeded: at D = 793 the limit of 8 x other U + 5 x extended U is
# 320,000, at 79,300 it is 32,000,000, at 500 it lies between 201,765 and 201,766.
WEIGHTS = ((793, 40000, 0, 0), (793, 40001, 0, 1), (793, 0, 64000, 0), (793, 0, 64001, 1),
           (793, 20000, 32000, 0), (793, 20001, 32000, 1), (793, 20000, 32001, 1),
           (793, 39999, 1, 0), (793, 40000, 1, 1), (793, 39995, 8, 0), (793, 39995, 9, 1),
           (793, 1, 63998, 0), (793, 1, 63999, 1), (793, 3, 63995, 0), (793, 2, 63997, 1),
           (500, 25220, 1, 0), (500, 25217, 6, 1), (500, 0, 40353, 0), (500, 0, 40354, 1),
           (79300, 4000000, 0, 0), (79300, 4000001, 0, 1), (79300, 0, 6400000, 0),
           (79300, 0, 6400001, 1), (0, 0, 0, 0), (0, 1, 0, 0), (0, 0, 1000000, 0), (1, 0, 1000000, 1))


def with_channel_6(total, **fields):
    """Two samples with this sum of channel 6."""
    return [dict(fields, flow=total % 10000, nox=1), dict(fields, flow=10000, nox=total // 10000)]


def extended_cases():
    """"A sample is extended at 2660 to 2729, at 3031 to 3080, or above 700 m up to
    1300 m; one meeting two of these is divided once".  At V 500 and flow 500, NOx 50 is
    not exceeded and 51 is (case (e)); 1586 x 5 x 40000 is below 640000 x 500 and
    1586 x 5 x 40500 above it, so of an extended sample 80 is not and 81 is."""
    for temperature, altitude, extended in EXTENDED:
        air = dict(speed=500, flow=500, temperature=temperature, altitude=altitude)
        trips = [make_trip([], [dict(air, nox=nox)])[0] for nox in (50, 51, 80, 81)]
        marks = [trip.verdict()[2] for trip in trips]
        fields = [reference.tally_fields(trip.samples)[-2:] for trip in trips]
        check('%d at %d m' % (temperature, altitude), (marks, fields),
              ([0, 1 - extended, 1 - extended, 1],
               [[U, extended * U] for U in (25000, 25500, 40000, 40500)]))
    for D, other, extended, mark in WEIGHTS:
        trip, _ = make_trip([], [dict(speed=D // 100)] * 100 + [dict(speed=D % 100)]
                            + with_channel_6(other)
                            + with_channel_6(extended, temperature=3050))
        check('D %d, other U %d, extended U %d' % (D, other, extended),
              (trip.verdict()[2], reference.tally_fields(trip.samples)[-2:]),
              (mark, [other + extended, extended]))
    named = generate.named_lists()
    for name, marks in (('extended-temperatures', [0, 1] * 4), ('extended-altitudes', [0, 1] * 2),
                        ('extended-by-either', [0, 1] * 8), ('extended-once', [0, 1] * 5),
                        ('extended-over-and-back', [0, 0, 0, 0, 1, 0, 1, 0, 0, 0]),
                        ('extended-refused', [0] * 8 + [1] * 7)):
        check(name, [answer[2] for answer in named[name][1] if answer[0] == 'verdict'], marks)


def extended_tallies():
    """"The tally gains extended U as its last field"; it "need no longer be at most U" (R-6)."""
    def one(U, extended_U, samples=1):
        return generate.tally_of((samples, 0, 0), (0, 0, 0), 0, U, extended_U)

    zero, most = bytes(TALLY_LENGTH), 100000000
    for U, extended_U, answer in ((0, 0, None), (7, 0, None), (7, 6, None), (7, 7, None),
                                  (7, 8, None), (0, 1, None), (most, most, None), (most, most + 1, 12),
                                  (most + 1, most + 1, 12), (7, 2 ** 63 - 1, 12)):
        tally = one(U, extended_U)
        expected = ('refused', answer) if answer else tally
        check('tally with U %d, extended U %d' % (U, extended_U),
              [reference.join(tally, zero), reference.join(zero, tally)], [expected] * 2)
    check('extended U is added', reference.join(one(7, 7), one(5, 3)), one(12, 10, 2))
    check('extended U is added up to the bound',
          reference.join(generate.bound_tally(3600), generate.bound_tally(3601)),
          generate.bound_tally(7201))
    ill, full = one(7, most + 1), one(7, 7, 7201)
    check('11 before 12', reference.join(ill, one(7, 7), TALLY_LENGTH - 8), ('refused', 11))
    check('12 before 13', [reference.join(ill, full), reference.join(full, ill)],
          [('refused', 12)] * 2)
    check('13 with extended U at U', reference.join(full, one(7, 7)), ('refused', 13))


def band_reading(ends):
    """Extended by these six ends of the bands."""
    return lambda s: (ends[0] <= s.temperature <= ends[1] or ends[2] <= s.temperature <= ends[3]
                      or ends[4] <= s.altitude <= ends[5])


def misreadings():
    """Ways to read R-2's bands wrongly: {name: extended}."""
    ends = [inside for _, inside, _ in drives.BAND_EDGES]
    wrong = {}
    for k, end in enumerate(ends):
        for off in (-1, 1):
            wrong['%d for %d' % (end + off, end)] = band_reading(
                ends[:k] + [end + off] + ends[k + 1:])
    for k, name in enumerate(('cold', 'warm', 'high')):
        wrong['never by ' + name] = band_reading(
            ends[:2 * k] + [9999, -9999] + ends[2 * k + 2:])
    cold, warm, high = (band_reading([9999, -9999] * k + ends[2 * k:2 * k + 2]
                                     + [9999, -9999] * (2 - k)) for k in range(3))
    wrong['by two alone'] = lambda s: (cold(s) or warm(s)) and high(s)
    wrong['by one alone'] = lambda s: (cold(s) or warm(s)) != high(s)
    wrong['not where a rule is broken'] = lambda s: (
        band_reading(ends)(s) and 2660 <= s.temperature <= 3080 and s.altitude <= 1300)
    wrong['always'] = lambda s: True
    wrong['never'] = lambda s: False
    return wrong


def under(reading, work):
    """What the work gives with another reading of `extended`."""
    kept = reference.extended
    reference.extended = reading
    try:
        return work()
    finally:
        reference.extended = kept


def tells_readings(name, inputs, answer, but=()):
    """Each misreading changes the answer to some of the inputs, but for those named."""
    right = [answer(each) for each in inputs]
    check('%s tell each misreading of the bands' % name,
          [wrong for wrong, reading in misreadings().items()
           if not under(reading, lambda: any(answer(each) != stated
                                             for each, stated in zip(inputs, right)))], list(but))


def tells_bands(name, lists):
    """Each misreading changes the exceeded mark of some verdict of the lists."""
    tells_readings(name, generate.judged_trips(lists), reference.nox_exceeded)


def exceeded_in_full(samples):
    """Document 01's "Moderate and extended conditions weigh alike": "1586 x U >
    80000 x D and D > 0"."""
    D = sum(s.speed for s in samples)
    return 1586 * reference.nox_sum(samples) > 80000 * D and D > 0


# Ways to weigh wrongly: {name: the weight of an other U and an extended U}.
MISWEIGHINGS = {'in full': lambda other, extended: 8 * (other + extended),
                'four eighths': lambda other, extended: 8 * other + 4 * extended,
                'six eighths': lambda other, extended: 8 * other + 6 * extended,
                'exchanged': lambda other, extended: 5 * other + 8 * extended,
                'twice': lambda other, extended: 8 * other + 25 * extended / 8,
                'rounded down': lambda other, extended: 8 * (other + 5 * extended // 8),
                'rounded up': lambda other, extended: 8 * (other - -5 * extended // 8)}


def misweighed(samples, weigh):
    extended_U = reference.extended_nox_sum(samples)
    D = sum(s.speed for s in samples)
    return 1586 * weigh(reference.nox_sum(samples) - extended_U, extended_U) > 640000 * D and D > 0


def tells_weighing(name, trips):
    """Each wrong weight changes the exceeded mark of some of the trips."""
    check('%s tell each wrong weight' % name,
          [wrong for wrong, weigh in MISWEIGHINGS.items()
           if not any(misweighed(trip, weigh) != reference.nox_exceeded(trip) for trip in trips)], [])


def extended_drives():
    """What R-2's edge drives tell."""
    edges = drives.extended_edges()
    check('the exceeded mark tells every edge of a band',
          [edge.name for edge in edges if (reference.nox_exceeded(edge.kept),
                                           reference.nox_exceeded(edge.broken)) != (False, True)], [])
    moving = [edge for edge in edges if any(s.speed for s in edge.kept)]
    check('weighed in full they are exceeded on both sides',
          [edge.name for edge in moving
           if not (exceeded_in_full(edge.kept) and exceeded_in_full(edge.broken))], [])
    whole = [edge for edge in edges if edge.whole]
    check('whole drives have each end of a band, and each band for some and for all samples',
          len(whole), len(drives.BAND_EDGES) + 3 * (len(drives.BANDS) + 1))
    for name, some, but in (('short', [edge for edge in edges if not edge.whole], ()),
                            ('whole', whole, ['not where a rule is broken'])):
        both = [drive for edge in some for drive in (edge.kept, edge.broken)]
        tells_readings('%s edge drives' % name, both, reference.nox_exceeded, but)
    tells_weighing('edge drives', [drive for edge in edges for drive in (edge.kept, edge.broken)])
    tells_readings('blocks', generate.band_blocks(), reference.tally_block)
    named = generate.named_lists().values()
    tells_bands('named lists', named)
    tells_weighing('named lists', generate.judged_trips(named))


def tells_weights(name, lists):
    """A twentieth of the verdicts at least would be otherwise, were all samples weighed
    in full; some are exceeded with extended samples."""
    trips = generate.judged_trips(lists)
    changed = [trip for trip in trips
               if exceeded_in_full(trip) != reference.nox_exceeded(trip)]
    check('%s weigh extended samples less' % name, len(changed) >= len(trips) / 20, True)
    check('%s are exceeded with extended samples' % name,
          any(reference.nox_exceeded(trip) and any(map(reference.extended, trip))
              and not all(map(reference.extended, trip)) for trip in trips), True)


# --- Averages to the nearest (R-4) -------------------------------------------

# For each count, sums and their averages.
AVERAGES = {
    1: {-500: -500, -7: -7, -2: -2, -1: -1, 0: 0, 1: 1, 2: 2, 7: 7, 5000: 5000},
    2: {-9: -4, -7: -4, -5: -2, -4: -2, -3: -2, -2: -1, -1: 0,
        0: 0, 1: 0, 2: 1, 3: 2, 4: 2, 5: 2, 7: 4, 9: 4,
        -999: -500, -997: -498, 9997: 4998, 9999: 5000},
    3: {-8: -3, -7: -2, -5: -2, -4: -1, -3: -1, -2: -1, -1: 0,
        0: 0, 1: 0, 2: 1, 3: 1, 4: 1, 5: 2, 7: 2, 8: 3},
    4: {-11: -3, -10: -2, -9: -2, -7: -2, -6: -2, -5: -1, -3: -1, -2: 0, -1: 0,
        1: 0, 2: 0, 3: 1, 5: 1, 6: 2, 7: 2, 9: 2, 10: 2, 11: 3, 13: 3, 14: 4, 15: 4},
    599: {-899: -2, -898: -1, -599: -1, -300: -1, -299: 0, 299: 0, 300: 1, 599: 1, 898: 1, 899: 2},
    600: {-1501: -3, -1500: -2, -1499: -2, -901: -2, -900: -2, -899: -1, -301: -1, -300: 0, -299: 0,
          299: 0, 300: 0, 301: 1, 899: 1, 900: 2, 901: 2, 1499: 2, 1500: 2, 1501: 3,
          -299700: -500, -299100: -498, 2999100: 4998, 2999700: 5000},
}

# Readings of the named lists.
AVERAGE_READINGS = {
    'case-i': [-4],
    'average-pairs': [-3, -4, -3, -2, -1, 2],
    'average-halves-below': [0, 0, -2, -2, -4, -4],
    'average-halves-above': [0, 0, 2, 2, 4, 4],
    'average-about-zero': [-1, 0, 0, 1, 0, 0],
    'average-thirds': [-1, 0, -1, 0, 0, 0, 1],
    'average-qualifying': [None, -3, -4, -4, -2, -1],
    'average-great': [100000000, 99987500, 99977500, 99957502],
    'average-short-of-halves': [1, 0, 1, 2, 1, 2],
    'average-short-of-halves-negative': [-1, 0, -1, -2, -1, -2],
    'average-past-halves': [2, 2, 3, 2, 3, 2],
    'average-past-halves-negative': [-2, -2, -3, -2, -3, -2],
    'average-slides-2': [3, 4, 4, 2, 2, 3, 1, 2, 2, 0, 0, 1,
                         -1, 0, 0, -2, -2, -1, -3, -2, -2, -4, -4, -3],
}


def average_cases():
    """"-3 and -4 give -4, -2 and -3 give -2, 1 and 2 give 2"."""
    for altitudes, number in (([-3, -4], -4), ([-2, -3], -2), ([1, 2], 2)):
        trip, _ = make_trip([window(AVERAGE, 1, 2)], [dict(altitude=a) for a in altitudes])
        check('average of %d and %d' % tuple(altitudes), trip.read(0), ('number', number))
    for count, averages in AVERAGES.items():
        for total, number in averages.items():
            low, more = divmod(total, count)
            trip, _ = make_trip([window(AVERAGE, 1, 600)], [dict(altitude=low)] * (count - more)
                                + [dict(altitude=low + 1)] * more)
            check('average of %d, the sum %d' % (count, total), trip.read(0), ('number', number))
    named = generate.named_lists()
    for name, numbers in AVERAGE_READINGS.items():
        check(name, [answer for call, answer in zip(*named[name]) if call[0] == 'read'],
              [('refused', 10) if number is None else ('number', number) for number in numbers])


def nearest_and_even(number, total, count):
    """No whole number is nearer to the mean than this one, and where another is as near, this
    one is even.  Those two or more away are farther than those beside it."""
    off = abs(count * number - total)
    beside = min(abs(count * other - total) for other in (number - 1, number + 1))
    return off < beside or (off == beside and number % 2 == 0)


def rounding():
    """What the request means, at every count; and the magnitude rounded so, with the sign put
    back, is the same number."""
    means = [(count * low + more, count) for count in range(1, 601)
             for low in (-500, -3, -2, -1, 0, 1, 2, 4999, 99999999)
             for more in {0, 1, count // 2 - 1, count // 2, count // 2 + 1, count - 1}]
    check('averages are nearest, halves even, at %d means' % len(means),
          [mean for mean in means if not nearest_and_even(reference.average(*mean), *mean)], [])
    check('averages below zero are those above it with a minus',
          [mean for mean in means
           if reference.average(*mean) != -reference.average(-mean[0], mean[1])], [])


def half_up(total, count):
    return (2 * total + count) // (2 * count)


def half_down(total, count):
    return -half_up(-total, count)


def rest_of_magnitude(total, count):
    """Rounded down, and up where the rest of the sum without its sign says so."""
    down = total // count
    return down + (2 * (abs(total) % count) + down % 2 > count)


# Ways to round wrongly: {name: the number for a sum and a count}.
MISROUNDINGS = {
    'down': lambda total, count: total // count,
    'up': lambda total, count: -(-total // count),
    'to zero': lambda total, count: total // count if total > 0 else -(-total // count),
    'a half up': half_up,
    'a half down': half_down,
    'a half from zero': lambda total, count: (half_up if total > 0 else half_down)(total, count),
    'a half to zero': lambda total, count: (half_down if total > 0 else half_up)(total, count),
    'a half to the odd': lambda total, count: (
        half_up(total, count) if half_up(total, count) % 2 else half_down(total, count)),
    'by the rest of the magnitude': rest_of_magnitude,
}


def tells_rounding(name, means):
    """Each wrong rounding changes some of these averages, given by sum and count; there are
    halves of both signs among them, above even and above odd numbers."""
    check('%s tell each wrong rounding' % name,
          [wrong for wrong, rounded in MISROUNDINGS.items()
           if not any(rounded(*mean) != reference.average(*mean) for mean in means)], [])
    check('%s have halves of both signs, above even and odd numbers' % name,
          {(total < 0, total // count % 2) for total, count in means
           if 2 * total % (2 * count) == count}, {(False, 0), (False, 1), (True, 0), (True, 1)})


def counts_at(means, *sides):
    """The counts at which twice a sum is so far from count times an odd number: 0 at a half, -1 or
    -2 just below one, 1 or 2 just above."""
    return {count for total, count in means if 2 * total % (2 * count) - count in sides}


def average_lists():
    """What the named lists of averages tell, the widest window of that at every count, and that
    of great sums."""
    named = generate.named_lists()
    tells_rounding('lists of averages',
                   generate.averaged(named[name] for name in generate.average_lists()))
    widest = [pair for pair in zip(*generate.average_counts_list())
              if pair[0][0] != 'read' or pair[0] == ('read', 0)]
    means = generate.averaged([zip(*widest)])
    tells_rounding('averages at every count', means)
    check('averages at every count', {count for _, count in means}, set(range(1, 601)))
    for name, below_zero in (('from zero on', False), ('below zero', True)):
        signed = [mean for mean in means if (mean[0] < 0) == below_zero]
        check('halves at every even count, ' + name, counts_at(signed, 0), set(range(2, 601, 2)))
    check('means just below a half at nearly every count', len(counts_at(means, -2, -1)) >= 585, True)
    check('means just above a half at nearly every count', len(counts_at(means, 1, 2)) >= 585, True)
    great = [mean for mean in generate.averaged([generate.average_great_list()])
             if mean[0] >= 2 ** 32]
    for odd, below in ((0, 'an even'), (1, 'an odd')):
        halves = counts_at([mean for mean in great if mean[0] // mean[1] % 2 == odd], 0)
        check('great sums at a half above %s number' % below, len(halves) >= 30, True)
    check('great sums just below a half', len(counts_at(great, -2, -1)) >= 30, True)
    check('great sums just above a half', len(counts_at(great, 1, 2)) >= 30, True)


# --- CO2 windows (R-5) -------------------------------------------------------

# Two curves whose slopes are 5 and 10 g/km for each km/h, up and down.
UP, DOWN = (100, 288, 645), (700, 512, 155)

# Mean speed in tenths of km/h, g/km; of the last curve 1 - 190 / 37.6 and 1 - 38 / 37.6.
CURVES = {UP: {0: 5, 100: 55, 189: Fraction(199, 2), 190: 100, 191: Fraction(201, 2), 378: 194,
               565: Fraction(575, 2), 566: 288, 567: 289, 700: 422, 922: 644, 923: 645, 924: 646,
               1000: 722, 3000: 2722},
          DOWN: {0: 795, 100: 745, 190: 700, 300: 645, 566: 512, 567: 511, 923: 155, 924: 154,
                 1077: 1, 1078: 0, 1079: -1, 3000: -1922},
          (1, 11, 1000): {0: Fraction(-1524, 376), 152: Fraction(-4, 376)}}

# Curve, speeds, the least and the most CO2 of a normal window.  At 566 it is 288 g/km, three
# quarters are 216 and five 360, which are 3396 and 5660 mg in 566 / 36,000 km; at 1000 722, so
# 541.5 to 902.5, or 15041.7 to 25069.4 mg; at 100 55, 41.25 to 68.75, 114.6 to 190.97 mg; at
# 378 194, 145.5 to 242.5, 1527.75 to 2546.25 mg; at 567 289, 216.75 to 361.25, 3413.8 to 5689.7
# mg; at 190 100, 75 to 125, 395.8 to 659.7 mg; at 923 645, 483.75 to 806.25, 12402.8 to 20671.4
# mg; at 1077 1, 0.75 to 1.25, 22.4 to 37.4 mg.  0 and 380 have a mean of 19.0 and a distance of
# 380, so 791.7 to 1319.4 mg; 0, 0 and 300 one of 10.0 and 300, so 343.75 to 572.9 mg; 1131 and
# 2 one of 56.65 and 1133, so 288.5 g/km, 216.375 to 360.625, 6809.8 to 11349.7 mg.
NORMAL_RANGES = [(UP, [566], 3396, 5660), (UP, [1000], 15042, 25069), (UP, [100], 115, 190),
                 (UP, [378], 1528, 2546), (UP, [567], 3414, 5689), (UP, [190], 396, 659),
                 (UP, [923], 12403, 20671), (DOWN, [1077], 23, 37), (UP, [0, 380], 792, 1319),
                 (UP, [380, 0], 792, 1319), (UP, [0, 0, 300], 344, 572),
                 (UP, [1131, 2], 6810, 11349), (UP, [2, 1131], 6810, 11349)]

# Refusal, complete, normal, pass of named cases.
CO2_ANSWERS = {
    'no samples': (0, 0, 0, 0),
    'M by one sample': (0, 1, 1, 1),
    'M below one sample': (0, 1, 1, 1),
    'M one mg above one sample': (0, 0, 0, 0),
    # 100, 125, 125.1, 75 and 74.9 g/km
    'each at its own first sample': (0, 5, 3, 1),
    # the last has 749 mg
    'all but one at their own first sample': (0, 4, 3, 1),
    # 1, 0, 3, 0, 1 and 0 mg at 1, 1, 1, 1, 0 and 1: 36, 108 / 2, 108, 36 / 1 and no distance
    'M of 1': (0, 5, 2, 0),
    # 4 mg in 3, 3 in 2, 3 in 1; 48, 54 and 108 of 36 g/km
    'M of 2': (0, 3, 0, 0),
    'M of 1, no CO2': (0, 0, 0, 0),
    # 1 g on k / 1000 km, k from 11 down to 1: 1000 / k g/km, normal from 8 to 13
    'no CO2 for long, then enough': (0, 11, 4, 0),
    'no CO2 for long, then one mg short': (0, 0, 0, 0),
    'enough CO2, then none': (0, 1, 0, 0),
    # the last sample stands; 2100 mg in 2 moving seconds, 1800 in 2, 1800 in 1: 105, 90, 180 g/km
    'M of 1799 in 1200, 900, 900, 900': (0, 3, 2, 1),
    'M of 1800 in 1200, 900, 900, 900': (0, 3, 2, 1),
    # 2100 in 2, 2700 in 2: 105, 135
    'M of 1801 in 1200, 900, 900, 900': (0, 2, 1, 1),
    'M of 2100 in 1200, 900, 900, 900': (0, 2, 1, 1),
    # 3000 in 3, 2700 in 2: 100, 135
    'M of 2101 in 1200, 900, 900, 900': (0, 2, 1, 1),
    'M of 2700 in 1200, 900, 900, 900': (0, 2, 1, 1),
    'M of 2701 in 1200, 900, 900, 900': (0, 1, 1, 1),
    'M of 3000 in 1200, 900, 900, 900': (0, 1, 1, 1),
    # 3900 in 3: 130
    'M of 3001 in 1200, 900, 900, 900': (0, 1, 0, 0),
    'M of 3900 in 1200, 900, 900, 900': (0, 1, 0, 0),
    'M of 3901 in 1200, 900, 900, 900': (0, 0, 0, 0),
    # 1800 in 4, 3 and 2 seconds: 45, 60, 90
    'M of 1800, the block having 1800 after no CO2': (0, 3, 1, 0),
    'M of 1801, the block having 1800 after no CO2': (0, 0, 0, 0),
    'standstill': (0, 1, 0, 0),
    'standstill, 3 samples': (0, 1, 0, 0),
    'standstill, curve 0': (0, 1, 0, 0),
    'standstill, curve below 0': (0, 1, 0, 0),
    # 2 mg in 1 / 36,000 km: 72 g/km
    'standstill, then one unit of distance': (0, 1, 1, 1),
    'half of them at a standstill': (0, 2, 1, 1),
    'two of three at a standstill': (0, 3, 1, 0),
    # 2000 mg on 10 / 1000 km: 200 g/km, with a curve of 100 and of 200
    'opened at a standstill': (0, 1, 0, 0),
    'complete at a standstill': (0, 1, 1, 1),
    'a window of 2 normal, complete with another': (0, 2, 2, 1),
    'normal by turns': (0, 10, 5, 1),
    '5 of 11 normal': (0, 11, 5, 0),
}


def co2_answer(pairs, mass, curve):
    return tuple(reference.co2_check(co2.block_of(pairs), co2.record_of(mass, curve)))


def window_sentences():
    """"From each sample a window opens and is complete at the first sample where its CO2 ...
    reaches M": with 3, 0, 2 and 4 mg and an M of 4 these are 3 + 0 + 2, 0 + 2 + 4, 2 + 4 and 4.
    Each window is given by its CO2, its distance and its samples."""
    samples = co2.samples_of([(1, 3), (10, 0), (100, 2), (1000, 4)])
    for mass, windows in ((4, [(5, 111, 3), (6, 1110, 3), (6, 1100, 2), (4, 1000, 1)]),
                          (5, [(5, 111, 3), (6, 1110, 3), (6, 1100, 2)]),
                          (6, [(9, 1111, 4), (6, 1110, 3), (6, 1100, 2)]),
                          (7, [(9, 1111, 4)]), (9, [(9, 1111, 4)]), (10, []),
                          (1, [(3, 1, 1), (2, 110, 2), (2, 100, 1), (4, 1000, 1)])):
        check('windows of 3, 0, 2, 4, M %d' % mass,
              [tuple(w) for w in reference.complete_windows(samples, mass)], windows)


def curve_sentences():
    """"the line through (19.0 km/h, c1) and (56.6, c2) up to a mean speed of 56.6, beyond it
    the line through (56.6, c2) and (92.3, c3)"; 36.0 km/h are 10 m in a second, and 1 g on
    them is 100 g/km."""
    for points, values in CURVES.items():
        decoded = reference.decode_co2_reference(co2.record_of(1, points))
        check('curve of %d, %d, %d' % points,
              {mean: reference.curve(decoded, Fraction(mean, 10)) for mean in values}, values)
    one, two = CO2Window(1000, 360, 1), CO2Window(3000, 360, 2)
    check('distance, mean and g/km of one second and of two',
          [f(window) for window in (one, two) for f in (
              reference.window_distance, reference.window_mean_speed, reference.window_emissions)],
          [Fraction(1, 100), 36, 100, Fraction(1, 100), 18, 300])


def normal_sentences():
    """"normal if its g/km is within a quarter of the curve, ends included, compared exactly;
    with no distance, or a curve at or below 0, it isn't"."""
    for points, speeds, least, most in NORMAL_RANGES:
        for amount, normal in ((least - 1, 0), (least, 1), (least + 1, 1), (most - 1, 1),
                               (most, 1), (most + 1, 0)):
            check('%d mg at %s, curve of %d, %d, %d' % (amount, speeds, *points),
                  co2_answer(co2.with_co2(speeds, amount), amount, points), (0, 1, normal, normal))
    for speeds, amounts in (([0], (1, 2, 1000)), ([0, 0], (2, 100)), ([1078], (1, 29, 30)),
                            ([1079], (1, 22, 30, 37)), ([2156, 0], (2, 60)), ([3000], (1, 100000))):
        for amount in amounts:
            check('%d mg at %s, curve of 700, 512, 155' % (amount, speeds),
                  co2_answer(co2.with_co2(speeds, amount), amount, DOWN), (0, 1, 0, 0))


def pass_sentences():
    """"a pass exactly when some are complete and twice the normal ones are at least the
    complete ones"."""
    check('passes', [(complete, normal) for complete in range(6) for normal in range(complete + 1)
                     if reference.co2_passed(complete, normal)],
          [(1, 1), (2, 1), (2, 2), (3, 2), (3, 3), (4, 2), (4, 3), (4, 4), (5, 3), (5, 4), (5, 5)])


def co2_named_answers():
    """Named cases by hand, and those whose names state the answer."""
    cases = co2.named_cases()
    answers = {each.name: tuple(reference.co2_check(each.block, each.reference)) for each in cases}
    check('named cases have a name each', len(answers), len(cases))
    check('named cases are small', max(len(each.block) for each in cases) <= 12 * 16 + 15, True)
    for name, answer in CO2_ANSWERS.items():
        check(name, answers[name], answer)
    told = [(name, answer) for name, answer in answers.items()
            if re.search(r', (not )?normal$', name) or re.match('(not )?normal by the ', name)]
    check('named cases are normal as their names say, %d of them' % len(told),
          [name for name, answer in told if answer != ((0, 1, 0, 0) if 'not normal' in name
                                                       else (0, 1, 1, 1))], [])
    for complete in range(5):
        for normal in range(complete + 1):
            name = '%d complete, %d normal' % (complete, normal)
            passes = int((complete, normal) in ((1, 1), (2, 1), (2, 2), (3, 2), (3, 3), (4, 2),
                                                (4, 3), (4, 4)))
            check(name, answers[name], (0, complete, normal, passes))
    for name, answer in answers.items():
        if re.match('reference of (M|c[123]|all) ', name) and '1001' not in name:
            accepted = not re.search('0$|65535', name.replace('1000', '1'))
            check(name, answer[0], 0 if accepted else 14)
        if name.startswith('seconds '):
            check(name, answer, (0, 1, 1, 1))


def one_window(each):
    """The CO2, the distance and the samples of the block, and c1, c2, c3; M is its CO2 and
    the whole block is its one complete window."""
    samples = reference.samples_of_block(each.block)
    record = reference.decode_co2_reference(each.reference)
    amount = sum(s.co2 for s in samples)
    if record.mass != amount or samples[0].co2 == 0 or samples[-1].co2 == 0:
        raise ValueError(each.name)
    return amount, sum(s.speed for s in samples), len(samples), (record.c1, record.c2, record.c3)


def multiplied_out(distance, count, points, first=None):
    """The curve of the first line, or of the second, as a numerator and a denominator: at a
    mean of distance / (10 x count) it is c1 + (c2 - c1) x (distance - 190 x count) / (376 x
    count), or c2 + (c3 - c2) x (distance - 566 x count) / (357 x count)."""
    c1, c2, c3 = points
    if distance <= 566 * count if first is None else first:
        return 376 * count * c1 + (c2 - c1) * (distance - 190 * count), 376 * count
    return 357 * count * c2 + (c3 - c2) * (distance - 566 * count), 357 * count


def normal_multiplied_out(amount, distance, curve):
    """36 x CO2 / distance lies between three and five quarters of the curve, in whole numbers."""
    above, below = curve
    return (distance > 0 and above > 0
            and 3 * above * distance <= 144 * amount * below <= 5 * above * distance)


# Of a place on the curve: whether a distance is there, where `at` is a mean of 0.1 km/h.
ON_CURVE = {'level': lambda at, distance: distance == 360 * at,
            'first line': lambda at, distance: 190 * at < distance < 566 * at,
            'second line': lambda at, distance: 566 * at < distance < 923 * at,
            'below 19.0': lambda at, distance: 0 < distance < 190 * at,
            'above 92.3': lambda at, distance: 923 * at < distance,
            'at 19.0': lambda at, distance: distance == 190 * at,
            'at 56.6': lambda at, distance: distance == 566 * at,
            'at 92.3': lambda at, distance: distance == 923 * at}


def quarter_names(cases):
    """The g/km are at the quarter that is said, or one mg beside it; 144 x CO2 x denominator
    is then three or five times distance x numerator, or one mg's share beside."""
    met = {}
    for each in cases:
        parts = re.match(r'(?:one mg (below|above) )?([35])/4 of the curve, ([^,]*)', each.name)
        if not parts:
            continue
        side, quarters, place = parts.groups()
        amount, distance, count, points = one_window(each)
        above, below = multiplied_out(distance, count, points)
        off = {'below': -1, None: 0, 'above': 1}[side]
        exact = 144 * (amount - off) * below == int(quarters) * above * distance
        normal = (int(quarters), off) not in ((3, -1), (5, 1))
        if not (exact and ON_CURVE[place](count, distance)
                and reference.co2_check(each.block, each.reference).normal == normal):
            check(each.name, False, True)
        met.setdefault((place, int(quarters), off), set()).add(min(count, 2))
    return met


def quarter_edges():
    met = quarter_names(co2.named_cases())
    wanted = {(place, quarters, off) for place in ON_CURVE for quarters in (3, 5)
              for off in (-1, 0, 1)}
    check('g/km of three and five quarters, and one mg beside, on each part of the curve',
          set(met), wanted)
    check('there are such windows of one and of several samples, but for a level curve',
          {place for (place, _, _), counts in met.items() if counts != {1, 2}}, {'level'})
    long_met = quarter_names(co2.long_quarter_cases())
    check('and of 7,200 samples', (len(long_met), set(long_met) <= wanted), (16, True))
    for each in co2.own_quarter_cases():
        amount, distance, count, points = one_window(each)
        above, below = multiplied_out(distance, count, points)
        off = abs(36 * amount * below - above * distance)
        check(each.name, (4 * off <= above * distance, 4 * off <= 36 * amount * below),
              ('curve alone' in each.name or 'both' in each.name,
               'g/km alone' in each.name or 'both' in each.name))


def told_names(cases):
    """Windows just beside a point are judged as is said, and otherwise by the other line or
    by a level curve."""
    met = set()
    for each in cases:
        parts = re.match(r'(?:mean of (\S+)|one unit) (below|above) (\S+), (\w+).*, (not )?normal',
                         each.name)
        if not parts:
            continue
        mean, side, point, shape, negated = parts.groups()
        amount, distance, count, points = one_window(each)
        at = {'19.0': 190, '56.6': 566, '92.3': 923}[point] * count
        right = multiplied_out(distance, count, points)
        wrong = {'19.0': (points[0], 1), '92.3': (points[2], 1)}.get(
            point, multiplied_out(distance, count, points, distance > at))
        judged = [normal_multiplied_out(amount, distance, curve) for curve in (right, wrong)]
        near = distance - at == {'below': -1, 'above': 1}[side]
        rising = points[1] > points[0]
        if (judged != [not negated, bool(negated)] or rising != (shape == 'peak')
                or (distance < at) != (side == 'below')
                or mean and Fraction(mean) != Fraction(distance, 10 * count)):
            check(each.name, judged, [not negated, bool(negated)])
        met.add((side + ' ' + point, shape, not negated, near, count > 1))
    return met


def told_edges():
    met = told_names(co2.named_cases())
    wanted = {(side, shape, normal, near, several) for side in co2.SIDES
              for shape in ('peak', 'valley') for normal in (True, False)
              for near in (True, False) for several in (True, False)
              if near or '56.6' not in side}
    check('means beside each point, judged otherwise by another curve', met, wanted)
    check('and of 7,201 samples', len(told_names(co2.long_line_cases())), 8)
    for each in co2.standing_cases():
        amount, distance, count, points = one_window(each)
        check(each.name, [normal_multiplied_out(amount, distance, multiplied_out(
            distance, samples, points)) for samples in (count, 1)],
            ['not' not in each.name, 'not' in each.name])


def zero_edges():
    """A curve of 0, and just beside it, on both lines; the g/km would be normal for its
    magnitude, or for the lower end alone."""
    met = {}
    for each in co2.zero_cases():
        parts = re.match('curve (.*0), (first|second) line', each.name)
        amount, distance, count, points = one_window(each)
        above, below = multiplied_out(distance, count, points)
        sign = {'0': above == 0, 'above 0': 0 < above <= below,
                'below 0': -below <= above < 0, 'far below 0': above < -500 * below,
                'farthest below 0': above < -5000 * below}
        if not sign[parts[1]] or (parts[2] == 'first') != (distance < 566 * count):
            check(each.name, False, True)
        magnitude = normal_multiplied_out(amount, distance, (abs(above), below))
        normal = reference.co2_check(each.block, each.reference).normal
        met.setdefault((parts[2], parts[1]), set()).add((magnitude, normal))
    check('curves at 0, and normal by their magnitudes', met, {
        (line, side): {(False, 0)} if side == '0' else
        {(False, 0), (True, 1)} if side == 'above 0' else {(False, 0), (True, 0)}
        for line in ('first', 'second') for side in ('below 0', '0', 'above 0')}
        | {('first', 'far below 0'): {(True, 0)}, ('second', 'far below 0'): {(True, 0)},
           ('second', 'farthest below 0'): {(False, 0)}})


# --- CO2 windows: the refusals -----------------------------------------------

def co2_faults(block, record):
    """Every refusal that there is a reason for, in any order."""
    numbers = [int.from_bytes(record[k:k + size], 'little')
               for k, size in ((0, 4), (4, 2), (6, 2), (8, 2), (10, 6))]
    well = (len(record) == 16 and numbers[0] > 0 and numbers[4] == 0
            and all(0 < c < 1001 for c in numbers[1:4]))
    values = [reference.decode_sample(block[k:k + 16]) for k in range(0, len(block) - 15, 16)]
    bad = any(s.speed > 3000 or s.altitude < -500 or s.altitude > 5000 or s.temperature < 2000
              or s.temperature > 3500 or s.flow > 20000 or s.nox < -50 or s.nox > 5000 or s.co2 > 100000
              for s in values)
    return {number for number, there in (
        (14, not well), (1, len(block) % 16 > 0), (5, len(block) >= 16 * 7202), (4, bad)) if there}


def co2_refusals():
    """"refused with 14, ahead of 1, 5, 4"; each pair of reasons meets."""
    cases = (co2.reference_cases() + co2.field_cases() + co2.nox_cases() + co2.order_cases()
             + co2.long_order_cases())
    met = {}
    for each in cases:
        faults = co2_faults(each.block, each.reference)
        answer = tuple(reference.co2_check(each.block, each.reference))
        expected = next((number for number in (14, 1, 5, 4) if number in faults), 0)
        if answer[0] != expected or (expected and answer[1:] != (0, 0, 0)):
            check(each.name, answer, (expected, 0, 0, 0))
        met.setdefault(frozenset(faults), []).append(each.name)
        ahead = re.match(r'(\d+)(?: \(.*\))? ahead of ([\d and]+)', each.name)
        if ahead:
            said = {int(ahead[1])} | {int(n) for n in ahead[2].replace(' and', '').split()}
            if faults != said or expected != int(ahead[1]):
                check(each.name, (faults, expected), (said, int(ahead[1])))
    check('each refusal alone, each pair, and none',
          {pair for pair in met if len(pair) < 3},
          {frozenset(pair) for pair in ((), (14,), (1,), (5,), (4,), (14, 1), (14, 5), (14, 4),
                                        (1, 5), (1, 4), (5, 4))})
    check('every way in which a reference is refused', len(co2.bad_references()), 28)
    check('each of them is refused alone', {name for name in co2.bad_references()}
          - {name[len('reference of '):] for name in met[frozenset((14,))]}, set())
    beside = ('speed 3001', 'altitude -501', 'altitude 5001', 'temperature 1999',
              'temperature 3501', 'flow 20001', 'nox -51', 'nox 5001', 'co2 100001')
    check('values just outside their range at each place',
          {'%s, %s sample' % (value, place) for value in beside for place in co2.PLACES}
          - set(met[frozenset((4,))]), set())
    ends = sorted(name for name in met[frozenset()] if name.endswith('accepted'))
    check('values at the ends of their ranges', ends, sorted(
        '%s %d, accepted' % (field, value) for field, ends in reference.RANGES.items()
        for value in ends))


# --- CO2 windows: other reckonings of the same -------------------------------

def windows_by_definition(samples, mass):
    """Every start and every end: the sums of the first end at which M is reached."""
    sums = []
    for first in range(len(samples)):
        ends = [end for end in range(first, len(samples))
                if sum(s.co2 for s in samples[first:end + 1]) >= mass]
        if ends:
            part = samples[first:min(ends) + 1]
            sums.append(CO2Window(sum(s.co2 for s in part), sum(s.speed for s in part), len(part)))
    return sums


def two_ways(seed, count):
    """The rereading and the rolling windows, and those by the definition, are the same; the
    verdicts are those of whole numbers multiplied out."""
    rng = random.Random(seed)
    differing = rolling = verdicts = 0
    for _ in range(count):
        most = rng.choice((0, 1, 3, 10))
        samples = [Sample(k, rng.choice((0, 1, 190, 566, 567, 923, rng.randint(0, 3000))), 0, 2931,
                          0, 0, rng.randint(0, most)) for k in range(rng.randint(0, 20))]
        mass = rng.choice((1, 2, 3, 5, 10, 30))
        windows = reference.complete_windows(samples, mass)
        differing += windows != windows_by_definition(samples, mass)
        rolling += windows != reference.complete_windows_fast(samples, mass)
        points = co2.random_curve(rng)
        decoded = reference.decode_co2_reference(co2.record_of(mass, points))
        for window in windows:
            amount = rng.choice((window.co2, co2.near_curve(rng, [window.speeds], points)))
            window = window._replace(co2=amount)
            verdicts += reference.window_normal(window, decoded) != normal_multiplied_out(
                amount, window.speeds, multiplied_out(window.speeds, window.count, points))
    check('complete windows by the definition, %d blocks' % count, differing, 0)
    check('complete_windows_fast equals complete_windows on %d blocks' % count, rolling, 0)
    check('verdicts on windows by whole numbers', verdicts, 0)
    samples = co2.samples_of(co2.driven_co2(rng, drives.random_speeds(rng, 2000)))
    check('complete_windows_fast equals complete_windows on a drive',
          reference.complete_windows_fast(samples, 300000),
          reference.complete_windows(samples, 300000))


# --- CO2 windows: misreadings ------------------------------------------------

class KeptWindow(CO2Window):
    """The sums of a window that keeps its samples."""


def kept_windows(samples, mass):
    windows = [reference.co2_window(samples, first, mass) for first in range(len(samples))]
    made = []
    for window in windows:
        if window is not None:
            sums = KeptWindow(*reference.co2_sums(window))
            sums.samples = window
            made.append(sums)
    return made


def other_windows(change):
    """Windows made anew from the samples of the right ones."""
    return lambda samples, mass: [change(w.samples, mass) for w in kept_windows(samples, mass)]


def without_last(field):
    """The sums of the samples, one of them without the last sample."""
    def change(samples, mass):
        whole = reference.co2_sums(samples)
        less = {'co2': whole.co2 - samples[-1].co2, 'speeds': whole.speeds - samples[-1].speed,
                'count': max(1, whole.count - 1)}
        return whole._replace(**(less if field == 'all' else {field: less[field]}))
    return other_windows(change)


def opened(where):
    """Windows that open at some samples alone."""
    return lambda samples, mass: [w for w in kept_windows(samples, mass) if where(w.samples[0])]


def one_after_another(samples, mass):
    windows, first = [], 0
    while first < len(samples):
        window = reference.co2_window(samples, first, mass)
        if window is None:
            break
        windows.append(reference.co2_sums(window))
        first += len(window)
    return windows


def one_at_a_sample(samples, mass):
    """The rolling way, with one window complete at a sample at most."""
    first, windows = 0, []
    for end in range(len(samples)):
        sums = reference.co2_sums(samples[first:end + 1])
        if sums.co2 >= mass:
            windows.append(sums)
            first += 1
    return windows


def with_open_ones(samples, mass):
    return [reference.co2_sums(reference.co2_window(samples, first, mass) or samples[first:])
            for first in range(len(samples))]


def mean_of(speeds):
    return Fraction(sum(speeds), 10 * len(speeds)) if speeds else Fraction(0)


def kept_mean(mean):
    """The mean is another one of the window's samples."""
    return {'complete_windows': kept_windows,
            'window_mean_speed': lambda window: mean([s.speed for s in window.samples])}


def lines(slow, middle, fast, turn=None):
    """The curve with other points or another turn."""
    def curve(record, mean):
        if mean <= (middle if turn is None else turn):
            return reference.line(slow, record.c1, middle, record.c2, mean)
        return reference.line(middle, record.c2, fast, record.c3, mean)
    return {'curve': curve}


def at_points(slow=190, middle=566, fast=923, turn=None):
    tenths = [Fraction(each, 10) for each in (slow, middle, fast)]
    return lines(*tenths, None if turn is None else Fraction(turn, 10))


def changed_mean(change):
    """The curve is read at another mean."""
    right = reference.curve
    return {'curve': lambda record, mean: right(record, change(mean))}


def judged(normal):
    """Normal by g/km, a curve and whether there is a distance."""
    def window_normal(window, record):
        expected = reference.curve(record, reference.window_mean_speed(window))
        if window.speeds == 0:
            return normal(None, expected)
        return normal(reference.window_emissions(window), expected)
    return {'window_normal': window_normal}


def moving(normal):
    """The same, never without a distance or with a curve at or below 0."""
    return judged(lambda emissions, expected: emissions is not None and expected > 0
                  and normal(emissions, expected))


def within(emissions, expected, least=Fraction(3, 4), most=Fraction(5, 4)):
    return least * expected <= emissions <= most * expected


def passed(rule):
    return {'co2_passed': rule}


MEAN_CUTS = {'19.0': Fraction(19), '92.3': Fraction(923, 10)}

# Ways to read R-5 wrongly: {name: other functions of the reckoning}.
CO2_MISREADINGS = {
    'complete above M alone': {'complete_windows': lambda samples, mass: [
        reference.co2_sums(w) for w in (reference.co2_window(samples, first, mass + 1)
                                        for first in range(len(samples))) if w]},
    'without the sample that completes': {'complete_windows': without_last('all')},
    'without its CO2': {'complete_windows': without_last('co2')},
    'without its distance': {'complete_windows': without_last('speeds')},
    'without its second': {'complete_windows': without_last('count')},
    'without its speed in the mean': kept_mean(lambda speeds: mean_of(speeds[:-1] or speeds)),
    'M for its own CO2': {'complete_windows': other_windows(
        lambda samples, mass: reference.co2_sums(samples)._replace(co2=mass))},
    'one after another': {'complete_windows': one_after_another},
    'one at a sample': {'complete_windows': one_at_a_sample},
    'those still open too': {'complete_windows': with_open_ones},
    'opened where there is CO2': {'complete_windows': opened(lambda s: s.co2 > 0)},
    'opened where the car moves': {'complete_windows': opened(lambda s: s.speed > 0)},
    'complete with a distance alone': {'complete_windows': lambda samples, mass: [
        w for w in kept_windows(samples, mass) if w.speeds]},
    'mean of moving samples': kept_mean(lambda speeds: mean_of([v for v in speeds if v])),
    'mean of stops apart': kept_mean(lambda speeds: mean_of([v for v in speeds if v >= 10])),
    'mean of both ends': kept_mean(lambda speeds: mean_of([speeds[0], speeds[-1]])),
    'mean in whole tenths': changed_mean(lambda mean: Fraction(10 * mean // 1, 10)),
    'mean in whole km/h': changed_mean(lambda mean: Fraction(mean // 1)),
    'level below 19.0': changed_mean(lambda mean: max(mean, MEAN_CUTS['19.0'])),
    'level above 92.3': changed_mean(lambda mean: min(mean, MEAN_CUTS['92.3'])),
    'the first line alone': at_points(turn=10 ** 6),
    'the second line alone': at_points(turn=-1),
    'turn at 56.5': at_points(turn=565), 'turn at 56.7': at_points(turn=567),
    'turn at 19.0': at_points(turn=190), 'turn at 92.3': at_points(turn=923),
    '19.1 for 19.0': at_points(slow=191), '18.9 for 19.0': at_points(slow=189),
    '56.5 for 56.6': at_points(middle=565), '56.7 for 56.6': at_points(middle=567),
    '92.2 for 92.3': at_points(fast=922), '92.4 for 92.3': at_points(fast=924),
    'curve in whole g/km': moving(lambda e, k: within(e, Fraction(k // 1))),
    'g/km rounded down': moving(lambda e, k: within(Fraction(e // 1), k)),
    'g/km to the nearest': moving(lambda e, k: within(Fraction(round(e)), k)),
    'ends excluded': moving(lambda e, k: abs(e - k) < k / 4),
    'lower end excluded': moving(lambda e, k: 3 * k < 4 * e <= 5 * k),
    'upper end excluded': moving(lambda e, k: 3 * k <= 4 * e < 5 * k),
    'a quarter of the g/km': moving(lambda e, k: abs(e - k) <= e / 4),
    'the lower end alone': moving(lambda e, k: 4 * e >= 3 * k),
    'the upper end alone': moving(lambda e, k: 4 * e <= 5 * k),
    'the lower end alone, any curve': judged(lambda e, k: e is not None and 4 * e >= 3 * k),
    'by the magnitude of the curve': judged(lambda e, k: e is not None and within(e, abs(k))),
    'a curve at or below 0 as 1': judged(lambda e, k: e is not None
                                         and within(e, k if k > 0 else Fraction(1))),
    'normal with no distance': judged(lambda e, k: e is None or k > 0 and within(e, k)),
    'no distance as g/km of the curve': judged(lambda e, k: k > 0 and (e is None or within(e, k))),
    'a pass for more than half': passed(lambda complete, normal: 2 * normal > complete),
    'a pass with none complete': passed(lambda complete, normal: 2 * normal >= complete),
    'a pass by the half rounded down': passed(
        lambda complete, normal: complete > 0 and normal >= complete // 2),
    'a pass for some normal': passed(lambda complete, normal: normal > 0),
    'a pass for all normal': passed(lambda complete, normal: 0 < complete == normal),
}


def misread(changes, work):
    """What the work gives with other functions of the reckoning."""
    kept = {name: getattr(reference, name) for name in changes}
    try:
        for name, function in changes.items():
            setattr(reference, name, function)
        return work()
    finally:
        for name, function in kept.items():
            setattr(reference, name, function)


def tells_co2(name, cases):
    """Each misreading changes the answer to some of the cases."""
    def answers():
        return [reference.co2_check(each.block, each.reference) for each in cases]

    right = answers()
    check('%s tell each misreading of the CO2 windows' % name,
          [wrong for wrong, changes in CO2_MISREADINGS.items()
           if misread(changes, answers) == right], [])


def last_sample_names():
    """The last sample decides, by the part of it that is said."""
    readings = {'by the last sample': 'without the sample that completes',
                'CO2 of the last sample': 'without its CO2',
                'distance of the last sample': 'without its distance',
                'the mean with the last sample': 'without its speed in the mean'}
    for part, reading in readings.items():
        cases = [each for each in co2.last_sample_cases() if part in each.name]
        answers = [misread(changes, lambda: [
            reference.co2_check(each.block, each.reference).normal for each in cases])
            for changes in ({}, CO2_MISREADINGS[reading])]
        stated = [int(not each.name.startswith('not')) for each in cases]
        check('the last sample decides: ' + part, (answers, sorted(set(stated))),
              ([stated, [1 - normal for normal in stated]], [0, 1]))


# --- CO2 windows: what the cases reach ---------------------------------------

# Refusal, complete, normal, pass.
LONG_ANSWERS = {
    '7201 at most, M 720100001': (0, 0, 0, 0), '7201 at most, M 4294967295': (0, 0, 0, 0),
    '7201 at most, M 720099999': (0, 1, 1, 1), '7201 at most, M 100000': (0, 7201, 7201, 1),
    '7201 at most, M 100001': (0, 7200, 7200, 1), '7201 at most, M 1': (0, 7201, 7201, 1),
    '7201 at most, M 360000000': (0, 3602, 3602, 1), '7201 of 1 mg, M 7201': (0, 1, 0, 0),
    '7201 at a standstill, all one window': (0, 1, 0, 0),
    # 1000 / k g/km, k from 1 to 7201: normal from 8 to 13
    '7200 without CO2, then enough': (0, 7201, 6, 0),
    '3600 of 7201 normal': (0, 7201, 3600, 0), '3601 of 7201 normal': (0, 7201, 3601, 1),
    '3599 of 7200 normal': (0, 7200, 3599, 0), '3600 of 7200 normal': (0, 7200, 3600, 1)}


def co2_long():
    """Long blocks: of one window, and of as many windows as samples; drives."""
    answers = {each.name: tuple(reference.co2_check(each.block, each.reference))
               for each in co2.longest_cases()}
    for name, answer in LONG_ANSWERS.items():
        check(name, answers[name], answer)
    # 1200 g/km; a curve of 1000 at 300.0 km/h is normal, and all others are far from it
    for points in co2.ENDS:
        normal = int(points[1:] == (1000, 1000))
        ending = 'curve of %d, %d, %d' % points
        check('7201 at most, ' + ending, answers['7201 at most, all one window, ' + ending],
              (0, 1, normal, normal))
    driven = [reference.co2_check(each.block, each.reference) for each in co2.driven_cases()[2:4]]
    check('about half of the windows of a drive are normal, it passes and does not',
          [(0.45 < answer.normal / answer.complete < 0.55, answer.complete > 6900, answer.passed)
           for answer in driven], [(True, True, 1), (True, True, 0)])


def at_ends(each):
    """Of an accepted case: which ends of their range its windows' g/km are exactly at, and at
    which points their means are, or one unit beside."""
    record = reference.decode_co2_reference(each.reference)
    points = record.c1, record.c2, record.c3
    met = set()
    for window in reference.co2_windows(reference.samples_of_block(each.block), record.mass):
        above, below = multiplied_out(window.speeds, window.count, points)
        for times in (3, 5):
            if window.speeds and 144 * window.co2 * below == times * above * window.speeds:
                met.add('%d quarters' % times)
        for point in (190, 566, 923):
            off = window.speeds - point * window.count
            if abs(off) <= 1:
                met.add('%d %+d' % (point, off))
        if above <= 0:
            met.add('no curve')
        if window.speeds == 0:
            met.add('no distance')
    return met


def co2_random():
    """What the random cases reach."""
    rng = random.Random(1)
    cases = [co2.random_case(rng) for _ in range(1000)]
    answers = [reference.co2_check(each.block, each.reference) for each in cases]
    accepted = [(each, answer) for each, answer in zip(cases, answers) if answer.refusal == 0]
    check('random cases reach each refusal', {a.refusal for a in answers}, {0, 1, 4, 14})
    check('most are accepted', 0.75 < len(accepted) / len(cases) < 0.95, True)
    for name, share in (('complete', lambda a: a.complete > 0), ('a pass', lambda a: a.passed),
                        ('no pass of some', lambda a: a.complete and not a.passed),
                        ('mixed', lambda a: 0 < a.normal < a.complete)):
        check('random cases, ' + name, sum(1 for _, a in accepted if share(a))
              > len(accepted) / 8, True)
    check('random cases on either side of a half',
          {2 * a.normal - a.complete for _, a in accepted if a.complete} >= set(range(-3, 4)), True)
    met = [at_ends(each) for each, _ in accepted if len(each.block) <= 16 * 40]
    wanted = ['3 quarters', '5 quarters', 'no curve', 'no distance']
    wanted += ['%d %+d' % (point, off) for point in (190, 566, 923) for off in (-1, 0, 1)]
    check('random cases at ends and points, four of each at least',
          [each for each in wanted if sum(1 for m in met if each in m) < 4], [])
    check('random cases have several faults', {len(co2_faults(each.block, each.reference))
                                               for each in cases} >= {0, 1, 2}, True)
    tells_co2('random cases', [each for each, _ in accepted if len(each.block) <= 16 * 8])
    again = [co2.random_case(rng) for rng in [random.Random(1)] for _ in range(50)]
    check('the same seed gives the same cases', again, cases[:50])
    line = co2.case_line(co2.Case('', b'', co2.GOOD))
    check('a line of text', line, 'co2 - e8030000640064006400000000000000 -> 0 0 0 0\n')


def co2_cases():
    window_sentences()
    curve_sentences()
    normal_sentences()
    pass_sentences()
    co2_named_answers()
    quarter_edges()
    told_edges()
    zero_edges()
    last_sample_names()
    co2_refusals()
    two_ways(1, 1000)
    tells_co2('named cases', co2.named_cases())
    co2_long()
    co2_random()


# --- NOx below zero (R-6) ----------------------------------------------------

# The two bytes of NOx, and the NOx where it is within -50 to 5000: 65486, 65485, 65487, 65535,
# 65534, 0, 1, 4999, 5000, 5001, 32767, 32768 and 32769 without a sign.
NOX_BYTES = {'ceff': -50, 'cdff': None, 'cfff': -49, 'ffff': -1, 'feff': -2, '0000': 0, '0100': 1,
             '8713': 4999, '8813': 5000, '8913': None, 'ff7f': None, '0080': None, '0180': None}

# Readings of the named lists.  The last three of NOx are -3; -3, -1; -3, -1, -2; -1, -2, 0;
# -2, 0, 2; 0, 2, -50.  Those of channel 6 are -30; -30, 5; -30, 5, 0; 5, 0, -1000000; 0, -1000000,
# -1; -1000000, -1, 0; -1, 0, 100000000, with means of -12.5, -25/3, -999995/3, -1000001/3 twice
# and 99999999/3.  95 of 100 is all of up to 19, so the percentile of three is the largest.
DRIFT_READINGS = {
    'drift-count-4': [1, 2, 3, 3, 3, 3],
    'drift-sum-4': [-3, -4, -6, -3, 0, -48],
    'drift-smallest-4': [-3, -3, -3, -2, -2, -50],
    'drift-largest-4': [-3, -1, -1, 0, 2, 2],
    'drift-average-4': [-3, -2, -2, -1, 0, -16],
    'drift-percentile-4': [-3, -1, -1, 0, 2, 2],
    'drift-count-6': [1, 2, 3, 3, 3, 3, 3],
    'drift-sum-6': [-30, -25, -25, -999995, -1000001, -1000001, 99999999],
    'drift-smallest-6': [-30, -30, -30, -1000000, -1000000, -1000000, -1],
    'drift-largest-6': [-30, 5, 5, 5, 0, 0, 100000000],
    'drift-average-6': [-30, -12, -8, -333332, -333334, -333334, 33333333],
    'drift-percentile-6': [-30, 5, 5, 5, 0, 0, 100000000],
    # -1.5, -2.5, -26.5, -49.5, -48.5, 2476, 2475.5, -24.5, -0.5, 0.5, 3.5
    'drift-halves-4': [-1, -2, -2, -26, -50, -48, 2476, 2476, -24, 0, 0, 4],
    # of -1000000, -979951, -2, -3, -4, 1, -2, -1000000, -1: -989975.5, -489976.5, -2.5, -3.5, -1.5,
    # -0.5, -500001, -500000.5
    'drift-halves-6': [-1000000, -989976, -489976, -2, -4, -2, 0, -500001, -500000],
    # of 20 the 19th, of 21 and 22 the 20th and the 21st: -2, -1 and 0
    'drift-percentiles-4': list(range(-20, -1)) + [-2, -1, 0],
    'drift-percentiles-6': list(range(-60, -3, 3)) + [-6, -3, 0],
    'drift-held-largest': [-5, -5, -5, -3],
    'drift-held-smallest': [-5, -5, -5, -7],
    'drift-held-smallest-through-zero': [1, 0, -1, -1, 0],
    'drift-held-largest-through-zero': [-5, 0, 9, 9, 0],
    # sums of 1, 2, 4 .. 128 at -50, -49, -2, -1, 0, 1, 2 and 5000
    'drift-conditions-4': [1, 0, 3, 6, 12, 8, 56, 124, 15, 31, 240, 224, 255, 0, 0, 0],
    # at -1000000, -980000, -40000, -20000, 0, 20000, 40000 and 100000000
    'drift-conditions-6': [1, 0, 14, 1, 0, 1, 56, 24, 48, 15, 7, 240, 224, 255, 16, 0],
    'nox-patterns': [0, 0, 0, -50, -51],
}

# Move counts after each sample, and the seconds held at the end.  The first two are case (b) below
# zero, and the same turned over.  Of 1, 0, -1, 0, 1 in twos, smallest: 1 in; out, 0 in; out, -1 in;
# 0 in; -1 out of the window, 1 in.  Of -5, 0, 9, 0, -5 in twos, largest: the same.
DRIFT_MOVES = {'drift-held-largest': ([1, 2, 4, 7], [3]),
               'drift-held-smallest': ([1, 2, 4, 7], [3]),
               'drift-held-smallest-through-zero': ([1, 3, 5, 6, 8], [3, 4]),
               'drift-held-largest-through-zero': ([1, 3, 5, 6, 8], [3, 4])}

# D, other U, extended U: the weight 8 x other U + 5 x extended U, exceeded.  640000 / 1586 lies
# between 403 and 404, twice as much between 807 and 808; at 793 it is 320,000.
DRIFT_MARKS = {
    (0, -1, 0): (-8, 0), (0, 0, -1): (-5, 0), (0, 1, -1): (3, 0), (0, -5, 8): (0, 0),
    (0, 1000, -1500): (500, 0), (0, -1007, 1692): (404, 0),
    (1, -2, 3): (-1, 0), (1, -5, 8): (0, 0), (1, 0, 0): (0, 0), (1, 5, -8): (0, 0),
    (1, 2, -3): (1, 0), (1, -1, 0): (-8, 0), (1, 0, -1): (-5, 0),
    (1, -5, 7): (-5, 0), (1, -1000, 1599): (-5, 0), (1, -1000, 1600): (0, 0),    # U of 2, 599, 600
    (1, -1000, 1601): (5, 0), (1, 3, -4): (4, 0),    # U of 601 and -1
    (1, 1000, -1500): (500, 1), (1, 1000, -1519): (405, 1), (1, 1000, -1520): (400, 0),
    (1, 1000, -1000): (3000, 1),    # U of -500, -519, -520 and 0
    (1, -1004, 1687): (403, 0), (1, -1007, 1692): (404, 1),
    (1, 1001, -1521): (403, 0), (1, 1003, -1524): (404, 1),
    (2, 999, -1437): (807, 0), (2, 1001, -1440): (808, 1),
    (793, 40005, -8): (320000, 0), (793, 40006, -8): (320008, 1),
    (793, -5, 64008): (320000, 0), (793, -5, 64009): (320005, 1),
    (793, -40000, 0): (-320000, 0), (793, -40001, 0): (-320008, 0),
    (793, 0, -64001): (-320005, 0), (793, -50000, -150000): (-1150000, 0)}

# A sample at 50.0 km/h; one at 303.0 K; the tally of nothing else.  Each of U's bytes is written
# out: -1,000,000 is 2 ** 64 less 0xf4240.
ONE_URBAN = '01' + '00' * 23 + 'f401' + '00' * 22 + '00' * 48
TWO_URBAN = '02' + '00' * 23 + 'e803' + '00' * 22 + '00' * 48
MINUS_MILLION, HUNDRED_MILLION = 'c0bdf0ffffffffff', '00e1f50500000000'
MINUS_ONE, ZERO, MINUS_TWO = 'ff' * 8, '00' * 8, 'fe' + 'ff' * 7

# Exhaust flow, NOx, whether it is extended, of each sample: the tally.
TALLIES_BELOW_ZERO = [
    ([(20000, -50, 0)], ONE_URBAN + MINUS_MILLION + ZERO),
    ([(20000, -50, 1)], ONE_URBAN + MINUS_MILLION + MINUS_MILLION),
    ([(20000, 5000, 1)], ONE_URBAN + HUNDRED_MILLION + HUNDRED_MILLION),
    ([(1, -1, 0)], ONE_URBAN + MINUS_ONE + ZERO), ([(1, -1, 1)], ONE_URBAN + MINUS_ONE + MINUS_ONE),
    ([(0, -50, 1)], ONE_URBAN + ZERO + ZERO),
    ([(1, 3, 0), (1, -1, 1)], TWO_URBAN + '02' + '00' * 7 + MINUS_ONE),
    ([(1, -7, 0), (1, 5, 1)], TWO_URBAN + MINUS_TWO + '05' + '00' * 7),
    ([(1, 5, 0), (5, -1, 1)], TWO_URBAN + ZERO + 'fb' + 'ff' * 7)]

# N of u, r, m, U, extended U, whether that is well formed.
FORMED = [
    ((1, 0, 0), -1000000, 0, True), ((1, 0, 0), -1000001, 0, False),
    ((1, 0, 0), 0, -1000000, True), ((1, 0, 0), 0, -1000001, False),
    ((0, 1, 0), -1000000, -1000000, True), ((0, 0, 1), -1000001, -1000001, False),
    ((1, 0, 0), 100000000, 0, True), ((1, 0, 0), 100000001, 0, False),
    ((1, 0, 0), 0, 100000000, True), ((1, 0, 0), 0, 100000001, False),
    ((0, 0, 1), 100000000, -1000000, True), ((0, 1, 0), -1000000, 100000000, True),
    ((0, 0, 1), 100000000, -1000001, False), ((0, 1, 0), -1000001, 100000000, False),
    ((1, 1, 1), -3000000, 300000000, True), ((1, 1, 1), -3000001, 0, False),
    ((1, 1, 1), 0, -3000001, False), ((1, 1, 1), 300000001, 0, False), ((1, 1, 1), 0, 300000001, False),
    ((0, 0, 0), 0, 0, True), ((0, 0, 0), -1, 0, False), ((0, 0, 0), 0, -1, False),
    ((0, 0, 0), 1, 0, False), ((0, 0, 0), 0, 1, False), ((0, 0, 0), -1, -1, False),
    ((1, 0, 0), 7, 8, True), ((1, 0, 0), 0, 1, True), ((1, 0, 0), -8, -7, True),
    ((1, 0, 0), -7, -8, True), ((1, 0, 0), -2, 5, True), ((1, 0, 0), 2, -1, True),
    ((7201, 0, 0), -7201000000, 720100000000, True), ((0, 7201, 0), 720100000000, -7201000000, True),
    ((0, 0, 7201), -7201000001, 0, False), ((2400, 2400, 2401), 0, -7201000001, False),
    ((2400, 2400, 2401), 720100000001, 0, False), ((0, 0, 7201), 0, 720100000001, False),
    ((2400, 2401, 2401), 0, 0, False),
    ((1, 0, 0), -2 ** 63, 0, False), ((1, 0, 0), 0, -2 ** 63, False),
    ((1, 0, 0), 2 ** 63 - 1, 0, False), ((1, 0, 0), 0, 2 ** 63 - 1, False)]

# N, U and extended U of two tallies and of the joined one, or its refusal.
JOINED = [
    ((1, -7, 0), (1, 9, 0), (2, 2, 0)), ((1, 7, -3), (1, -7, 3), (2, 0, 0)),
    ((1, -1, 0), (1, 0, 1), (2, -1, 1)), ((1, 2, 5), (2, -4, 6), (3, -2, 11)),
    ((1, -1, -1), (1, -1, -1), (2, -2, -2)), ((1, 1, -1), (1, -2, -4), (2, -1, -5)),
    ((1, -1000000, 100000000), (1, 100000000, -1000000), (2, 99000000, 99000000)),
    ((1, -1000000, -1000000), (1, -1000000, -1000000), (2, -2000000, -2000000)),
    ((0, 0, 0), (1, -1000000, 7), (1, -1000000, 7)), ((0, 0, 0), (0, -1, 0), 12),
    ((3600, -3600000000, 1), (3601, -3601000000, -1), (7201, -7201000000, 0)),
    ((7200, -7200000000, -7200000000), (1, 100000000, -1000000), (7201, -7100000000, -7201000000)),
    ((7201, -7201000000, 0), (0, 0, 0), (7201, -7201000000, 0)),
    ((7201, -7201000000, 0), (1, 1, 0), 13), ((7201, -5, 8), (7201, 5, -8), 13),
    ((7201, -7201000001, 0), (1, 1, 0), 12), ((7201, 0, 0), (1, 0, -1000001), 12),
    ((7201, 0, 720100000001), (7201, 0, 0), 12)]


def by_calls(named, name, kind):
    """The answers to the calls of a kind of a named list."""
    return [answer for call, answer in zip(*named[name]) if call[0] == kind]


def nox_fields():
    """"The NOx field becomes signed, -50 to 5000", in a sample, in a block of each kind, and in
    the report: a car that stands, with an exhaust flow of 1."""
    for text, nox in NOX_BYTES.items():
        record = bytes.fromhex('000000006400730b0100' + text + '00000000')
        trip, _ = make_trip([window(SUM, channel, 1) for channel in (4, 6)], [])
        answer = trip.sample(record)
        tally = reference.tally_block(record)
        told = (answer, trip.read(0), trip.read(1), reference.co2_check(record, co2.GOOD).refusal,
                reference.report(record).split(b'\n')[0])
        if nox is None:
            expected = ('refused', 4), ('number', 0), ('number', 0), 4, b'refused 4 at 0'
            check('NOx of the bytes ' + text, (told, tally), (expected, ('refused', 4)))
        else:
            expected = ('number', 0), ('number', nox), ('number', nox), 0, b'samples 1'
            check('NOx of the bytes ' + text,
                  (told, int.from_bytes(tally[96:104], 'little', signed=True)), (expected, nox))


def drift_windows():
    """"channel 6 ... with it": windows, held entries and conditions below zero by hand."""
    named = generate.named_lists()
    for name, numbers in DRIFT_READINGS.items():
        check(name, by_calls(named, name, 'read'), [('number', number) for number in numbers])
    for name, (counts, seconds) in DRIFT_MOVES.items():
        trip = Trip()
        reference.replay(named[name][0], trip)
        check('moves, ' + name, (by_calls(named, name, 'sample'), trip.held(0)),
              ([('number', count) for count in counts], seconds))
    check('NOx patterns are refused, or below zero', by_calls(named, 'nox-patterns', 'sample'),
          [('refused', 4)] * 3 + [('number', 0)] * 2)
    check('edges of NOx', by_calls(named, 'edges-nox', 'sample'),
          [('number', k) for k in (1, 3, 5, 7, 9, 11, 13)] + [('refused', 4)] * 4)


def literal_reading(some, samples):
    """The reading, from the records' bytes, of a window on NOx or on channel 6 that has a condition
    on the other one, and the seconds held."""
    records = [reference.encode_sample(s) for s in samples[-some.width:]]
    nox = [int.from_bytes(r[10:12], 'little', signed=True) for r in records]
    rate = [int.from_bytes(r[8:10], 'little') * each for r, each in zip(records, nox)]
    values, others = (nox, rate) if some.channel == 4 else (rate, nox)
    there = [(s.second, v) for s, v, c in zip(samples[-some.width:], values, others)
             if some.low <= c <= some.high]
    found = [v for _, v in there]
    held = [second for second, v in there
            if not any(later > second and (w <= v if some.function == SMALLEST else w >= v)
                       for later, w in there)]
    if some.function in (COUNT, SUM):
        return (len(found) if some.function == COUNT else sum(found)), []
    if not found:
        return None, []
    if some.function == AVERAGE:
        down = sum(found) // len(found)
        return next(n for n in (down, down + 1) if nearest_and_even(n, sum(found), len(found))), []
    return ({SMALLEST: min, LARGEST: max, PERCENTILE: literal_percentile}[some.function](found),
            held if some.function in (SMALLEST, LARGEST) else [])


def drift_definitions(seed, lists):
    """Readings, held entries and moves about zero by the definitions."""
    rng = random.Random(seed)
    readings = moved = 0
    for _ in range(lists):
        channel = rng.choice((4, 6))
        low, high = sorted(rng.choice((-120, -9, -2, -1, 0, 1, 9, 120)) for _ in range(2))
        some = Window(rng.randrange(6), channel, 10 - channel, 0, rng.choice((1, 2, 3, 5, 20)), 0,
                      low, high)
        samples = [Sample(k, 0, 0, 2931, rng.choice((0, 1, 2, 60)), rng.randint(-3, 3), 0)
                   for k in range(rng.randint(1, 30))]
        readings += (reference.reading(some, samples),
                     reference.held_entries(some, samples)) != literal_reading(some, samples)
        moved += ([reference.moves([some], samples[:k + 1]) for k in range(len(samples))]
                  != reference.moves_fast([some], samples))
    check('readings and held entries about zero by the definition, %d of them' % lists, readings, 0)
    check('moves_fast equals moves about zero', moved, 0)
    read = [(windows[call[1]], list(samples), answer) for call, answer, windows, samples in
            generate.followed([generate.named_lists()['drift-windows']]) if call[0] == 'read']
    check('windows about zero, read after every sample, by the definition: readings that differ of %d'
          % len(read), [(some, answer) for some, samples, answer in read
                        if answer != (('refused', 10) if literal_reading(some, samples)[0] is None
                                      else ('number', literal_reading(some, samples)[0]))], [])


def drift_verdicts():
    """"A drive whose weighted sum of U is 0 or less is never exceeded", and nothing else changes."""
    named = generate.named_lists()
    check('the weights by hand are those of the list', list(DRIFT_MARKS), list(generate.DRIFT_WEIGHTS))
    for (D, other, extended), (weight, mark) in DRIFT_MARKS.items():
        trip = drives.drift_drive(D, other, extended)
        check('D %d, other U %d, extended U %d' % (D, other, extended),
              (reference.tally_fields(trip)[-2:], reference.weighted_nox_sum(trip),
               reference.verdict_of(trip)[2]), ([other + extended, extended], weight, mark))
    for name, marks in (('drift-weights', [mark for _, mark in DRIFT_MARKS.values()]),
                        ('drift-over-zero', [0, 0, 0, 0, 1, 1, 0, 0, 0, 1] + [0] * 3),
                        ('drift-refused', [0] * 6 + [1] * 6 + [0] * 3),
                        ('drift-far-below', [0] * 7), ('drift-limits', [0, 1] * 28)):
        check(name, [answer[2] for answer in by_calls(named, name, 'verdict')], marks)
    over_zero = [reference.weighted_nox_sum(trip)
                 for trip in generate.judged_trips([named['drift-over-zero']])]
    check('weights through 0 and the limit', over_zero,
          [-8, 7, -1, 399, 404, 404, 399, -9, 807, 812, -8, 7])
    for n in (5400, 7200):
        drive = drives.drifting_drive(n)
        check('drifting drive of %d samples, and clipped' % n,
              (reference.verdict_of(drive),
               reference.verdict_of([s._replace(nox=max(0, s.nox)) for s in drive])),
              (('verdict', 0, 0, 33), ('verdict', 0, 1, 32)))
    lowest = drives.drive_of([3000] * 7201, flow=20000, nox=-50)
    check('the least weight', (reference.weighted_nox_sum(lowest), reference.nox_exceeded(lowest)),
          (-57608000000, False))


def drift_tallies():
    """"the tally's U fields become i64": tallies written out, and the two conditions on U."""
    for records, text in TALLIES_BELOW_ZERO:
        block = b''.join(reference.encode_sample(
            Sample(k, 500, 100, 3050 if extended else 2931, flow, nox, 0))
            for k, (flow, nox, extended) in enumerate(records))
        check('tally of %s' % records, reference.tally_block(block), bytes.fromhex(text))
    # 7,201,000,000 is 0x1ad368a40; all samples are extended, and of speed 0
    check('tally of 7201 samples at the least channel 6',
          reference.tally_block(generate.longest_drift_blocks()[1]),
          bytes.fromhex('211c' + '00' * 46 + '211c' + '00' * 46 + 'c075c952feffffff' * 2))
    zero = bytes(TALLY_LENGTH)
    for N, U, extended_U, formed in FORMED:
        tally = generate.tally_of(N, (0, 0, 0), 0, U, extended_U)
        check('tally with N %s, U %d, extended U %d' % (N, U, extended_U),
              [reference.join(tally, zero), reference.join(zero, tally)],
              [tally if formed else ('refused', 12)] * 2)
    for text, formed in ((MINUS_MILLION, True), ('bfbdf0ffffffffff', False), (HUNDRED_MILLION, True),
                         ('01e1f50500000000', False), (MINUS_ONE, True), ('00' * 7 + '80', False),
                         ('ff' * 7 + '7f', False)):
        for fields in (text + ZERO, ZERO + text):
            tally = bytes.fromhex(ONE_URBAN + fields)
            check('tally with U fields of ' + fields, reference.join(zero, tally),
                  tally if formed else ('refused', 12))
    for first, second, answer in JOINED:
        a, b = generate.signed_tally(*first), generate.signed_tally(*second)
        expected = ('refused', answer) if isinstance(answer, int) else generate.signed_tally(*answer)
        check('join of %s and %s' % (first, second), [reference.join(a, b), reference.join(b, a)],
              [expected] * 2)
    ill = generate.signed_tally(1, -1000001, 0)
    check('11 before 12, U below its bound', reference.join(ill, zero, TALLY_LENGTH - 8), ('refused', 11))


def drift_co2():
    """R-5's windows take the same record: nothing but its range changes."""
    answers = {each.name: tuple(reference.co2_check(each.block, each.reference))
               for each in co2.nox_cases()}
    accepted = {'NOx %s' % (values,) for values in (
        (-50,), (-1,), (0,), (5000,), (-50, 5000), (0, -1, -50))}
    accepted |= {'NOx of %d without a sign, last sample' % pattern for pattern in (65486, 65535)}
    refused = {'NOx of %d without a sign, last sample' % pattern for pattern in (32767, 32768, 65485)}
    check('CO2 windows with NOx below zero', answers, {
        **{name: (0, 1, 1, 1) for name in accepted}, **{name: (4, 0, 0, 0) for name in refused}})


# --- NOx below zero: misreadings ---------------------------------------------

def nox_as(change, *channels):
    """NOx is changed before it is taken for these channels."""
    right = reference.channel_value
    return {'channel_value': lambda s, channel: right(
        s._replace(nox=change(s.nox)) if channel in channels else s, channel)}


def clipped(number):
    return max(0, number)


def other_weight(weigh):
    """Another weighted sum, of U and extended U."""
    return {'weighted_nox_sum': lambda samples: weigh(
        reference.nox_sum(samples), reference.extended_nox_sum(samples))}


def exceeded_and(condition):
    """Exceeded only where this holds too of U and extended U."""
    right = reference.nox_exceeded
    return {'nox_exceeded': lambda samples: right(samples) and condition(
        reference.nox_sum(samples), reference.extended_nox_sum(samples))}


def nox_range(low, high):
    return {'RANGES': dict(reference.RANGES, nox=(low, high))}


# Ways to read R-6's field wrongly: {name: other functions of the reckoning}.
FIELD_MISREADINGS = {
    'NOx clipped at 0': nox_as(clipped, 4, 6), 'NOx clipped in channel 4': nox_as(clipped, 4),
    'NOx clipped in channel 6': nox_as(clipped, 6),
    'NOx without its minus': nox_as(abs, 4, 6), 'channel 6 without its minus': nox_as(abs, 6),
    'NOx of 16 bits without a sign': nox_as(lambda nox: nox % 65536, 4, 6),
    'channel 6 of NOx without a sign': nox_as(lambda nox: nox % 65536, 6)}
RANGE_MISREADINGS = {
    'from 0': nox_range(0, 5000), 'from -49': nox_range(-49, 5000), 'from -51': nox_range(-51, 5000),
    'to 4999': nox_range(-50, 4999), 'to 5001': nox_range(-50, 5001),
    'any below 0': nox_range(-32768, 5000), 'from -500': nox_range(-500, 5000)}

# A weight of 32 bits, with a sign and without one.
NARROW_WEIGHTS = {
    'the weight of 32 bits': other_weight(lambda U, e: (8 * U - 3 * e + 2 ** 31) % 2 ** 32 - 2 ** 31),
    'the weight of 32 bits without a sign': other_weight(lambda U, e: (8 * U - 3 * e) % 2 ** 32)}

# Ways to weigh and compare wrongly below zero.
WEIGHT_MISREADINGS = {
    'other U not below 0': other_weight(lambda U, e: 8 * clipped(U - e) + 5 * e),
    'extended U not below 0': other_weight(lambda U, e: 8 * (U - e) + 5 * clipped(e)),
    'U not below 0': other_weight(lambda U, e: 8 * (clipped(U) - e) + 5 * e),
    'extended U at most U': other_weight(lambda U, e: 8 * (U - min(U, e)) + 5 * min(U, e)),
    'the weight without its minus': other_weight(lambda U, e: abs(8 * (U - e) + 5 * e)),
    'the weight without a sign': other_weight(lambda U, e: (8 * (U - e) + 5 * e) % 2 ** 64),
    'other U without its minus': other_weight(lambda U, e: 8 * abs(U - e) + 5 * e),
    'extended U without its minus': other_weight(lambda U, e: 8 * (U - e) + 5 * abs(e)),
    'U 0 or less never exceeded': exceeded_and(lambda U, e: U > 0),
    'other U below 0 never exceeded': exceeded_and(lambda U, e: U >= e),
    'extended U below 0 never exceeded': exceeded_and(lambda U, e: e >= 0)}


def formed_by(condition):
    """Well formed by another condition on the N, U and extended U."""
    right = reference.tally_well_formed

    def well_formed(tally):
        return (right(tally[:96] + bytes(16)) and len(tally) == TALLY_LENGTH
                and condition(*tally_numbers(tally)))
    return {'tally_well_formed': well_formed}


def tally_numbers(tally):
    """The three N, U and extended U."""
    fields = reference.TALLY_LAYOUT.unpack(tally)
    return fields[:3], fields[12], fields[13]


def each_within(low, high):
    """U and extended U are each within these bounds, of the N together."""
    return lambda N, U, e: all(low(sum(N)) <= u <= high(sum(N)) for u in (U, e))


def low_bound(n):
    return -1000000 * n


def high_bound(n):
    return 100000000 * n


def bounded(N, number, sides='both'):
    """The number is within R-6's bounds, or within its 'lower' or its 'upper' one alone."""
    return ((sides == 'upper' or number >= low_bound(sum(N)))
            and (sides == 'lower' or number <= high_bound(sum(N))))


# Ways to bound wrongly: {name: a condition on the N, U and extended U}.
FORM_MISREADINGS = {
    'extended U at most U': lambda N, U, e: bounded(N, U) and bounded(N, e) and e <= U,
    'extended U at most U where that is above 0': lambda N, U, e: (
        bounded(N, U) and bounded(N, e) and (e <= U or U <= 0)),
    'other U bounded': lambda N, U, e: all(bounded(N, u) for u in (U, e, U - e)),
    'U not below 0': lambda N, U, e: bounded(N, U) and bounded(N, e) and U >= 0,
    'extended U not below 0': lambda N, U, e: bounded(N, U) and bounded(N, e) and e >= 0,
    'extended U without bounds': lambda N, U, e: bounded(N, U),
    'U without bounds': lambda N, U, e: bounded(N, e),
    'no lower bound': lambda N, U, e: bounded(N, U, 'upper') and bounded(N, e, 'upper'),
    'no lower bound of U': lambda N, U, e: bounded(N, U, 'upper') and bounded(N, e),
    'no lower bound of extended U': lambda N, U, e: bounded(N, U) and bounded(N, e, 'upper'),
    'no upper bound': lambda N, U, e: bounded(N, U, 'lower') and bounded(N, e, 'lower'),
    'no upper bound of U': lambda N, U, e: bounded(N, U, 'lower') and bounded(N, e),
    'no upper bound of extended U': lambda N, U, e: bounded(N, U) and bounded(N, e, 'lower'),
    'a bound of -1,000,000 at any N': each_within(lambda n: -1000000, high_bound),
    'a bound of -1,000,001': each_within(lambda n: -1000001 * n, high_bound),
    'a lower bound one less': each_within(lambda n: low_bound(n) - 1, high_bound),
    'a lower bound one more': each_within(lambda n: min(0, low_bound(n) + 1), high_bound),
    'an upper bound one more': each_within(low_bound, lambda n: high_bound(n) + 1),
    'an upper bound one less': each_within(low_bound, lambda n: max(0, high_bound(n) - 1)),
    'a lower bound of -100,000,000': each_within(lambda n: -100000000 * n, high_bound),
    'the N of one class': lambda N, U, e: bounded(N[:1], U) and bounded(N[:1], e),
    'the U fields without a sign': each_within(lambda n: 0, high_bound)}


def tells_drift(name, inputs, answer, *tables):
    """Each misreading of these tables changes the answer to some of the inputs."""
    inputs = list(inputs)

    def answers():
        return [answer(each) for each in inputs]

    right = answers()
    check('%s tell each misreading of R-6, %d of them' % (name, sum(map(len, tables))),
          [wrong for table in tables for wrong, changes in table.items()
           if misread(changes, answers) == right], [])


def joined(case):
    try:
        return reference.join(*case)
    except struct.error:    # of a misreading
        return 'more than an i64'


def marked(drive):
    return reference.nox_exceeded(drive)


FORM_CHANGES = {name: formed_by(condition) for name, condition in FORM_MISREADINGS.items()}


# Those that change channel 6, which verdicts and tallies take.
OF_CHANNEL_6 = {name: changes for name, changes in FIELD_MISREADINGS.items()
                if not name.endswith('channel 4')}


def drift_told():
    """What the named lists, the blocks and the joins tell."""
    named = generate.named_lists()
    ranges = [named[name][0] for name in ('edges-nox', 'nox-patterns')]
    windows = [named[name][0] for name in generate.drift_window_lists()]
    verdicts = [named[name][0] for name in ('drift-weights', 'drift-over-zero', 'drift-limits')]
    tells_drift('lists at the ends of NOx', ranges, reference.replay, RANGE_MISREADINGS)
    tells_drift('windows about zero', windows, reference.replay, FIELD_MISREADINGS)
    tells_drift('verdicts about zero', verdicts, reference.replay, OF_CHANNEL_6, WEIGHT_MISREADINGS)
    tells_drift('a trip far below zero', [named['drift-far-below'][0]], reference.replay, NARROW_WEIGHTS)
    for channel in (4, 6):
        of_channel = {name: changes for name, changes in FIELD_MISREADINGS.items()
                      if 'hannel' not in name or name.endswith('channel %d' % channel)}
        tells_drift('conditions on channel %d' % channel, [named['drift-conditions-%d' % channel][0]],
                    reference.replay, of_channel)
    tells_drift('blocks', generate.drift_blocks(), reference.tally_block, OF_CHANNEL_6)
    tells_drift('CO2 windows', co2.field_cases(),
                lambda each: reference.co2_check(each.block, each.reference), RANGE_MISREADINGS)
    tells_drift('joins of R-6', generate.signed_join_cases(), joined, FORM_CHANGES)


def drift_edge_drives():
    """What R-6's edge drives tell, and which weights and sums they have."""
    edges = drives.drift_edges()
    short = [drive for edge in edges if not edge.whole for drive in (edge.kept, edge.broken)]
    tells_drift('short edge drives', short, marked, OF_CHANNEL_6, WEIGHT_MISREADINGS)
    met = {(edge.whole, side, number_signs(drive)) for edge in edges
           for side, drive in enumerate((edge.kept, edge.broken))}
    check('edge drives have weights and sums of each sign', sorted(met), sorted(
        [(False, 0, signs) for signs in ((1, 1), (1, -1), (0, 1), (-1, 1), (-1, -1))]
        + [(False, 1, signs) for signs in ((1, 1), (1, -1))]
        + [(True, 0, signs) for signs in ((1, 1), (0, 1), (-1, 1), (-1, -1))] + [(True, 1, (1, 1))]))
    for edge in edges:
        if 'at the limit' in edge.name:
            D = sum(s.speed for s in edge.kept)
            weights = [reference.weighted_nox_sum(drive) for drive in (edge.kept, edge.broken)]
            check('weights of ' + edge.name, weights, [640000 * D // 1586, 640000 * D // 1586 + 1])


def number_signs(samples):
    """The signs of the weight and of U."""
    return (generate.number_sign(reference.weighted_nox_sum(samples)),
            generate.number_sign(reference.nox_sum(samples)))


def never_exceeded(name, trips):
    """"A drive whose weighted sum of U is 0 or less is never exceeded"; a twentieth of them at
    least have such a sum.  Gives the signs of their weights and of their U."""
    trips = [trip for trip in trips if trip]
    low = [trip for trip in trips if reference.weighted_nox_sum(trip) <= 0]
    check('%s of a weight of 0 or less are never exceeded' % name,
          [trip for trip in low if reference.nox_exceeded(trip)], [])
    check('%s have such weights' % name, len(low) >= len(trips) / 20, True)
    return {number_signs(trip) for trip in trips}


def drift_random_lists(rng):
    """What the random and the small lists and the random drives reach below zero."""
    lists = [generate.random_list(rng) for _ in range(2000)]
    check('random lists read numbers of each sign from NOx and channel 6',
          {(function, channel, sign) for function in range(1, 6) for channel in (4, 6)
           for sign in (-1, 0, 1)} - generate.read_signs(lists), set())
    check('random lists have conditions below, through and above zero on them',
          {(channel, *signs) for channel in (4, 6) for signs in ((-1, -1), (-1, 0), (-1, 1), (0, 1),
                                                                 (0, 0))}
          - generate.condition_signs(lists), set())
    signs = never_exceeded('trips of random lists', generate.judged_trips(lists))
    check('trips of random lists have weights and sums of each sign', signs,
          {(weight, U) for weight in (-1, 0, 1) for U in (-1, 0, 1)})
    tells_drift('random lists', [calls for calls, _ in lists], reference.replay, FIELD_MISREADINGS,
                RANGE_MISREADINGS, WEIGHT_MISREADINGS)
    some = [drives.random_drive(rng, rng.randint(1, 60)) for _ in range(1000)]
    never_exceeded('random drives', some)
    tells_drift('random drives', some, marked, {
        name: WEIGHT_MISREADINGS[name] for name in ('the weight without its minus',
                                                    'the weight without a sign')})
    small = [calls for calls, _ in antt.small_lists(random.Random(1), 300)]
    tells_drift('small lists', small, reference.replay, FIELD_MISREADINGS, RANGE_MISREADINGS)


def drift_random_tallies(rng):
    """What the random joins and blocks reach."""
    pairs = [(generate.random_tally(rng), generate.random_tally(rng), TALLY_LENGTH)
             for _ in range(2000)]
    tells_drift('random joins', pairs, joined, FORM_CHANGES)
    well = sum(1 for a, b, _ in pairs for t in (a, b) if reference.tally_well_formed(t))
    check('a third of random tallies at least are well formed', well >= len(pairs) * 2 / 3, True)
    blocks = [generate.random_block(rng) for _ in range(1000)]
    tells_drift('random blocks', blocks, reference.tally_block, RANGE_MISREADINGS, OF_CHANNEL_6)


def drift_cases():
    nox_fields()
    drift_windows()
    drift_definitions(1, 1500)
    drift_verdicts()
    drift_tallies()
    drift_co2()
    drift_told()
    drift_edge_drives()
    drift_random_lists(random.Random(6))
    drift_random_tallies(random.Random(6))


# --- The examples of the refusal table ---------------------------------------

def refusal_examples():
    good = reference.encode_sample(Sample(0, 0, 0, 2931, 0, 0, 0))
    wide = reference.encode_window(window(SMALLEST, 0, 3))
    check('1 sample of 15 bytes', Trip().sample(good[:15]), ('refused', 1))
    trip = Trip()
    check('2 close twice', [trip.close(), trip.close()], [('number', 0), ('refused', 2)])
    first_one = reference.encode_sample(Sample(1, 0, 0, 2931, 0, 0, 0))
    check('3 first second 1', Trip().sample(first_one), ('refused', 3))
    fast = reference.encode_sample(Sample(0, 3001, 0, 2931, 0, 0, 0))
    check('4 speed 3001', Trip().sample(fast), ('refused', 4))
    block = b''.join(reference.encode_sample(Sample(k, 0, 0, 2931, 0, 0, 0)) for k in range(7202))
    check('5 sample 7202', reference.report(block), b'refused 5 at 7201\n')
    check('5 block of 7202', reference.tally_block(block), ('refused', 5))
    check('6 width 0', Trip().declare(reference.encode_window(window(COUNT, 0, 0))), ('refused', 6))
    trip = Trip()
    check('7 declare, second 0, declare',
          [trip.declare(wide), trip.sample(good), trip.declare(wide)],
          [('number', 0), ('number', 1), ('refused', 7)])
    trip = Trip()
    check('8 the 17th', [trip.declare(wide) for _ in range(17)],
          [('number', k) for k in range(16)] + [('refused', 8)])
    check('9 read 0 when fresh', Trip().read(0), ('refused', 9))
    trip = Trip()
    trip.declare(wide)
    check('10 read before sampling', trip.read(0), ('refused', 10))
    full = reference.tally_block(block[:-16])
    one = reference.tally_block(good)
    for length in (TALLY_LENGTH - 8, TALLY_LENGTH - 1, TALLY_LENGTH + 1):
        check('11 output of %d bytes' % length, reference.tally_block(b'', length), ('refused', 11))
        check('12 tally of %d bytes' % length, reference.join(one, (one + one)[:length]), ('refused', 12))
    crooked = generate.tally_of((0, 0, 0), (1, 0, 0), 0, 0, 0)
    check('12 S of u 1, N 0', reference.join(crooked, one), ('refused', 12))
    check('13 7201 and 1', reference.join(full, one), ('refused', 13))
    check('tally of nothing', reference.tally_block(b''), bytes(TALLY_LENGTH))
    half = 16 * 3600
    check('tallies of two parts join to the whole',
          reference.join(reference.tally_block(block[:half]),
                         reference.tally_block(block[half:-16])), full)


# --- The rolling recount -----------------------------------------------------

def recount(seed, lists):
    rng = random.Random(seed)
    differing = 0
    for _ in range(lists):
        top = rng.choice((2, 5, 3000))
        windows = [window(rng.choice((SMALLEST, LARGEST)), 0, rng.choice((1, 2, 3, 5, 20)),
                          condition=4, low=0, high=rng.choice((0, 1, 3)))
                   for _ in range(rng.randint(1, 4))]
        samples = [Sample(k, rng.randint(0, top), 0, 2931, 0, rng.randint(0, 3), 0)
                   for k in range(rng.randint(1, 60))]
        slow = [reference.moves(windows, samples[:k + 1]) for k in range(len(samples))]
        differing += slow != reference.moves_fast(windows, samples)
    check('moves_fast equals moves on %d lists' % lists, differing, 0)


# --- The definitions, word for word ------------------------------------------

def literal_percentile(values):
    return min(v for v in values
               if 100 * sum(1 for x in values if x <= v) >= 95 * len(values))


def literal_held(window, samples):
    """Held: in the window, and no later qualifying one there is as extreme."""
    there = [s for s in samples[-window.width:]
             if window.low <= s.nox <= window.high]
    if window.function == SMALLEST:
        return [s.second for s in there
                if not any(t.second > s.second and t.speed <= s.speed for t in there)]
    return [s.second for s in there
            if not any(t.second > s.second and t.speed >= s.speed for t in there)]


def definitions(seed, lists):
    rng = random.Random(seed)
    percentiles = held = 0
    for _ in range(lists):
        values = [rng.randint(-9, 9) for _ in range(rng.randint(1, 60))]
        percentiles += reference.percentile(values) != literal_percentile(values)
        some = window(rng.choice((SMALLEST, LARGEST)), 0, rng.choice((1, 2, 3, 5, 20)),
                      condition=4, low=0, high=rng.choice((0, 1, 3)))
        samples = [Sample(k, rng.randint(0, 5), 0, 2931, 0, rng.randint(0, 3), 0)
                   for k in range(rng.randint(0, 30))]
        held += reference.held_entries(some, samples) != literal_held(some, samples)
    check('percentiles by the definition', percentiles, 0)
    check('held entries by the definition', held, 0)


# --- Drives ------------------------------------------------------------------

def bit_of(verdict, bit):
    return verdict[2] if bit == 'exceeded' else verdict[1] >> bit & 1


def edge_drives():
    """The intended bit alone tells the two sides of each edge apart; whole
    drives are clean on one side and break that rule alone on the other."""
    reached = set()
    for edge in drives.all_edges():
        kept, broken = reference.verdict_of(edge.kept), reference.verdict_of(edge.broken)
        check('edge: %s' % edge.name,
              (bit_of(kept, edge.bit), bit_of(broken, edge.bit)), (0, 1))
        reached.add((edge.bit, edge.whole))
        if not edge.whole:
            continue
        expected = ((0, 1, 32) if edge.bit == 'exceeded'
                    else (1 << edge.bit, broken[2], edge.bit))
        check('edge: %s, otherwise clean' % edge.name, (kept[1:], broken[1:]),
              ((0, 0, 33), expected))
    check('every rule has a whole edge drive',
          sorted(bit for bit, whole in reached if whole and bit != 'exceeded'),
          list(range(reference.RULES)))


def step_drives():
    """Each has one accelerating sample of its class, at another place for each drive of
    a length, and is on the intended side of the line."""
    edges = drives.step_edges()
    reached = [(edge.bit - 18, len(drive), accelerating_places(drive, edge.bit - 18))
               for edge in edges for drive in (edge.kept, edge.broken)]
    check('step drives reach each place but the last, of each class and length, with one sample each', sorted(reached),
          sorted(2 * [(which, n, [k]) for which in drives.STEADY
                      for n in range(2, drives.LONGEST_STEP + 1) for k in range(n - 1)]))
    check('step drives are on either side of the line',
          {(bit_of(reference.verdict_of(edge.kept), edge.bit), bit_of(reference.verdict_of(edge.broken), edge.bit))
           for edge in edges}, {(0, 1)})


def accelerating_places(drive, which):
    """The places of the class's samples with an acceleration of 8 or more."""
    speeds = [0] + [s.speed for s in drive] + [0]
    return [k for k, s in enumerate(drive)
            if reference.speed_class(s.speed) == which and speeds[k + 2] - speeds[k] >= 8]


def line_sides():
    """The rural edges lie on the intended sides of 746 x N."""
    def side(drive):
        speeds = [s.speed for s in drive if reference.speed_class(s.speed) == reference.RURAL]
        return 'first' if sum(speeds) <= 746 * len(speeds) else 'second'
    sides = {edge.name: (side(edge.kept), side(edge.broken))
             for edge in drives.percentile_edges()}
    check('rural line below 746', sides['rural line, below 746'], ('first', 'first'))
    check('rural line above 746', sides['rural line, above 746'], ('second', 'second'))
    check('rural lines at 746', sides['the two rural lines at 746'], ('first', 'second'))


def whole_drives():
    for n, finding, text in ((5399, 0, b'rule 0'), (5400, 33, b'clean'),
                          (7200, 33, b'clean'), (7201, 1, b'rule 1')):
        drive = drives.clean_drive(n)
        check('clean drive of %d samples' % n, (len(drive), reference.verdict_of(drive)[3]),
              (n, finding))
        check('its report', reference.report(drives.block_of(drive)).splitlines()[2],
              b'verdict ' + text)
    for n in (5400, 7200):
        check('exceeded drive of %d samples' % n, reference.verdict_of(drives.exceeded_drive(n)),
              ('verdict', 0, 1, 32))
    check('its report', reference.report(drives.block_of(drives.exceeded_drive())),
          b'samples 5400\nbroken 00000000\nverdict exceeded\n')
    downhill = drives.downhill_drive()
    check('report of the downhill drive', reference.report(drives.block_of(downhill)),
          b'samples 5400\nbroken 00200000\nverdict rule 21\n')
    for n in (5400, 7200):
        summer = drives.summer_drive(n)
        check('summer drive of %d samples' % n,
              (exceeded_in_full(summer), reference.verdict_of(summer)), (True, ('verdict', 0, 0, 33)))


def recorded(path):
    """The drive in a file of sample records."""
    with open(path, 'rb') as file:
        data = file.read()
    return [reference.decode_sample(data[k:k + 16]) for k in range(0, len(data), 16)]


def side(height):
    """The side of rule 21's edge: -1 broken downwards, 0 kept, 1 broken upwards."""
    return (height > 100) - (height < -100)


def steady(drive):
    """The first and the last altitude differ by at most 100 m."""
    return not drive or side(drive[-1].altitude - drive[0].altitude) == 0


def altitudes():
    """Drives that are not for rule 21 start and finish within 100 m, so that each
    tests its own rule alone, rule 14's too; random drives are on both sides."""
    edges = [edge for edge in drives.all_edges() if edge.bit != 21]
    check('edge drives of other rules start and finish within 100 m',
          [edge.name for edge in edges if not (steady(edge.kept) and steady(edge.broken))], [])
    whole = [make(n) for make in (drives.clean_drive, drives.exceeded_drive)
             for n in (5399, 5400, 7200, 7201)]
    check('whole drives start and finish within 100 m',
          [len(d) for d in whole if not steady(d)], [])
    examples = {os.path.basename(path): recorded(path) for path in glob.glob(EXAMPLES)}
    check('example drives start and finish within 100 m, but the downhill one',
          [name for name, drive in examples.items() if not steady(drive)], ['downhill.drive'])
    check('it breaks rule 21 alone', reference.verdict_of(examples['downhill.drive']),
          ('verdict', 1 << 21, 0, 21))
    check('the summer drive is the exceeded one at other temperatures, and clean',
          ([s._replace(temperature=0) for s in examples['summer.drive']],
           reference.verdict_of(examples['summer.drive'])),
          ([s._replace(temperature=0) for s in examples['exceeded.drive']], ('verdict', 0, 0, 33)))
    rng = random.Random(1)
    some = [drives.random_drive(rng, n) for n in range(200)]
    for field, values in dict(drives.BAND_VALUES, altitude=drives.BAND_VALUES['altitude'] + [-500]).items():
        check('random drives reach every %s of %s' % (field, values),
              set(values) - {getattr(s, field) for d in some for s in d}, set())
    for name, lists in (('random drives', [generate.drive_list(d) for d in some]),
                        ('random drives judged after each sample',
                         [generate.verdict_each_list(rng, 60) for _ in range(9)])):
        reaches_heights(name, lists)
        tells_weights(name, lists)


def judged_heights(lists):
    """Of each verdict on samples: the last one's altitude less the first one's."""
    return [trip[-1].altitude - trip[0].altitude for trip in generate.judged_trips(lists)]


def reaches_heights(name, lists):
    """The verdicts meet rule 21's edge, up and down, and a fifth of them at least is
    on each side of it."""
    heights = judged_heights(lists)
    check('%s finish 100 and 101 m from the start' % name,
          sorted({-101, -100, 100, 101} - set(heights)), [])
    broken = sum(1 for height in heights if side(height) != 0)
    check('%s break and keep rule 21' % name, 0.2 < broken / len(heights) < 0.8, True)


def reaches_sides(name, lists):
    """Some verdicts break rule 21 downwards, some keep it, some break it upwards."""
    check('%s break rule 21 up and down' % name,
          sorted({side(height) for height in judged_heights(lists)}), [-1, 0, 1])


# --- What the lists reach ----------------------------------------------------

def random_lists():
    rng = random.Random(1)
    lists = [generate.random_list(rng) for _ in range(2000)]
    reaches_heights('random lists', lists)
    tells_bands('random lists', lists)
    tells_rounding('random lists', generate.averaged(lists))
    named = list(generate.named_lists().values())
    lists += named
    reached = generate.coverage(lists)
    wanted = [(kind, 0) for kind in reference.KINDS]
    wanted += [('sample', k) for k in (1, 2, 3, 4)] + [('close', 2)]
    wanted += [('declare', k) for k in (1, 2, 6, 7, 8)] + [('read', 9), ('read', 10)]
    wanted += [(f, 'positive') for f in range(6)] + [(f, 'negative') for f in range(1, 6)]
    check('random lists reach every answer', [w for w in wanted if w not in reached], [])
    small = antt.small_lists(random.Random(1), 300)
    reached = generate.coverage(small)
    check('small lists reach every answer', [w for w in wanted if w not in reached], [])
    reaches_sides('small lists', [each for each in small if each not in named])
    tells_bands('small lists', small)
    tells_rounding('small lists', generate.averaged(small))
    again = [generate.random_list(rng) for rng in [random.Random(1)] for _ in range(50)]
    check('the same seed gives the same lists', again, lists[:50])
    calls, answers = generate.full_trip_list()
    check('after 7201 samples', answers[7202:7207],
          [('refused', 5)] * 3 + [('refused', 1), ('number', 0)])
    # the rolling recount against the rereading model, on whole lists of calls
    differing = 0
    for calls, answers in lists:
        differing += reference.replay(calls, reference.LongTrip()) != answers
    check('LongTrip answers as Trip on %d lists' % len(lists), differing, 0)
    calls, answers = generate.long_list(random.Random(2), 700, windows=8)
    check('LongTrip answers as Trip on a list of 700 samples', reference.replay(calls), answers)


def tally_cases():
    rng = random.Random(1)
    answers = set()
    for _ in range(3000):
        kind, value = generate.tally_case(rng).split(' -> ')[1].split()
        answers.add('bytes' if kind == 'bytes' else kind + ' ' + value)
    check('tally cases reach every answer', sorted(answers),
          ['bytes', 'refused 1', 'refused 11', 'refused 12', 'refused 13', 'refused 4'])


def small_drives():
    lists = antt.verdict_lists(random.Random(1), 20)
    for calls, answers in lists:
        samples = [reference.decode_sample(call[1]) for call in calls[:-1]]
        accelerating = [drives.accelerating_count(samples, c) for c in reference.CLASSES]
        if not (60 <= len(samples) <= 90 and min(accelerating) > 0):
            check('a drive of 60 to 90 samples, accelerating in all classes', False, True)
            return
    check('drives of 60 to 90 samples, accelerating in all classes', True, True)
    reaches_sides('small drives', lists)
    tells_weights('small drives', lists)


def main():
    for case in (case_a, case_b, case_c, case_d, case_e, case_f, case_g, case_h, case_i):
        case()
    height_cases()
    extended_cases()
    extended_tallies()
    average_cases()
    rounding()
    average_lists()
    co2_cases()
    drift_cases()
    refusal_examples()
    recount(1, 300)
    definitions(1, 500)
    edge_drives()
    extended_drives()
    step_drives()
    line_sides()
    whole_drives()
    altitudes()
    random_lists()
    tally_cases()
    small_drives()
    failed = RESULTS.count(False)
    print('%d passed, %d failed' % (RESULTS.count(True), failed))
    return 1 if failed else 0


if __name__ == '__main__':
    sys.exit(main())
