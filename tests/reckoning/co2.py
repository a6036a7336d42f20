"""Cases of the CO2 windows of document 02's R-5, with their answers by the outside reckoning.

As a module: named_cases, long_cases and random_case give a block and a reference record, with
a name.  As a program it writes the named ones and random ones as text, one to a line (bytes in
hexadecimal, `-` for none):

    co2 BLOCK REFERENCE -> REFUSAL COMPLETE NORMAL PASS

With --long also blocks of about 7,201 records.  The same seed gives the same cases.
"""

import argparse
import random
import sys
from collections import namedtuple
from fractions import Fraction
from math import ceil, floor

import drives
import generate
import reference
from reference import MAX_SAMPLES, CO2Reference, Sample

Case = namedtuple('Case', 'name block reference')

U32_MOST = 2 ** 32 - 1
MOST_CO2 = reference.RANGES['co2'][1]
MOST_SPEED = reference.RANGES['speed'][1]

# At 36.0 km/h a CO2 of k mg is k / 10 g/km.
FLAT = (100, 100, 100)
NORMAL, LOW, HIGH = (360, 1000), (360, 749), (360, 1251)

# A curve that rises to its middle point and falls beyond it, and the other way round.
PEAK, VALLEY = (100, 1000, 100), (1000, 100, 1000)
LOW_PEAK, LOW_VALLEY = (300, 310, 300), (310, 300, 310)


# --- Records -----------------------------------------------------------------

def samples_of(pairs, **fields):
    """Samples of these speeds and amounts of CO2."""
    return [Sample(second=k, **dict(drives.FILL, speed=speed, co2=co2, **fields))
            for k, (speed, co2) in enumerate(pairs)]


def block_of(pairs, **fields):
    return drives.block_of(samples_of(pairs, **fields))


def record_of(mass, curve=FLAT, zeros=bytes(6)):
    """A reference record; the curve is given by c1, c2, c3."""
    return reference.encode_co2_reference(CO2Reference(mass, *curve, zeros))


def case(name, pairs, mass, curve=FLAT):
    return Case(name, block_of(pairs), record_of(mass, curve))


def spread(total, count):
    """So many whole numbers with this sum, in two neighbouring sizes."""
    low, more = divmod(total, count)
    return [low + 1] * more + [low] * (count - more)


def with_co2(speeds, co2):
    """Pairs with this sum of CO2; the first and the last sample have some, if there are 2 mg."""
    if len(speeds) == 1:
        return [(speeds[0], co2)]
    first = max(1, co2 // len(speeds))
    shares = [first] + spread(co2 - first, len(speeds) - 1)[::-1]
    return list(zip(speeds, shares))


def whole_of(name, pairs, curve=FLAT):
    """The block is its one complete window, M being all of its CO2."""
    return case(name, pairs, sum(co2 for _, co2 in pairs), curve)


def whole(name, speeds, co2, curve=FLAT):
    return whole_of(name, with_co2(speeds, co2), curve)


# --- Where windows are complete ----------------------------------------------

STEPS = [(360, 1200), (360, 900), (360, 900), (0, 900)]
STEP_MASSES = [total + off for total in (1800, 2100, 2700, 3000, 3900) for off in (-1, 0, 1)]


def completion_cases():
    """M met by the first sample, by several, by all and by none, and one mg beside."""
    late, early = [(36, 0)] * 10 + [(36, 1000)], [(36, 1000)] + [(36, 0)] * 10
    own = [NORMAL, (360, 1250), (360, 1251), (360, 750), (360, 749)]
    few = [(1, 1), (1, 0), (1, 3), (1, 0), (0, 1), (1, 0)]
    cases = [case('no samples', [], 1), case('no samples, M at most', [], U32_MOST),
             case('M by one sample', [NORMAL], 1000), case('M below one sample', [NORMAL], 999),
             case('M one mg above one sample', [NORMAL], 1001),
             case('each at its own first sample', own, 749),
             case('all but one at their own first sample', own, 750),
             case('M of 1', few, 1, (36, 36, 36)), case('M of 2', few, 2, (36, 36, 36)),
             case('M of 1, no CO2', [(360, 0)] * 5, 1),
             case('no CO2 for long, then enough', late, 1000),
             case('no CO2 for long, then one mg short', late, 1001),
             case('enough CO2, then none', early, 1000)]
    cases += [case('M of %d in 1200, 900, 900, 900' % mass, STEPS, mass) for mass in STEP_MASSES]
    for mass in (1800, 1801):
        cases.append(case('M of %d, the block having 1800 after no CO2' % mass,
                          [(360, 0), (360, 0), (360, 900), (360, 900)], mass))
    return cases


def last_sample_cases():
    """The sample that completes a window decides on it: by all it brings, by its CO2, its
    distance or its part in the mean alone.  M is all of the block's CO2."""
    both = dict(curve=(100, 200, 200))
    return [whole_of('normal by the last sample', [(360, 2000), (1000, 1000)]),
            whole_of('not normal by the last sample, which stands', [(360, 1000), (0, 500)]),
            whole_of('not normal by the last sample, which moves', [(360, 1000), (360, 100)]),
            whole_of('normal by the CO2 of the last sample', [(360, 1000), (360, 1000)]),
            whole_of('not normal by the CO2 of the last sample', [(180, 1000), (180, 1000)]),
            whole_of('normal by the distance of the last sample', [(180, 1000), (180, 200)]),
            whole_of('not normal by the distance of the last sample', [(360, 500), (360, 500)]),
            whole_of('normal by the mean with the last sample', [(190, 3000), (942, 3289)], **both),
            whole_of('not normal by the mean with the last sample', [(190, 1500), (942, 1644)],
                     **both)]


# --- The curve ---------------------------------------------------------------

def first_line(curve, mean):
    """"the line through (19.0 km/h, c1) and (56.6, c2)" at any mean."""
    return curve[0] + (curve[1] - curve[0]) * (mean - Fraction(190, 10)) / Fraction(376, 10)


def second_line(curve, mean):
    """"the line through (56.6, c2) and (92.3, c3)" at any mean."""
    return curve[1] + (curve[2] - curve[1]) * (mean - Fraction(566, 10)) / Fraction(357, 10)


def co2_at(ratio, speeds, expected):
    """The CO2, in mg, at which the g/km over these speeds is so many times the expected."""
    return ratio * expected * Fraction(sum(speeds), 36)


def told_apart(speeds, right, wrong):
    """Two amounts of CO2: the one nearest to the wrong curve's that is within a quarter of the
    right curve alone, and the one nearest to the right curve's within a quarter of the wrong."""
    least, most = Fraction(3, 4), Fraction(5, 4)
    if right < wrong:
        return ceil(co2_at(least, speeds, right)), floor(co2_at(most, speeds, wrong))
    return floor(co2_at(most, speeds, right)), ceil(co2_at(least, speeds, wrong))


def apart_cases(name, speeds, curve, right, wrong):
    """Two windows, normal and not, that the wrong curve would judge the other way."""
    return [whole('%s, %s' % (name, verdict), speeds, co2, curve)
            for verdict, co2 in zip(('normal', 'not normal'), told_apart(speeds, right, wrong))]


# The last tenth of km/h on one side of a point, or the first: the lines that hold there and
# that don't, the wrong one outside the points being that of a curve that stays level.
SIDES = {'below 19.0': (190, -1, first_line, lambda curve, mean: Fraction(curve[0])),
         'below 56.6': (566, -1, first_line, second_line),
         'above 56.6': (566, 1, second_line, first_line),
         'above 92.3': (923, 1, second_line, lambda curve, mean: Fraction(curve[2]))}


def line_cases():
    """Means just beside a point, by a tenth of km/h or by a fifth of one, and far outside,
    judged otherwise by the other line or by a curve that stays level."""
    cases = []
    for side, (point, off, right, wrong) in SIDES.items():
        far = {'below 19.0': [[10], [0, 20]], 'above 92.3': [[3000], [2400, 3000]]}.get(side, [])
        means = [([point + off], PEAK, VALLEY), (spread(5 * point + off, 5), PEAK, VALLEY)]
        for speeds, *curves in means + [(speeds, LOW_PEAK, LOW_VALLEY) for speeds in far]:
            mean = Fraction(sum(speeds), 10 * len(speeds))
            for shape, curve in zip(('peak', 'valley'), curves):
                name = 'mean of %s %s, %s, samples: %d' % (mean, side, shape, len(speeds))
                cases += apart_cases(name, speeds, curve, right(curve, mean), wrong(curve, mean))
    return cases + standing_cases()


def standing_cases():
    """Standing samples count for the mean."""
    speeds, curve = [0, 0, 0, 1132], (300, 400, 200)
    return apart_cases('mean with standing samples', speeds, curve,
                       first_line(curve, Fraction(283, 10)), second_line(curve, Fraction(1132, 10)))


# --- A quarter of the curve --------------------------------------------------

# Speeds, curve, a quarter of the curve in mg of CO2 over these speeds.
QUARTERS = {'level': ([360], FLAT, 250),
            'first line': ([423], (500, 20, 800), 595),
            'first line, 3 samples': ([300, 892, 500], (200, 120, 160), 1415),
            'second line': ([651], (500, 20, 800), 930),
            'second line, 5 samples': ([900, 800, 1000, 950, 872], (200, 120, 160), 4959),
            'below 19.0': ([96], (300, 90, 140), 235),
            'below 19.0, 5 samples': ([0, 100, 150, 126, 0], (200, 120, 160), 586),
            'above 92.3': ([2079], (200, 120, 160), 4180),
            'above 92.3, 2 samples': ([1500, 1594], (200, 120, 160), 4940),
            'at 19.0': ([190], (72, 1000, 1), 95),
            'at 19.0, 2 samples': ([1, 379], (72, 1, 1000), 190),
            'at 56.6': ([566], (1000, 72, 1000), 283),
            'at 56.6, 2 samples': ([1132, 0], (1, 72, 1), 566),
            'at 92.3': ([923], (1, 1000, 144), 923),
            'at 92.3, 3 samples': ([0, 2769, 0], (1000, 1, 144), 2769)}


def quarter_cases():
    """g/km at exactly three and five quarters of the curve, and one mg beside."""
    cases = []
    for place, (speeds, curve, quarter) in QUARTERS.items():
        for times in (3, 5):
            for off, side in ((-1, 'one mg below '), (0, ''), (1, 'one mg above ')):
                cases.append(whole('%s%d/4 of the curve, %s' % (side, times, place), speeds,
                                   times * quarter + off, curve))
    return cases + own_quarter_cases()


def own_quarter_cases():
    """A quarter of the g/km itself is something else."""
    curve = (75, 75, 75)
    return [whole('within a quarter of its g/km alone, %d' % co2, [360], co2, curve)
            for co2 in (938, 999, 1000)] + [
            whole('within a quarter of the curve alone, %d' % co2, [360], co2, curve)
            for co2 in (563, 599)] + [
            whole('within a quarter of both, %d' % co2, [360], co2, curve) for co2 in (600, 937)]


# --- Curves at 0 -------------------------------------------------------------

# Below 19.0 the first is its mean in tenths of km/h less 189, above 92.3 the second is 924
# less its mean.  Between the points a curve is at least 1.
TO_ZERO = {'first line': ((1, 377, 500), 189, 1), 'second line': ((500, 358, 1), 924, -1)}


def zero_cases():
    """A curve of 0, of 1/12 g/km and of 1 on either side; the g/km are near its magnitude."""
    cases = []
    for line, (curve, zero, rise) in TO_ZERO.items():
        for count, amounts in ((1, (1, 5, 26)), (12, (5, 7, 26, 40))):
            for off, side in ((-1, 'below 0'), (0, '0'), (1, 'above 0')):
                speeds = spread(zero * count + rise * off, count)
                cases += [whole('curve %s, %s, samples: %d, %d mg' % (side, line, count, co2),
                                speeds, co2, curve) for co2 in amounts]
    cases += [whole('curve far below 0, first line', [1], 14, (1, 1000, 1)),
              whole('curve far below 0, second line', [1300], 38000, (1, 1000, 1)),
              whole('curve farthest below 0, second line', [3000], MOST_CO2, (1000, 1000, 1))]
    return cases


def standstill_cases():
    """Windows of no distance, and of one unit of it."""
    still = (0, 1000)
    return [case('standstill', [still], 1000),
            case('standstill, 3 samples', [(0, 500)] * 3, 1500),
            case('standstill, least CO2', [(0, 1)], 1, (1000, 1, 1)),
            case('standstill, curve 0', [still], 1000, (95, 283, 100)),
            case('standstill, curve below 0', [still], 1000, (1, 1000, 1)),
            case('standstill, then one unit of distance', [(0, 1), (0, 0), (1, 0), (0, 1)], 2,
                 (72, 72, 72)),
            case('half of them at a standstill', [still, NORMAL], 1000),
            case('two of three at a standstill', [still, still, NORMAL], 1000),
            case('opened at a standstill', [still, NORMAL, (360, 0)], 1001),
            case('complete at a standstill', [NORMAL, still], 1001, (200, 200, 200))]


# --- Reference records -------------------------------------------------------

def replaced(record, **fields):
    """The reference record with other fields."""
    decoded = reference.decode_co2_reference(record)
    return reference.encode_co2_reference(decoded._replace(**fields))


GOOD = record_of(1000)
BAD_LENGTHS = (0, 1, 15, 17, 32)


def bad_references():
    """Each way in which a reference record is ill-formed or of another length."""
    bad = {'M 0': replaced(GOOD, mass=0)}
    for field in ('c1', 'c2', 'c3'):
        for value in (0, 1001, 65535):
            bad['%s %d' % (field, value)] = replaced(GOOD, **{field: value})
    for place in range(6):
        for value in (1, 255):
            zeros = bytes(value if k == place else 0 for k in range(6))
            bad['zero byte %d of %d' % (place, value)] = replaced(GOOD, zeros=zeros)
    for length in BAD_LENGTHS:
        bad['%d bytes' % length] = (GOOD + bytes(16))[:length]
    bad['32 bytes, twice the same'] = GOOD * 2
    return bad


def reference_cases():
    """Reference records refused, and those at the ends of their ranges."""
    one = block_of([NORMAL])
    cases = [Case('reference of ' + name, one, bad) for name, bad in bad_references().items()]
    cases += [Case('no samples, reference of ' + name, b'', bad_references()[name])
              for name in ('M 0', 'c3 1001', 'zero byte 5 of 255', '0 bytes', '17 bytes')]
    for field in ('c1', 'c2', 'c3'):
        for value in (1, 1000):
            cases.append(Case('reference of %s %d' % (field, value), one,
                              replaced(GOOD, **{field: value})))
    return cases + [Case('reference of all 1', one, record_of(1, (1, 1, 1))),
                    Case('reference of all 1000', one, record_of(1000, (1000,) * 3))]


# --- Refused blocks ----------------------------------------------------------

# M is met by the first two samples; the others are behind those that a window needs.
AHEAD = [NORMAL, NORMAL, (360, 0), (360, 0)]
PLACES = ('first', 'second', 'third', 'last')


def field_block(place, field, value):
    samples = samples_of(AHEAD)
    samples[place] = samples[place]._replace(**{field: value})
    return drives.block_of(samples)


def field_cases():
    """Values just outside their range at each place, the extremes at the last one, and values
    at the ends of their range."""
    record, cases = record_of(2000), []
    for field, (low, high) in reference.RANGES.items():
        good, bad = generate.field_edges(field)
        for value in bad:
            beside = value in (low - 1, high + 1)
            for place in range(4) if beside else (3,):
                cases.append(Case('%s %d, %s sample' % (field, value, PLACES[place]),
                                  field_block(place, field, value), record))
        cases += [Case('%s %d, accepted' % (field, value), field_block(1, field, value), record)
                  for value in (good[0], good[-1])]
    return cases


BAD_BLOCK_NAMES = {1: 'a block of 17 bytes', 4: 'a block with a speed of 3001',
                   5: 'a block of 7202'}


def refused_block(*refusals):
    """A block that is refused for each of these reasons."""
    count = MAX_SAMPLES + 1 if 5 in refusals else 1
    samples = samples_of([NORMAL] * count)
    if 4 in refusals:
        samples[-1] = samples[-1]._replace(speed=3001)
    return drives.block_of(samples) + bytes(1 if 1 in refusals else 0)


def ill_for_order():
    """The reference records that meet a refused block, one of each kind."""
    names = ('M 0', 'c1 0', 'c2 1001', 'c3 65535', 'zero byte 0 of 1', '0 bytes', '15 bytes',
             '17 bytes')
    return {name: bad_references()[name] for name in names}


def nox_cases():
    """R-6: NOx below zero, which R-5 makes nothing of, in every sample and by turns; and what
    two bytes of it are without a sign."""
    record = record_of(2000)
    cases = [Case('NOx %s' % (values,), drives.block_of(
        [s._replace(nox=values[k % len(values)]) for k, s in enumerate(samples_of(AHEAD))]), record)
             for values in ((-50,), (-1,), (0,), (5000,), (-50, 5000), (0, -1, -50))]
    return cases + [Case('NOx of %d without a sign, last sample' % pattern,
                         block_of(AHEAD[:-1]) + generate.with_nox_bytes(
                             block_of(AHEAD[-1:]), pattern), record)
                    for pattern in generate.NOX_PATTERNS]


def order_cases():
    """14 ahead of 1 and of 4, 1 ahead of 4; those with 5 are long."""
    cases = [Case('14 (%s) ahead of %s' % (name, ' and '.join(map(str, refusals))),
                  refused_block(*refusals), bad)
             for name, bad in ill_for_order().items() for refusals in ((1,), (4,), (1, 4))]
    cases += [Case('1 ahead of 4', refused_block(1, 4), GOOD)]
    return cases + [Case('a block of %d bytes' % length, block_of([NORMAL] * 3)[:length], GOOD)
                    for length in (1, 15, 17, 31, 33, 47)]


def seconds_cases():
    """"seconds ignored"."""
    seconds = {'at most': [65535] * 4, 'all 0': [0] * 4, 'falling': [3, 2, 1, 0],
               'from 7201 on': [7201, 7202, 7203, 7204], 'with gaps': [0, 5, 256, 300]}
    return [Case('seconds ' + name,
                 drives.block_of([s._replace(second=k) for s, k in zip(samples_of(AHEAD), each)]),
                 record_of(2000)) for name, each in seconds.items()]


# --- The pass ----------------------------------------------------------------

def pass_cases():
    """So many complete windows and normal ones, each of one sample, and one sample that is no
    window."""
    cases = []
    for complete in range(5):
        for normal in range(complete + 1):
            windows = [NORMAL] * normal + [(HIGH, LOW)[k % 2] for k in range(complete - normal)]
            cases.append(case('%d complete, %d normal' % (complete, normal),
                              windows[::-1] + [(360, 748)], 749))
    return cases + [case('a window of 2 normal, complete with another', [NORMAL] * 3, 2000),
                    case('normal by turns', [NORMAL, HIGH] * 5, 749),
                    case('5 of 11 normal', [NORMAL, HIGH] * 5 + [HIGH], 749)]


# --- Great numbers -----------------------------------------------------------

ENDS = [(c1, c2, c3) for c1 in (1, 1000) for c2 in (1, 1000) for c3 in (1, 1000)]


def extreme_cases():
    """The greatest CO2 at the greatest and the least speeds with every curve of 1 and 1000, and
    the greatest M."""
    cases = [case('M at most, samples: %d' % count, [(MOST_SPEED, MOST_CO2)] * count, U32_MOST)
             for count in (1, 12)]
    for curve in ENDS:
        ending = 'curve of %d, %d, %d' % curve
        cases += [whole('all at most, %s, samples: %d' % (ending, count), [MOST_SPEED] * count,
                        count * MOST_CO2, curve) for count in (1, 2)]
        cases += [whole('least CO2, greatest speed, ' + ending, [MOST_SPEED], 1, curve),
                  whole('greatest CO2, least speed, ' + ending, [1], MOST_CO2, curve)]
    return cases


def named_cases():
    """The fixed cases, of at most 12 records each."""
    return (completion_cases() + last_sample_cases() + line_cases() + quarter_cases()
            + zero_cases() + standstill_cases() + reference_cases() + field_cases() + nox_cases()
            + order_cases() + seconds_cases() + pass_cases() + extreme_cases())


# --- Long blocks -------------------------------------------------------------

def following_co2(speeds):
    """The CO2, in mg/s, of each second of a drive: idling, rolling, air and the rise of the speed;
    at most 90,400."""
    amounts = []
    for k, speed in enumerate(speeds):
        rise = min(40, max(0, speed - speeds[max(0, k - 1)]))
        steady = 600 + 22 * speed // 10 + 16 * speed ** 3 // 10 ** 7
        amounts.append(steady + speed * rise // 3)
    return amounts


def driven_co2(rng, speeds):
    """Pairs in which the CO2 follows the speed; slowly it strays from that by 40 percent, up and
    down."""
    pairs, phase = [], rng.randrange(1700)
    for k, (speed, following) in enumerate(zip(speeds, following_co2(speeds))):
        percent = 60 + abs((k + phase) % 1700 - 850) * 80 // 850 + rng.randint(-10, 10)
        pairs.append((speed, min(MOST_CO2, following * percent // 100)))
    return pairs


DRIVEN_CURVES = {'clean': ((250, 170, 170), (300, 170, 160)),
                 'random': ((300, 200, 200), (300, 170, 160))}


def driven_cases():
    """Whole drives; windows last some hundred samples, and about half are normal."""
    rng = random.Random(5)
    cases = []
    for count in (MAX_SAMPLES - 1, MAX_SAMPLES):
        speeds = [s.speed for s in drives.clean_drive(count)]
        made = [('clean', speeds, 700000)] + [('random', drives.random_speeds(rng, count), mass)
                                              for mass in (400000, 1000000)]
        for name, speeds, mass in made:
            pairs = driven_co2(rng, speeds)
            for curve in DRIVEN_CURVES[name]:
                cases.append(case('%s drive of %d, M %d, curve of %d, %d, %d'
                                  % (name, count, mass, *curve), pairs, mass, curve))
    return cases


def longest_cases():
    """7,201 samples that are one window or as many windows."""
    most = [(MOST_SPEED, MOST_CO2)] * MAX_SAMPLES
    whole_mass = MOST_CO2 * MAX_SAMPLES
    cases = [case('7201 at most, all one window, curve of %d, %d, %d' % curve, most, whole_mass,
                  curve) for curve in ENDS]
    cases += [case('7201 at most, M %d' % mass, most, mass, (1000,) * 3)
              for mass in (whole_mass + 1, U32_MOST, whole_mass - 1, MOST_CO2, MOST_CO2 + 1,
                           3600 * MOST_CO2, 1)]
    cases += [case('7201 of 1 mg, M 7201', [(360, 1)] * MAX_SAMPLES, MAX_SAMPLES),
              case('7201 at a standstill, all one window', [(0, 1000)] * MAX_SAMPLES,
                   1000 * MAX_SAMPLES),
              case('7200 without CO2, then enough', [(36, 0)] * (MAX_SAMPLES - 1) + [(36, 1000)],
                   1000)]
    for normal in (3600, 3601):
        windows = [NORMAL] * normal + [HIGH] * (MAX_SAMPLES - normal)
        cases.append(case('%d of 7201 normal' % normal, windows, 749))
        cases.append(case('%d of 7200 normal' % (normal - 1), windows[1:], 749))
    return cases


def long_order_cases():
    """5 and its neighbours in the order, and a bad value in the last of 7,201 samples."""
    most = samples_of([NORMAL] * MAX_SAMPLES)
    last_bad = drives.block_of(most[:-1] + [most[-1]._replace(co2=MOST_CO2 + 1)])
    cases = [Case('a block of 7201', drives.block_of(most), GOOD),
             Case('a block of 7202', refused_block(5), GOOD),
             Case('a block of 7201 and 1 byte', drives.block_of(most) + b'\0', GOOD),
             Case('a block of 7201, co2 100001 in the last sample', last_bad, GOOD),
             Case('14 (c3 0) ahead of 4 in the last of 7201', last_bad, replaced(GOOD, c3=0)),
             Case('a block of 14403', drives.block_of(most + most + most[:1]), GOOD),
             Case('1 ahead of 5', refused_block(1, 5), GOOD),
             Case('5 ahead of 4', refused_block(5, 4), GOOD),
             Case('1 ahead of 5 and 4', refused_block(1, 5, 4), GOOD),
             Case('14 (15 bytes) ahead of 1 and 5 and 4', refused_block(1, 5, 4), GOOD[:15])]
    return cases + [Case('14 (%s) ahead of 5' % name, refused_block(5), bad)
                    for name, bad in ill_for_order().items()]


def long_quarter_cases():
    """Windows of 7,200 samples whose g/km are at an end of their normal range, and one mg
    beyond it."""
    cases = []
    for place in ('first line, 3 samples', 'second line, 5 samples', 'below 19.0, 5 samples',
                  'above 92.3, 2 samples'):
        speeds, curve, quarter = QUARTERS[place]
        times = 7200 // len(speeds)
        for quarters, off, side in ((3, -1, 'one mg below '), (3, 0, ''), (5, 0, ''),
                                    (5, 1, 'one mg above ')):
            cases.append(whole('%s%d/4 of the curve, %s, %d times' % (side, quarters, place, times),
                               speeds * times, quarters * quarter * times + off, curve))
    return cases


def long_line_cases():
    """Windows of 7,201 samples with a distance one unit beside that of a mean of 56.6."""
    cases = []
    for side in ('below 56.6', 'above 56.6'):
        point, off, right, wrong = SIDES[side]
        speeds = spread(point * MAX_SAMPLES + off, MAX_SAMPLES)
        mean = Fraction(sum(speeds), 10 * len(speeds))
        for shape, curve in (('peak', PEAK), ('valley', VALLEY)):
            cases += apart_cases('one unit %s, %s' % (side, shape), speeds, curve,
                                 right(curve, mean), wrong(curve, mean))
    return cases


def long_cases():
    """The cases of about 7,201 records."""
    return (driven_cases() + longest_cases() + long_quarter_cases() + long_line_cases()
            + long_order_cases())


# --- Random cases ------------------------------------------------------------

def near_curve(rng, speeds, curve):
    """An amount of CO2 over these speeds near an end of its normal range, or within it."""
    mean = Fraction(sum(speeds), 10 * len(speeds))
    expected = (first_line if mean <= Fraction(566, 10) else second_line)(curve, mean)
    if expected <= 0:
        expected = rng.choice((1, -expected))
    ratio = rng.choice((Fraction(3, 4), Fraction(5, 4), Fraction(4, 5), 1))
    co2 = floor(co2_at(ratio, speeds, expected)) + rng.choice((-1, 0, 0, 1, 1))
    return min(max(2, co2), MOST_CO2 * len(speeds) // 2)


def partial_sum(rng, pairs):
    """An M that some of the samples reach together, or one mg beside."""
    first = rng.randrange(len(pairs)) if pairs else 0
    last = rng.randint(first, min(len(pairs), first + rng.choice((1, 2, 3, 8, len(pairs)))))
    return max(1, sum(co2 for _, co2 in pairs[first:last + 1]) + rng.choice((-1, 0, 0, 0, 1)))


def random_curve(rng):
    """Three points near each other, or steep."""
    kind = rng.random()
    if kind < 0.4:
        middle = rng.choice((72, 100, 144, 150, 200))
        return tuple(middle + rng.choice((-1, 0, 0, 1, 20)) for _ in range(3))
    if kind < 0.6:
        return rng.choice(ENDS + [PEAK, VALLEY, LOW_PEAK, LOW_VALLEY, (1, 377, 1), (1, 358, 1)])
    if kind < 0.9:
        return tuple(rng.randint(80, 400) for _ in range(3))
    return tuple(rng.randint(1, 1000) for _ in range(3))


def random_equal(rng, count):
    """Equal speeds on a level curve, or nearly, the CO2 at its quarters."""
    amounts = [(749, 750, 1250, 1251), (749, 750, 1000, 1250, 1251),
               (700, 750, 1000, 1000, 1250, 1300), (0, 0, 500, 1000, 2000)]
    co2 = rng.choice(amounts)
    pairs = [(rng.choice((360, 360, 360, 359, 361)) if rng.random() < 0.1 else 360, rng.choice(co2))
             for _ in range(count)]
    mass = rng.choice((1, 749, 750, 751, 1000, 2000, 2001, partial_sum(rng, pairs)))
    return pairs, mass, rng.choice((FLAT, FLAT, (99, 100, 100), (100, 101, 100)))


def random_tiny(rng, count):
    """A few units of distance and of CO2."""
    most = rng.choice((1, 3, 40))
    pairs = [(rng.randint(0, most), rng.randint(0, 3)) for _ in range(count)]
    middle = rng.choice((9, 18, 36, 48, 72))
    curve = tuple(max(1, middle + rng.choice((-2, -1, 0, 0, 1, 30))) for _ in range(3))
    return pairs, rng.choice((1, 2, 3, 4, 6, partial_sum(rng, pairs))), curve


def random_window(rng, count):
    """One complete window near an end of its normal range, some samples beside it."""
    curve = random_curve(rng)
    speeds = random_speeds_about(rng, max(1, count))
    pairs = with_co2(speeds, near_curve(rng, speeds, curve))
    mass = max(1, sum(co2 for _, co2 in pairs))
    for _ in range(rng.choice((0, 0, 1, 3))):
        pairs.insert(rng.choice((0, len(pairs))), (rng.choice(speeds), rng.choice((0, 0, 1))))
    return pairs, mass, curve


def random_speeds_about(rng, count):
    """Speeds whose mean is at a point of the curve, or near one, or anywhere."""
    point = rng.choice((190, 566, 923, rng.choice((188, 189, 924, 925)), rng.randint(0, 1500),
                        rng.randint(0, MOST_SPEED)))
    total = point * count + rng.choice((-1, 0, 0, 1, rng.randint(-9, 9)))
    return shaken(rng, spread(min(max(0, total), MOST_SPEED * count), count))


def shaken(rng, speeds):
    """The speeds in another order, some of it moved from one to another: the same sum."""
    speeds = rng.sample(speeds, len(speeds))
    for _ in range(len(speeds) // 2):
        giver, taker = rng.randrange(len(speeds)), rng.randrange(len(speeds))
        part = min(speeds[giver], MOST_SPEED - speeds[taker])
        part = part if rng.random() < 0.3 else rng.randint(0, part)
        speeds[giver] -= part
        speeds[taker] += part
    return speeds


def random_points(rng, count):
    """Samples each of which is a window near an end of its normal range, or several are."""
    curve = random_curve(rng)
    pairs = []
    for _ in range(count):
        speeds = random_speeds_about(rng, 1)
        pairs.append((speeds[0], min(MOST_CO2, near_curve(rng, speeds, curve))))
    return pairs, rng.choice((1, 2, min([co2 for _, co2 in pairs] or [1]),
                              partial_sum(rng, pairs))), curve


def random_wide(rng, count):
    """Any values in their ranges."""
    pairs = [(rng.randint(0, MOST_SPEED), rng.randint(0, MOST_CO2)) for _ in range(count)]
    mass = rng.choice((rng.randint(1, MOST_CO2), rng.randint(1, 10 * MOST_CO2), U32_MOST,
                       partial_sum(rng, pairs)))
    return pairs, mass, random_curve(rng)


def random_driven(rng, count):
    """A drive, or part of one, with a CO2 that follows the speed."""
    speeds = drives.random_speeds(rng, max(20, count))[:count]
    pairs = driven_co2(rng, speeds)
    mass = rng.choice((5000, 20000, 100000, partial_sum(rng, pairs)))
    return pairs, mass, tuple(rng.randint(130, 260) for _ in range(3))


# A style gives the samples of a block, M and the curve.
STYLES = {'equal': random_equal, 'tiny': random_tiny, 'window': random_window,
          'points': random_points, 'wide': random_wide, 'driven': random_driven}


def random_count(rng):
    """How many samples: mostly few, now and then some hundred."""
    if rng.random() < 0.02:
        return rng.randint(100, 700)
    return rng.choice((0, 1, 1, 2, 3, 4, 5, 6, 8, 12, 20, rng.randint(0, 40)))


def faulty_block(rng, samples, block):
    """The block of these samples with a value outside its range, or of another length, or
    both."""
    if rng.random() < 0.4 or not samples:
        return block + bytes(rng.choice((1, 15))) if rng.random() < 0.6 else block[:-1]
    place = rng.choice((0, len(samples) - 1, rng.randrange(len(samples))))
    field = rng.choice(list(reference.RANGES))
    bad = samples[place]._replace(**{field: rng.choice(generate.field_edges(field)[1])})
    block = drives.block_of(samples[:place] + [bad] + samples[place + 1:])
    return block + b'\0' if rng.random() < 0.2 else block


def faulty_reference(rng, record):
    """The reference record with one of its faults."""
    kind = rng.random()
    if kind < 0.3:
        return (record + record)[:rng.choice(BAD_LENGTHS)]
    if kind < 0.5:
        place = rng.randrange(6)
        return replaced(record, zeros=bytes(rng.randint(1, 255) if k == place else 0
                                            for k in range(6)))
    if kind < 0.6:
        return replaced(record, mass=0)
    return replaced(record, **{rng.choice(('c1', 'c2', 'c3')): rng.choice((0, 1001, 65535))})


def random_samples(rng, pairs):
    """Samples with these pairs, any seconds and any other values in their ranges; NOx often at
    an end of its range or about zero."""
    ranges = reference.RANGES
    return [Sample(rng.randint(0, 65535), speed, rng.randint(*ranges['altitude']),
                   rng.randint(*ranges['temperature']), rng.randint(*ranges['flow']),
                   rng.choice((rng.randint(*ranges['nox']), *generate.field_edges('nox')[0])), co2)
            for speed, co2 in pairs]


def random_case(rng):
    """One random case; about a seventh has a fault in the block, the reference or both."""
    style = rng.choice(list(STYLES) + ['window'])
    pairs, mass, curve = STYLES[style](rng, random_count(rng))
    samples = random_samples(rng, pairs)
    block, record = drives.block_of(samples), record_of(mass, curve)
    if rng.random() < 0.08:
        block = faulty_block(rng, samples, block)
    if rng.random() < (0.07 if len(block) % 16 == 0 else 0.4):
        record = faulty_reference(rng, record)
    return Case('random, ' + style, block, record)


# --- Text --------------------------------------------------------------------

def case_line(each):
    """One text line: a case and its answer."""
    answer = reference.co2_check(each.block, each.reference)
    return 'co2 %s %s -> %d %d %d %d\n' % (
        generate.hex_text(each.block), generate.hex_text(each.reference), *answer)


def parsed_options():
    parser = argparse.ArgumentParser(description='Write cases of CO2 windows with their answers.')
    parser.add_argument('--count', type=int, default=100, help='random cases')
    parser.add_argument('--seed', type=int, default=1)
    parser.add_argument('--long', action='store_true', help='blocks of about 7,201 records too')
    return parser.parse_args()


def main():
    options = parsed_options()
    rng = random.Random(options.seed)
    cases = named_cases() + (long_cases() if options.long else [])
    for each in cases + [random_case(rng) for _ in range(options.count)]:
        sys.stdout.write(case_line(each))


if __name__ == '__main__':
    main()
