"""Builders of whole trips for verdicts: random ones, ones on the two sides of
each rule's edge, and the clean, the exceeded, the downhill, the summer and the
drifting drive.

A drive is a list of reference.Sample with seconds from 0.  Speeds are in tenths
of km/h; a distance is a sum of speeds over seconds (1/36,000 km).  Random drives,
the downhill one and those of rule 21 apart, the altitudes of a drive's first and
last sample differ by at most 100 m (the self test checks it).
"""

from collections import namedtuple

import reference
from reference import MOTORWAY, RURAL, URBAN, Sample

FILL = dict(altitude=100, temperature=2931, flow=500, nox=20, co2=2000)


def drive_of(speeds, **fields):
    """A drive with these speeds and one value for each other field."""
    values = dict(FILL, **fields)
    return [Sample(second=k, speed=v, **values) for k, v in enumerate(speeds)]


def changed(drive, index, **fields):
    """The drive with some fields of one sample changed."""
    copy = list(drive)
    copy[index] = copy[index]._replace(**fields)
    return copy


def calls_of(drive):
    """The drive as a list of calls: its samples, then one verdict."""
    return [('sample', reference.encode_sample(s)) for s in drive] + [('verdict',)]


def judged_each(calls):
    """The calls, each with a verdict after it."""
    return [c for call in calls for c in (call, ('verdict',))]


def block_of(drive):
    """The drive as the input of the program `report`."""
    return b''.join(reference.encode_sample(s) for s in drive)


# --- The parts of a whole drive ----------------------------------------------

def take_distance(cycle, distance):
    """Speeds of the repeated cycle, as many as fit into the distance."""
    speeds, total, k = [], 0, 0
    while total + cycle[k % len(cycle)] <= distance:
        speeds.append(cycle[k % len(cycle)])
        total += speeds[-1]
        k += 1
    return speeds, distance - total


def spread(speeds, rest, level=None):
    """Share the rest of a distance out over the samples (those at the given
    level only, when one is given)."""
    speeds = list(speeds)
    places = [k for k, v in enumerate(speeds) if level is None or v == level]
    for place, k in enumerate(places):
        speeds[k] += rest // len(places) + (place < rest % len(places))
    return speeds


def urban_part(count, distance, cruise=400, hold=45, step=20):
    """`count` urban samples of exactly this distance: from a stop up to the
    cruise speed, hold it, down again; the stops share out what count leaves
    (with no count given they are 15 percent)."""
    up = list(range(step, cruise, step))
    cycle = up + [cruise] * hold + up[::-1]
    moving, rest = take_distance(cycle, distance)
    moving = spread(moving, rest, level=cruise)
    cycles = [moving[k:k + len(cycle)] for k in range(0, len(moving), len(cycle))]
    stops = len(moving) * 15 // 85 if count is None else count - len(moving)
    assert stops >= len(cycles)
    speeds = []
    for k, part in enumerate(cycles):
        share = stops * (k + 1) // len(cycles) - stops * k // len(cycles)
        speeds += [0] * share + part
    return speeds


def swing_part(low, high, distance, step=10):
    """Samples of exactly this distance, swinging evenly between two speeds."""
    up = list(range(low, high, step))
    cycle = up + [high] + up[:0:-1]
    speeds, rest = take_distance(cycle, distance)
    return spread(speeds, rest)


def rural_part(distance, step=10):
    return swing_part(650, 850, distance, step)


def motorway_part(distance, step=10):
    return swing_part(1010, 1190, distance, step)


def accelerating_part(base, count, number):
    """`count` samples near the base speed, `number` of them accelerating at
    A = 8: a rise of 8 at once is two such samples, a rise of 4 and 4 is one.
    It must follow a part that is no slower."""
    speeds = []
    for _ in range(number // 2):
        speeds += [base, base, base + 8, base + 8]
    if number % 2:
        speeds += [base, base, base + 4, base + 8, base + 8]
    assert len(speeds) <= count
    return speeds + [base] * (count - len(speeds))


def whole_speeds(n, urban, rural, motorway, cruise=400, hold=45, steps=(20, 10, 10)):
    """Speeds of a drive of n samples with these three distances (with no n
    given, 15 percent of the urban samples are stops)."""
    rest = rural_part(rural, steps[1]) + motorway_part(motorway, steps[2])
    count = None if n is None else n - len(rest)
    return urban_part(count, urban, cruise, hold, steps[0]) + rest


def distance_shares(n):
    """Three distances (urban, rural, motorway) that suit a length of n."""
    return (900000, 800000, 800000) if n < 6000 else (1200000, 950000, 950000)


def clean_drive(n=5400):
    """A drive that keeps every rule when 5400 <= n <= 7200, with NOx under the
    limit; one sample less or more breaks rule 0 or rule 1 alone."""
    return drive_of(whole_speeds(n, *distance_shares(n)))


def exceeded_drive(n=5400):
    """The same drive with NOx above the limit."""
    return drive_of(whole_speeds(n, *distance_shares(n)), nox=60)


def downhill_drive(n=5400, drop=300):
    """The clean drive from a hill down into the valley, evenly: it breaks rule 21
    alone."""
    return [s._replace(altitude=s.altitude + drop * (n - 1 - s.second) // (n - 1))
            for s in clean_drive(n)]


def summer_drive(n=5400):
    """The exceeded drive on a hot day, from 302.5 K up to 306.5 K, evenly: it is clean,
    since it is extended for most of the time."""
    return [s._replace(temperature=3025 + 40 * s.second // (n - 1)) for s in exceeded_drive(n)]


def drifting_drive(n=5400):
    """The clean drive with an analyser whose zero drifts, NOx being -50 and 110 by turns: it is
    clean, and exceeded where readings are clipped at 0, which "lifts the mean" (R-6)."""
    return [s._replace(nox=(-50, 110)[s.second % 2]) for s in clean_drive(n)]


def with_nox_sum(drive, total, chosen):
    """The drive with the sum of channel 6 over the chosen samples made exactly `total`,
    which may be below zero."""
    first, *rest = chosen
    samples = changed(drive, first, flow=total % 1000, nox=1)
    level, more = divmod(total // 1000, len(rest))
    for k, place in enumerate(rest):
        samples[place] = samples[place]._replace(flow=1000, nox=level + (k < more))
    assert sum(reference.channel_value(samples[k], 6) for k in chosen) == total
    assert all(reference.values_in_range(samples[k]) for k in chosen)
    return samples


# --- The edges of the rules --------------------------------------------------

# bit: the rule, or 'exceeded'.  whole: the kept drive is clean and the broken
# one breaks this rule alone (or is exceeded and breaks none).
Edge = namedtuple('Edge', 'name bit kept broken whole')


def small(name, bit, kept, broken, **fields):
    """An edge between two short lists of speeds."""
    return Edge(name, bit, drive_of(kept, **fields), drive_of(broken, **fields), False)


def length_edges():
    """Rules 0 and 1."""
    return [Edge('5400 and 5399 samples', 0, clean_drive(5400), clean_drive(5399), True),
            Edge('7200 and 7201 samples', 1, clean_drive(7200), clean_drive(7201), True)]


def short_share_edges():
    """Rules 2, 3, 4: 100 x S at both ends of each share, in a few samples."""
    return [
        small('urban share 29, short', 2, [580, 710, 710], [579, 710, 710]),
        small('urban share 44, short', 2, [440, 440, 1120], [441, 440, 1120]),
        small('rural share 23, short', 3, [690, 1155, 1155], [689, 1155, 1155]),
        small('rural share 43, short', 3, [860, 1140], [861, 1140]),
        small('motorway share 23, short', 4, [920, 770, 770, 770, 770],
              [919, 770, 770, 770, 770]),
        small('motorway share 43, short', 4, [1290, 855, 855], [1291, 855, 855]),
    ]


def share_edges():
    """Rules 2, 3, 4 in whole drives; the three distances are percentages."""
    cases = [('urban share 29', 2, (29, 36, 35), -1), ('urban share 44', 2, (44, 28, 28), 1),
             ('rural share 23', 3, (40, 23, 37), -1), ('rural share 43', 3, (31, 43, 26), 1),
             ('motorway share 23', 4, (40, 37, 23), -1), ('motorway share 43', 4, (31, 26, 43), 1)]
    edges = []
    for name, bit, percents, off in cases:
        kept = [29000 * p for p in percents]
        broken = list(kept)
        broken[bit - 2] += off
        edges.append(Edge(name, bit, drive_of(whole_speeds(None, *kept)),
                          drive_of(whole_speeds(None, *broken)), True))
    return edges


def distance_edges():
    """Rules 5, 6, 7: S of 576,000 and 575,999."""
    cases = [('urban', 5, (576000, 700000, 700000), 240),
             ('rural', 6, (960000, 576000, 900000), 400),
             ('motorway', 7, (960000, 900000, 576000), 400)]
    edges = []
    for name, bit, kept, cruise in cases:
        broken = list(kept)
        broken[bit - 5] -= 1
        edges.append(Edge(name + ' distance 576000', bit,
                          drive_of(whole_speeds(5400, *kept, cruise=cruise)),
                          drive_of(whole_speeds(5400, *broken, cruise=cruise)), True))
    return edges


def stop_edges():
    """Rule 8: stops at 6 and 30 percent and one off, and the stop speed."""
    def stops(k):
        return [0] * k + [300] * (100 - k)
    edges = [small('6 stops of 100', 8, stops(6), stops(5)),
             small('30 stops of 100', 8, stops(30), stops(31)),
             small('speed 9 is a stop', 8, [9] * 6 + [300] * 94, [9] * 5 + [10] + [300] * 94),
             small('speed 10 is none', 8, [9] * 30 + [10] + [300] * 69, [9] * 31 + [300] * 69)]
    return edges + [whole_stop_edge(6), whole_stop_edge(30)]


def whole_stop_edge(percent):
    """A whole drive with this percentage of stops exactly, and one off."""
    cruise = 380 if percent == 6 else 500
    urban = 1050000
    rural, motorway = rural_part(900000), motorway_part(900000)
    up = list(range(20, cruise, 20))
    moving = take_distance(up + [cruise] * 45 + up[::-1], urban)[0]
    # the count makes 100 x stops = percent x count; moving is a multiple of 94 or 70
    keep = 100 - percent
    moving_count = len(moving) - len(moving) % keep
    urban = sum(moving[:moving_count])
    count = moving_count * 100 // keep
    speeds = urban_part(count, urban, cruise) + rural + motorway
    first_stop = speeds.index(0)
    cruising = speeds.index(cruise)
    if percent == 6:      # one stop fewer
        broken = list(speeds)
        broken[first_stop] = 10
    else:                 # one stop more
        broken = list(speeds)
        broken[cruising] = 9
    return Edge('%d percent stops' % percent, 8, drive_of(speeds), drive_of(broken), True)


def mean_edges():
    """Rule 9: urban means of 15 and 40 km/h and one unit off."""
    edges = [small('mean 15 km/h, short', 9, [150] * 10, [150] * 9 + [149]),
             small('mean 40 km/h, short', 9, [400] * 10, [400] * 9 + [401])]
    slow = (3900, 585000, 690000, 690000, 240, 45)
    fast = (3200, 1280000, 1000000, 1000000, 560, 100)
    for name, off, (count, urban, rural, motorway, cruise, hold) in (
            ('mean 15 km/h', -1, slow), ('mean 40 km/h', 1, fast)):
        rest = rural_part(rural) + motorway_part(motorway)
        edges.append(Edge(name, 9,
                          drive_of(urban_part(count, urban, cruise, hold) + rest),
                          drive_of(urban_part(count, urban + off, cruise, hold) + rest), True))
    return edges


def fast_edges():
    """Rule 10: 300 and 299 samples above 1000, and a speed of 1000 itself."""
    edges = [small('300 above 1000, short', 10, [1001] * 300, [1001] * 299 + [1000])]
    part = swing_part(910, 990, 900000 - 300 * 1010, step=5)
    first = urban_part(None, 960000) + rural_part(900000)
    kept = first + part + [1010] * 300
    broken = first + part + [1010] * 299 + [1000]
    edges.append(Edge('300 above 1000', 10, drive_of(kept), drive_of(broken), True))
    return edges


def top_edges():
    """Rule 11: one sample at 1600 and at 1601; rule 12: 3 percent above 1450."""
    clean = clean_drive()
    edges = [Edge('one sample at 1600', 11, changed(clean, len(clean) - 1, speed=1600),
                  changed(clean, len(clean) - 1, speed=1601), True)]
    for name, kept, broken in (
            ('3 of 100 above 1450', [1451] * 3 + [1000] * 97, [1451] * 4 + [1000] * 96),
            ('1450 is not above', [1451] * 3 + [1450] * 97, [1451] * 4 + [1450] * 96),
            ('1600 is counted, 1601 is not', [1600] * 3 + [1601] * 97,
             [1600] * 4 + [1601] * 96)):
        edges.append(small(name, 12, kept, broken))
    first = urban_part(None, 1000000) + rural_part(880000)

    def with_fast(k):
        return drive_of(first + motorway_800(k))

    edges.append(Edge('3 percent above 1450', 12, with_fast(24), with_fast(25), True))
    return edges


def motorway_800(fast):
    """800 motorway samples, `fast` of them at 1451 in one run."""
    swing = motorway_part(900000)[:800]
    return swing[:400] + [1451] * fast + swing[400:800 - fast]


def air_edges():
    """Rule 13: temperatures 2660, 2659, 3080, 3081; rule 14: altitude 1300, 1301
    in a drive at 1250 m, so that the first and the last sample may have it too."""
    clean = clean_drive()
    high = [s._replace(altitude=1250) for s in clean]
    edges = []
    for place in (0, 2000, len(clean) - 1):
        for kept, broken in ((2660, 2659), (3080, 3081)):
            edges.append(Edge('temperature %d at %d' % (kept, place), 13,
                              changed(clean, place, temperature=kept),
                              changed(clean, place, temperature=broken), True))
        edges.append(Edge('altitude 1300 at %d' % place, 14,
                          changed(high, place, altitude=1300),
                          changed(high, place, altitude=1301), True))
    return edges


# Altitudes of the first and the last sample on the two sides of rule 21's edge, in
# both senses: above, below and across zero, and at the ends of the range.
HEIGHTS = [((100, 200), (100, 201)), ((200, 100), (201, 100)),
           ((-60, 40), (-60, 41)), ((40, -60), (41, -60)),
           ((-500, -400), (-500, -399)), ((1300, 1200), (1300, 1199))]
HIGH_HEIGHTS = [((4900, 5000), (4899, 5000)),     # not in whole drives: rule 14
                ((-500, -500), (-500, 5000)), ((5000, 5000), (5000, -500))]


def with_heights(drive, first, last):
    """The drive with these altitudes of its first and its last sample."""
    return changed(changed(drive, 0, altitude=first), -1, altitude=last)


def height_edges():
    """Rule 21: 100 and 101 m between the first and the last sample, in two samples
    and in whole drives; and a single sample."""
    two, clean = drive_of([300] * 2), clean_drive()
    edges = [Edge('one sample', 21, drive_of([300], altitude=5000),
                  with_heights(two, 5000, 4899), False)]
    for name, drive, heights, whole in (('%d to %d m, short', two, HEIGHTS + HIGH_HEIGHTS, False),
                                        ('%d to %d m', clean, HEIGHTS, True)):
        edges += [Edge(name % kept, 21, with_heights(drive, *kept),
                       with_heights(drive, *broken), whole) for kept, broken in heights]
    return edges + far_edges(', short', drive_of([300] * 4), False) + far_edges('', clean, True)


def far_edges(ending, drive, whole):
    """Rule 21: one sample 500 m up or down, the one beside the first or the last
    (kept) and that itself (broken)."""
    edges = []
    for off in (500, -500):
        far = FILL['altitude'] + off
        for end_name, end, beside in (('first', 0, 1), ('last', -1, -2)):
            edges.append(Edge('%d m beside the %s sample%s' % (off, end_name, ending), 21,
                              changed(drive, beside, altitude=far),
                              changed(drive, end, altitude=far), whole))
    return edges


def accelerating_count(drive, which):
    """How many samples of one class accelerate."""
    return sum(1 for s, a in zip(drive, reference.accelerations(drive))
               if reference.accelerating(a) and reference.speed_class(s.speed) == which)


def accelerating_edges():
    """Rules 15, 16, 17: 150 and 149 accelerating samples, and A of 8 and 7."""
    names = ('urban', 'rural', 'motorway')
    edges = []
    for which, base in zip((URBAN, RURAL, MOTORWAY), (300, 750, 1100)):
        edges.append(Edge('150 accelerating %s samples, short' % names[which], 15 + which,
                          exactly_accelerating(short_accelerating, which, base, 150),
                          exactly_accelerating(short_accelerating, which, base, 149), False))
        edges.append(Edge('150 accelerating %s samples' % names[which], 15 + which,
                          exactly_accelerating(whole_accelerating, which, base, 150),
                          exactly_accelerating(whole_accelerating, which, base, 149), True))
        edges.append(Edge('A of 8 and 7, %s' % names[which], 15 + which,
                          exactly_accelerating(short_accelerating, which, base, 150),
                          with_one_seven(
                              exactly_accelerating(short_accelerating, which, base, 150)),
                          False))
    # "a missing neighbour being 0": the first sample, and the last but one
    part = accelerating_part(0, 400, 149)
    edges.append(small('A of 8 and 7, first sample', 15, [20, 8] + part, [20, 7] + part))
    edges.append(small('A of 8 and 7, last but one', 15, [20, 0] + part + [8],
                       [20, 0] + part + [7]))
    return edges


def short_accelerating(which, base, number):
    """A short drive that comes down to the base speed, then accelerates."""
    return drive_of([1600, base + 8] + accelerating_part(base, 2 * number + 20, number))


def whole_accelerating(which, base, number):
    """A whole drive, one part of which has only that many accelerating samples.
    Faster parts come first, so that no part is entered accelerating."""
    urban, rural, motorway = distance_shares(5600)
    parts = [urban_part(3800, urban), rural_part(rural), motorway_part(motorway)]
    if which == URBAN:
        stops = 700
        parts[URBAN] = accelerating_part(base, 3000, number) + [0] * stops
    else:
        distance = (rural, motorway)[which - 1]
        parts[which] = accelerating_part(base, distance // base, number)
    return drive_of(parts[MOTORWAY] + parts[RURAL] + parts[URBAN])


def exactly_accelerating(build, which, base, number):
    """The drive whose class has exactly `number` accelerating samples, whatever
    its first samples add to the ones asked for."""
    for asked in range(number, 0, -1):
        drive = build(which, base, asked)
        if accelerating_count(drive, which) == number:
            return drive
    raise ValueError('no such drive')


def with_one_seven(drive):
    """The drive with one rise of 8 made a rise of 7."""
    for k in range(2, len(drive) - 1):
        if drive[k].speed - drive[k - 1].speed == 8 and drive[k - 2].speed == drive[k - 1].speed:
            return [s._replace(speed=s.speed - 1) if s.second in (k, k + 1) else s for s in drive]
    raise ValueError('no rise of 8')


# --- The percentile lines (rules 18, 19, 20) ---------------------------------

def percentile_drive(which, rise, fillers):
    """A short drive whose greatest P in the class is that of one sample, in the
    middle of a rise: from a - d to a to a + d.  The fillers come last, falling."""
    lead = {URBAN: [1000, 1000], RURAL: [1000, 1000], MOTORWAY: [900, 900, 905, 910]}[which]
    return drive_of(lead + rise + sorted(fillers, reverse=True))


def percentile_edges():
    """Both sides of each line, one unit of distance apart: the same P95 is kept
    at a distance S and broken at S - 1."""
    return [line_edge('urban line', URBAN, [340, 340, 400, 460, 460], (100, 460)),
            line_edge('rural line, below 746', RURAL, [640, 640, 685, 730, 730], (601, 730)),
            line_edge('rural line, above 746', RURAL, [735, 735, 776, 817, 817], (746, 817)),
            line_edge('motorway line', MOTORWAY, [976, 976, 1010, 1044, 1044], (901, 1044)),
            crossing_edge()]


def filled(which, rise, count, distance):
    """The percentile drive with `count` fillers of this distance."""
    low, more = divmod(distance, count)
    return percentile_drive(which, rise, [low + 1] * more + [low] * (count - more))


def line_edge(name, which, rise, means):
    """The distance at which the class passes its line, the fillers' mean lying
    between the two given: broken below that distance, kept from it on."""
    count = 60
    low, high = means[0] * count, means[1] * count
    while high - low > 1:
        middle = (low + high) // 2
        if reference.broken_rules(filled(which, rise, count, middle))[18 + which]:
            low = middle
        else:
            high = middle
    return Edge(name, 18 + which, filled(which, rise, count, high),
                filled(which, rise, count, low), False)


def crossing_edge():
    """The same P95 of 63,600 with S = 746 x N (first line, kept) and with one
    more unit of distance (second line, broken)."""
    rise = [755, 755, 795, 835, 835]
    count = 40
    distance = 746 * (len(rise) + count) - sum(rise)
    return Edge('the two rural lines at 746', 19, filled(RURAL, rise, count, distance),
                filled(RURAL, rise, count, distance + 1), False)


def whole_percentile_edges():
    """Whole drives: the steepest rise that is kept and the next, per class."""
    edges = []
    for which, name in ((URBAN, 'urban'), (RURAL, 'rural'), (MOTORWAY, 'motorway')):
        last = None
        for step in range(20, 90):
            steps = [20, 10, 10]
            steps[which] = step
            drive = drive_of(whole_speeds(5600, 1000000, 850000, 850000, steps=steps))
            mask = reference.verdict_of(drive)[1]
            if mask == 0:
                last = drive
            elif mask == 1 << (18 + which) and last is not None:
                edges.append(Edge('%s rise of %d' % (name, step), 18 + which, last, drive, True))
                break
    return edges


# --- One accelerating sample at each place -----------------------------------

LONGEST_STEP = 20

# For each class the speed of the sample in front, of another class, and the speed
# that is held, so that no sample of the class is accelerating by the change.
STEADY = {URBAN: (1000, 300), RURAL: (1000, 700), MOTORWAY: (900, 906)}


def step_drive(which, count, place, rise):
    """A drive of `count` samples of which that at `place` alone is an accelerating one
    of the class: the speed after it is higher by `rise` than that before it."""
    other, speed = STEADY[which]
    if place == 0:
        return drive_of([speed] + [rise] * (count - 1))
    if place == 1:
        return drive_of(([other, speed, other + rise] + [other] * count)[:count])
    speeds = [other] + [speed] * (count - 1)
    speeds[place + 1] += rise
    return drive_of(speeds)


def step_edge(which, count, place):
    """The least rise that breaks the class's line, and the one before it."""
    rise = 9
    while not reference.broken_rules(step_drive(which, count, place, rise))[18 + which]:
        rise += 1
    return Edge('class %d, sample %d of %d' % (which, place, count), 18 + which,
                step_drive(which, count, place, rise - 1), step_drive(which, count, place, rise), False)


def step_edges():
    """Short drives whose one accelerating sample of a class is within its line and
    beyond it, at each place but the last, at which no sample is accelerating."""
    return [step_edge(which, count, place) for which in STEADY
            for count in range(2, LONGEST_STEP + 1) for place in range(count - 1)]


# --- NOx ---------------------------------------------------------------------

def nox_drive(n):
    """A clean drive of n samples whose D is a multiple of 793, so that its limits are
    whole numbers."""
    return drive_of(whole_speeds(n, *(d - d % 793 for d in distance_shares(n))))


def nox_edges():
    """80 mg/km exactly (793 x U = 40000 x D) and one unit above."""
    short = drive_of([793, 0], flow=0, nox=0)
    kept = changed(short, 0, flow=200, nox=200)
    edges = [Edge('80 mg/km, short', 'exceeded', kept, changed(kept, 1, flow=1, nox=1), False)]
    still = drive_of([0] * 3, flow=20000, nox=5000)
    edges.append(Edge('D = 0 with NOx', 'exceeded', still, changed(still, 2, speed=1), False))
    for n in (5400, 7200):
        drive = nox_drive(n)
        total = 40000 * sum(s.speed for s in drive) // 793
        edges.append(Edge('80 mg/km in %d samples' % n, 'exceeded',
                          with_nox_sum(drive, total, range(n)),
                          with_nox_sum(drive, total + 1, range(n)), True))
    return edges


# --- Extended conditions (R-2) -----------------------------------------------

# The ends of the bands: the field, the last value within and the next one outside.
BAND_EDGES = [('temperature', 2660, 2659), ('temperature', 2729, 2730),
              ('temperature', 3031, 3030), ('temperature', 3080, 3081),
              ('altitude', 701, 700), ('altitude', 1300, 1301)]
BAND_VALUES = {name: [value for field, *values in BAND_EDGES if field == name
                      for value in values] for name in ('temperature', 'altitude')}
OUTSIDE_RULES = {2659: 13, 3081: 13, 1301: 14}    # values that break a rule too

BANDS = {'cold': dict(temperature=2700), 'warm': dict(temperature=3050),
         'high': dict(altitude=1000)}

# Temperature and altitude of a sample that is extended by one of them, and of one that
# is not: beside values that break rule 13 or 14, and beside the ends of the ranges.
AIRS = [((2700, 1400), (2730, 1400)), ((2600, 800), (2600, 700)),
        ((3050, 5000), (3030, 5000)), ((3500, 1300), (3500, 1301)),
        ((2000, 701), (2000, 700)), ((2660, -500), (2659, -500)),
        ((3080, -500), (3081, -500)), ((2931, 1000), (2931, -500))]


def weighted_limit(drive):
    """The greatest 8 x other U + 5 x extended U that is not exceeded: 1586 times it is
    at most 640000 x D."""
    return 640000 * sum(s.speed for s in drive) // 1586


def weighted_parts(weighted):
    """An extended U and an other U that weigh so much, about half of it each."""
    extended_U = 8 * (weighted // 80) + 5 * weighted % 8
    return extended_U, (weighted - 5 * extended_U) // 8


def with_air(drive, chosen, fields):
    """The drive with these fields in the chosen samples."""
    return [s._replace(**fields) if s.second in chosen else s for s in drive]


def short_band_edges():
    """One sample whose 64,000 of channel 6 are at the limit where it is extended, and
    above it where it is not."""
    one = drive_of([793], flow=200, nox=320)
    cases = [('%s %d and %d, short' % edge, {edge[0]: edge[1]}, {edge[0]: edge[2]})
             for edge in BAND_EDGES]
    cases += [('%d at %d m and %d at %d m' % (inside + beside),
               dict(temperature=inside[0], altitude=inside[1]),
               dict(temperature=beside[0], altitude=beside[1])) for inside, beside in AIRS]
    return [Edge(name, 'exceeded', changed(one, 0, **inside), changed(one, 0, **beside), False)
            for name, inside, beside in cases]


def whole_band_edges():
    """The same in whole drives: the rest of U makes it the limit where the one sample is
    extended."""
    drive = nox_drive(5400)
    edges = []
    for place, (field, inside, beside) in zip((0, 2000, len(drive) - 1, 0, 1, 3000), BAND_EDGES):
        one = changed(drive, place, flow=1000, nox=800)
        rest = (weighted_limit(drive) - 5 * reference.channel_value(one[place], 6)) // 8
        one = with_nox_sum(one, rest, [k for k in range(len(drive)) if k != place])
        edges.append(Edge('%s %d and %d' % (field, inside, beside),
                          OUTSIDE_RULES.get(beside, 'exceeded'),
                          changed(one, place, **{field: inside}),
                          changed(one, place, **{field: beside}), True))
    return edges


def weighted_edges(ending, drive, some, whole):
    """The limit and one unit of U above it, in extended samples and in others, where
    some samples and where all are extended by each band, or by two at once."""
    everything = range(len(drive))
    rest = [k for k in everything if k not in some]
    limit = weighted_limit(drive)
    extended_U, other_U = weighted_parts(limit)
    edges = []
    bands = dict(BANDS, both=dict(BANDS['warm'], **BANDS['high']))
    for name, fields in bands.items():
        part = with_nox_sum(with_air(drive, some, fields), extended_U, some)
        kept = with_nox_sum(part, other_U, rest)
        full = with_air(drive, everything, fields)
        edges += [
            Edge('extended U at the limit, some %s%s' % (name, ending), 'exceeded',
                 kept, with_nox_sum(kept, extended_U + 1, some), whole),
            Edge('other U at the limit, some %s%s' % (name, ending), 'exceeded',
                 kept, with_nox_sum(part, other_U + 1, rest), whole),
            Edge('U at the limit, all %s%s' % (name, ending), 'exceeded',
                 with_nox_sum(full, limit // 5, everything),
                 with_nox_sum(full, limit // 5 + 1, everything), whole)]
    return edges


def fraction_edges():
    """Limits that are no whole number, and weights that are no multiple of 8: nothing is
    rounded.  At D = 356 the weight above the limit exceeds it by the least that there is,
    2 in 227,840,000, so that 640001 for 640000 tells."""
    edges = []
    for speed in (100, 301, 356, 502, 703):
        drive = with_air(drive_of([speed, 0, 0, 0]), (0, 1), BANDS['warm'])
        limit = weighted_limit(drive)
        kept, broken = (with_nox_sum(with_nox_sum(drive, extended_U, (0, 1)), other_U, (2, 3))
                        for extended_U, other_U in map(weighted_parts, (limit, limit + 1)))
        edges.append(Edge('a weight of %d' % limit, 'exceeded', kept, broken, False))
    still = with_air(drive_of([0] * 3, flow=20000, nox=5000), (0, 1), BANDS['cold'])
    edges.append(Edge('D = 0 with extended NOx', 'exceeded', still, changed(still, 2, speed=1), False))
    return edges


def short_weighted_edges():
    return fraction_edges() + weighted_edges(', short', drive_of([793, 0, 0, 0]), (1, 2), False)


def extended_edges():
    """Every edge of R-2."""
    return (short_band_edges() + whole_band_edges() + short_weighted_edges()
            + weighted_edges('', nox_drive(5400), range(1000, 3000), True))


# --- NOx below zero (R-6) ----------------------------------------------------

def drift_drive(D, other_U, extended_U):
    """One moving sample and five standing ones with this D, other U and extended U, which are
    -50,000 and -150,000 at least."""
    drive = with_air(drive_of([D, 0, 0, 0, 0, 0]), (2, 3, 4, 5), BANDS['warm'])
    return with_nox_sum(with_nox_sum(drive, other_U, (0, 1)), extended_U, (2, 3, 4, 5))


def signed_parts(weighted, lead):
    """An other U of about `lead` and the extended U that weigh so much together."""
    other_U = lead - (lead - 2 * weighted) % 5
    return other_U, (weighted - 8 * other_U) // 5


def short_drift_edges():
    """The limit and one unit of weight above it, where other U is below zero, or extended U;
    a weight of 0, or one below, with U above zero, or one that is the limit's next with a
    minus, and one above the limit with U below zero."""
    edges = []
    for D in (1, 2, 356, 793):
        limit = 640000 * D // 1586
        kept, broken = ([drift_drive(D, *signed_parts(weighted, lead))
                         for lead in (-1000, -1, limit // 8 + 2000, limit // 3 + 300)]
                        for weighted in (limit, limit + 1))
        leads = ('other U below zero', 'other U just below zero', 'extended U below zero',
                 'U below zero')
        edges += [Edge('D %d at the limit, %s' % (D, lead), 'exceeded', *sides, False)
                  for lead, *sides in zip(leads, kept, broken)]
        edges += [Edge('D %d, a weight of %d, and U below zero above the limit' % (D, weighted),
                       'exceeded', drift_drive(D, *signed_parts(weighted, -1000)), broken[3], False)
                  for weighted in (0, -1, -limit - 1)]
    return edges


def whole_drift_edges():
    """The same in whole drives, but for U below zero; and a weight far below zero."""
    some = range(1000, 3000)
    drive = with_air(nox_drive(5400), some, BANDS['warm'])
    rest = [k for k in range(len(drive)) if k not in some]
    limit = weighted_limit(drive)

    def made(weighted, lead):
        other_U, extended_U = signed_parts(weighted, lead)
        return with_nox_sum(with_nox_sum(drive, other_U, rest), extended_U, some)

    below, above = -10000000, limit // 8 + 10000000
    return [Edge('NOx at the limit, ' + name, 'exceeded', made(limit, lead), made(limit + 1, lead), True)
            for name, lead in (('other U below zero', below), ('extended U below zero', above))] + [
            Edge('NOx of weight %d' % weighted, 'exceeded', made(weighted, lead), made(limit + 1, lead), True)
            for weighted, lead in ((0, below), (-1, below), (-100000000, below))]


def drift_edges():
    """Every edge of R-6."""
    return short_drift_edges() + whole_drift_edges()


def all_edges():
    """Every edge, the whole drives included."""
    return (length_edges() + short_share_edges() + share_edges() + distance_edges()
            + stop_edges() + mean_edges() + fast_edges() + top_edges() + air_edges()
            + accelerating_edges() + percentile_edges() + whole_percentile_edges()
            + height_edges() + nox_edges() + extended_edges() + drift_edges())


# --- Random drives -----------------------------------------------------------

EDGE_SPEEDS = (0, 9, 10, 599, 600, 601, 899, 900, 901, 1000, 1001, 1450, 1451,
               1599, 1600, 1601, 3000)


# What NOx is about on a random drive.
RANDOM_NOX = (-40, 0, 10, 20, 40, 45, 50, 60, 70, 80, 200)


def random_drive(rng, n):
    """n samples in three parts, one per class in any order, or in one long rise;
    NOx near the limit or about zero, in a narrow band or in a wide one; air mostly in
    its limits and often about an edge of a band."""
    nox, spread_of_nox = rng.choice(RANDOM_NOX), rng.choice((10, 10, 60))
    least_nox = reference.RANGES['nox'][0]
    coldest, warmest = rng.choice(((2660, 3080), (2730, 3030), (2725, 2734), (3026, 3035),
                                   (2660, 2729), (3031, 3080)))
    wild_air = rng.random() < 0.3
    samples = []
    altitudes = random_altitudes(rng, n)
    for k, (speed, altitude) in enumerate(zip(random_speeds(rng, n), altitudes)):
        temperature = rng.randint(coldest, warmest)
        if wild_air and rng.random() < 0.02:
            temperature = rng.choice((2000, 2659, 3081, 3500))
        if wild_air and rng.random() < 0.02:
            altitude = rng.choice((1301, 5000))
        samples.append(Sample(k, speed, altitude, temperature, rng.randint(300, 900),
                              max(least_nox, nox + rng.randint(-spread_of_nox, spread_of_nox)),
                              rng.randint(0, 100000)))
    return samples


def random_altitudes(rng, n):
    """n altitudes in a band of 250 m, half of them near rule 21's edge."""
    low = rng.choice((-500, -100, 650, 1050))
    high = low + 250
    altitudes = [rng.randint(low, high) for _ in range(n)]
    for k in range(1, n):
        if rng.random() < 0.5:
            altitudes[k] = near_height(rng, altitudes[0], low, high)
    return altitudes


def near_height(rng, first, low, high):
    """An altitude within low..high that lies near rule 21's edge, seen from the
    first: 99 to 102 m up or down."""
    return rng.choice([a for off in range(99, 103) for a in (first - off, first + off)
                       if low <= a <= high])


def random_speeds(rng, n):
    """n speeds; the parts' lengths vary, so that shares and means do too."""
    weights = rng.choice(((1, 1, 1), (6, 2, 1), (5, 2, 2), (5, 1, 1), (4, 2, 1), (1, 2, 2)))
    counts = [n * w // sum(weights) for w in weights]
    counts[URBAN] += n - sum(counts)
    edgy = rng.random() < 0.3
    speeds = []
    for which in rng.sample((URBAN, RURAL, MOTORWAY), 3):
        speeds += random_part(rng, which, counts[which])
    if rng.random() < 0.3:    # one long rise, with no leap into a faster class
        top = rng.choice((1050, 1150, 1500))
        speeds = [max(0, k * top // n + rng.randint(-6, 6)) for k in range(n)]
    return [rng.choice(EDGE_SPEEDS) if edgy and rng.random() < 0.05 else v for v in speeds]


def random_part(rng, which, count):
    """Speeds of one class that rise, gently or steeply, and fall back."""
    low = (10, 601, 901)[which]
    high = rng.choice(((200, 450, 600), (760, 900), (1150, 1440, 1500, 1600, 1650))[which])
    rise = rng.choice((5, 10, 15, 40))
    stop_rate = rng.choice((0, 0.05, 0.1, 0.2, 0.4)) if which == URBAN else 0
    speeds, speed = [], rng.randint(low, (low + high) // 2)
    for _ in range(count):
        if speed + rise > high:
            speed = rng.randint(low, (low + high) // 2)
        speed = max(low, speed + rng.randint(-rise // 4, rise))
        speeds.append(rng.randint(0, 9) if rng.random() < stop_rate else speed)
    return speeds


def random_verdict_drive(rng, n):
    """A random drive with accelerating samples in all three classes."""
    while True:
        drive = random_drive(rng, n)
        if all(accelerating_count(drive, c) > 0 for c in reference.CLASSES):
            return drive
