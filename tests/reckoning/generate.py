"""Random lists of calls with their answers by the outside reckoning.

As a module: random_list, long_list, verdict_list, drive_list and named_lists
give (calls, answers).  As a program it writes such lists as text, one call to a
line (record bytes in hexadecimal, `-` for an empty record):

    list NAME
    declare 0001...0b -> number 0
    sample - -> refused 1
    read 0 -> number -4
    verdict -> verdict 000384e1 0 0     (mask, exceeded mark, finding)
    clear -> number 0
    end

With --tallies also lines outside any list:

    tally BLOCK LENGTH -> bytes ...     join A B LENGTH -> refused 12

LENGTH is the output's, in decimal.

The same seed gives the same lists.
"""

import argparse
import random
import sys

import drives
import reference
from reference import TALLY_LENGTH, LongTrip, Sample, Trip, Window

INT_MIN, INT_MAX = -2 ** 31, 2 ** 31 - 1

# Each field of a sample: its range ("One sample") and what its width can hold.
WIDTHS = {'speed': (0, 65535), 'altitude': (-32768, 32767), 'temperature': (0, 65535),
          'flow': (0, 65535), 'nox': (-32768, 32767), 'co2': (0, 2 ** 32 - 1)}

# "channel 6 is flow x NOx": its least and its greatest value, -1,000,000 and 100,000,000, between
# which all the other channels lie.
CHANNEL_6 = tuple(reference.RANGES['flow'][1] * nox for nox in reference.RANGES['nox'])
CHANNEL_RANGES = (*reference.RANGES.values(), CHANNEL_6)

# Each way a window record can break its layout ("One window").
WINDOW_FAULTS = [dict(function=6), dict(function=255), dict(channel=7), dict(channel=255),
                 dict(condition=7), dict(condition=255), dict(zero=1), dict(zero=255),
                 dict(width=0), dict(width=601), dict(width=65535),
                 dict(zero2=1), dict(zero2=256), dict(zero2=65535),
                 dict(low=1, high=0), dict(low=INT_MAX, high=INT_MIN), dict(low=0, high=-1)]

BAD_LENGTHS = (0, 1, 8, 15, 17, 32)
# Of a tally or an output; among them that of a tally without its last number.
BAD_TALLY_LENGTHS = (0, 1, TALLY_LENGTH - 8, TALLY_LENGTH - 1, TALLY_LENGTH + 1, 2 * TALLY_LENGTH)
SMALL_WIDTHS = (1, 2, 3, 5)


def field_edges(field):
    """The good and the bad edge values of one field; -1, 0 and 1 too where it is signed."""
    low, high = reference.RANGES[field]
    least, most = WIDTHS[field]
    about_zero = [-1, 0, 1] if low < 0 else []
    bad = [v for v in (low - 1, high + 1, least, most)
           if least <= v <= most and not low <= v <= high]
    return [low, low + 1] + about_zero + [high - 1, high], bad


# --- Records -----------------------------------------------------------------

def bad_length(rng, record):
    """A record of another length than 16."""
    length = rng.choice(BAD_LENGTHS)
    return (record + record)[:length]


# A style gives the values of a list's samples.
STYLES = ('tiny', 'equal', 'altitudes', 'edges', 'wide', 'ramp', 'bands', 'drift')

# NOx of an analyser whose zero drifts, and exhaust flows for it.
DRIFT = (-50, -49, -3, -2, -1, -1, 0, 1, 1, 2, 3, 50)
DRIFT_FLOWS = (0, 1, 1, 2, 7, 500, 20000)
# Ends of a condition on NOx, and of one on channel 6.
DRIFT_ENDS = {4: (-51, -50, -49, -2, -1, 0, 1, 2),
              6: (CHANNEL_6[0] - 1, CHANNEL_6[0], CHANNEL_6[0] + 1, -25000, -100, -7, -2, -1, 0, 1,
                  7, 25000, -CHANNEL_6[0])}


def random_values(rng, style, before):
    """The values of one sample that lie in their ranges."""
    ranges = reference.RANGES
    if style == 'equal' and before is not None and rng.random() < 0.7:
        return before
    if style in ('tiny', 'equal'):
        return dict(speed=rng.randint(0, 3), altitude=rng.randint(-2, 2),
                    temperature=2931 + rng.randint(0, 2), flow=rng.randint(0, 3),
                    nox=rng.randint(-1, 3), co2=rng.randint(0, 3))
    if style == 'altitudes':
        return dict(speed=rng.choice((0, 300, 700, 1000)), altitude=rng.randint(-30, 5),
                    temperature=2931, flow=rng.randint(0, 1), nox=rng.randint(-1, 1), co2=0)
    if style == 'bands':    # at an edge of a band or in none, NOx about the limits
        air = {field: rng.choice(values + [drives.FILL[field]] * 4)
               for field, values in drives.BAND_VALUES.items()}
        return dict(air, speed=rng.choice((0, 500, 500, 500, 500, 500)), flow=500,
                    nox=rng.choice((30, 50, 51, 65, 80, 81)), co2=0)
    if style == 'drift':    # NOx about zero, its weight about the limit of a short distance
        return dict(speed=rng.choice((0, 0, 0, 1, 2, 500)), altitude=rng.choice((100, 100, 1000)),
                    temperature=rng.choice((2931, 2931, 3050)), flow=rng.choice(DRIFT_FLOWS),
                    nox=rng.choice(DRIFT), co2=0)
    if style == 'edges':
        return {field: rng.choice(field_edges(field)[0]) for field in ranges}
    if style == 'ramp' and before is not None:
        values = dict(before)
        values['speed'] = min(3000, max(0, before['speed'] + rng.choice((-9, -1, 3, 4, 40))))
        values['altitude'] = min(5000, max(-500, before['altitude'] - 7))
        return values
    return {field: rng.randint(*ranges[field]) for field in ranges}


def steered(rng, samples, values):
    """The values with a NOx by which the trip's weighted sum of U comes near 0 or near its limit,
    as far as one sample can take it there."""
    trip = samples + [Sample(second=len(samples), **values)]
    limit = drives.weighted_limit(trip)
    wanted = rng.choice((0, 0, limit)) - reference.weighted_nox_sum(samples) + rng.randint(-1, 1)
    amount = wanted // (5 if reference.extended(trip[-1]) else 8) + rng.choice((0, 0, 1))
    nox = 1 if abs(amount) <= 20000 else 50
    return dict(values, flow=min(20000, abs(amount) // nox), nox=nox if amount > 0 else -nox)


def random_window(rng, style):
    """A window record that keeps its layout."""
    function, channel = rng.randint(0, 5), rng.randint(0, 6)
    if style == 'altitudes' and rng.random() < 0.7:
        channel = 1
    if style in ('tiny', 'altitudes') and rng.random() < 0.3:    # means about and below zero
        function, channel = reference.AVERAGE, 1
    width = rng.choice(SMALL_WIDTHS)
    if rng.random() < 0.1:
        width = rng.choice((1, 2, 599, 600))
    condition = rng.randint(0, 6)
    if style == 'drift':    # NOx and channel 6
        channel = rng.choice((channel, 4, 6, 6))
        condition = rng.choice((condition, 4, 6))
    low, high = random_condition(rng, style, condition)
    return Window(function, channel, condition, 0, width, 0, low, high)


def random_condition(rng, style, condition):
    """Bounds of a condition: often all, sometimes never, otherwise some values."""
    kind = rng.random()
    if kind < 0.35:
        return rng.choice(((INT_MIN, INT_MAX), CHANNEL_6, (0, INT_MAX)))
    if kind < 0.45:    # never qualifies
        least, most = CHANNEL_6
        return rng.choice(((INT_MIN, least - 1), (most + 1, INT_MAX), (2 * least, least - 1)))
    if kind < 0.55:    # a single value
        value = rng.choice((0, 1, 2, 2931, 600, -1, -3, *reference.RANGES['nox'], *CHANNEL_6))
        return value, value
    if style == 'drift' and condition in DRIFT_ENDS:
        ends = DRIFT_ENDS[condition]
        return tuple(sorted((rng.choice(ends), rng.choice(ends))))
    if style in ('wide', 'edges', 'ramp'):
        low, high = CHANNEL_RANGES[condition]
        low = min(-500, low)
        return tuple(sorted((rng.randint(low, high), rng.randint(low, high))))
    if condition == 2:
        return tuple(sorted((rng.randint(2930, 2934), rng.randint(2930, 2934))))
    if condition == 1:
        return tuple(sorted((rng.randint(-30, 5), rng.randint(-30, 5))))
    return tuple(sorted((rng.randint(-1, 4), rng.randint(-1, 4))))


# --- Random lists ------------------------------------------------------------

class Maker:
    """Makes one list of calls, following the reference model as it goes."""

    def __init__(self, rng, max_samples, fault_rate, style=None, trip=None):
        self.rng = rng
        self.trip = Trip() if trip is None else trip
        self.max_samples = max_samples
        self.fault_rate = fault_rate
        self.style = style or rng.choice(STYLES)
        self.before = None
        self.calls, self.answers = [], []

    def make(self, call):
        self.calls.append(call)
        self.answers.append(self.trip.answer(call))
        return self.answers[-1]

    def fault(self):
        return self.rng.random() < self.fault_rate

    def declare(self):
        window = random_window(self.rng, self.style)
        if self.fault():
            window = window._replace(**self.rng.choice(WINDOW_FAULTS))
        record = reference.encode_window(window)
        if self.fault():
            record = bad_length(self.rng, record)
        return self.make(('declare', record))

    def sample(self):
        rng, count = self.rng, len(self.trip.samples)
        values = random_values(rng, self.style, self.before)
        if count and rng.random() < 0.1:
            values = dict(values, altitude=drives.near_height(
                rng, self.trip.samples[0].altitude, *reference.RANGES['altitude']))
        if self.style == 'drift' and rng.random() < 0.3:
            values = steered(rng, self.trip.samples, values)
        self.before = values
        second = count
        if self.fault():
            field = rng.choice(list(reference.RANGES))
            values = dict(values)
            values[field] = rng.choice(field_edges(field)[1])
        if self.fault():
            second = rng.choice([v for v in (0, 1, count - 1, count + 1, count + 256, 65535)
                                 if v >= 0 and v != count])
        record = reference.encode_sample(Sample(second=second, **values))
        if self.fault():
            record = bad_length(rng, record)
        return self.make(('sample', record))

    def read(self):
        rng, count = self.rng, len(self.trip.windows)
        number = rng.randrange(count) if count else 0
        if self.fault():
            number = rng.choice((count, 15, 16, 17, 255, 256, 2 ** 32 - 1))
        return self.make(('read', number))

    def step(self):
        """One more call, its kind by weight."""
        full = len(self.trip.samples) >= self.max_samples
        kinds = {'sample': 0 if full else 50, 'read': 25,
                 'verdict': 25 if self.style == 'drift' else 6, 'close': 2, 'clear': 2, 'declare': 4}
        if not self.trip.samples:
            kinds['declare'] = 40
        kind = self.rng.choices(list(kinds), list(kinds.values()))[0]
        if kind in ('declare', 'sample', 'read'):
            return getattr(self, kind)()
        return self.make((kind,))


def random_list(rng, max_calls=40, max_samples=20):
    """One random list of calls with its answers, refused calls among them."""
    maker = Maker(rng, max_samples, fault_rate=rng.choice((0, 0.03, 0.1, 0.3)))
    length = rng.randint(1, max_calls)
    if rng.random() < 0.05:     # up to the 17th window
        while len(maker.calls) < length and len(maker.trip.windows) < 16:
            maker.declare()
    else:
        for _ in range(rng.randint(0, 3)):
            maker.declare()
    while len(maker.calls) < length:
        maker.step()
    return maker.calls[:length], maker.answers[:length]


def long_list(rng, samples, windows=16, widths=(1, 2, 3, 5, 17, 100, 599, 600), read_rate=0.02):
    """Many samples under many windows, read now and then, all read at the end."""
    maker = Maker(rng, samples, 0, trip=LongTrip())
    for _ in range(windows):
        window = random_window(rng, maker.style)._replace(width=rng.choice(widths))
        maker.make(('declare', reference.encode_window(window)))
    for _ in range(samples):
        maker.sample()
        if rng.random() < 0.01:
            maker.style = rng.choice(STYLES)
        if windows and rng.random() < read_rate:
            maker.read()
    for number in range(windows + 1):
        maker.make(('read', number))
    maker.make(('verdict',))
    return maker.calls, maker.answers


def read_each_list(rng, samples, windows=16, widths=(1, 2, 3, 5, 599, 600)):
    """Every window read after every sample: mixed windows, the functions in turn."""
    maker = Maker(rng, samples, 0, trip=LongTrip())
    for number in range(windows):
        window = random_window(rng, maker.style)
        maker.make(('declare', reference.encode_window(
            window._replace(function=number % 6, width=rng.choice(widths)))))
    for _ in range(samples):
        maker.sample()
        if rng.random() < 0.02:
            maker.style = rng.choice(STYLES)
        for number in range(windows):
            maker.make(('read', number))
    return maker.calls, maker.answers


def drive_list(drive):
    """A drive as a list of calls: its samples, then a verdict."""
    calls = drives.calls_of(drive)
    return calls, reference.replay(calls)


def verdict_list(rng, samples):
    """A random drive of that many samples and its verdict."""
    return drive_list(drives.random_verdict_drive(rng, samples))


def verdict_each_list(rng, samples):
    """A random drive with a verdict after every sample."""
    calls = drives.judged_each(drives.calls_of(drives.random_drive(rng, samples))[:-1])
    return calls, reference.replay(calls)


# --- Named lists -------------------------------------------------------------

def plain(second, **fields):
    values = dict(drives.FILL, speed=300)
    values.update(fields)
    return ('sample', reference.encode_sample(Sample(second=second, **values)))


WHOLE = Window(3, 0, 0, 0, 5, 0, INT_MIN, INT_MAX)   # largest speed, all qualify
MEAN = WHOLE._replace(function=4, channel=1)         # average altitude, all qualify
FAR = 5000                                           # m, the highest of its range


def declared(window):
    return ('declare', reference.encode_window(window))


def field_edge_list(field):
    """Every edge of one field, refused ones too."""
    good, bad = field_edges(field)
    calls = [declared(WHOLE)]
    second = 0
    for value in good + bad:
        calls += [plain(second, **{field: value}), ('read', 0)]
        second += value in good
    return calls


def refusal_order_lists():
    """Calls with several faults at once: the first in the order is given."""
    short, fast, early = b'\0' * 15, plain(0, speed=3001), plain(5)
    both = plain(7, speed=3001, co2=2 ** 32 - 1)
    crooked = declared(WHOLE._replace(function=6))
    return {
        'order-closed': [('close',), ('sample', short), fast, early, both, ('declare', short),
                         crooked, declared(WHOLE), ('close',), ('verdict',), ('read', 0),
                         ('clear',), plain(0), ('close',), plain(1), declared(WHOLE)],
        'order-sample': [('sample', short), both, early, fast, plain(0), both, fast],
        'order-after-sample': [plain(0), crooked, declared(WHOLE), ('declare', short)],
        'order-17': [declared(WHOLE)] * 17 + [crooked, ('declare', short), ('read', 15),
                                             ('read', 16), plain(0), ('read', 15), ('read', 16),
                                             declared(WHOLE), ('close',), declared(WHOLE)],
        'read-numbers': [('read', 0), declared(WHOLE), ('read', 0), ('read', 1), ('read', 15),
                         ('read', 16), ('read', 2 ** 32 - 1), plain(0), ('read', 0),
                         ('read', 2 ** 32 - 1), ('clear',), ('read', 0)],
    }


def marked_case_lists():
    """Cases (a), (b), (c) and (i) of document 01 as lists of calls."""
    figure = declared(Window(1, 0, 4, 0, 3, 0, 1, 1))
    one = [figure]
    for second, (speed, nox) in enumerate(((4, 1), (1, 0), (3, 1), (2, 0))):
        one += [plain(second, speed=speed, nox=nox), ('read', 0)]
    two = [declared(WHOLE._replace(width=3))] + [
        plain(k, speed=v) for k, v in enumerate((5, 3, 3, 7))]
    three = [declared(WHOLE._replace(function=5, width=600))]
    for k in range(21):
        three += [plain(k, speed=k + 1), ('read', 0)]
    nine = [declared(MEAN), plain(0, altitude=-3), plain(1, altitude=-4), ('read', 0)]
    return {'case-a': one, 'case-b': two, 'case-c': three, 'case-i': nine}


def at_altitudes(*altitudes):
    """Samples at these altitudes, from second 0 on."""
    return [plain(k, altitude=a) for k, a in enumerate(altitudes)]


def refused_samples(second, **fields):
    """Samples of an open trip with these values: of 15 and 17 bytes, of the next
    second, and with a speed outside its range."""
    record = plain(second, **fields)[1]
    return [('sample', record[:-1]), ('sample', record + b'\0'),
            plain(second + 1, **fields), plain(second, **dict(fields, speed=3001))]


def height_lists():
    """Rule 21, with a verdict after each call: 101 m away from the start and back; a
    trip after a clear, and the same trip again after another; refused samples that
    would break it, as the first or as the last one, and such as would mend it."""
    far = [declared(WHOLE)] + refused_samples(0, altitude=FAR) + at_altitudes(0)
    far += refused_samples(1, altitude=FAR) + [plain(1, altitude=FAR + 1), plain(1, altitude=100)]
    near = at_altitudes(0, 101) + refused_samples(2, altitude=0)
    ended = [('close',), plain(2, altitude=FAR), plain(2, altitude=0)]
    uphill = at_altitudes(1000, 1100, 1101)
    return {
        'height-away-and-back': [('verdict',)] + drives.judged_each(
            at_altitudes(100, 201, 200, 101, -1, 0, FAR, 100, 1, -500, 201)),
        'height-after-clear': drives.judged_each(
            uphill + [('clear',)] + at_altitudes(40, -60, -61) + [('close',), ('clear',)] + uphill),
        'height-far-refused': drives.judged_each(far + ended),
        'height-near-refused': drives.judged_each(near + ended),
    }


def air_trips(airs, *amounts):
    """For each temperature and altitude, and each NOx, a trip of one sample at 50.0 km/h
    and 50.0 kg/h, judged and cleared.  NOx 50 is not exceeded and 51 is; where the sample
    is extended, 80 is not and 81 is."""
    return [call for temperature, altitude in airs for nox in amounts
            for call in (plain(0, speed=500, flow=500, nox=nox, temperature=temperature,
                               altitude=altitude), ('verdict',), ('clear',))]


def extended_lists():
    """R-2: the ends of the bands; each condition by itself and two at once; a trip whose
    weight goes over the limit and back; refused samples that would take it over the limit,
    or below; one sample after a clear."""
    fill = drives.FILL
    warm = dict(drives.BANDS['warm'], speed=500)
    going = [(warm, 80), (fill, 50), (warm, 81), (fill, 51), (warm, 81), (warm, 80), (fill, 51)]
    trip = [plain(k, **dict(fields, speed=500, nox=nox)) for k, (fields, nox) in enumerate(going)]
    over, below = (refused_samples(1, nox=nox, **warm) + [('close',), plain(1, nox=nox, **warm)]
                   for nox in (200, 20))
    return {
        'extended-temperatures': air_trips([(t, fill['altitude'])
                                            for t in drives.BAND_VALUES['temperature']], 60),
        'extended-altitudes': air_trips([(fill['temperature'], a)
                                         for a in drives.BAND_VALUES['altitude']], 60),
        'extended-by-either': air_trips([air for pair in drives.AIRS for air in pair], 60),
        'extended-once': air_trips([(fill['temperature'], fill['altitude'])], 50, 51)
        + air_trips([(2700, 1000), (3050, 1000), (3050, 100), (2931, 1000)], 80, 81),
        'extended-over-and-back': drives.judged_each(trip + [('clear',)] + trip[:2]),
        'extended-refused': drives.judged_each(
            trip[:1] + over + [('clear',), plain(0, speed=500, nox=51)] + below),
    }


def read_each(calls, windows=1):
    """The calls, each with a reading of every window after it."""
    reads = [('read', number) for number in range(windows)]
    return [c for call in calls for c in [call] + reads]


def means_of(width, *altitudes):
    """The average of so many altitudes, read after each."""
    return [declared(MEAN._replace(width=width))] + read_each(at_altitudes(*altitudes))


# Altitudes whose first three to six have means of 4/3, 9/4, 7/5 and 14/6, just short of a half,
# and of 8/3, 7/4, 13/5 and 10/6, just past one.
SHORT_OF_HALVES = (1, 0, 3, 5, -2, 7)
PAST_HALVES = (2, 1, 5, -1, 6, -3)


def average_lists():
    """R-4, an average read after each sample: its three pairs; halves of both signs beside even
    and odd numbers; altitudes of -1, 0 and 1; thirds; means of three to six altitudes beside a
    half; a window whose count is that of its qualifying samples; great values."""
    some = MEAN._replace(width=3, condition=4, low=1, high=1)    # where NOx is 1
    few = [(7, 0), (-3, 1), (-4, 1), (9, 0), (-1, 1), (5, 0)]
    great = [(20000, 5000), (19999, 4999), (20000, 4999), (19999, 4997)]
    lists = {
        'average-pairs': means_of(2, -3, -4, -2, -3, 1, 2),
        'average-halves-below': means_of(2, 0, -1, -2, -3, -4, -5),
        'average-halves-above': means_of(2, 0, 1, 2, 3, 4, 5),
        'average-about-zero': means_of(2, -1, 0, 1, 1, 0, -1),
        'average-thirds': means_of(3, -1, 0, -1, 0, 1, 0, 1),
        'average-qualifying': [declared(some)] + read_each(
            [plain(k, altitude=a, nox=nox) for k, (a, nox) in enumerate(few)]),
        'average-great': [declared(MEAN._replace(channel=6, width=2))] + read_each(
            [plain(k, flow=flow, nox=nox) for k, (flow, nox) in enumerate(great)]),
    }
    for name, altitudes in (('short-of', SHORT_OF_HALVES), ('past', PAST_HALVES)):
        lists['average-%s-halves' % name] = means_of(6, *altitudes)
        lists['average-%s-halves-negative' % name] = means_of(6, *(-a for a in altitudes))
    return lists


def near_half(count, halves, side):
    """A sum of so many values: their mean is this odd number of halves where side is 0 and the
    count even, otherwise the next below it (-1) or above it."""
    off = 2 * side if count % 2 == 0 else side or 1
    return (count * halves + off) // 2


def altitudes_near_halves(width, means):
    """Altitudes by which the mean of the last `width`, or of all where they are fewer, goes
    through these numbers of halves and sides, as far as an altitude's range lets it."""
    low, high = reference.RANGES['altitude']
    altitudes = []
    for halves, side in means:
        others = altitudes[max(0, len(altitudes) - width + 1):]
        wanted = near_half(len(others) + 1, halves, side) - sum(others)
        altitudes.append(min(high, max(low, wanted)))
    return altitudes


HALVES = (7, 5, 3, 1, -1, -3, -5, -7)


def average_slide_list(width):
    """The average of so many altitudes, as it goes through halves and the means beside them."""
    return means_of(width, *altitudes_near_halves(
        width, [(halves, side) for halves in HALVES for side in (-1, 0, 1)]))


def average_trip(windows, turn, samples=640):
    """These averages after every sample of a trip on which the mean of the last 600 altitudes is
    near a half after nearly every one.  Four turns have, together, a half of both signs at each
    even count, and at nearly each count a mean just below a half and one just above."""
    means = [(HALVES[(k // 8 + turn // 2 * 4) % 8], (0, -1, 0, 1)[(k // 2 + turn) % 4])
             for k in range(samples)]
    trip = [plain(k, altitude=altitude, flow=20000 - k % 2 * (1 + k // 100 * 2), nox=5000 - k % 2,
                  co2=k % 3) for k, altitude in enumerate(altitudes_near_halves(600, means))]
    return [declared(window) for window in windows] + read_each(trip, len(windows))


def average_counts_list():
    """Averages at each count from 1 to 600, in four trips: of altitudes, in the first trip by
    many widths; there also of each third altitude, and of channel 6 near its greatest value, where
    a pair's mean is a half."""
    windows = [MEAN._replace(width=width) for width in (600, 599, 100, 16, 7, 4, 3, 2, 1)]
    windows += [MEAN._replace(width=width, condition=5, low=0, high=0) for width in (100, 6)]
    windows += [MEAN._replace(width=width, channel=6) for width in (600, 2)]
    calls = average_trip(windows, 0)
    for turn in (1, 2, 3):
        calls += [('clear',)] + average_trip(windows[:1], turn)
    return calls, reference.replay(calls)


def average_great_list():
    """The average of channel 6 on a trip whose sum soon takes more than 32 bits. At each fourth
    sample the mean is, in turn, a half above an even number, one above an odd number, just below
    a half and just above one."""
    trip, total = [], 0
    for k in range(600):
        flow, nox = 20000, 5000
        if k % 4 == 3:
            count, turn = k + 1, k // 4 % 4
            below = total // count + 1
            below += (below + turn) % 2
            flow, nox = near_half(count, 2 * below + 1, (0, 0, -1, 1)[turn]) - total, 1
        trip.append(plain(k, flow=flow, nox=nox))
        total += flow * nox
    calls = [declared(MEAN._replace(channel=6, width=600))] + read_each(trip)
    return calls, reference.replay(calls)


# --- Named lists: NOx below zero (R-6) ---------------------------------------

FUNCTION_NAMES = ('count', 'sum', 'smallest', 'largest', 'average', 'percentile')

# Exhaust flow and NOx of a sample each, for windows over channel 4 and over channel 6.
DRIFTING = {4: [(1, -3), (1, -1), (1, -2), (1, 0), (1, 2), (1, -50)],
            6: [(10, -3), (5, 1), (0, -50), (20000, -50), (1, -1), (7, 0), (20000, 5000)]}

# The same for averages of two: halves below zero, beside even and odd numbers, and about it.
DRIFT_HALVES = {4: [(1, nox) for nox in (-1, -2, -3, -50, -49, -48, 5000, -49, 0, -1, 2, 5)],
                6: [(20000, -50), (19999, -49), (1, -2), (3, -1), (2, -2), (1, 1), (2, -1),
                    (20000, -50), (1, -1)]}

# Ends of the conditions on NOx and on channel 6 under which a window adds the speeds up.
DRIFT_CONDITIONS = {
    4: [(-50, -50), (-51, -51), (-50, -49), (-49, -2), (-2, -1), (-1, -1), (-1, 1), (-2, 2),
        (INT_MIN, -1), (INT_MIN, 0), (0, INT_MAX), (1, INT_MAX), (-50, 5000), (INT_MIN, -51),
        (5001, INT_MAX), (65486, 65535)],
    6: [(-1000000, -1000000), (-1000001, -1000001), (-999999, -1), (-1000000, -999999),
        (INT_MIN, -1000001), (-1000001, -1000000), (-20000, 20000), (-20001, 19999),
        (-19999, 20000), (INT_MIN, -1), (INT_MIN, -20001), (0, INT_MAX), (1, INT_MAX),
        (-1000000, 100000000), (-1, 1), (2 ** 31 - 20000, INT_MAX)]}
CONDITION_NOX = (-50, -49, -2, -1, 0, 1, 2, 5000)

# Function, channel, width, and exhaust flow and NOx of a sample each.
DRIFT_HELD = {'largest': (3, 4, 3, [(1, -5), (1, -7), (1, -7), (1, -3)]),
              'smallest': (2, 4, 3, [(1, -5), (1, -3), (1, -3), (1, -7)]),
              'smallest-through-zero': (2, 4, 2, [(1, 1), (1, 0), (1, -1), (1, 0), (1, 1)]),
              'largest-through-zero': (3, 6, 2, [(5, -1), (0, -50), (9, 1), (0, -1), (5, -1)])}

# What the two bytes of NOx are without a sign: 32767, -32768, -51, -50 and -1.
NOX_PATTERNS = (32767, 32768, 65485, 65486, 65535)

# D, other U, extended U: with D of 0; with a weight of -1, 0 and 1; with a weight of 0 or below
# and U above zero; with one above 0 and U below zero or 0; with one that is the limit or is one
# off, the limit being 403 at a D of 1, 807 at 2 and 320,000 at 793; far below zero.
DRIFT_WEIGHTS = (
    (0, -1, 0), (0, 0, -1), (0, 1, -1), (0, -5, 8), (0, 1000, -1500), (0, -1007, 1692),
    (1, -2, 3), (1, -5, 8), (1, 0, 0), (1, 5, -8), (1, 2, -3), (1, -1, 0), (1, 0, -1),
    (1, -5, 7), (1, -1000, 1599), (1, -1000, 1600), (1, -1000, 1601),
    (1, 3, -4), (1, 1000, -1500), (1, 1000, -1519), (1, 1000, -1520), (1, 1000, -1000),
    (1, -1004, 1687), (1, -1007, 1692), (1, 1001, -1521), (1, 1003, -1524),
    (2, 999, -1437), (2, 1001, -1440), (793, 40005, -8), (793, 40006, -8), (793, -5, 64008),
    (793, -5, 64009), (793, -40000, 0), (793, -40001, 0), (793, 0, -64001), (793, -50000, -150000))


def drifting_samples(readings):
    """Samples of a car that stands, with this exhaust flow and NOx each."""
    return [plain(k, speed=0, flow=flow, nox=nox) for k, (flow, nox) in enumerate(readings)]


def drift_window_lists():
    """Windows over readings around zero, each read after every sample: every function on NOx and
    on channel 6; means at a half; NOx from -20 up, whose percentile is that of 1 to 22 samples;
    held entries; all functions on both channels at once, on a longer trip."""
    lists = {}
    for channel in (4, 6):
        some = WHOLE._replace(channel=channel, width=3)
        for function, name in enumerate(FUNCTION_NAMES):
            lists['drift-%s-%d' % (name, channel)] = [
                declared(some._replace(function=function))] + read_each(
                    drifting_samples(DRIFTING[channel]))
        lists['drift-halves-%d' % channel] = [
            declared(some._replace(function=reference.AVERAGE, width=2))] + read_each(
                drifting_samples(DRIFT_HALVES[channel]))
        lists['drift-percentiles-%d' % channel] = [
            declared(some._replace(function=reference.PERCENTILE, width=600))] + read_each(
                drifting_samples([({4: 1, 6: 3}[channel], nox) for nox in range(-20, 2)]))
    for name, (function, channel, width, readings) in DRIFT_HELD.items():
        lists['drift-held-' + name] = [
            declared(WHOLE._replace(function=function, channel=channel, width=width))] + read_each(
                drifting_samples(readings))
    lists['drift-windows'] = drift_windows_list()
    return lists


def drift_windows_list():
    """All functions on NOx and on channel 6, and four of them where the other is below zero or
    not above it, read after every sample of a trip whose NOx meets each number from -50 to 50."""
    windows = [WHOLE._replace(function=function, channel=channel, width=(3, 7)[function % 2])
               for function in range(6) for channel in (4, 6)]
    windows += [WHOLE._replace(function=function, channel=channel, condition=10 - channel,
                               low=low, high=high, width=20)
                for function, channel, low, high in (
                    (reference.LARGEST, 4, -1000000, -1), (reference.AVERAGE, 4, -700000, 0),
                    (reference.SMALLEST, 6, -50, 0), (reference.PERCENTILE, 6, -20, 20))]
    trip = drifting_samples([(DRIFT_FLOWS[k % len(DRIFT_FLOWS)], k * 37 % 101 - 50)
                             for k in range(101)])
    return [declared(each) for each in windows] + read_each(trip, len(windows))


def drift_condition_list(channel):
    """The sums of the speeds, each of which is a power of two, under conditions on NOx or on
    channel 6; these are read at the end."""
    some = WHOLE._replace(function=reference.SUM, condition=channel, width=600)
    trip = [plain(k, speed=2 ** k, flow=20000, nox=nox) for k, nox in enumerate(CONDITION_NOX)]
    ends = DRIFT_CONDITIONS[channel]
    return ([declared(some._replace(low=low, high=high)) for low, high in ends] + trip
            + [('read', number) for number in range(len(ends))])


def with_nox_bytes(record, pattern):
    """The record with these two bytes of NOx, little-endian."""
    return record[:10] + pattern.to_bytes(2, 'little') + record[12:]


def nox_pattern_list():
    """Each pattern in the bytes of NOx, and the sum of NOx after it."""
    calls, second = [declared(WHOLE._replace(function=reference.SUM, channel=4))], 0
    for pattern in NOX_PATTERNS:
        calls += [('sample', with_nox_bytes(plain(second)[1], pattern)), ('read', 0)]
        second += pattern in (65486, 65535)
    return calls


def drift_over_zero():
    """A trip with a D of 1, then of 2, whose weighted sum goes through 0 and through the limit,
    in both directions: -8, 7, -1, 399, 404, 404, 399, -9; 807 and 812."""
    warm = drives.BANDS['warm']
    readings = [(1, 1, -1, {}), (0, 1, 3, warm), (0, 1, -1, {}), (0, 5, 10, {}), (0, 1, 1, warm),
                (0, 0, -50, {}), (0, 1, -1, warm), (0, 3, -17, {}), (1, 102, 1, {}), (0, 1, 1, warm)]
    trip = [plain(k, speed=speed, flow=flow, nox=nox, **air)
            for k, (speed, flow, nox, air) in enumerate(readings)]
    return drives.judged_each(trip + [('clear',)] + trip[:2])


def judged_trips_of(some_drives):
    """Each drive as a trip, judged and cleared."""
    return [call for drive in some_drives for call in drives.calls_of(drive) + [('clear',)]]


def drift_far_below():
    """A trip with a D of 1 and the least NOx that there is, whose weighted sum falls below -2 ** 31
    and below -2 ** 32; it is judged beside these, and between them."""
    calls = []
    for k in range(600):
        calls.append(plain(k, speed=int(k == 0), flow=20000, nox=-50))
        calls += [('verdict',)] * (k + 1 in (1, 268, 269, 400, 536, 537, 600))
    return calls


def drift_verdict_lists():
    """Verdicts about a weighted sum of 0, with a trip's samples and after refused ones, which
    would take it over the limit, or below."""
    over = [plain(1, speed=0, flow=20000, nox=5001)] + refused_samples(1, flow=20000, nox=5000)
    below = [plain(2, speed=0, flow=20000, nox=-51)] + refused_samples(2, flow=20000, nox=-50)
    return {
        'drift-over-zero': drift_over_zero(),
        'drift-far-below': drift_far_below(),
        'drift-weights': judged_trips_of(drives.drift_drive(*each) for each in DRIFT_WEIGHTS),
        'drift-refused': drives.judged_each(
            [plain(0, speed=1, flow=1, nox=50)] + over + [plain(1, speed=0, flow=1, nox=1)] + below
            + [plain(2, speed=0, flow=1, nox=-1), ('close',), plain(3, flow=20000, nox=5000)]),
    }


def drift_lists():
    """Every list of R-6 but that of its edge drives."""
    lists = drift_window_lists()
    for channel in (4, 6):
        lists['drift-conditions-%d' % channel] = drift_condition_list(channel)
    lists['nox-patterns'] = nox_pattern_list()
    lists.update(drift_verdict_lists())
    return lists


def named_lists():
    """The fixed lists: {name: (calls, answers)}."""
    lists = {}
    lists.update(marked_case_lists())
    lists.update(refusal_order_lists())
    lists.update(height_lists())
    lists.update(extended_lists())
    lists.update(average_lists())
    for width in (2, 3, 4, 5, 7):
        lists['average-slides-%d' % width] = average_slide_list(width)
    lists.update(drift_lists())
    for name, edges in (('extended-limits', drives.short_weighted_edges()),
                        ('drift-limits', drives.short_drift_edges())):
        lists[name] = judged_trips_of(drive for edge in edges for drive in (edge.kept, edge.broken))
    for field in reference.RANGES:
        lists['edges-' + field] = field_edge_list(field)
    lists['window-faults'] = [declared(WHOLE._replace(**fault)) for fault in WINDOW_FAULTS]
    lists['window-edges'] = [declared(WHOLE._replace(**good)) for good in (
        dict(function=0), dict(function=5), dict(channel=6), dict(condition=6), dict(width=1),
        dict(width=600), dict(low=0, high=0), dict(low=INT_MIN, high=INT_MIN),
        dict(low=INT_MAX, high=INT_MAX))] + [('read', k) for k in range(10)]
    return {name: (calls, reference.replay(calls)) for name, calls in lists.items()}


def full_trip_list():
    """7201 samples, then refusal 5 before 3 and 4, but after 1 and 2; the altitudes
    refused would break rule 21."""
    calls = drives.calls_of(drives.clean_drive(7201))
    far = plain(7201, altitude=FAR)
    calls += [far, plain(0, altitude=FAR), plain(7201, altitude=FAR, speed=3001), ('sample', b''),
              ('close',), far, ('verdict',), ('clear',), plain(0)]
    return calls, reference.replay(calls)


def trip_lists():
    """The clean, the exceeded, the downhill, the summer, the drifting and the full drive as
    lists of calls."""
    yield 'clean', drive_list(drives.clean_drive())
    yield 'exceeded', drive_list(drives.exceeded_drive())
    yield 'downhill', drive_list(drives.downhill_drive())
    yield 'summer', drive_list(drives.summer_drive())
    yield 'drifting', drive_list(drives.drifting_drive())
    yield 'full', full_trip_list()


def edge_drive_lists(edges):
    """Both sides of each edge as a list of calls."""
    for edge in edges:
        yield edge.name + ', kept', drive_list(edge.kept)
        yield edge.name + ', broken', drive_list(edge.broken)


# --- Tallies -----------------------------------------------------------------

def random_block(rng, max_samples=6):
    """A block of samples with any seconds, now and then a fault; sometimes none."""
    style = rng.choice(STYLES)
    faulty = rng.random() < 0.3
    block = b''
    for _ in range(rng.randint(0, max_samples)):
        values = random_values(rng, style, None)
        if faulty and rng.random() < 0.3:
            field = rng.choice(list(reference.RANGES))
            values[field] = rng.choice(field_edges(field)[1])
        if rng.random() < 0.3:
            values['speed'] = rng.choice(drives.EDGE_SPEEDS)
        block += reference.encode_sample(Sample(second=rng.randint(0, 65535), **values))
    return block + bytes(rng.choice((1, 15))) if rng.random() < 0.1 else block


def random_out_length(rng):
    return rng.choice(BAD_TALLY_LENGTHS) if rng.random() < 0.05 else TALLY_LENGTH


MOST = 2 ** 64 - 1    # of a number of a tally
SIGNED_ENDS = (-2 ** 63, 2 ** 63 - 1)    # of U and of extended U


def tally_of(N, S, counts, U, extended_U):
    """A tally of these numbers, each of the six counts the same."""
    return reference.TALLY_LAYOUT.pack(*N, *S, *[counts] * 6, U, extended_U)


def nox_bounds(samples):
    """The least and the most of U, and of extended U, of so many samples (R-6)."""
    return tuple(end * samples for end in CHANNEL_6)


def random_nox_sum(rng, samples):
    """A U or extended U of so many samples, within its bounds, often below zero or near it."""
    low, high = nox_bounds(samples)
    return rng.choice((low, high, 0, rng.randint(low, high), rng.randint(low, 0),
                       max(low, rng.randint(-3, 0)), min(high, rng.randint(0, 3))))


def random_tally(rng):
    """A tally, one of its fields often at a bound or just beyond it; U and extended U also below
    zero, extended U also U, one above it or another."""
    N = rng.choice(([0, 0, 0], [1, 2, 3], [7201, 0, 0], [0, 7200, 0], [0, 0, 3601],
                    [3600, 0, 0], [2400, 2400, 2401], [2400, 2401, 2401], [MOST, 1, 0],
                    [2 ** 63, 2 ** 63, 5]))
    together = min(sum(N), reference.MAX_SAMPLES)
    bounds = [min(MOST, top * n) for top, n in zip((600, 900, 3000), N)] + [together] * 6
    U, other = random_nox_sum(rng, together), random_nox_sum(rng, together)
    fields = (N + [rng.randint(0, bound) for bound in bounds]
              + [U, rng.choice((0, U, other, other, min(U + 1, nox_bounds(together)[1])))])
    k = rng.randrange(3, len(fields))
    if k < 12:
        bound = bounds[k - 3]
        fields[k] = rng.choice((bound, bound, bound, min(bound + 1, MOST)))
    else:
        low, high = nox_bounds(together)
        fields[k] = rng.choice((low, low, high, low - 1, high + 1))
    if rng.random() < 0.05:
        k = rng.randrange(len(fields))
        fields[k] = rng.choice((MOST, 2 ** 63) if k < 12 else SIGNED_ENDS)
    tally = reference.TALLY_LAYOUT.pack(*fields)
    return (tally + tally)[:rng.choice(BAD_TALLY_LENGTHS)] if rng.random() < 0.05 else tally


def written_text(answer):
    return 'bytes ' + answer.hex() if isinstance(answer, bytes) else answer_text(answer)


def tally_line(block, out_length):
    """One text line: the tally of a block."""
    answer = reference.tally_block(block, out_length)
    return 'tally %s %d -> %s\n' % (hex_text(block), out_length, written_text(answer))


def join_line(a, b, out_length):
    """One text line: the joining of two tallies."""
    answer = reference.join(a, b, out_length)
    return 'join %s %s %d -> %s\n' % (hex_text(a), hex_text(b), out_length, written_text(answer))


def band_blocks():
    """Blocks of one record with a value at each edge of each band, and with two that
    together tell the conditions apart."""
    airs = [dict(temperature=temperature, altitude=altitude)
            for pair in drives.AIRS + [((2700, 1000), (3050, 1000))] for temperature, altitude in pair]
    airs += [{field: value} for field, values in drives.BAND_VALUES.items() for value in values]
    return [plain(0, **air)[1] for air in airs]


def drift_blocks():
    """Blocks of one record, extended or not, with the least channel 6, the greatest and some
    beside zero; and of two, whose U and extended U are of different signs, or 0."""
    warm = drives.BANDS['warm']
    blocks = [plain(0, flow=flow, nox=nox, **air)[1] for air in ({}, warm)
              for flow, nox in ((20000, -50), (20000, 5000), (1, -1), (1, 1), (0, -50))]
    return blocks + [plain(0, flow=1, nox=other)[1] + plain(1, flow=1, nox=extended_U, **warm)[1]
                     for other, extended_U in ((3, -1), (-7, 5), (5, -5), (-5, 8), (-2, -1))]


def longest_drift_blocks():
    """Blocks of 7,201 records with the least channel 6 and with the greatest, extended or not."""
    return [drives.block_of(drives.drive_of([0] * reference.MAX_SAMPLES, flow=20000, nox=nox, **air))
            for nox in reference.RANGES['nox'] for air in ({}, drives.BANDS['warm'])]


def named_tallies():
    """Blocks of no record, of one, of 7,201 and 7,202, of damaged lengths, with a value at each
    edge of each range and of each band, with NOx below zero, and with several refusals at once."""
    drive = drives.block_of(drives.clean_drive(7200)) + drives.block_of(drives.drive_of([500, 3000]))
    one = drive[:16]
    first = reference.decode_sample(one)
    bad = reference.encode_sample(first._replace(speed=3001))
    blocks = [b'', one, drive[:16 * 7201], drive, drive[:16 * 7201] + b'x', drive + b'x',
              drive[:16 * 7200] + bad, drive[:16 * 7201] + bad, bad, one + bad, bad + one]
    blocks += [one[:n] for n in range(1, 16)] + [one * 2 + one[:n] for n in (1, 8, 15)]
    for field in reference.RANGES:
        for values in field_edges(field):
            for value in values:
                blocks.append(reference.encode_sample(first._replace(**{field: value})))
    blocks += [with_nox_bytes(one, pattern) for pattern in NOX_PATTERNS]
    blocks += band_blocks() + [b''.join(band_blocks()), drives.block_of(drives.summer_drive())]
    blocks += drift_blocks() + [b''.join(drift_blocks()), drives.block_of(drives.drifting_drive())]
    blocks += longest_drift_blocks()
    lengths = [(block, TALLY_LENGTH) for block in blocks]
    lengths += [(block, n) for block in (b'', one, bad, b'x', drive) for n in BAD_TALLY_LENGTHS]
    return [tally_line(block, n) for block, n in lengths]


def bound_tally(samples, end=1):
    """The tally of so many motorway samples with every number at its bound, U and extended U
    at their greatest or, for an end of 0, at their least."""
    U = nox_bounds(samples)[end]
    return tally_of((0, 0, samples), (0, 0, 3000 * samples), samples, U, U)


def extended_tallies(*amounts):
    """Tallies of one sample with a U of 7 and these amounts of extended U."""
    return [tally_of((1, 0, 0), (500, 0, 0), 0, 7, amount) for amount in amounts]


def extended_join_cases():
    """Two tallies and the output's length: extended U below U, at it and above it, in either
    tally; every bound reached; 13, and 11 before it."""
    half, more, full = (bound_tally(n) for n in (3600, 3601, 7201))
    some, at, above = extended_tallies(3, 7, 8)
    pairs = [(at, some), (half, more), (above, at), (at, above), (above, full), (full, at)]
    return ([(a, b, TALLY_LENGTH) for a, b in pairs]
            + [(a, at, TALLY_LENGTH - 8) for a in (some, above, full)])


def signed_tally(samples, U, extended_U):
    """A tally of so many samples of a car that stands."""
    return tally_of((samples, 0, 0), (0, 0, 0), 0, U, extended_U)


def bounded_tallies(samples):
    """Tallies of so many samples with U and extended U each at a bound."""
    ends = nox_bounds(samples)
    return [signed_tally(samples, U, extended_U) for U in ends for extended_U in ends]


def unbounded_tallies(samples, *beyond):
    """Ill-formed ones with U or extended U, the other one being 0, one beyond a bound or at
    these numbers."""
    low, high = nox_bounds(samples)
    return [signed_tally(samples, *pair) for far in beyond or (low - 1, high + 1)
            for pair in ((far, 0), (0, far))]


# U and extended U of two tallies: sums of different signs, 0, and extended U above U.
SIGNED_SUMS = [((-7, 0), (9, 0)), ((7, -3), (-7, 3)), ((-1, 0), (0, 1)), ((2, 5), (-4, 6)),
               ((-1000000, 100000000), (100000000, -1000000)), ((-1, -1), (-1, -1))]


def signed_join_cases():
    """R-6: U and extended U at each bound, one beyond it and at the ends of an i64, beside a
    tally of 0; sums of different signs; every lower bound reached; 12 after 11 and before 13,
    and 13."""
    zero, one = bytes(TALLY_LENGTH), signed_tally(1, -1, 1)
    half, more, full = (bound_tally(n, 0) for n in (3600, 3601, 7201))
    tallies = [tally for samples in (0, 1, 7201) for tally in
               bounded_tallies(samples)[:4 if samples else 1] + unbounded_tallies(samples)]
    tallies += unbounded_tallies(1, *SIGNED_ENDS)
    pairs = [(tally, zero) if k % 2 else (zero, tally) for k, tally in enumerate(tallies)]
    pairs += [(signed_tally(1, *a), signed_tally(1, *b)) for a, b in SIGNED_SUMS]
    pairs += [(half, more), (half, bound_tally(3601)), (full, one), (one, full), (full, full)]
    ill = unbounded_tallies(7201)[:2]
    pairs += [pair for bad in ill for pair in ((bad, full), (full, bad))]
    return ([(a, b, TALLY_LENGTH) for a, b in pairs]
            + [(a, one, TALLY_LENGTH - 8) for a in (one, ill[0], full)])


def join_cases():
    """These, and every pair of some tallies, ill-formed ones, other lengths, and several
    refusals at once."""
    good = [bound_tally(n) for n in (0, 3600, 3601, 7201)] + extended_tallies(3, -8, 8, 7)
    good += [bound_tally(n, 0) for n in (3600, 3601, 7201)] + bounded_tallies(1)
    at, full = extended_tallies(7)[0], bound_tally(7201)
    ill = [tally for samples in (0, 1, 7201) for tally in
           unbounded_tallies(samples) + unbounded_tallies(samples, *SIGNED_ENDS)]
    pairs = [(a, b) for a in good for b in good]
    pairs += [pair for bad in ill for b in (at, full, bad) for pair in ((bad, b), (b, bad))]
    for n in BAD_TALLY_LENGTHS:
        pairs += [((at + at)[:n], at), (at, (at + at)[:n])]
    return (extended_join_cases() + signed_join_cases() + [(a, b, TALLY_LENGTH) for a, b in pairs]
            + [(a, at, n) for n in BAD_TALLY_LENGTHS for a in (at, ill[0], full)])


def named_joins():
    return [join_line(*case) for case in join_cases()]


def tally_case(rng):
    """One text line: a tally of a block, or a joining of two tallies."""
    out_length = random_out_length(rng)
    if rng.random() < 0.4:
        return tally_line(random_block(rng), out_length)
    return join_line(random_tally(rng), random_tally(rng), out_length)


# --- Text --------------------------------------------------------------------

def hex_text(record):
    return record.hex() or '-'


def call_text(call):
    if call[0] in ('declare', 'sample'):
        return '%s %s' % (call[0], hex_text(call[1]))
    return ' '.join(str(part) for part in call)


def answer_text(answer):
    if answer[0] == 'verdict':
        return 'verdict %08x %d %d' % answer[1:]
    return '%s %d' % answer


def list_text(name, calls, answers):
    lines = ['%s -> %s' % (call_text(c), answer_text(a)) for c, a in zip(calls, answers)]
    return '\n'.join(['list ' + name.replace(' ', '-')] + lines + ['end', ''])


def followed(lists):
    """Each call of the lists, its answer, and the trip's windows and samples before it."""
    for calls, answers in lists:
        windows, samples = [], []
        for call, answer in zip(calls, answers):
            yield call, answer, windows, samples
            if answer[0] == 'refused':
                continue
            if call[0] == 'clear':
                windows, samples = [], []
            if call[0] == 'declare':
                windows.append(reference.decode_window(call[1]))
            if call[0] == 'sample':
                samples.append(reference.decode_sample(call[1]))


def coverage(lists):
    """What a set of lists reaches: (call kind, refusal number or 0), and for an
    accepted read also (function, 'negative' or 'positive')."""
    reached = {}
    for call, answer, windows, _ in followed(lists):
        kind = (call[0], answer[1] if answer[0] == 'refused' else 0)
        reached[kind] = reached.get(kind, 0) + 1
        if kind == ('read', 0):
            sign = 'negative' if answer[1] < 0 else 'positive'
            key = (windows[call[1]].function, sign)
            reached[key] = reached.get(key, 0) + 1
    return reached


def judged_trips(lists):
    """Of each verdict on samples: these samples."""
    return [list(samples) for call, _, _, samples in followed(lists)
            if call[0] == 'verdict' and samples]


def number_sign(number):
    return (number > 0) - (number < 0)


def read_signs(lists):
    """Of each number that is read: the function, the channel and the number's sign."""
    return {(windows[call[1]].function, windows[call[1]].channel, number_sign(answer[1]))
            for call, answer, windows, _ in followed(lists)
            if call[0] == 'read' and answer[0] == 'number'}


def condition_signs(lists):
    """Of each reading under a condition that some of the samples looked at meet and some don't:
    its channel and the signs of low and high."""
    met = set()
    for call, answer, windows, samples in followed(lists):
        if call[0] == 'read' and answer != ('refused', 9):
            window = windows[call[1]]
            seen = reference.looked_at(window, samples)
            if 0 < len(reference.qualifying_values(window, samples)) < len(seen):
                met.add((window.condition, number_sign(window.low), number_sign(window.high)))
    return met


def averaged(lists):
    """Of each average that is read: the sum and the count of the qualifying values."""
    means = []
    for call, answer, windows, samples in followed(lists):
        if call[0] == 'read' and answer[0] == 'number':
            window = windows[call[1]]
            if window.function == reference.AVERAGE:
                values = reference.qualifying_values(window, samples)
                means.append((sum(values), len(values)))
    return means


def parsed_options():
    parser = argparse.ArgumentParser(description='Write random lists of calls with their answers.')
    parser.add_argument('--lists', type=int, default=100, help='random lists')
    parser.add_argument('--seed', type=int, default=1)
    parser.add_argument('--max-calls', type=int, default=40)
    parser.add_argument('--max-samples', type=int, default=20)
    parser.add_argument('--long', type=int, default=0, help='lists of many samples, 16 windows')
    parser.add_argument('--long-samples', type=int, default=2000)
    parser.add_argument('--verdicts', type=int, default=0, help='random drives of 60 to 400 samples')
    parser.add_argument('--reads', type=int, default=0,
                        help='lists that read every window after every sample')
    parser.add_argument('--tallies', type=int, default=0, help='tallies of blocks and joinings')
    parser.add_argument('--named', action='store_true', help='the fixed lists too')
    parser.add_argument('--averages', action='store_true',
                        help='every average after every sample too, at counts of 1 to 600')
    parser.add_argument('--trips', action='store_true',
                        help='the clean, the exceeded, the downhill, the summer, the drifting and the '
                             'full drive too')
    parser.add_argument('--drives', action='store_true',
                        help='these and the edge drives too (large)')
    parser.add_argument('--steps', action='store_true',
                        help='short drives with one accelerating sample of a class, at each place but the last, '
                             'and the short edge drives of rules 15 to 17')
    return parser.parse_args()


def fixed_lists(options):
    """The fixed lists that the options ask for, with their names."""
    if options.named:
        yield from named_lists().items()
    if options.averages:
        yield 'averages', average_counts_list()
        yield 'averages-great', average_great_list()
    if options.trips or options.drives:
        yield from trip_lists()
    if options.drives:
        yield from edge_drive_lists(drives.all_edges())
    if options.steps:
        counted = [edge for edge in drives.accelerating_edges() if not edge.whole]
        yield from edge_drive_lists(drives.step_edges() + counted)


def main():
    options = parsed_options()
    rng = random.Random(options.seed)
    write = sys.stdout.write
    for name, (calls, answers) in fixed_lists(options):
        write(list_text(name, calls, answers))
    for k in range(options.lists):
        write(list_text('random-%d' % k, *random_list(rng, options.max_calls, options.max_samples)))
    for k in range(options.long):
        write(list_text('long-%d' % k, *long_list(rng, options.long_samples)))
    for k in range(options.verdicts):
        make = verdict_each_list if k % 5 == 4 else verdict_list
        write(list_text('drive-%d' % k, *make(rng, rng.randint(60, 400))))
    for k in range(options.reads):
        windows = (16, 1, 2, 6)[k % 4]
        samples = 1300 if k == 0 else rng.randint(5, 40)
        write(list_text('reads-%d' % k, *read_each_list(rng, samples, windows)))
    if options.tallies:
        for line in named_tallies() + named_joins():
            write(line)
    for _ in range(options.tallies):
        write(tally_case(rng))


if __name__ == '__main__':
    main()
