"""Writes the recorded example drives: sample records of 16 bytes, one a second.

Run: python3 examples/drives/make.py [FOLDER]

They go to FOLDER, else to the folder of this file.

clean.drive      90 minutes of town, country and motorway in the shares of Annex IIIA, which break no rule
exceeded.drive   the same drive with NOx above 80 mg/km
summer.drive     the exceeded drive at 302.5 to 306.5 K: from 303.1 K on its NOx weighs five eighths, and it is clean
fast.drive       the clean drive with one second above 160 km/h, which breaks rule 11
downhill.drive   the clean drive from a hill down into a valley 300 m below, which breaks rule 21
drift.drive      the clean drive with NOx of 145 ppm while the car gets faster and of 0 at other times, as read by an analyser whose
                 zero drifts slowly from -36 to 36 ppm and back; it is clean with 75 mg/km, and with readings below zero clipped to 0
                 it would be exceeded with 86
short.drive      the first 20 minutes of the clean drive, which breaks rule 0 and others
plausible.drive  the clean drive with CO2 that follows the speed, some 200 to 240 g/km over 1.3 kg of it; the others have 2000 mg/s

The speed profile is that of tests/reckoning/drives.py: a town part with stops and a mean of 25 km/h, then swings between
65.0 and 85.1 km/h, then between 101.0 and 119.1 km/h, each part of more than 20 km.
"""

import argparse
import os
import sys

HERE = os.path.dirname(os.path.abspath(__file__))
sys.path.insert(0, os.path.join(HERE, '..', '..', 'tests', 'reckoning'))

import co2  # noqa: E402
import drives  # noqa: E402
import reference  # noqa: E402


def with_following_co2(drive):
    amounts = co2.following_co2([sample.speed for sample in drive])
    return [sample._replace(co2=amount) for sample, amount in zip(drive, amounts)]


def zero_at(second):
    """The analyser's zero in ppm: from 0 down to -36, up to 36 and back to 0 in 18 minutes. It is 0 in the mean."""
    return (2 * abs((second + 270) % 1080 - 540) + 7) // 15 - 36


def with_drifting_nox(drive):
    before = drive[:1] + drive[:-1]
    return [sample._replace(nox=zero_at(sample.second) + 145 * (sample.speed > last.speed)) for sample, last in zip(drive, before)]


def with_clipped_nox(drive):
    return [sample._replace(nox=max(sample.nox, 0)) for sample in drive]


def main():
    parser = argparse.ArgumentParser(description=__doc__, formatter_class=argparse.RawDescriptionHelpFormatter)
    parser.add_argument('folder', nargs='?', default=HERE, help='where the drives go; else beside this file')
    folder = parser.parse_args().folder
    clean = drives.clean_drive()
    top = max(range(len(clean)), key=lambda k: clean[k].speed)
    drift = with_drifting_nox(clean)
    assert reference.verdict_of(drift) == ('verdict', 0, 0, reference.FINDING_CLEAN)
    assert reference.verdict_of(with_clipped_nox(drift)) == ('verdict', 0, 1, reference.FINDING_EXCEEDED)
    recorded = {
        'clean': clean,
        'exceeded': drives.exceeded_drive(),
        'fast': drives.changed(clean, top, speed=1601),
        'summer': drives.summer_drive(),
        'downhill': drives.downhill_drive(),
        'drift': drift,
        'short': clean[:1200],
        'plausible': with_following_co2(clean),
    }
    for name, drive in recorded.items():
        with open(os.path.join(folder, name + '.drive'), 'wb') as file:
            file.write(drives.block_of(drive))


if __name__ == '__main__':
    main()
