"""compare.py PROGRAM: gives lists of calls as bytes to the program `vectors`,
which replays them on the state area, and compares the answers that it writes,
byte for byte, with the outside reckoning's.  The last line is 'N passed, M
failed'.

compare.py --files FOLDER: writes the lists that `rt ci` runs the program on,
and what it must write, as the files stdin and stdout of the folder.

A call is a kind, a length of eight bytes and as many bytes; an answer is nine bytes: what it
is, then its numbers, little-endian (crates/script/specs, crates/answers/specs).
"""

import os
import random
import struct
import subprocess
import sys

HERE = os.path.dirname(os.path.abspath(__file__))
sys.path.insert(0, os.path.join(HERE, '..', 'reckoning'))

import drives  # noqa: E402
import generate  # noqa: E402
import reference  # noqa: E402

CLEAR = (('clear',), ('number', 0))
ROOM = 131072 // 9    # answers that the program has room for


def entry(kind, record):
    return bytes([kind]) + struct.pack('<Q', len(record)) + record


def call_bytes(call):
    record = b''
    if call[0] in ('declare', 'sample'):
        record = call[1]
    if call[0] == 'read':
        record = struct.pack('<I', call[1])
    return entry(reference.KINDS.index(call[0]), record)


def answer_bytes(answer):
    if answer[0] == 'number':
        return struct.pack('<Bq', 0, answer[1])
    if answer[0] == 'refused':
        return struct.pack('<BQ', 1, answer[1])
    _, mask, exceeded, finding = answer
    return struct.pack('<BIB', 2, mask, exceeded) + struct.pack('<I', finding)[:3]


def script_of(calls):
    return b''.join(call_bytes(call) for call in calls)


def answers_of(answers):
    return b''.join(answer_bytes(answer) for answer in answers)


def after_clear(calls, answers):
    return [CLEAR[0]] + calls, [CLEAR[1]] + answers


def lists():
    """Triples of a name, a list of calls and its answers."""
    rng = random.Random(21)
    for name, (calls, answers) in generate.named_lists().items():
        yield (name,) + after_clear(calls, answers)
    for k in range(200):
        yield ('random list %d' % k,) + after_clear(*generate.random_list(rng))
    for k in range(4):
        yield ('long list %d' % k,) + after_clear(*generate.long_list(rng, 1500))
    yield ('averages at every count',) + after_clear(*generate.average_counts_list())
    yield ('averages of great sums',) + after_clear(*generate.average_great_list())
    for k in range(10):
        yield ('verdicts %d' % k,) + after_clear(*generate.verdict_each_list(rng, 120))
    for name, drive in (('clean', drives.clean_drive()), ('exceeded', drives.exceeded_drive()), ('downhill', drives.downhill_drive()),
                        ('summer', drives.summer_drive()), ('drifting', drives.drifting_drive())):
        yield (name + ' drive',) + after_clear(*generate.drive_list(drive))
    for edge in drives.extended_edges() + drives.drift_edges():
        for side, drive in (('kept', edge.kept), ('broken', edge.broken)):
            yield ('%s, %s' % (edge.name, side),) + after_clear(*generate.drive_list(drive))


def main():
    if sys.argv[1] == '--files':
        named = generate.named_lists()
        made = [after_clear(*generate.random_list(random.Random(3), 40, 20)),
                after_clear(*named['extended-once']), after_clear(*named['average-pairs']),
                after_clear(*named['drift-over-zero']), after_clear(*named['drift-average-6'])]
        for name, data in (('stdin', b''.join(script_of(calls) for calls, _ in made)),
                           ('stdout', b''.join(answers_of(answers) for _, answers in made))):
            with open(os.path.join(sys.argv[2], name), 'wb') as file:
                file.write(data)
        return 0
    program = os.path.abspath(sys.argv[1])
    passed = failed = 0

    def compared(name, script, expected, error=b''):
        nonlocal passed, failed
        done = subprocess.run([program], input=script, capture_output=True, timeout=60)
        if (done.stdout, done.stderr, done.returncode) == (expected, error, 0):
            passed += 1
        else:
            failed += 1
            print('%s: %d bytes expected, %d written' % (name, len(expected), len(done.stdout)))

    for name, calls, answers in lists():
        script, expected = script_of(calls), answers_of(answers)
        compared(name, script, expected)
    # what is left of a call at the end is no call; at an unknown kind the script ends; past the room no call is made
    script, expected = script_of(calls), answers_of(answers)
    for extra in (entry(0, b'')[:1], entry(0, b'')[:8], entry(2, bytes(16))[:-1], b'\x02' + b'\xff' * 8 + bytes(16)):
        compared('%d bytes of a call' % len(extra), script + extra, expected)
    unknown = b'vectors: the script ends at a call of an unknown kind\n'
    for kind in (len(reference.KINDS), 200, 255):
        compared('kind %d' % kind, script + entry(kind, bytes(4)) + script_of([('verdict',), CLEAR[0]]), expected, unknown)
    long = [('sample', bytes(255)), ('sample', bytes(256)), ('declare', bytes(70000))]
    compared('long records', script_of([CLEAR[0]] + long), answers_of([CLEAR[1]] + [('refused', 1)] * 3))
    compared('never cleared', script_of([('verdict',), ('close',), ('read', 0)]), answers_of([('refused', 255)] * 3))
    compared('nothing', b'', b'')
    compared('more calls than room', script_of([CLEAR[0]] * (ROOM + 9)), answers_of([CLEAR[1]] * ROOM))
    print('%d passed, %d failed' % (passed, failed))
    return failed != 0


if __name__ == '__main__':
    sys.exit(main())
