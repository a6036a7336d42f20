"""compare.py PROGRAM: runs the program `report` on inputs of every kind and
compares what it writes, byte for byte, with the outside reckoning (the same as
`python3 tests/reckoning/reference.py < input`).  The last line is 'N passed, M
failed'.
"""

import os
import pty
import random
import subprocess
import sys
import tempfile
import time
import tty

HERE = os.path.dirname(os.path.abspath(__file__))
sys.path.insert(0, os.path.join(HERE, '..', 'reckoning'))

import drives  # noqa: E402
import reference  # noqa: E402

PROGRAM = os.path.abspath(sys.argv[1])
SAMPLE_1700 = reference.Sample(second=0, speed=1700, altitude=100, temperature=2931, flow=0, nox=0, co2=0)
SAMPLE_1700_REPORT = b'samples 1\nbroken 00038cfd\nverdict rule 0\n'
EMPTY_REPORT = b'samples 0\nbroken 000384e1\nverdict rule 0\n'


def at_once(data):
    """The whole input in one pipe."""
    done = subprocess.run([PROGRAM], input=data, capture_output=True, timeout=60)
    return done.stdout, done.stderr, done.returncode


def in_pieces(data, lengths):
    """The input in pieces of these lengths, each given time to arrive alone."""
    run = subprocess.Popen([PROGRAM], stdin=subprocess.PIPE, stdout=subprocess.PIPE, stderr=subprocess.PIPE, bufsize=0)
    at = 0
    for length in lengths:
        run.stdin.write(data[at:at + length])
        at += length
        time.sleep(0.001)
    assert at >= len(data)
    out, err = run.communicate(timeout=60)
    return out, err, run.returncode


def from_file(data):
    """The input as a file on standard input, and as a file that is named."""
    with open(os.path.join('target', 'report-input'), 'wb+') as file:
        file.write(data)
        file.flush()
        file.seek(0)
        read = subprocess.run([PROGRAM], stdin=file, capture_output=True, timeout=60)
        named = subprocess.run([PROGRAM, file.name], stdin=subprocess.DEVNULL, capture_output=True, timeout=60)
    os.unlink(file.name)
    return [(done.stdout, done.stderr, done.returncode) for done in (read, named)]


def in_shell(command):
    """A shell command, in which $0 is the program, run in a folder of its own."""
    with tempfile.TemporaryDirectory() as folder:
        done = subprocess.run(['sh', '-c', command, PROGRAM], cwd=folder, stdin=subprocess.DEVNULL, capture_output=True, timeout=60,
                              env={**os.environ, 'LC_ALL': 'C'})
    return done.stdout, done.stderr, done.returncode


def broken_off(data):
    """The input by a terminal that is hung up: a read fails once the data is read."""
    ours, theirs = pty.openpty()
    tty.setraw(theirs)
    os.write(theirs, data)
    os.close(theirs)
    done = subprocess.run([PROGRAM], stdin=ours, capture_output=True, timeout=60, env={**os.environ, 'LC_ALL': 'C'})
    os.close(ours)
    return done.stdout, done.stderr, done.returncode


def messages():
    """Triples of a name, a shell command and the message on standard error, of runs that end with no report."""
    missing = b': No such file or directory\n'
    folder = b': Is a directory\n'
    closed = b': Bad file descriptor\n'
    usage = b'report: one file at most; report --help says more\n'
    yield 'a missing file', '"$0" missing', b'report: cannot open missing' + missing
    yield 'an empty name', '"$0" ""', b'report: cannot open ' + missing
    yield 'an unknown option', '"$0" --quiet', b'report: cannot open --quiet' + missing
    yield 'a name of 5,000 bytes', '"$0" %05000d' % 0, b"report: the file's name: File name too long\n"
    yield 'a folder by name', 'mkdir d; "$0" d', b'report: cannot read d' + folder
    yield 'a folder as standard input', '"$0" <.', b'report: cannot read standard input' + folder
    yield 'standard input closed', '"$0" <&-', b'report: cannot read standard input' + closed
    yield 'two files', 'touch a b; "$0" a b', usage
    yield 'help and a file', 'touch a; "$0" --help a', usage
    yield 'output to a full device', '"$0" >/dev/full', b'report: output not written: No space left on device\n'
    yield 'help to a full device', '"$0" --help >/dev/full', b'report: output not written: No space left on device\n'
    yield 'standard output closed', '"$0" >&-', b'report: output not written' + closed
    yield 'standard output closed, a file', 'touch a; "$0" a >&-', b'report: output not written' + closed


def plain(n):
    """n samples at one speed."""
    return drives.drive_of([300] * n)


def inputs():
    """Pairs of a name and an input."""
    one = drives.block_of([SAMPLE_1700])
    few = drives.block_of(plain(3))
    yield 'empty', b''
    yield 'the 1700 sample', one
    for extra in range(1, 16):
        yield 'three samples and %d bytes' % extra, few + drives.block_of(plain(4))[48:48 + extra]
    yield '5 bytes alone', one[:5]
    yield 'first second 1', drives.block_of([SAMPLE_1700._replace(second=1)])
    yield 'a second left out', drives.block_of(plain(9)[:4] + plain(9)[5:])
    yield 'a second twice', drives.block_of(plain(5) + plain(5)[4:])
    ranges = [('speed', 3001), ('altitude', -501), ('altitude', 5001), ('temperature', 1999), ('temperature', 3501),
              ('flow', 20001), ('nox', -51), ('nox', 5001), ('nox', -32768), ('nox', 32767), ('co2', 100001)]
    for field, value in ranges:
        yield '%s %d in the middle' % (field, value), drives.block_of(drives.changed(plain(99), 50, **{field: value}))
    for n in (7200, 7201, 7202, 8000):
        yield '%d samples' % n, drives.block_of(plain(n))
    for extra in (1, 5, 15, 17):
        yield '7201 samples and %d bytes' % extra, drives.block_of(plain(7203))[:7201 * 16 + extra]
    for n in (5399, 5400, 7200):
        yield 'clean drive of %d' % n, drives.block_of(drives.clean_drive(n))
        yield 'exceeded drive of %d' % n, drives.block_of(drives.exceeded_drive(n))
    yield 'summer drive', drives.block_of(drives.summer_drive())
    drifting = drives.drifting_drive()
    yield 'drifting drive', drives.block_of(drifting)
    yield 'drifting drive, clipped', drives.block_of([sample._replace(nox=max(sample.nox, 0)) for sample in drifting])
    for edge in (drives.length_edges() + drives.share_edges() + drives.short_share_edges() + drives.height_edges()
                 + drives.nox_edges() + drives.extended_edges() + drives.drift_edges()):
        yield edge.name + ', kept', drives.block_of(edge.kept)
        yield edge.name + ', broken', drives.block_of(edge.broken)
    chance = random.Random(11)
    for k in range(20):
        speeds = [chance.randrange(3001) for _ in range(chance.randrange(200))]
        yield 'random speeds %d' % k, drives.block_of(drives.drive_of(speeds, nox=chance.randrange(-50, 200)))
        yield 'random bytes %d' % k, bytes(chance.randrange(256) for _ in range(chance.randrange(60)))


def arrivals():
    """Triples of a name, an input and the lengths of the pieces that it comes in."""
    chance = random.Random(12)
    few = drives.block_of(plain(4))
    yield 'a byte at a time', few, [1] * len(few)
    yield 'a byte at a time, truncated', few[:-3], [1] * (len(few) - 3)
    yield 'a byte at a time, refused', few[:32] + few, [1] * (len(few) + 32)
    for k in range(5):
        data = drives.block_of(drives.clean_drive())
        lengths = []
        while sum(lengths) < len(data):
            lengths.append(chance.choice((1, 7, 15, 16, 17, 4095, 4096, 4097, chance.randrange(1, 9000))))
        yield 'a clean drive in odd pieces %d' % k, data, lengths


def main():
    passed = failed = 0

    def compared(name, got, expected):
        nonlocal passed, failed
        told = expected if isinstance(expected, tuple) else (expected, b'', 0)
        if got == told:
            passed += 1
        else:
            failed += 1
            print('%s: expected %r, got %r' % (name, expected, got))

    compared('the empty report of document 01', at_once(b''), EMPTY_REPORT)
    compared('the 1700 report of document 01', at_once(drives.block_of([SAMPLE_1700])), SAMPLE_1700_REPORT)
    for name, data in inputs():
        expected = reference.report(data)
        compared(name, at_once(data), expected)
        for way, got in zip((', from a file', ', by name'), from_file(data)):
            compared(name + way, got, expected)
    for name, data, lengths in arrivals():
        compared(name, in_pieces(data, lengths), reference.report(data))
    for name, command, message in messages():
        compared(name, in_shell(command), (b'', message, 0))
    for n in (0, 1, 100):
        message = b'report: cannot read standard input: Input/output error\n'
        compared('a read error after %d samples' % n, broken_off(drives.block_of(plain(n))), (b'', message, 0))
    out, err, status = in_shell('"$0" --help')
    words = [b'usage: report [FILE]', b'samples N', b'broken M', b'verdict rule R', b'verdict exceeded', b'verdict clean', b'refused R at K',
             b'exit status']
    compared('help', ([word for word in words if word in out], err, status), (words, b'', 0))
    print('%d passed, %d failed' % (passed, failed))
    return failed != 0


if __name__ == '__main__':
    sys.exit(main())
