#!/usr/bin/env python3
"""Runs the program pairspec on many files and compares each output, byte for byte, with tests/reference.py.

    python3 tests/run_pairspec.py [--program PATH] [--seed NUMBER] [--random COUNT]

The last line is 'N passed, 0 failed'. Exit status 1 where an output differs.
"""
import argparse
import itertools
import random
import struct
import subprocess
import sys
import time

from reference import LENGTHS, LARGEST_SAMPLE, MOST_FILE_SAMPLES, pairspec

PROGRAM = "crates/pairspec/out/pairspec"
LARGEST = 2 ** 31 - 1
SMALLEST = -2 ** 31


def pair_file(a, b, N, m=None):
    """The bytes of a pair file; m may be given wrong."""
    m = len(a) if m is None else m
    return struct.pack("<II", m, N) + struct.pack("<%di" % (len(a) + len(b)), *a, *b)


def samples(rng, m):
    return [rng.randint(-LARGEST_SAMPLE, LARGEST_SAMPLE) for _ in range(m)]


def patterns(rng, m):
    """Recordings of m samples that stress the transforms."""
    top = LARGEST_SAMPLE
    yield "top", [top] * m
    yield "bottom", [-top] * m
    yield "alternating", [top if n % 2 == 0 else -top for n in range(m)]
    yield "one large", [top if n == m // 2 else 0 for n in range(m)]
    yield "step", [-top if n < m // 2 else top for n in range(m)]
    yield "random", samples(rng, m)


def document_example():
    data = pair_file([3, 1], [0, 2], 2)
    assert pairspec(data) == b"block k re im\n0 0 4 2\n0 1 2 -2\n"
    yield "the document's example", data


def lengths(rng):
    """Every length, with no block, one, several, and a tail."""
    for N in LENGTHS:
        for m in sorted({1, N - 1, N, N + 1, 2 * N - 1, 2 * N, 2 * N + N // 2}):
            if 1 <= m <= MOST_FILE_SAMPLES:
                yield "N %d m %d" % (N, m), pair_file(samples(rng, m), samples(rng, m), N)


def stresses(rng):
    for N in (1, 2, 8, 64, 1024):
        m = N + N // 2 + 1
        kinds = list(patterns(rng, m))
        for (name_a, a), (name_b, b) in zip(kinds, kinds[2:] + kinds[:2]):
            yield "N %d a %s b %s" % (N, name_a, name_b), pair_file(a, b, N)


def sizes(rng):
    """The largest file, a byte more and a byte less, and sizes that the header denies."""
    m = MOST_FILE_SAMPLES
    a, b = samples(rng, m), samples(rng, m)
    for N in (1, 16, 1024):
        yield "largest N %d" % N, pair_file(a, b, N)
    largest = pair_file(a, b, 1024)
    for extra in (1, 2, 8, 9, 70000):
        yield "largest and %d bytes" % extra, largest + bytes(extra)
    yield "largest less a byte", largest[:-1]
    yield "more samples than allowed", pair_file(a + [0], b + [0], 1024)
    whole = pair_file(a[:5], b[:5], 4)
    for size in range(len(whole) + 10):
        yield "%d bytes" % size, (whole + bytes(10))[:size]
    for m in (0, 1, 4, 6, 4095, 4096, 4097, 65536, 2 ** 31, 2 ** 32 - 1):
        yield "m said to be %d" % m, pair_file(a[:5], b[:5], 4, m)


def bad_lengths(rng):
    a, b = samples(rng, 7), samples(rng, 7)
    for N in (0, 3, 5, 6, 7, 1023, 1025, 2048, 4096, 65537, 2 ** 24, 2 ** 31, 2 ** 32 - 1):
        yield "N %d" % N, pair_file(a, b, N)


def out_of_range(rng):
    """One sample out of range at each end of each recording, and beyond the blocks."""
    for value in (LARGEST_SAMPLE + 1, -LARGEST_SAMPLE - 1, LARGEST, SMALLEST):
        for which, place in itertools.product((0, 1), (0, 3, 4, 8)):
            pair = [samples(rng, 9), samples(rng, 9)]
            pair[which][place] = value
            yield "%d at %d of %s" % (value, place, "ab"[which]), pair_file(*pair, 4)
    for value in (LARGEST_SAMPLE, -LARGEST_SAMPLE):
        yield "%d" % value, pair_file([value] * 9, [-value] * 9, 4)


def pairs_of_refusals(rng):
    """Every two of the conditions that can hold together; those of a sample out of range for a and for b."""
    def made(conditions):
        m = 0 if "8 low" in conditions else 9
        said = 4097 if "8 high" in conditions else m
        N = 3 if "1" in conditions else 4
        pair = [samples(rng, m), samples(rng, m)]
        for which, name in enumerate(("6 a", "6 b")):
            if name in conditions and m:
                pair[which][m - 1] = LARGEST_SAMPLE + 1
        data = pair_file(*pair, N, said)
        if "9" in conditions:
            data += b"\0"
        return data[:7] if "7" in conditions else data
    kinds = ("7", "8 low", "8 high", "9", "1", "6 a", "6 b")
    for pair in itertools.combinations_with_replacement(kinds, 2):
        yield "refusals %s and %s" % pair, made(set(pair))


def random_files(rng, count):
    """Files of random sizes, and such files damaged in one to three places."""
    for i in range(count):
        N = rng.choice(LENGTHS[:8])
        m = rng.randint(1, 3 * N + 5)
        data = bytearray(pair_file(samples(rng, m), samples(rng, m), N))
        name = "random %d" % i
        if i % 2:
            name += ", damaged"
            for _ in range(rng.randint(1, 3)):
                how = rng.randrange(4)
                at = rng.randrange(len(data) + 1) if rng.randrange(2) else rng.randrange(min(len(data), 9) + 1)
                if how == 0:
                    data[at:at + 1] = bytes([rng.randrange(256)])
                elif how == 1:
                    del data[at:at + rng.randint(1, 9)]
                elif how == 2:
                    data[at:at] = rng.randbytes(rng.randint(1, 9))
                elif at < len(data):
                    data[at] ^= 1 << rng.randrange(8)
        yield name, bytes(data)


class Results:
    def __init__(self):
        self.passed = self.failed = 0

    def add(self, name, good, told=""):
        if good:
            self.passed += 1
        else:
            self.failed += 1
            print("pairspec: %s: FAILED %s" % (name, told))


def run(program, **streams):
    return subprocess.run([program], stdout=subprocess.PIPE, stderr=subprocess.PIPE, timeout=20, **streams)


def compare(results, program, files):
    for name, data in files:
        done = run(program, input=data)
        expected = pairspec(data)
        good = (done.stdout, done.stderr, done.returncode) == (expected, b"", 0)
        results.add(name, good, "wrote %r.., expected %r.., exit %d" % (done.stdout[:60], expected[:60], done.returncode))


def compare_streams(results, program):
    """Endless input, input in small pieces, no input at all, and output that cannot be written."""
    endless = subprocess.Popen(["yes"], stdout=subprocess.PIPE)
    done = run(program, stdin=endless.stdout)
    endless.kill()
    endless.communicate()
    results.add("endless input", done.stdout == b"refused 8\n", repr(done.stdout))
    with open("/dev/zero", "rb") as zeros:
        results.add("endless zeros", run(program, stdin=zeros).stdout == b"refused 8\n")
    data = pair_file(list(range(40)), list(range(40, 0, -1)), 8)
    slow = subprocess.Popen([program], stdin=subprocess.PIPE, stdout=subprocess.PIPE)
    for i in range(0, len(data), 37):
        slow.stdin.write(data[i:i + 37])
        slow.stdin.flush()
        time.sleep(0.005)
    results.add("input in pieces", slow.communicate()[0] == pairspec(data))
    closed = subprocess.run(["sh", "-c", '"$0" <&-', program], stdout=subprocess.PIPE, timeout=20)
    results.add("no input", closed.stdout == b"refused 7\n", repr(closed.stdout))
    full = subprocess.run(["sh", "-c", '"$0" > /dev/full', program], input=data, stderr=subprocess.PIPE, timeout=20)
    results.add("output that cannot be written", (full.stderr, full.returncode) == (b"", 0), repr(full))


def main():
    words = argparse.ArgumentParser(description=__doc__.split("\n")[0])
    words.add_argument("--program", default=PROGRAM)
    words.add_argument("--seed", type=int, default=20260911)
    words.add_argument("--random", type=int, default=1000, metavar="COUNT")
    words = words.parse_args()
    rng = random.Random(words.seed)
    print("pairspec: seed %d" % words.seed)
    results = Results()
    for files in (document_example(), lengths(rng), stresses(rng), sizes(rng), bad_lengths(rng),
                  out_of_range(rng), pairs_of_refusals(rng), random_files(rng, words.random)):
        compare(results, words.program, files)
    compare_streams(results, words.program)
    print("%d passed, %d failed" % (results.passed, results.failed))
    return 1 if results.failed else 0


if __name__ == "__main__":
    sys.exit(main())
