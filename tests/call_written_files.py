#!/usr/bin/env python3
"""Calls mealbis_write of the library, over its C interface, and compares each file, byte for byte, with that of tests/reference.py.

    python3 tests/call_written_files.py [--library PATH] [--seed NUMBER]

Builds libmealbis.a and a shared library of it, target/shared/libmealbis.so; or takes another shared library. Of every call it compares the
answer, the record (bytes, place), the whole buffer of the file and the recordings, with guards before and behind each. What is written goes through
mealbis_read, which must return the input; and files of the reference go through mealbis_read and back through mealbis_write.

The last line is 'N passed, 0 failed'. Exit status 1 where something differs.
"""
import array
import itertools
import sys

from library import (BAD_LENGTHS, OUT, Calls, Mapped, Record, every_set, first, held, in_memory, lengths_up_to, lent_bytes, lent_samples,
                     lent_words, mealbis, run)
from reference import LARGEST_SAMPLE, LENGTHS, MOST_FILE_SAMPLES, file_size, write_pair_file

ORDER = (8, 11, 1, 6, 3)            # in which mealbis_write tests


# --- calls -------------------------------------------------------------------------

class FileCalls(Calls):
    """Calls of the writer and the reader."""

    def __init__(self, library, rng):
        super().__init__(library, rng)
        self.write_function, self.read_function = self.function("mealbis_write"), self.function("mealbis_read")

    def write(self, name, a, b, length, size, number):
        """mealbis_write on a buffer of this size; it must answer as the reference, and the reference by this number. The bytes in front then."""
        answer = write_pair_file(a, b, length, size)
        if answer.refusal != number:
            self.add(name, ["the reference answers %d, and %d is expected" % (answer.refusal, number)])
        lent_a = lent_samples("a", a)
        lent_b = lent_a if b is a else lent_samples("b", b)
        file = lent_bytes(self.rng, "the file", self.rng.randbytes(size))
        file.expect(answer.data)
        record = Record(self.rng, mealbis.WriteAnswer, bytes=len(answer.data), place=answer.place or 0)
        self.compare(name, self.write_function, (lent_a, lent_b, length, file, record), answer.refusal)
        return file.front(len(answer.data))

    def read(self, name, data, a, b, length, spare):
        """mealbis_read of an accepted file into recordings with spare words: it must return this input. Recordings and length as returned."""
        m = len(a)
        file = lent_bytes(self.rng, "the file", data)
        recordings = [lent_words(self.rng, which, 4, m + spare) for which in "ab"]
        for recording, wanted in zip(recordings, (a, b)):
            recording.expect(in_memory("i", wanted))
        record = Record(self.rng, mealbis.ReadAnswer, samples=m, length=length, place=0)
        self.compare(name, self.read_function, (file, *recordings, record), 0)
        return [list(array.array("i", recording.front(4 * m))) for recording in recordings], record.now().length

    def round_trip(self, name, a, b, length, more):
        """An accepted input written to a buffer with so many bytes more, and read again."""
        written = self.write(name, a, b, length, file_size(len(a)) + more, 0)
        self.read(name + ", read again", written, a, b, length, self.rng.choice((0, 1, 7)))


# --- accepted inputs ---------------------------------------------------------------

NEAR = (0, 127, 128, 255, 256, 32767, 32768, 65535, 65536, LARGEST_SAMPLE - 1, LARGEST_SAMPLE)     # most are near a change of a byte
KINDS = (range(-LARGEST_SAMPLE, LARGEST_SAMPLE + 1), (-LARGEST_SAMPLE, LARGEST_SAMPLE), range(-3, 4), NEAR + tuple(-number for number in NEAR))


def samples(rng, m):
    """A recording: of the whole range, of its ends, of small numbers or of those near a change."""
    return rng.choices(rng.choice(KINDS), k=m)


def check_sizes(calls):
    """Every length with each m near the ends and some between; buffers longer by nothing, one byte or some."""
    rng = calls.rng
    between = sorted(rng.sample(range(41, 4060), 40))
    for m, length in itertools.product([*range(1, 41), *between, *range(4060, MOST_FILE_SAMPLES + 1)], LENGTHS):
        more = rng.choice((0, 0, 1, 2, 3, 4, 7, 8, 9, 100))
        calls.round_trip("m %d, N %d, %d bytes more" % (m, length, more), samples(rng, m), samples(rng, m), length, more)
    for more in (*range(20), 4096, 100_000):
        calls.round_trip("m 3, %d bytes more" % more, samples(rng, 3), samples(rng, 3), 2, more)


def check_every_sample(calls):
    """Every number that a sample can be, once in a and once in b."""
    every = range(-LARGEST_SAMPLE, LARGEST_SAMPLE + 1)
    for at in range(0, len(every), MOST_FILE_SAMPLES):
        a = list(every[at:at + MOST_FILE_SAMPLES])
        calls.round_trip("samples from %d to %d" % (a[0], a[-1]), a, [-sample for sample in a], calls.rng.choice(LENGTHS), 5)


def check_known(calls):
    """The file of document 01's example, and one recording lent as both."""
    written = calls.write("document 01", [3, 1], [0, 2], 2, 24, 0)
    known = bytes([2, 0, 0, 0, 2, 0, 0, 0, 3, 0, 0, 0, 1, 0, 0, 0, 0, 0, 0, 0, 2, 0, 0, 0])
    calls.add("document 01, by hand", [None if written == known else "%r and not %r" % (written, known)])
    for m in (1, 2, 100, MOST_FILE_SAMPLES):
        both = samples(calls.rng, m)
        calls.round_trip("a and b one recording of %d" % m, both, both, 8, 3)


def check_read_and_written(calls, count=300):
    """Files of the reference, read by the library and written by it again: the same bytes."""
    rng = calls.rng
    for i in range(count):
        m, length = rng.choice((rng.randint(1, 60), rng.randint(1, MOST_FILE_SAMPLES))), rng.choice(LENGTHS)
        a, b = samples(rng, m), samples(rng, m)
        data = write_pair_file(a, b, length, file_size(m)).data
        name = "file %d, m %d, N %d" % (i, m, length)
        (a, b), length = calls.read(name, data, a, b, length, 2)
        again = calls.write(name + ", written again", a, b, length, len(data), 0)
        calls.add(name + ", the same", [None if again == data else "the bytes differ"])


# --- refusals ----------------------------------------------------------------------

def holding(a, b, length, size):
    """The conditions that hold, whatever the others do, in their order."""
    m = len(a)
    return held(ORDER, {8: m == 0 or m > 4096, 11: len(b) != m, 1: length not in LENGTHS,
                        6: any(abs(sample) > 1_000_000 for sample in itertools.chain(a, b)), 3: size < 8 + 8 * m})


def broken(rng, numbers):
    """Inputs with the numbered conditions made to hold: a few samples or many, b shorter or longer, a sample out of range in a, b or both."""
    counts = (0, 4097) if 8 in numbers else (1, 9, 4096)
    apart = (-1, 1, -9, 4096) if 11 in numbers else (0,)
    where = ("a", "b", "ab") if 6 in numbers else ("",)
    for m, more, spoils in itertools.product(counts, apart, where):
        pair = {"a": samples(rng, m), "b": samples(rng, max(0, m + more))}
        for name in spoils:
            if pair[name]:
                pair[name][rng.randrange(len(pair[name]))] = rng.choice(OUT)
        short = [size for size in (0, 7, 8, 8 * m, 8 * m + 7) if size < 8 + 8 * m]
        size = rng.choice(short) if 3 in numbers else 8 + 8 * m + rng.choice((0, 1, 50))
        yield pair["a"], pair["b"], rng.choice(BAD_LENGTHS if 1 in numbers else LENGTHS), size


def check_refusals(calls):
    """Each refusal alone and every set of them together: the earliest wins."""
    met, sets = set(), every_set(ORDER)
    for numbers in sets:
        for a, b, length, size in broken(calls.rng, numbers):
            together = holding(a, b, length, size)
            met.add(together)
            name = "refusals %s, recordings of %d and %d, N %d, %d bytes" % (together, len(a), len(b), length, size)
            calls.write(name, a, b, length, size, first(together))
    calls.require(sets, met)


def check_places(calls):
    """Samples out of range at the first, the last and the middle place, in a, in b and in both: all of a before b."""
    for m, out in itertools.product((1, 2, 3, 9, MOST_FILE_SAMPLES), OUT):
        good = samples(calls.rng, m)
        bad = {place: good[:place] + [out] + good[place + 1:] for place in (0, m // 2, m - 1)}
        for place in bad:
            name = "%d at %d of %d, in " % (out, place, m)
            calls.write(name + "a", bad[place], good, 4, file_size(m), 6)
            calls.write(name + "b", good, bad[place], 4, file_size(m), 6)
            for other in bad:
                calls.write(name + "a, and at %d in b" % other, bad[place], bad[other], 4, file_size(m), 6)
    for edge in (-LARGEST_SAMPLE, LARGEST_SAMPLE):
        calls.round_trip("all samples %d" % edge, [edge] * 9, [-edge] * 9, 4, 0)


def check_lengths(calls):
    """Every block length up to 2,100 and some far ones: the eleven are accepted."""
    for length in lengths_up_to(2100):
        calls.write("N %d" % length, [5], [-5], length, 20, 0 if length in LENGTHS else 1)


def check_counts(calls):
    """Recordings of none or too many samples, and of two lengths."""
    for m in (0, 4097, 4098, 5000, 8192, 65536, 65537, 65540):
        for other in (m, 0, 1, 4, 4096, m + 1):
            calls.write("recordings of %d and %d" % (m, other), [1] * m, [2] * other, 4, 2 ** 20, 8)
    for m in (1, 4, 4096):
        for other in (0, m - 1, m + 1, m + 256, m + 65536):
            calls.write("recordings of %d and %d" % (m, other), [1] * m, [2] * other, 4, 2 ** 16, 11)
        for size in (0, 1, 4, 7, 8, 8 + 4 * m, 8 * m, 8 * m + 7):
            calls.write("%d samples, %d bytes" % (m, size), [1] * m, [2] * m, 4, size, 3)


def check_far_sizes(calls):
    """Recordings of more than 2^32 words, and a file of more than 2^32 bytes: no size is cut to 32 bits."""
    far, few = 2 ** 32 + 4, [1, -2, 3, -4]
    words, file = Mapped("the far recording", 4, far), Mapped("the far file", 1, 2 ** 32 + 8)
    for a, b, number in ((words, words, 8), (words, lent_samples("b", few), 8), (lent_samples("a", few), words, 11)):
        lent = lent_bytes(calls.rng, "the file", calls.rng.randbytes(100))
        name = "recordings of %d and %d" % (a.count, b.count)
        calls.compare(name, calls.write_function, (a, b, 4, lent, Record(calls.rng, mealbis.WriteAnswer, bytes=0, place=0)), number)
    answer = write_pair_file(few, few, 4, file.count)
    file.expect(answer.data)
    given = lent_samples("a", few), lent_samples("b", few), 4, file, Record(calls.rng, mealbis.WriteAnswer, bytes=40, place=0)
    calls.compare("a file of %d bytes" % file.count, calls.write_function, given, 0)


CHECKS = (check_known, check_sizes, check_every_sample, check_read_and_written, check_refusals, check_places, check_lengths,
          check_counts, check_far_sizes)


if __name__ == "__main__":
    sys.exit(run(FileCalls, CHECKS, __doc__))
