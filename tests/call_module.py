#!/usr/bin/env python3
"""Calls the functions of bindings/python/mealbis.py and compares what they give, and what they raise, with tests/reference.py.

    python3 tests/call_module.py [--library PATH] [--seed NUMBER]

Builds libmealbis.a and a shared library of it, target/shared/libmealbis.so; or takes another shared library. The other scripts compare single calls
on lent memory; here it is tried that the module lends enough of everything, takes lists, `array` and, where it is installed, NumPy, gives back what
the library wrote, raises Refused with number and place, keeps the parties of a month apart, takes up no month of an earlier version, and finds the
library.

The last line is 'N passed, 0 failed'. Exit status 1 where something differs.
"""
import array
import ctypes
import doctest
import functools
import itertools
import os
import pickle
import shutil
import subprocess
import sys
import tempfile
from pathlib import Path

from library import BAD_LENGTHS, OUT, ROOT, Calls, lengths_up_to, mealbis, run
from reference import (LARGEST_SAMPLE, LENGTHS, MOST_BLOCKS, MONTH_WORDS, account, cosine_call, count_query, dct, inverse_call, largest_coefficient,
                       mark_call, month_add, month_begin, month_mark, month_sums, page_bytes, page_call, pair_call, scratch_words, spectrum,
                       spectrum_call, tallied_counts, write_pair_file)
from spectrum_calls import UNBOUNDED, just_enough, largest_blocks, out_of_range, placed, random_block

try:
    import numpy
except ImportError:
    numpy = None

PLENTY = 4096                       # words of each buffer for the reference
PARTIES = (1, 2)
UNKNOWN = (0, 3, 4, 1027, 2 ** 31, 2 ** 32, 2 ** 32 + 1, 2 ** 32 + 2, 2 ** 63 + 1, 2 ** 64 - 1)      # no parties


class ModuleCalls(Calls):
    """Calls of the module."""

    def equal(self, name, got, wanted):
        self.add(name, [None if got == wanted else "it gives %r.. and not %r.." % (str(got)[:200], str(wanted)[:200])])

    def raises(self, name, kind, call, **told):
        """The call raises this, with these attributes."""
        try:
            result = call()
        except kind as error:
            self.equal(name, {key: getattr(error, key) for key in told}, told)
        except Exception as error:
            self.add(name, ["it raises %r" % error])
        else:
            self.add(name, ["it gives %s" % str(result)[:200]])

    def refused(self, name, number, place, call):
        self.raises(name, mealbis.Refused, call, number=number, place=place, reason=mealbis.reason(number))

    def answered(self, name, answer, call):
        """The call is accepted, and gives the reference's results and counts."""
        self.equal(name, (0, *spent(call())), (answer.refusal, *map(tuple, answer.results), *answer.counts, answer.largest_rest))


def spent(given):
    """What a call gave, as the reference has it: rows as tuples of plain numbers."""
    return tuple(one if isinstance(one, int) else tuple(map(int, one)) for one in given)


def spectrum_answer(recording, start, length, allowance=UNBOUNDED):
    return spectrum_call(recording, start, length, allowance, PLENTY, PLENTY, scratch_words(1024))


# --- each function ---------------------------------------------------------------------

def check_known(calls):
    """Blocks worked on paper, and the examples in the docstrings."""
    top = LARGEST_SAMPLE
    given = mealbis.spectrum([1, 2, 3, 4], 0, 4)
    calls.equal("Spectrum of 1, 2, 3, 4", spent(given), ((10, -2, -2), (0, -2, 0), 0, 6, 0))
    calls.equal("its fields", given._fields, ("cosine", "sine", "products", "sums", "largest_rest"))
    calls.equal("Cosine of 3, 1", spent(mealbis.cosine([3, 1], 0, 2)), ((4, 1), 1, 2, 444758426))
    calls.equal("Pair of 3, 1 and 0, 2", spent(mealbis.pair([3, 1], [0, 2], 0, 2))[:2], ((4, 2), (2, -2)))
    calls.equal("a mark", mealbis.mark([7] * 8, 0, 8, 0, 8).mark, mealbis.FLAT)
    calls.equal("a mark", mealbis.mark([0, top] + [0] * 6, 0, 8, top - 1, top).mark, mealbis.CLIPPED)
    calls.equal("a mark", mealbis.mark([3, -3] * 4, 0, 8, 23, 4).mark, mealbis.PLAIN)
    calls.equal("the inverse DCT", list(mealbis.inverse_dct([10, -3, 0, 0], 4)), [1, 2, 3, 4])
    calls.equal("a tie", list(mealbis.inverse_dct([-3, 0], 2)), [-1, -1])
    calls.equal("a file", mealbis.write([3, 1], [0, 2], 2), bytes([2, 0, 0, 0, 2, 0, 0, 0, 3, 0, 0, 0, 1, 0, 0, 0, 0, 0, 0, 0, 2, 0, 0, 0]))
    calls.equal("a page", mealbis.page([4, 2], [0, -1], 2), "   k       cosine         sine\n   0            4            0\n   1            2           -1\n")
    calls.equal("the version", mealbis.version(), mealbis.VERSION)
    calls.equal("the docstrings", doctest.testmod(mealbis).failed, 0)


def check_spectra(calls):
    """Spectrum, Cosine, Pair, the mark and a month on random and on the largest blocks of every length, by just the allowance and without one."""
    rng = calls.rng
    for N in LENGTHS:
        counts = tallied_counts(N)
        month, words = mealbis.Month(N), month_begin(N)[1]
        blocks = [random_block(rng, N) for _ in range(6)] + list(itertools.islice(largest_blocks(N), 3))
        for x, party in zip(blocks, itertools.cycle((1, 2, 2))):
            call = placed(rng, x)
            a, start, b = call.recording, call.start, random_block(rng, N + call.start)
            for allowance in (call.allowance, UNBOUNDED):
                calls.answered("Spectrum", spectrum_answer(a, start, N), lambda: mealbis.spectrum(a, start, N, allowance))
            answer = cosine_call(a, start, N, counts.dct_products, PLENTY, PLENTY * 4)
            calls.answered("Cosine", answer, lambda: mealbis.cosine(a, start, N, counts.dct_products))
            answer = pair_call(a, b, start, N, counts.pair_products, PLENTY, PLENTY, PLENTY * 4)
            calls.answered("Pair", answer, lambda: mealbis.pair(a, b, start, N, counts.pair_products))
            figures = rng.randint(0, 2 ** 31 - 1), rng.randint(1, LARGEST_SAMPLE)
            answer = mark_call(a, start, N, UNBOUNDED, *figures, PLENTY, PLENTY, PLENTY * 4)
            marked = mealbis.mark(a, start, N, *figures)
            calls.equal("the mark", (marked.mark, *spent(marked[1:])), (answer.mark, *map(tuple, answer.results), *answer.counts, answer.largest_rest))
            answer, words = month_add(words, party, a, start, N, UNBOUNDED, PLENTY, PLENTY, PLENTY * 4)
            calls.answered("a month", answer, lambda: month.add(party, a, start))
            calls.equal("its words", array.array("q", month.tobytes()).tolist(), words)
            calls.equal("its length and blocks", (month.length, *map(month.blocks, PARTIES)), (N, words[account(1)], words[account(2)]))
        for party in PARTIES:
            for k in range(N // 2 + 1):
                calls.equal("the sums", tuple(month.sums(party, k)), tuple(month_sums(words, party, k)[1:]))
            calls.refused("no sums", 16, None, lambda: month.sums(party, N // 2 + 1))


def check_of_pair(calls):
    """The spectra of a and b from Pair's, as the header has them, and its largest rest from theirs; and the sign of the sine."""
    rng = calls.rng
    wave = [0, 707107, 1000000, 707107, 0, -707107, -1000000, -707107]     # cos(2 pi n / 8 - pi / 2)
    given = mealbis.spectrum(wave, 0, 8)
    calls.equal("a wave that lags by a quarter", (given.cosine[1], 3_999_999 <= given.sine[1] <= 4_000_002), (0, True))
    for N, _ in itertools.product(LENGTHS, range(3)):
        a, b = random_block(rng, N), random_block(rng, N)
        re, im, *_, rest = mealbis.pair(a, b, 0, N)
        of_a, of_b = mealbis.spectrum(a, 0, N), mealbis.spectrum(b, 0, N)
        ends = {0, N // 2}
        rows = [], [], [], []
        for k in range(N // 2 + 1):
            if k in ends:
                four = re[k], 0, im[k], 0
            else:
                whole = re[k] + re[N - k], im[N - k] - im[k], im[k] + im[N - k], re[k] - re[N - k]
                calls.equal("the halves are whole", [two % 2 for two in whole], [0] * 4)
                four = [two // 2 for two in whole]
            for row, word in zip(rows, four):
                row.append(word)
        calls.equal("the spectra of a and b, N %d" % N, rows, tuple(list(row) for row in (of_a.cosine, of_a.sine, of_b.cosine, of_b.sine)))
        calls.equal("the largest rest, N %d" % N, rest, max(of_a.largest_rest, of_b.largest_rest))


def check_stored(calls):
    """Blocks through Cosine and back, stored coefficients at their limit and beyond, pages, and pair files written and read."""
    rng = calls.rng
    for N in LENGTHS:
        x = random_block(rng, N)
        stored = mealbis.cosine(x, 0, N).coefficients
        calls.equal("the DCT", list(stored), list(dct(x)[0]))
        back = mealbis.inverse_dct(stored, N)
        calls.equal("back", [list(back)], list(map(list, inverse_call(list(stored), N, N).results)))
        calls.equal("within N", max(abs(one - other) for one, other in zip(back, x)) <= N, True)
        for k, sign in itertools.product({0, N // 2, N - 1}, (1, -1)):
            row = [0] * (N + 3)
            row[k] = sign * largest_coefficient(N)
            calls.equal("at the limit", [list(mealbis.inverse_dct(row, N))], list(map(list, inverse_call(row, N, N).results)))
            row[k] += sign
            calls.refused("beyond the limit", 10, k, lambda: mealbis.inverse_dct(row, N))
        cosine, sine = spectrum(x)[:2]
        calls.equal("a page", mealbis.page(cosine, sine, N).encode(), page_call(cosine, sine, N, page_bytes(N)).data)
        for m in (1, 2, rng.randint(3, 4095), 4096):
            a, b = ([rng.randint(-LARGEST_SAMPLE, LARGEST_SAMPLE) for _ in range(m)] for _ in "ab")
            data = mealbis.write(a, b, N)
            calls.equal("a file of %d" % m, data, write_pair_file(a, b, N, len(data)).data)
            for kind in (bytes, bytearray, memoryview):
                given = mealbis.read(kind(data))
                calls.equal("read again", (list(given.a), list(given.b), given.length), (a, b, N))


def check_counts(calls):
    """The counts of every length up to 2,100 and of far ones."""
    for length in lengths_up_to(2100):
        answer = count_query(length)
        if answer.refusal:
            calls.refused("counts of %d" % length, 1, None, lambda: mealbis.counts(length))
        else:
            calls.equal("counts of %d" % length, tuple(mealbis.counts(length)), tuple(answer.counts))


# --- refusals ------------------------------------------------------------------------

def on_a_block(month):
    """The calls that take the block of a recording, as functions of recording, start, length and allowance."""
    return {"Spectrum": mealbis.spectrum, "Cosine": mealbis.cosine,
            "the month, party 1": functools.partial(month.add, 1), "the month, party 2": functools.partial(month.add, 2),
            "the mark": lambda recording, start, length, allowance=UNBOUNDED: mealbis.mark(recording, start, length, 0, 1, allowance),
            "Pair": lambda recording, start, length, allowance=UNBOUNDED: mealbis.pair([0] * len(recording), recording, start, length, allowance)}


def check_refusals(calls):
    """Each refusal that a call on a block can give, with its number and its place, from every function; the month stays."""
    rng = calls.rng
    for N in LENGTHS:
        month = mealbis.Month(N)
        for party in (1, 2, 2):
            month.add(party, [party] * N, 0)
        held, enough = month.tobytes(), just_enough(N)
        for name, call in on_a_block(month).items():
            for start in (3, 2 ** 32, 2 ** 64 - N, UNBOUNDED):
                calls.refused("%s from %d on" % (name, start), 2, None, lambda: call(enough.recording, start, N))
            calls.refused(name + " of nothing", 2, None, lambda: call([], 0, N))
            products = {"Cosine": tallied_counts(N).dct_products, "Pair": tallied_counts(N).pair_products}.get(name, enough.allowance)
            if products:
                calls.refused(name + ", a product less", 5, None, lambda: call(enough.recording, 2, N, products - 1))
            for told, x, place in out_of_range(rng, N):
                calls.refused("%s, %s" % (name, told), 6, 5 + place, lambda: call([0, 1, *OUT[:3], *x, *OUT], 5, N))
            for length in BAD_LENGTHS:
                calls.refused("%s, N %d" % (name, length), 13 if "the month" in name else 1, None, lambda: call([1] * 8, 0, length))
        calls.equal("the month", month.tobytes(), held)
    for figures in ((-1, 1), (0, 0), (0, 1_000_001), (-2 ** 31, -2 ** 31), (2 ** 31 - 1, 2 ** 31 - 1)):
        calls.refused("figures", 12, None, lambda: mealbis.mark([1] * 8, 0, 8, *figures))


def check_other_refusals(calls):
    """The refusals of the other calls."""
    for length in BAD_LENGTHS:
        calls.refused("a month", 1, None, lambda: mealbis.Month(length))
        calls.refused("a page", 1, None, lambda: mealbis.page([], [], length))
        calls.refused("the inverse DCT", 1, None, lambda: mealbis.inverse_dct([], length))
        calls.refused("a file", 1, None, lambda: mealbis.write([1], [2], length))
    calls.refused("few coefficients", 2, None, lambda: mealbis.inverse_dct([1] * 7, 8))
    calls.refused("few cosines", 2, None, lambda: mealbis.page([1] * 4, [1] * 5, 8))
    calls.refused("few sines", 2, None, lambda: mealbis.page([1] * 5, [], 8))
    calls.refused("no samples", 8, None, lambda: mealbis.write([], [], 8))
    calls.refused("many samples", 8, None, lambda: mealbis.write([1] * 4097, [1] * 4097, 8))
    calls.refused("other lengths", 11, None, lambda: mealbis.write([1] * 4, [1] * 5, 8))
    for place, out in itertools.product((0, 3), OUT):
        a, b = [0] * 4, [0] * 4
        b[place] = out
        calls.refused("b out of range", 6, place, lambda: mealbis.write(a, b, 8))
        calls.refused("a out of range", 6, place, lambda: mealbis.write(b, a, 8))
    data = mealbis.write([5, 6], [7, 8], 1)
    for number, place, wrong in ((7, None, b""), (7, None, data[:7]), (8, None, bytes(8)), (9, None, data[:-1]), (9, None, data + b"\0"),
                                 (1, None, data[:4] + b"\3" + data[5:]), (6, 1, data[:-1] + b"\x7f"), (6, 0, data[:11] + b"\x7f" + data[12:])):
        calls.refused("a file of %d bytes" % len(wrong), number, place, lambda: mealbis.read(wrong))
    calls.equal("in words", str(mealbis.Refused(6, 9)), "refused 6: a sample is out of range, at place 9")
    calls.equal("in words", str(mealbis.Refused(14)), "refused 14: the party holds 50,000 blocks in the month")
    calls.equal("in words", str(mealbis.Refused(15)), "refused 15: the party is neither 1 nor 2")
    again = pickle.loads(pickle.dumps(mealbis.Refused(10, 3)))
    calls.equal("pickled", (again.number, again.place, again.reason), (10, 3, mealbis.reason(10)))


def check_numbers(calls):
    """What does not fit a type of the library raises before the call, and nothing is cut to 64 or to 32 bits."""
    for wrong in (-1, 2 ** 64, -2 ** 64, 2 ** 64 + 8):
        calls.raises("start", OverflowError, lambda: mealbis.spectrum([1] * 8, wrong, 8))
        calls.raises("length", OverflowError, lambda: mealbis.spectrum([1] * 8, 0, wrong))
        calls.raises("allowance", OverflowError, lambda: mealbis.spectrum([1] * 8, 0, 8, wrong))
        calls.raises("length", OverflowError, lambda: mealbis.counts(wrong))
        calls.raises("length", OverflowError, lambda: mealbis.Month(wrong))
        calls.raises("k", OverflowError, lambda: mealbis.Month(8).sums(1, wrong))
        calls.raises("party", OverflowError, lambda: mealbis.Month(8).add(wrong, [1] * 8, 0))
        calls.raises("party", OverflowError, lambda: mealbis.Month(8).blocks(wrong))
        calls.raises("party", OverflowError, lambda: mealbis.Month(8).sums(wrong, 0))
    for wrong in (2 ** 31, -2 ** 31 - 1, 2 ** 32 + 1, 2 ** 64):
        calls.raises("a sample", OverflowError, lambda: mealbis.spectrum([wrong], 0, 1))
        calls.raises("a sample of 64 bits", OverflowError, lambda: mealbis.spectrum(array.array("q", [min(wrong, 2 ** 62)]), 0, 1))
        calls.raises("a figure", OverflowError, lambda: mealbis.mark([1], 0, 1, wrong, 1))
        calls.raises("a figure", OverflowError, lambda: mealbis.mark([1], 0, 1, 1, wrong))
    for wrong in ([1.0], ["1"], [None], array.array("f", [1]), b"\1\0\0\0", "1", bytearray(4), 5, None):
        calls.raises("samples %r" % (wrong,), TypeError, lambda: mealbis.spectrum(wrong, 0, 1))
    for wrong in (1.0, "1", None):
        calls.raises("length", TypeError, lambda: mealbis.spectrum([1], 0, wrong))
        calls.raises("party", TypeError, lambda: mealbis.Month(1).add(wrong, [1], 0))
        calls.raises("party", TypeError, lambda: mealbis.Month(1).blocks(wrong))
        calls.raises("party", TypeError, lambda: mealbis.Month(1).sums(wrong, 0))
    for wrong in ("text", 5, [1, 2], None):
        calls.raises("a file", TypeError, lambda: mealbis.read(wrong))


# --- what is lent ----------------------------------------------------------------------

def same_in(calls, name, kinds, shown):
    """Every function gives the same on each of these kinds of rows, and leaves them as they are."""
    rng = calls.rng
    for N in LENGTHS:
        a, b = random_block(rng, N + 3), random_block(rng, N + 3)
        stored = mealbis.cosine(a, 1, N).coefficients
        cosine, sine, *_ = mealbis.spectrum(a, 1, N)
        wanted = [spent(mealbis.spectrum(a, 1, N)), spent(mealbis.cosine(a, 1, N)), spent(mealbis.pair(a, b, 1, N)), mealbis.write(a, b, N),
                  tuple(mealbis.inverse_dct(stored, N)), mealbis.page(cosine, sine, N)]
        for kind, made in kinds.items():
            one, other, kept, row, column = (made(list(words)) for words in (a, b, stored, cosine, sine))
            results = [mealbis.spectrum(one, 1, N), mealbis.cosine(one, 1, N), mealbis.pair(one, other, 1, N), mealbis.inverse_dct(kept, N)]
            got = [*map(spent, results[:3]), mealbis.write(one, other, N), tuple(map(int, results[3])), mealbis.page(row, column, N)]
            calls.equal("%s of %s, N %d" % (name, kind, N), got, wanted)
            calls.equal("they stay", [[int(word) for word in words] for words in (one, other)], [a, b])
            rows = [words for result in results[:3] for words in result if not isinstance(words, int)] + [results[3]]
            calls.equal("their kind", {shown(words) for words in rows}, {shown(made([1])) if name == "NumPy" else "i"})
            month = mealbis.Month(N)
            calls.equal("a month", spent(month.add(2, one, 1)), wanted[0])


def check_rows(calls):
    """Lists, tuples, ranges of numbers, `array` of each size, views that are read-only or take every second word: all give the same."""
    kinds = {"lists": list, "tuples": tuple, "array of 32 bits": lambda words: array.array("i", words),
             "array of 64 bits": lambda words: array.array("q", words), "a view": lambda words: memoryview(array.array("i", words)),
             "a read-only view": lambda words: memoryview(array.array("i", words)).toreadonly(),
             "every second word": lambda words: memoryview(array.array("i", [word for one in words for word in (one, 9)]))[::2]}
    same_in(calls, "rows", kinds, lambda words: words.typecode)
    calls.equal("a range", list(mealbis.spectrum(range(1, 5), 0, 4).cosine), [10, -2, -2])
    odd = memoryview(bytearray(b"\0" + array.array("i", [3, 1]).tobytes()))[1:].cast("i")
    calls.equal("words at an odd place", list(mealbis.spectrum(odd, 0, 2).cosine), [4, 2])
    lent = array.array("i", [1, 2])
    mealbis.spectrum(lent, 0, 2).cosine.append(5)
    lent.append(3)
    calls.equal("both can grow then", len(lent), 3)


def check_numpy(calls):
    """NumPy arrays: of each integer type, read-only, with steps and of the other byte order; results are NumPy arrays."""
    if numpy is None:
        print("not run, since NumPy is not installed:")
        return

    def read_only(words):
        made = numpy.array(words, dtype="int32")
        made.flags.writeable = False
        return made

    kinds = {"int32": lambda words: numpy.array(words, dtype="int32"), "int64": lambda words: numpy.array(words, dtype="int64"),
             "big-endian": lambda words: numpy.array(words, dtype=">i4"), "read-only": read_only,
             "with steps": lambda words: numpy.array([word for one in words for word in (one, 9)], dtype="int32")[::2]}
    same_in(calls, "NumPy", kinds, lambda words: type(words).__name__)
    calls.equal("their dtype", mealbis.spectrum(numpy.array([3, 1]), 0, 2).cosine.dtype, numpy.dtype("int32"))
    for wrong in (numpy.array([1.0]), numpy.array([[1]], dtype="int32"), numpy.array(["1"])):
        calls.raises("no whole numbers in a row", TypeError, lambda: mealbis.spectrum(wrong, 0, 1))
    calls.raises("a large sample", OverflowError, lambda: mealbis.spectrum(numpy.array([2 ** 40]), 0, 1))
    calls.equal("a file", mealbis.read(numpy.frombuffer(mealbis.write([5], [6], 1), dtype="uint8")).b[0], 6)


class Watched:
    """Stands before the library, and keeps what a function was given as a count of words or bytes."""

    def __init__(self, library):
        self.library, self.counts = library, {}

    def __getattr__(self, name):
        def called(*arguments):
            names = [parameter for parameter, _ in mealbis.DECLARATIONS[name][1]]
            counts = {parameter: given for parameter, given in zip(names, arguments) if parameter.endswith(("_words", "_bytes"))}
            self.counts[name] = {parameter.rsplit("_", 1)[0]: given for parameter, given in counts.items()}
            return getattr(self.library, name)(*arguments)

        return called


def check_counts_lent(calls):
    """The counts beside the pointers: what the recordings have, and just what each call needs of everything else."""
    watched = Watched(calls.library)
    try:
        mealbis._loaded = watched
        for N, kind in itertools.product(LENGTHS, (list, lambda words: array.array("i", words), lambda words: array.array("q", words))):
            a, b, row = kind([1] * (N + 3)), kind([2] * (N + 3)), kind([3] * (N // 2 + 1))
            mealbis.spectrum(a, 1, N), mealbis.mark(a, 1, N, 0, 1), mealbis.cosine(a, 1, N), mealbis.pair(a, b, 1, N), mealbis.Month(N).add(2, a, 1)
            mealbis.inverse_dct(a, N), mealbis.page(row, row, N), mealbis.read(mealbis.write(a, b, N))
            rows, whole, work, file = {"cosine": N // 2 + 1, "sine": N // 2 + 1}, N + 3, scratch_words(N), 8 + 8 * (N + 3)
            of_spectrum = {"recording": whole, **rows, "scratch": work}
            calls.equal("what is lent, N %d" % N, {name: given for name, given in watched.counts.items() if given}, {
                "mealbis_spectrum": of_spectrum, "mealbis_mark": of_spectrum, "mealbis_month_add": of_spectrum,
                "mealbis_cosine": {"recording": whole, "coefficients": N, "scratch": work},
                "mealbis_pair": {"a": whole, "b": whole, "re": N, "im": N, "scratch": work},
                "mealbis_inverse_dct": {"coefficients": whole, "values": N}, "mealbis_page": {**rows, "page": page_bytes(N)},
                "mealbis_write": {"a": whole, "b": whole, "file": file}, "mealbis_read": {"file": file, "a": 4096, "b": 4096}})
    finally:
        mealbis._loaded = calls.library
    for words, size in ((bytearray(24), 8), (array.array("i", [1, 2, 3]), 4), (memoryview(array.array("q", [1, 2])), 8), (bytearray(5), 1)):
        word = {1: ctypes.c_uint8, 4: ctypes.c_int32, 8: ctypes.c_int64}[size]
        calls.equal("a count of words of %d bytes" % size, mealbis._Lent(word, words).given[1] * size, memoryview(words).nbytes)


# --- months ----------------------------------------------------------------------------

def check_months(calls):
    """A month stored and taken up again, and begun again for both parties."""
    rng = calls.rng
    for N in LENGTHS:
        month = mealbis.Month(N)
        blocks = [random_block(rng, N) for _ in range(4)]
        for party in PARTIES:
            month.add(party, blocks[party - 1], 0, N, tallied_counts(N).spectrum_products)
        taken_up = mealbis.Month.frombytes(month.tobytes())
        for x in blocks[2:]:
            taken_up.add(2, [9] + x, 1)
        calls.equal("blocks", (*map(month.blocks, PARTIES), *map(taken_up.blocks, PARTIES)), (1, 1, 1, 3))
        calls.equal("as it is shown", repr(taken_up), "<Month of %d, 1 and 3 blocks>" % N)
        calls.equal("the sums of party 1", list(taken_up.sums(1, 0)), [sum(blocks[0]), 0])
        calls.equal("the sums of party 2", list(taken_up.sums(2, 0)), [sum(map(sum, blocks[1:])), 0])
        taken_up.begin(1024 // N)
        calls.equal("begun again", (taken_up.length, *map(taken_up.blocks, PARTIES)), (1024 // N, 0, 0))
        calls.equal("no sums", [tuple(taken_up.sums(party, 0)) for party in PARTIES], [(0, 0)] * 2)


def held_month(N, *blocks):
    """A month of N with these block numbers of the parties, and sums of 0."""
    words = [month_mark(N)] + [0] * (MONTH_WORDS - 1)
    for party in PARTIES:
        words[account(party)] = blocks[party - 1]
    return mealbis.Month.frombytes(array.array("q", words).tobytes())


def check_full_months(calls):
    """The last block of a party and one more, whatever the other holds; a month whose beginning is refused."""
    for party, others in itertools.product(PARTIES, (0, 1, MOST_BLOCKS - 1, MOST_BLOCKS)):
        full = held_month(1, *((MOST_BLOCKS - 1, others) if party == 1 else (others, MOST_BLOCKS - 1)))
        full.add(party, [7], 0)
        calls.equal("the last block", (full.blocks(party), full.sums(party, 0)), (MOST_BLOCKS, (7, 0)))
        calls.equal("the other party", (full.blocks(3 - party), full.sums(3 - party, 0)), (others, (0, 0)))
        held = full.tobytes()
        calls.refused("a full party", 14, None, lambda: full.add(party, [7], 0))
        calls.refused("another length", 13, None, lambda: full.add(party, [7, 7], 0, 2))
        calls.equal("it stays", full.tobytes(), held)
        calls.refused("begun for 3", 1, None, lambda: full.begin(3))
        calls.equal("a month of none", (full.length, *map(full.blocks, PARTIES), set(full.tobytes())), (0, 0, 0, {0}))
        calls.refused("a month of none", 13, None, lambda: full.add(party, [7], 0))
        calls.refused("its sums", 16, None, lambda: full.sums(party, 0))


def check_parties(calls):
    """A party that is neither 1 nor 2 is refused by 15 before all else, in a month with blocks, a full one and one of none, which stay."""
    for N, party in itertools.product(LENGTHS, UNKNOWN):
        none = mealbis.Month(N)
        calls.refused("begun for 3", 1, None, lambda: none.begin(3))
        for name, month in (("blocks", held_month(N, 3, 4)), ("none left", held_month(N, MOST_BLOCKS, MOST_BLOCKS)), ("no length", none)):
            held, name = month.tobytes(), "party %d in a month of %d with %s" % (party, N, name)
            for block in (([1] * N, 0), ([1] * N, 0, N), ([1] * N, 0, N // 2), ([1] * N, 0, 3), ([1] * N, 1, N), ([1] * N, 2 ** 64 - 1, N),
                          ([], 0, N), ([1] * N, 0, N, 0), ([OUT[0]] * N, 0, N)):
                calls.refused(name, 15, None, lambda: month.add(party, *block))
            calls.refused(name + ", its blocks", 15, None, lambda: month.blocks(party))
            for k in (0, N // 2, N // 2 + 1, 2 ** 64 - 1):
                calls.refused(name + ", its sums", 15, None, lambda: month.sums(party, k))
            calls.equal(name + ", which stays", month.tobytes(), held)


def outcome(call):
    """What a call gives, or by what number and at which place it is refused."""
    try:
        return spent(call())
    except mealbis.Refused as refused:
        return refused.number, refused.place


def check_apart(calls):
    """Blocks of both parties, some of them refused: each party is answered as in a month that the other does not add to, and has its sums."""
    rng = calls.rng
    for N, first in itertools.product(LENGTHS, PARTIES):
        second, answers = 3 - first, set()
        blocks = {first: MOST_BLOCKS - 5, second: 0}
        both, alone = held_month(N, blocks[1], blocks[2]), {first: held_month(N, *[MOST_BLOCKS - 5] * 2), second: mealbis.Month(N)}
        for turn in range(60):
            party, x, length = second if turn % 3 == 1 else first, random_block(rng, N), N if turn % 5 else 2 * N
            if turn % 4 == 0:
                x[rng.randrange(N)] = rng.choice(OUT)
            got = outcome(lambda: both.add(party, x, 0, length))
            answers.add((party, got[0] if len(got) == 2 else 0))
            calls.equal("party %d, beside the other" % party, got, outcome(lambda: alone[party].add(party, x, 0, length)))
        calls.equal("the answers", answers, {(first, 0), (first, 6), (first, 13), (first, 14), (second, 0), (second, 6), (second, 13)})
        for party in PARTIES:
            rows = [[month.blocks(party), *(month.sums(party, k) for k in range(N // 2 + 1))] for month in (both, alone[party])]
            calls.equal("the account of party %d" % party, *rows)


def check_earlier(calls):
    """A month of an earlier version: of its own size it is not taken up, and in front of today's it has no length, takes no block, and stays."""
    for N in LENGTHS:
        words = [N, 7] + [0] * 1026     # the length, the block number, 513 sums of the cosine and 513 of the sine
        words[2:2 + N // 2 + 1] = words[515:515 + N // 2 + 1] = range(70, 70 + N // 2 + 1)
        earlier = array.array("q", words).tobytes()
        calls.raises("of its own size", ValueError, lambda: mealbis.Month.frombytes(earlier), args=("a month has 16440 bytes, not 8224",))
        for behind in (bytes(8 * (MONTH_WORDS - 1028)), calls.rng.randbytes(8 * (MONTH_WORDS - 1028))):
            month = mealbis.Month.frombytes(earlier + behind)
            calls.equal("its length and its block number", (month.length, month.blocks(1)), (0, 7))
            for party in PARTIES:
                calls.refused("a block", 13, None, lambda: month.add(party, [1] * N, 0, N))
                calls.refused("a block of its length", 13, None, lambda: month.add(party, [1] * N, 0))
                calls.refused("its sums", 16, None, lambda: month.sums(party, 0))
            calls.equal("it stays", month.tobytes(), earlier + behind)
    whole = mealbis.Month(1).tobytes()
    for size in (0, len(whole) - 8, len(whole) - 1, len(whole) + 1, len(whole) + 8):
        calls.raises("of %d bytes" % size, ValueError, lambda: mealbis.Month.frombytes((whole + whole)[:size]), args=(
            "a month has %d bytes, not %d" % (len(whole), size),))


# --- the library -----------------------------------------------------------------------

def runs(folder, words, **environment):
    """What a Python of its own writes whose path begins with this folder."""
    kept = {name: value for name, value in os.environ.items() if name not in ("MEALBIS_LIBRARY", "LD_LIBRARY_PATH")}
    environment = {**kept, "PYTHONPATH": str(folder), "PYTHONDONTWRITEBYTECODE": "1", **environment}
    done = subprocess.run([sys.executable, "-c", words], env=environment, cwd="/", stdout=subprocess.PIPE, stderr=subprocess.STDOUT, text=True)
    return done.stdout.strip().rsplit("\n", 1)[-1]


def installed():
    """Whether the system has a library of this name."""
    try:
        return bool(ctypes.CDLL("libmealbis.so"))
    except OSError:
        return False


def check_finding(calls):
    """The library by its path, by the variable, beside the module, in PREFIX/lib, by the system; none at all, and one of another version."""
    words = "import mealbis; print(mealbis.spectrum([3, 1], 0, 2).cosine.tolist())"
    library, module = str(Path(calls.library._name).resolve()), ROOT / "bindings/python/mealbis.py"
    with tempfile.TemporaryDirectory() as made:
        made = Path(made)
        for folder in ("alone", "beside", "prefix/lib/python3", "prefix/lib/python3.11/site-packages", "elsewhere"):
            (made / folder).mkdir(parents=True)
            shutil.copy(module, made / folder)
        for folder in ("beside", "prefix/lib", "elsewhere/libraries"):
            (made / folder).mkdir(exist_ok=True)
            shutil.copy(library, made / folder / "libmealbis.so")
        far = str(made / "elsewhere/libraries")
        if not installed():
            calls.equal("none", runs(made / "alone", words).split(":")[0], "OSError")
        calls.equal("by the variable", runs(made / "alone", words, MEALBIS_LIBRARY=library), "[4, 2]")
        calls.equal("by its path", runs(made / "alone", words.replace(";", "; mealbis.load(%r);" % library)), "[4, 2]")
        for folder in ("beside", "prefix/lib/python3", "prefix/lib/python3.11/site-packages"):
            calls.equal(folder, runs(made / folder, words), "[4, 2]")
        calls.equal("by the system", runs(made / "elsewhere", words, LD_LIBRARY_PATH=far), "[4, 2]")
        calls.equal("no such path", runs(made / "beside", words, MEALBIS_LIBRARY=far + "/none.so").split(":")[0], "OSError")
        other = (made / "beside/mealbis.py")
        other.write_text(module.read_text().replace("VERSION = %d" % mealbis.VERSION, "VERSION = %d" % (mealbis.VERSION + 1)))
        calls.equal("another version", runs(made / "beside", words).split(":")[0], "mealbis.WrongLibrary")
        calls.equal("no library of ours", runs(made / "alone", words, MEALBIS_LIBRARY="libc.so.6").split(":")[0], "mealbis.WrongLibrary")
        calls.equal("no library is needed to import", runs(made / "alone", "import mealbis; print(mealbis.reason(4))"), "scratch is too short")


CHECKS = (check_known, check_spectra, check_of_pair, check_stored, check_counts, check_refusals, check_other_refusals, check_numbers, check_rows,
          check_numpy, check_counts_lent, check_months, check_full_months, check_parties, check_apart, check_earlier, check_finding)


if __name__ == "__main__":
    sys.exit(run(ModuleCalls, CHECKS, __doc__))
