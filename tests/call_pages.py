#!/usr/bin/env python3
"""Calls mealbis_page of the library, over its C interface, and compares each page, byte for byte, with that of tests/reference.py.

    python3 tests/call_pages.py [--library PATH] [--seed NUMBER]
    python3 tests/call_pages.py --example a|b FILE [BLOCK]        what the example `binder_pages` prints for these words, by the reference alone

Builds libmealbis.a and a shared library of it, target/shared/libmealbis.so; or takes another shared library. Of every call it compares the
answer, *bytes, the whole buffer of the page and the coefficients, with guards before and behind each. Some pages are of the coefficients
that mealbis_spectrum left.

The last line is 'N passed, 0 failed'. Exit status 1 where something differs.
"""
import array
import collections
import itertools
import sys
from pathlib import Path

from library import (BAD_LENGTHS, PAGE, ROOT, Calls, Mapped, Record, every_set, first, held, in_memory, lengths_up_to, lent_bytes, lent_samples,
                     mealbis, run)
from reference import LARGEST_SAMPLE, LENGTHS, MOST_FILE_SAMPLES, page_bytes, page_call, read_pair_file, spectrum, spectrum_call
from spectrum_calls import largest_blocks, lend, placed, random_block

ORDER = (1, 2, 3)                   # in which mealbis_page tests
LEAST, MOST = -2 ** 31, 2 ** 31 - 1
HEADING = b"   k       cosine         sine\n"
EXAMPLE = ("a", "examples/train_crossing.pair"), "examples/binder_pages.txt"


# --- calls -------------------------------------------------------------------------

class PageCalls(Calls):
    """Calls of mealbis_page; answered counts the answers by the length."""

    def __init__(self, library, rng):
        super().__init__(library, rng)
        self.page_function, self.spectrum_function = self.function("mealbis_page"), self.function("mealbis_spectrum")
        self.answered = collections.Counter()

    def page(self, name, cosine, sine, length, size, number=0):
        """The page of these coefficients in a buffer of this size: see compare_page. Where cosine and sine are one list, they are lent as one."""
        lent_cosine = lent_samples("cosine", cosine)
        lent_sine = lent_cosine if sine is cosine else lent_samples("sine", sine)
        return self.compare_page(name, lent_cosine, lent_sine, (cosine, sine), length, size, number)

    def compare_page(self, name, lent_cosine, lent_sine, coefficients, length, size, number=0):
        """It must answer as the reference, and the reference by this number. The bytes in front then."""
        answer = page_call(*coefficients, length, size)
        name += "; N %d, %d and %d coefficients, %d bytes" % (length, *map(len, coefficients), size)
        if answer.refusal != number:
            self.add(name, ["the reference answers %d; %d is expected" % (answer.refusal, number)])
        self.answered[length, answer.refusal] += 1
        page = lent_bytes(self.rng, "the page", self.rng.randbytes(size))
        page.expect(answer.data)
        record = Record(self.rng, mealbis.PageAnswer, bytes=len(answer.data))
        self.compare(name, self.page_function, (lent_cosine, lent_sine, length, page, record), answer.refusal)
        return page.front(len(answer.data))

    def whole(self, name, cosine, sine):
        """An accepted page of just these coefficients, with something to spare, or nothing."""
        N = 2 * len(cosine) - 2 or 1
        more = [self.rng.choice((0, 0, 1, 2, 9)) for _ in range(2)]
        cosine, sine = (words + numbers(self.rng, spare) for words, spare in zip((cosine, sine), more))
        return self.page(name, cosine, sine, N, page_bytes(N) + self.rng.choice((0, 0, 1, 30, 31, 100)))


def listed(length):
    """The coefficients that a page of this length prints of cosine, and of sine."""
    return length // 2 + 1


# --- the numbers in a page ---------------------------------------------------------

def first_and_last(digits):
    """The smallest and the largest number of so many digits."""
    return 10 ** (digits - 1), min(10 ** digits - 1, MOST)


def both_signs(sizes):
    return sorted(number for size in set(sizes) for number in (size, -size) if LEAST <= number <= MOST)


EDGES = both_signs([0, -LEAST, *(size for digits in range(1, 11) for size in first_and_last(digits))])
ONE_DIGIT = [digit * 10 ** place for digit, place in itertools.product(range(1, 10), range(10))]            # and zeros
NEAR = both_signs([*ONE_DIGIT, *(size + more for more in (-1, 0, 1) for place in range(32) for size in (2 ** place, 10 ** min(place, 9)))])


def of_digits(rng):
    """A number of any number of digits, of either sign."""
    return rng.choice((1, -1)) * rng.randint(*first_and_last(rng.randint(1, 10)))


def numbers(rng, count):
    """Coefficients: of any number of digits, of the whole range, at the edges of a number of digits, small, or equal."""
    kind = rng.randrange(5)
    if kind == 0:
        return [of_digits(rng) for _ in range(count)]
    if kind == 4:
        return [rng.choice(EDGES)] * count
    return rng.choices((range(LEAST, MOST + 1), EDGES, range(-12, 13))[kind - 1], k=count)


def check_known(calls):
    """Pages written by hand, and the heading of every length."""
    for cosine, sine, below in (
            ([7], [0], b"   0            7            0\n"),
            ([-2 ** 31], [2 ** 31 - 1], b"   0  -2147483648   2147483647\n"),
            ([4, 2], [0, -1], b"   0            4            0\n"
                              b"   1            2           -1\n"),
            ([591440, -241255, 10], [0, 19515, -999], b"   0       591440            0\n"
                                                      b"   1      -241255        19515\n"
                                                      b"   2           10         -999\n"),
            ([1, -12, 123, -1234, 12345], [2147483647, -1000000000, 999999999, -99999999, -2147483648],
             b"   0            1   2147483647\n"
             b"   1          -12  -1000000000\n"
             b"   2          123    999999999\n"
             b"   3        -1234    -99999999\n"
             b"   4        12345  -2147483648\n")):
        page = calls.whole("a page written by hand", cosine, sine)
        calls.add("%s and %s, by hand" % (cosine, sine), [None if page == HEADING + below else "the page is %r" % page])
    for N in LENGTHS:
        page = calls.whole("the heading", numbers(calls.rng, listed(N)), numbers(calls.rng, listed(N)))
        lines = [page[at:at + 31] for at in range(0, len(page), 31)]
        calls.add("the heading of %d" % N, [None if lines[0] == HEADING and len(lines) == N // 2 + 2 else "%d lines, %r" % (len(lines), lines[0])])
        ends = [(0, b"   0 "), (9, b"   9 "), (10, b"  10 "), (99, b"  99 "), (100, b" 100 "), (512, b" 512 ")]
        for k, front in ends[:sum(k <= N // 2 for k, _ in ends)]:
            calls.add("line %d of %d" % (k, N), [None if lines[1 + k][:5] == front else "it is %r" % lines[1 + k]])


def check_digits(calls):
    """Every pair of numbers at the edges of each number of digits, of both signs, in the two columns of a line."""
    for cosine, sine in itertools.product(EDGES, repeat=2):
        calls.whole("%d and %d" % (cosine, sine), [cosine], [sine])
    for digits, sign in itertools.product(range(1, 11), (1, -1)):
        for _ in range(10):
            sizes = [sign * calls.rng.randint(*first_and_last(digits)) for _ in range(listed(1024))]
            calls.whole("%d digits in cosine, sign %d" % (digits, sign), sizes, numbers(calls.rng, len(sizes)))
            calls.whole("%d digits in sine, sign %d" % (digits, sign), numbers(calls.rng, len(sizes)), sizes)


def check_rows(calls):
    """Numbers near powers of ten and of two and with one digit that is not 0, and every small one, in cosine and, backwards, in sine."""
    for row in (NEAR, range(-12_000, 12_001), range(LEAST, LEAST + 520), range(MOST - 520, MOST + 1)):
        for at in range(0, len(row), listed(1024)):
            part = list(row[at:at + listed(1024)])
            part += [0] * (listed(1024) - len(part))
            calls.whole("%d and after it" % part[0], part, part[::-1])


def check_each_line(calls):
    """One coefficient that is not 0, in every line of every length, in cosine and in sine: it stands there alone."""
    for N in LENGTHS:
        some = {0, 1, 9, 10, 99, 100, N // 4, N // 2 - 1, N // 2}
        for k in range(listed(N)) if N <= 64 else sorted(k for k in some if k < listed(N)):
            row = [0] * listed(N)
            row[k] = calls.rng.choice((LEAST, MOST, of_digits(calls.rng)))
            calls.whole("cosine of %d alone" % k, row, [0] * listed(N))
            calls.whole("sine of %d alone" % k, [0] * listed(N), row)


def check_random(calls):
    """Random coefficients of every length."""
    for N in LENGTHS:
        for i in range(200 if N < 256 else 60):
            calls.whole("random page %d" % i, numbers(calls.rng, listed(N)), numbers(calls.rng, listed(N)))


# --- coefficients that are lent otherwise ------------------------------------------

def check_spectra(calls):
    """Blocks given to Spectrum, and the page of the very words that it left: random blocks and those with the largest coefficients."""
    rng = calls.rng
    for N in LENGTHS:
        blocks = [random_block(rng, N) for _ in range(40 if N < 256 else 12)]
        blocks += [[LARGEST_SAMPLE] * N, [-LARGEST_SAMPLE] * N, *itertools.islice(largest_blocks(N), 7 if N < 256 else 2)]
        for x in blocks:
            call = placed(rng, x)
            answer = spectrum_call(*call)
            cosine, sine, *lent = lend(rng, call, answer)
            given = lent_samples("the recording", call.recording), call.start, N, call.allowance, cosine, sine, *lent
            calls.compare("Spectrum, N %d" % N, calls.spectrum_function, given, 0)
            left = [list(array.array("i", buffer.front(4 * buffer.count))) for buffer in (cosine, sine)]
            calls.compare_page("a spectrum", cosine, sine, left, N, page_bytes(N) + rng.choice((0, 0, 1, 50)))


def check_one_row(calls):
    """Cosine and sine lent as one array, and as two parts of one that overlap; also where the call is refused."""
    rng = calls.rng
    for N, turn in itertools.product(LENGTHS, range(10)):
        row = numbers(rng, listed(N) + rng.choice((0, 1, 5)))
        calls.page("one array", row, row, N, page_bytes(N) + rng.choice((0, 1, 40)))
        calls.page("one array, a short page", row, row, N, page_bytes(N) - 1, 3)
        calls.page("one array, a coefficient too few", row[:listed(N) - 1], row[:0], N, page_bytes(N), 2)
        row = numbers(rng, listed(N) + 1)
        lent = lent_samples("both", row)
        answer = page_call(row[:-1], row[1:], N, page_bytes(N))
        page, record = lent_bytes(rng, "the page", rng.randbytes(page_bytes(N))), Record(rng, mealbis.PageAnswer, bytes=page_bytes(N))
        page.expect(answer.data)
        given = lent.pointer(), listed(N), lent.pointer(4), listed(N), N, page, record
        calls.compare("two parts of one array, N %d" % N, calls.page_function, given, 0)
        calls.add("two parts of one array, N %d" % N, [lent.difference()])


def check_far(calls):
    """More than 2^32 words of cosine or of sine, and more than 2^32 bytes for a page: no count is cut to 32 bits."""
    rng, N = calls.rng, 8
    rows, size = [numbers(rng, listed(N)) for _ in range(2)], page_bytes(N)
    near = [lent_samples(name, row) for name, row in zip(("cosine", "sine"), rows)]
    far = [Mapped("the far " + name, 4, 2 ** 32 + listed(N) - 1) for name in ("cosine", "sine")]
    for lent, row in zip(far, rows):
        lent.hold(in_memory("i", row))
    for cosine, sine in ((far[0], near[1]), (near[0], far[1]), far):
        for length, short, number in ((N, 0, 0), (N, 1, 3), (3, 0, 1)):
            name = "%d and %d coefficients" % (cosine.count, sine.count)
            calls.compare_page(name, cosine, sine, rows if number != 1 else ([], []), length, size - short, number)
    page = Mapped("the far page", 1, 2 ** 32 + size - 1)
    for cosine, sine, number in ((*near, 0), (*far, 0), (lent_samples("no cosine", []), near[1], 2)):
        page.hold(rng.randbytes(PAGE))
        page.expect(b"" if number else page_call(*rows, N, size).data)
        record = Record(rng, mealbis.PageAnswer, bytes=0 if number else size)
        calls.compare("a page of %d bytes" % page.count, calls.page_function, (cosine, sine, N, page, record), number)


# --- refusals ----------------------------------------------------------------------

SMALL_BAD = [length for length in BAD_LENGTHS if length <= 2048]


def holding(cosine, sine, length, size):
    """The conditions that hold, whatever the others do, in their order."""
    return held(ORDER, {1: length not in LENGTHS, 2: min(len(cosine), len(sine)) < length // 2 + 1, 3: size < 31 * (length // 2 + 2)})


def stored_counts(length):
    """Counts of cosine and sine: enough or more, and too few of one or of both."""
    n = listed(length)
    return {(n, n), (n + 1, n), (n, n + 7), (n - 1, n), (n, n - 1), (n - 1, n - 1), (n - 1, n + 1), (n + 1, n - 1), (2 * n, n - 1), (n - 1, 2 * n),
            (n // 2, n), (n, n // 2), (0, n), (n, 0), (0, 0)}


def page_sizes(length):
    """Bytes for a page: enough or more, a byte too few, a line, or many."""
    size = page_bytes(length)
    return {size, size + 1, size + 31, size + 1000, size - 1, size - 30, size - 31, size - 32, size // 2, 31, 30, 1, 0}


def check_refusals(calls):
    """Every mix of counts and sizes, enough and too few, at every length and at bad ones: each refusal alone, and the earliest of several."""
    met = collections.defaultdict(set)
    for length in (*LENGTHS, *SMALL_BAD):
        row = numbers(calls.rng, 2 * listed(length) + 7), numbers(calls.rng, 2 * listed(length) + 7)
        for counts, size in itertools.product(sorted(stored_counts(length)), sorted(page_sizes(length))):
            cosine, sine = (words[:count] for words, count in zip(row, counts))
            together = holding(cosine, sine, length, size)
            met[length].add(together)
            calls.page("refusals %s" % (together,), cosine, sine, length, size, first(together))
    for length in (*LENGTHS, *SMALL_BAD):
        calls.require([together for together in every_set(ORDER) if (1 in together) == (length not in LENGTHS)], met[length])


def check_every_size(calls):
    """Pages in buffers of every size up to N = 16, and of each size near the page's for longer ones."""
    for N in LENGTHS:
        size = page_bytes(N)
        cosine, sine = numbers(calls.rng, listed(N)), numbers(calls.rng, listed(N))
        for lent in range(size + 65) if N <= 16 else (*range(64), *range(size - 65, size + 65)):
            calls.page("a size", cosine, sine, N, lent, 0 if lent >= size else 3)


def check_every_count(calls):
    """Every pair of counts of cosine and sine up to N = 16, and of those near N/2 + 1 and N for longer ones."""
    for N in LENGTHS:
        n = listed(N)
        counts = range(2 * n + 3) if N <= 16 else (0, 1, n - 2, n - 1, n, n + 1, N - 1, N, N + 1)
        for of_cosine, of_sine in itertools.product(counts, repeat=2):
            cosine, sine = numbers(calls.rng, of_cosine), numbers(calls.rng, of_sine)
            calls.page("counts", cosine, sine, N, page_bytes(N), 0 if min(of_cosine, of_sine) >= n else 2)


def check_lengths(calls):
    """Every length up to 2,100 and some far ones, with enough of everything and with nothing: the eleven are no bad ones."""
    rows, size = [numbers(calls.rng, 2049) for _ in range(2)], page_bytes(2100)
    for length in lengths_up_to(2100):
        good = length in LENGTHS
        calls.page("a length", *rows, length, size, 0 if good else 1)
        calls.page("a length and no coefficients", [], [], length, size, 2 if good else 1)
        calls.page("a length and no page", *rows, length, 0, 3 if good else 1)
        calls.page("a length and nothing", [], [], length, 0, 2 if good else 1)


def check_met(calls):
    """Every answer came up at every length."""
    for length, number in itertools.product((*LENGTHS, *BAD_LENGTHS), (0, *ORDER)):
        can, count = (number != 1) == (length in LENGTHS), calls.answered[length, number]
        calls.add("answer %d at N %d" % (number, length), [None if (count >= 4 if can else count == 0) else "it came up %d times" % count])


# --- the example -------------------------------------------------------------------

def example(abutment, path, block=None):
    """What examples/c/binder_pages.c and examples/rust/binder_pages.rs print for these words."""
    file = read_pair_file(Path(path).read_bytes(), MOST_FILE_SAMPLES, MOST_FILE_SAMPLES)
    if file.refusal:
        sys.exit("refused %d: %s" % (file.refusal, path))
    N, recording = file.length, {"a": file.a, "b": file.b}[abutment]
    blocks = range(file.m // N)
    spectra = (spectrum(recording[i * N:(i + 1) * N])[:2] for i in (blocks if block is None else [blocks[int(block)]]))
    return b"".join(page_call(*coefficients, N, page_bytes(N)).data for coefficients in spectra)


def check_example(calls):
    """examples/binder_pages.txt is what the reference prints for abutment a of examples/train_crossing.pair."""
    (abutment, path), stored = EXAMPLE
    good = (ROOT / stored).read_bytes() == example(abutment, ROOT / path)
    calls.add(stored, [None if good else "it differs"])


CHECKS = (check_known, check_digits, check_rows, check_each_line, check_random, check_spectra, check_one_row, check_far, check_refusals,
          check_every_size, check_every_count, check_lengths, check_met, check_example)


if __name__ == "__main__":
    if sys.argv[1:2] == ["--example"] and len(sys.argv) in (4, 5) and sys.argv[2] in ("a", "b"):
        sys.stdout.buffer.write(example(*sys.argv[2:]))
    else:
        sys.exit(run(PageCalls, CHECKS, __doc__))
