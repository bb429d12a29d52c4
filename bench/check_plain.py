"""Compare bench/plain.c with tests/reference.py: `python3 bench/check_plain.py`.

plain.c is compiled as a shared library and called through ctypes.  For every
call the answer, the counts, the largest rest, the place, every word of every
buffer and a few words beyond each buffer must be as the reference says.
"""

import collections
import ctypes
import itertools
import pathlib
import random
import subprocess
import sys
import tempfile
import time

BENCH = pathlib.Path(__file__).resolve().parent
sys.path.insert(0, str(BENCH.parent / "tests"))

import make_table  # noqa: E402  (found through the path set above)
import reference as ref  # noqa: E402
import reference_self_test as self_test  # noqa: E402

COMPILE = "gcc -O2 -Wall -Wextra -Werror -std=c99 -shared -fPIC -I".split() + [str(BENCH.parent / "include")]
FILLER = 0x5A5A5A5A     # stands in every word before a call
BEYOND = 4              # words after the end of each buffer that must stay

REFERENCE = {"spectrum": ref.spectrum_call, "cosine": ref.cosine_call, "pair": ref.pair_call}
RECORDINGS = {"spectrum": 1, "cosine": 1, "pair": 2}
RESULTS = {"spectrum": 2, "cosine": 1, "pair": 2}
FAR = (2 ** 31, 2 ** 32, 2 ** 63, 2 ** 63 + 8, 2 ** 64 - 8, 2 ** 64 - 4, 2 ** 64 - 1)
tried = collections.Counter()


def compiled(directory):
    target = pathlib.Path(directory) / "libplain.so"
    subprocess.run([*COMPILE, "-o", str(target), str(BENCH / "plain.c")], check=True)
    return ctypes.CDLL(str(target))


def result_words(kind, N):
    return N // 2 + 1 if kind == "spectrum" else N


def products(kind, N):
    counts = ref.tallied_counts(N)
    return {"spectrum": counts.spectrum_products, "cosine": counts.dct_products,
            "pair": counts.pair_products}[kind]


# --- One call ------------------------------------------------------------------

def with_lengths(buffers, lens):
    """The C arguments: each buffer followed by its length."""
    for buffer, length in zip(buffers, lens):
        yield buffer
        yield ctypes.c_size_t(length)


def call_plain(library, kind, recordings, start, N, allowance, result_lens, scratch_len):
    """Call plain.c; return (refusal, place, counts and largest rest, result buffers, scratch)."""
    def filled(word, size): return (word * size)(*[FILLER] * size)
    lent = [(ctypes.c_int32 * (len(r) + 1))(*r) for r in recordings]
    results = [filled(ctypes.c_int32, size + BEYOND) for size in result_lens]
    scratch = filled(ctypes.c_int64, scratch_len + BEYOND)
    counts, largest, place = filled(ctypes.c_uint64, 2), ctypes.c_uint64(FILLER), ctypes.c_uint64(FILLER)
    refusal = getattr(library, "plain_" + kind)(
        *with_lengths(lent, [len(r) for r in recordings]),
        ctypes.c_size_t(start), ctypes.c_size_t(N), ctypes.c_uint64(allowance),
        *with_lengths(results, result_lens), scratch, ctypes.c_size_t(scratch_len),
        counts, ctypes.byref(largest), ctypes.byref(place))
    assert [r[:-1] for r in lent] == [list(r) for r in recordings]
    return refusal, place.value, [*counts, largest.value], [r[:] for r in results], scratch[:]


def expected_words(answer, N, result_lens, scratch_len):
    """What call_plain must return for a reference answer."""
    results = [[FILLER] * (size + BEYOND) for size in result_lens]
    scratch = [FILLER] * (scratch_len + BEYOND)
    counts = [FILLER] * 3
    if answer.refusal == 0:
        for buffer, values in zip(results, answer.results):
            buffer[:len(values)] = values
        cleared = ref.scratch_words(N)
        scratch[:cleared] = [0] * cleared
        counts = [*answer.counts, answer.largest_rest]
    place = FILLER if answer.place is None else answer.place
    return answer.refusal, place, counts, results, scratch


def compare(library, kind, recordings, start, N, allowance, result_lens, scratch_len):
    answer = REFERENCE[kind](*recordings, start, N, allowance, *result_lens, scratch_len)
    expected = expected_words(answer, N, result_lens, scratch_len)
    given = call_plain(library, kind, recordings, start, N, allowance, result_lens, scratch_len)
    assert given == expected, (kind, recordings, start, N, allowance, result_lens, scratch_len)
    tried[answer.refusal] += 1


# --- Which calls ---------------------------------------------------------------

def check_accepted(library):
    """accepted blocks of all lengths, random, extreme and telling, in longer recordings"""
    rng = random.Random(1)
    for N in ref.LENGTHS:
        blocks = [self_test.random_block(rng, N) for _ in range(30)]
        blocks += list(self_test.extreme_blocks(N))
        blocks += [self_test.repeated(signs, size, N) for signs in (ref.ONE_REST_DCT, ref.ONE_REST_COSINE, ref.ONE_REST_SINE)
                   for size in (2 ** 19, -654_321)]
        telling = [ref.DIFFERS_FROM_DIRECT, *[block for block, _, _ in ref.TIES], ref.COSINE_TIE, ref.SINE_TIE]
        blocks += [list(block) for block in telling if len(block) == N]
        for kind, block in [(kind, block) for kind in REFERENCE for block in blocks]:
            before, after = rng.randrange(4), rng.randrange(4)
            wild = rng.choice((0, 2 ** 31 - 1, -2 ** 31))   # outside the block: not examined
            recordings = [[wild] * before + x + [wild] * after
                          for x in (block, rng.choice(blocks))[:RECORDINGS[kind]]]
            result_lens = [result_words(kind, N) + rng.randrange(3) for _ in range(RESULTS[kind])]
            compare(library, kind, recordings, before, N, products(kind, N) + rng.randrange(2),
                    result_lens, ref.scratch_words(N) + rng.randrange(3))


def check_refusals_together(library):
    """every set of refusals 1 to 6 of every call"""
    for kind, function in REFERENCE.items():
        for numbers in [(), *self_test.subsets((1, 2, 3, 4, 5, 6))]:
            call = self_test.broken(self_test.CALLS[function], numbers)
            recordings = [call[key] for key in call if key in self_test.RECORDINGS]
            result_lens = [call[key] for key in call if key in self_test.RESULT_LENS]
            compare(library, kind, recordings, call["start"], call["length"],
                    call["allowance"], result_lens, call["scratch_len"])


def check_far_numbers(library):
    """lengths, starts and allowances at the far end of their words"""
    for kind in REFERENCE:
        recordings, lens, words = [[1] * 8] * RECORDINGS[kind], [8] * RESULTS[kind], ref.scratch_words(8)
        for number in FAR:
            compare(library, kind, recordings, 0, number, 100, lens, words)
            compare(library, kind, recordings, number, 8, 100, lens, words)
            compare(library, kind, recordings, number, 1, 100, lens, words)
            compare(library, kind, recordings, 0, 8, number, lens, words)
        for N in (0, 3, 5, 6, 7, 12, 1023, 1025, 1536, 2047, 2048):
            compare(library, kind, [[1] * 2048] * RECORDINGS[kind], 0, N, 10 ** 6,
                    [2048] * RESULTS[kind], ref.scratch_words(2048))


def near(rng, number):
    """The number itself mostly, else one less or one more, never below 0."""
    return max(0, number + rng.choice((0, 0, 0, 0, 0, 0, -1, 1)))


def check_random(library, how_many=3000):
    """random calls with every size at its edge, mostly accepted, some refused"""
    rng = random.Random(6)
    for _ in range(how_many):
        kind = rng.choice(list(REFERENCE))
        N = rng.choice(ref.LENGTHS)
        start = rng.randrange(5)
        recordings = [self_test.random_block(rng, near(rng, start + N))
                      for _ in range(RECORDINGS[kind])]
        for recording in recordings:
            if recording and rng.random() < 0.15:
                limit = rng.choice((-1, 1)) * rng.choice((self_test.MOST, self_test.TOO_MUCH))
                recording[rng.randrange(len(recording))] = limit
        compare(library, kind, recordings, start, rng.choice((N,) * 20 + (N + 1,)),
                near(rng, products(kind, N)),
                [near(rng, result_words(kind, N)) for _ in range(RESULTS[kind])],
                near(rng, ref.scratch_words(N)))


# --- The way back from stored coefficients -------------------------------------

def compare_inverse(library, coefficients, N, values_len):
    """One call: the answer, the place, the coefficients, and the values with some words beyond."""
    lent = (ctypes.c_int32 * (len(coefficients) + 1))(*coefficients)
    values = (ctypes.c_int32 * (values_len + BEYOND))(*[FILLER] * (values_len + BEYOND))
    place = ctypes.c_uint64(FILLER)
    refusal = library.plain_inverse_dct(
        lent, ctypes.c_size_t(len(coefficients)), ctypes.c_size_t(N),
        values, ctypes.c_size_t(values_len), ctypes.byref(place))
    answer = ref.inverse_call(coefficients, N, values_len)
    written = list(*answer.results)
    expected = (answer.refusal, FILLER if answer.place is None else answer.place,
                list(coefficients), written + [FILLER] * (values_len + BEYOND - len(written)))
    assert (refusal, place.value, lent[:-1], values[:]) == expected, (coefficients, N, values_len)
    tried[answer.refusal] += 1


def check_inverse_accepted(library):
    """the way back: random coefficients, the limit with the signs of the largest sum, ties, blocks sent through Cosine"""
    rng = random.Random(10)
    for stored, _, _ in ref.INVERSE_TIES:
        compare_inverse(library, list(stored), len(stored), len(stored) + 1)
    for N in ref.LENGTHS:
        blocks = [ref.dct(x)[0] for x in self_test.extreme_blocks(N)]
        for stored in [*self_test.stored_blocks(rng, N), *(blocks if N < 512 else blocks[3:5])]:
            compare_inverse(library, stored + [2 ** 31 - 1], N, N + rng.randrange(3))


def check_inverse_refusals(library):
    """the way back: every set of refusals, far lengths, the limit and one beyond at every k"""
    for numbers in [(), *self_test.subsets((1, 2, 3, 10))]:
        call = self_test.broken_inverse(numbers)
        compare_inverse(library, call["coefficients"], call["length"], call["values_len"])
    for N in FAR + (0, 3, 5, 6, 7, 1023, 1025, 2048):
        compare_inverse(library, [1] * 2048, N, 2048)
    for N in ref.LENGTHS[:7]:
        for k, sign, beyond in itertools.product(range(N), (1, -1), (0, 1)):
            stored = [sign * (self_test.limit(N) + beyond) if j == k else 0 for j in range(N)]
            compare_inverse(library, stored, N, N)


def main():
    begun = time.perf_counter()
    assert (BENCH / "table.h").read_text() == make_table.table_text(), "run make_table.py"
    with tempfile.TemporaryDirectory() as directory:
        library = compiled(directory)
        for check in (check_accepted, check_refusals_together, check_far_numbers, check_random,
                      check_inverse_accepted, check_inverse_refusals):
            since = time.perf_counter()
            check(library)
            print("passed in %6.3f s: %s" % (time.perf_counter() - since, check.__doc__))
    print("answers:", ", ".join("%d x %d" % (tried[n], n) for n in sorted(tried)))
    print("%d calls in %.1f s" % (sum(tried.values()), time.perf_counter() - begun))


if __name__ == "__main__":
    main()
