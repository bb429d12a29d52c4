"""Self test of tests/reference.py; run by `python3 tests/reference.py --self-test`.

Each check_ function is one check, and its docstring is the line printed for it; a check that fails is
printed with its traceback. The last line is 'N passed, M failed'.
"""

import itertools
import math
import operator
import pathlib
import random
import struct
import subprocess
import sys
import time
import traceback
from fractions import Fraction

import reference as ref

MOST = ref.LARGEST_SAMPLE
TOO_MUCH = MOST + 1
EXAMPLES = pathlib.Path(__file__).resolve().parent.parent / "examples"


def random_block(rng, N):
    """A block of samples, of small, middling or full size."""
    size = rng.choice((1, 9, 1000, MOST))
    return [rng.randint(-size, size) for _ in range(N)]


def extreme_blocks(N):
    """Blocks of the largest samples, constant, alternating, and like a cosine."""
    yield [MOST] * N
    yield [-MOST] * N
    yield [MOST if n % 2 == 0 else -MOST for n in range(N)]
    for k in (1, N // 4, N // 2 + 1):
        yield [MOST if math.cos(2 * math.pi * n * k / N + 0.3) > 0 else -MOST
               for n in range(N)]


def some_k(rng, last, how_many=24):
    """All of 0 .. last where they are few, else a sample that has both ends."""
    if last <= 64:
        return range(last + 1)
    return sorted({0, 1, last // 2, last - 1, last, *rng.sample(range(last), how_many)})


# --- The circle and the rounding -----------------------------------------------

def check_circle():
    """the circle: unit step, symmetries, negative places, T's fall and its nearness"""
    assert len(ref.T) == 1025
    assert (ref.T[0], ref.T[512], ref.T[1024]) == (1_073_741_824, 759_250_125, 0)
    assert all(left > right for left, right in zip(ref.T, ref.T[1:]))
    c1, s1 = ref.UNIT_STEP
    assert math.isclose(c1 / ref.B, math.cos(2 * math.pi / 4096), abs_tol=1e-15)
    assert math.isclose(s1 / ref.B, math.sin(2 * math.pi / 4096), abs_tol=1e-15)
    for j in range(-5000, 9000):
        assert ref.K(j) == ref.K(j + 4096) == ref.K(-j) == -ref.K(2048 - j)
        assert math.isclose(ref.K(j) / ref.B, math.cos(2 * math.pi * j / 4096), abs_tol=1e-14)
    for j, entry in enumerate(ref.T):
        assert abs(ref.K(j) ** 2 + ref.K(1024 - j) ** 2 - ref.B ** 2) < 2 ** 18 * ref.B
        assert abs(entry - 2 ** 30 * math.cos(2 * math.pi * j / 4096)) < 0.5001


def check_rounding():
    """the rounding and its rest: around zero and at ties, both signs"""
    one, half = 2 ** 30, 2 ** 29
    for v, expected in ((0, 0), (half - 1, 0), (half, 1), (half + 1, 1), (-half, 0),
                        (-half - 1, -1), (one, 1), (-one, -1), (one + half, 2),
                        (-one - half, -1), (-one - half - 1, -2), (-one - half + 1, -1)):
        assert ref.round30(v) == (expected, v - one * expected), v
    for v, rest in ((0, 0), (1, 1), (-1, -1), (half - 1, half - 1), (half, -half), (-half, -half), (-half - 1, half - 1),
                    (half + 1, 1 - half), (one, 0), (-one, 0), (one + 7, 7), (-one - 7, -7), (3 * half, -half), (-3 * half, -half)):
        assert ref.round30(v)[1] == rest, v


def check_ties():
    """TIES: the expressions before rounding are exact ties, go to the larger, and leave the largest rest that there is"""
    c, s = ref.T[256], ref.T[768]
    for block, k, value in ref.TIES:
        C, S = block[0] - block[3], block[2] - block[1]     # of the rearranged block, k = 1
        before = c * C - s * S if k == 1 else s * C + c * S
        assert 2 * before in (2 ** 30 * 16_181, 2 ** 30 * -16_181)
        assert ref.dct(block)[0][k] == value
        assert ref.round30(before) == (value, -2 ** 29)
        assert ref.dct(block)[3] == 2 ** 29


# --- Blocks to try -------------------------------------------------------------

def check_p1_to_p10():
    """P1 to P10"""
    def C(x): return ref.cosine_dft(x)[0]
    def S(x): return ref.sine_dft(x)[0]
    def D(x): return ref.dct(x)[0]
    assert (C([7]), S([7]), D([7])) == ([7], [0], [7])                          # P1
    assert C([1, 2, 3, 4]) == [10, -2, -2] and S([1, 2, 3, 4]) == [0, -2, 0]    # P2
    assert D([1, 2, 3, 4]) == [10, -3, 0, 0]                                    # P3
    assert D([3, 1]) == [4, 1]                                                  # P4
    assert D([0, 1]) == [1, -1]                                                 # P5
    assert D([-1, 1]) == [0, -1]                                                # P6
    first, second = [MOST] + [0] * 7, [0, MOST] + [0] * 6
    assert C(first) == [MOST] * 5 and S(first) == [0] * 5                       # P7
    assert C(second) == [1000000, 707107, 0, -707107, -1000000]                 # P8
    assert S(second) == [0, 707107, 1000000, 707107, 0]                         # P8
    assert ref.dct([0] * 8)[1:3] == (12, 29)                                    # P9
    assert ref.spectrum([0] * 1024)[2:4] == (3_586, 12_804)                     # P10


def check_last_bullet():
    '''the last bullet of "Blocks to try"'''
    def cosine(recording, start, N, allowance):
        return ref.cosine_call(recording, start, N, allowance, N, ref.scratch_words(N))
    zeros = [0] * 8
    assert cosine(zeros, 0, 8, 12).refusal == 0
    assert cosine(zeros, 0, 8, 11) == ref.Answer(5)
    assert cosine(zeros[:7] + [MOST], 0, 8, 12).refusal == 0
    assert cosine(zeros[:7] + [TOO_MUCH], 0, 8, 12) == ref.Answer(6, 7)
    for N in (0, 3, 2048):
        assert cosine([0] * 4096, 0, N, 10 ** 6) == ref.Answer(1)
        assert ref.count_query(N) == ref.Answer(1)
    assert cosine(zeros, 7, 1, 0).refusal == 0
    assert cosine(zeros, 7, 2, 1) == ref.Answer(2)


# --- Counts --------------------------------------------------------------------

def check_counts():
    """tallied counts = closed forms at all lengths, and on every block alike"""
    rng = random.Random(27)
    for N in ref.LENGTHS:
        counts = ref.closed_counts(N)
        assert ref.tallied_counts(N) == counts == ref.count_query(N).counts
        for x in [random_block(rng, N) for _ in range(3)] + list(extreme_blocks(N)):
            assert ref.dct(x)[1:3] == counts[0:2]
            assert ref.spectrum(x)[2:4] == counts[2:4]
            assert ref.pair(x, random_block(rng, N))[2:4] == counts[4:6]
    assert ref.closed_counts(1) == (0, 0, 0, 0, 0, 0)


def check_count_recursions():
    """the steps (21) to (26): each transform's counts from those of the shorter"""
    def counts(transform, N): return transform([0] * N)[1:3]
    assert counts(ref.cosine_dft, 2) == (0, 2) and counts(ref.sine_dft, 2) == (0, 0)
    assert counts(ref.dct, 2) == (1, 2)
    for N in ref.LENGTHS[2:]:
        C, S, D = (counts(f, N) for f in (ref.cosine_dft, ref.sine_dft, ref.dct))
        C_half, S_half = counts(ref.cosine_dft, N // 2), counts(ref.sine_dft, N // 2)
        D_quarter = counts(ref.dct, N // 4)
        assert C == (D_quarter[0] + C_half[0], D_quarter[1] + C_half[1] + 3 * N // 4)
        assert S == (D_quarter[0] + S_half[0], D_quarter[1] + S_half[1] + 3 * N // 4 - 2)
        assert D == (C[0] + S[0] + 3 * N // 2 - 2, C[1] + S[1] + 3 * N // 2 - 3)
        assert ref.tallied_counts(N).pair_sums == 2 * (C[1] + S[1]) + 2 * N - 4


# --- Distances -----------------------------------------------------------------

def fits_word(values):
    return all(-2 ** 31 <= y < 2 ** 31 for y in values)


def assert_distances(rng, a, b):
    """All limits of "Distances" on one pair of blocks, and the size of each result."""
    N = len(a)
    C, S, D = ref.cosine_dft(a)[0], ref.sine_dft(a)[0], ref.dct(a)[0]
    real, imaginary = ref.pair(a, b)[:2]
    assert len(C) == len(S) == N // 2 + 1 and len(D) == len(real) == len(imaginary) == N
    assert all(map(fits_word, (C, S, D, real, imaginary)))
    for k in some_k(rng, N // 2):
        assert ref.within_eighth(C[k], ref.exact_cosine(a, k), N)
        assert ref.within_eighth(S[k], ref.exact_sine(a, k), N)
    for k in some_k(rng, N - 1):
        assert ref.within_quarter_more(D[k], ref.exact_dct(a, k), N)
        assert ref.within_quarter(real[k], ref.exact_real(a, b, k), N)
        assert ref.within_quarter(imaginary[k], ref.exact_imaginary(a, b, k), N)


def check_distances():
    """distances within their limits at all lengths, random and extreme blocks"""
    rng = random.Random(12)
    for N in ref.LENGTHS:
        for _ in range(8 if N > 64 else 60):
            assert_distances(rng, random_block(rng, N), random_block(rng, N))
        for a in extreme_blocks(N):
            assert_distances(rng, a, a)
            assert_distances(rng, a, [-sample for sample in a])


def check_limits_themselves():
    """the limits: reached exactly is within, one beyond is not"""
    for N in ref.LENGTHS:
        for within, limit in ((ref.within_eighth, N * ref.B // 8),
                              (ref.within_quarter_more, (N + 1) * ref.B // 4),
                              (ref.within_quarter, N * ref.B // 4)):
            for sign in (1, -1):
                assert within(5, 5 * ref.B + sign * limit, N)
                assert not within(5, 5 * ref.B + sign * (limit + 1), N)


def check_short_blocks_exact():
    """nothing is rounded in C, S and Pair below N = 8: they are the exact sums, and no rest is larger than 0"""
    rng = random.Random(4)
    for N in (1, 2, 4):
        for _ in range(50):
            a, b = random_block(rng, N), random_block(rng, N)
            C, S, *_, largest = ref.spectrum(a)
            real, imaginary, *_, largest_of_both = ref.pair(a, b)
            assert largest == largest_of_both == 0
            for k in range(N // 2 + 1):
                assert (C[k] * ref.B, S[k] * ref.B) == (ref.exact_cosine(a, k),
                                                        ref.exact_sine(a, k))
            for k in range(N):
                assert real[k] * ref.B == ref.exact_real(a, b, k)
                assert imaginary[k] * ref.B == ref.exact_imaginary(a, b, k)


# --- Rests -----------------------------------------------------------------------

def dct_blocks(work):
    """Every block whose DCT is taken for this work: pairs of a transform, "C", "S" or "D", and its block."""
    waiting = list(work)
    while waiting:
        transform, x = waiting.pop()
        N = len(x)
        if transform == "D":
            yield x
            if N > 1:
                x4 = x[::2] + x[::-2]
                waiting += [("C", x4), ("S", x4)]
        elif N > 2:
            sign = 1 if transform == "C" else -1
            folded = [x[n] + sign * x[N - n] for n in range(1, N // 2, 2)]
            waiting += [(transform, x[::2]), ("D", [v * sign ** n for n, v in enumerate(folded)])]


def rests(work):
    """The rest of every rounding of this work, by remainders: DCT(k) for all k from 1 on is rounded from one expression by (9) and (10)."""
    for x in dct_blocks(work):
        N, x4 = len(x), x[::2] + x[::-2]
        C, S, D = ref.cosine_dft(x4)[0], ref.sine_dft(x4)[0], ref.dct(x)[0]
        for k in range(1, N):
            place, at, sign = 1024 * k // N, min(k, N - k), 1 if 2 * k <= N else -1
            before = ref.T[place] * C[at] - sign * ref.T[1024 - place] * S[at]
            rest = (before + 2 ** 29) % 2 ** 30 - 2 ** 29
            assert before == 2 ** 30 * D[k] + rest
            yield rest


def largest_of(*work):
    return max(map(abs, rests(work)), default=0)


def check_known_rests():
    """largest rests worked on paper: P3 to P6 by Cosine, P8 by Spectrum, and with silence by Pair in both places"""
    assert ref.dct([3, 1])[3] == 2 * 759_250_125 - 2 ** 30 == 444_758_426               # DCT(1) is 1
    assert ref.dct([0, 1])[3] == 2 ** 30 - 759_250_125 == 314_491_699                   # -1
    assert ref.dct([-1, 1])[3] == 444_758_426                                           # -1, and the rest is below 0
    assert ref.dct([1, 2, 3, 4])[3] == 3 * 410_903_207 - 992_008_094 == 240_701_527     # DCT(3) is 0; DCT(1) leaves -165702017
    second, silence = [0, MOST] + [0] * 6, [0] * 8
    rest = MOST * 759_250_125 - 707_107 * 2 ** 30                                       # in C and in S
    assert ref.spectrum(second)[4] == ref.pair(second, silence)[4] == ref.pair(silence, second)[4] == abs(rest) == 234_943_168


def check_rests_again():
    """the largest rest is that of all rests, found in another way: Cosine, Spectrum and Pair, at all lengths"""
    rng = random.Random(29)
    for N in ref.LENGTHS:
        for a in [random_block(rng, N) for _ in range(20 if N < 64 else 2)] + list(extreme_blocks(N))[:6 if N < 256 else 1]:
            b = random_block(rng, N)
            largest = largest_of(("D", a)), largest_of(("C", a), ("S", a)), largest_of(("C", a), ("S", a), ("C", b), ("S", b))
            assert (ref.dct(a)[3], ref.spectrum(a)[4], ref.pair(a, b)[4]) == largest
            assert max(largest) <= 2 ** 29
            if N < 8:
                assert largest[1:] == (0, 0)
            if N == 1:
                assert largest[0] == 0


def check_each_side():
    """the largest rest from each side alone: cosine-DFT or sine-DFT of Spectrum, a or b of Pair; it is the larger of the two"""
    rng = random.Random(5)
    for N in ref.LENGTHS[3:]:
        seen = set()
        for _ in range(100 if N < 64 else 12):
            a, b = ([rng.randint(-MOST, MOST) for _ in range(N)] for _ in range(2))
            C, S, first, second = ref.cosine_dft(a)[3], ref.sine_dft(a)[3], ref.spectrum(a)[4], ref.spectrum(b)[4]
            assert first == max(C, S) and ref.pair(a, b)[4] == max(first, second) > 0
            seen |= {("C" if C > S else "S"), ("a" if first > second else "b")}
        assert seen == {"C", "S", "a", "b"}


def repeated(signs, size, N):
    return [size * signs[n % len(signs)] for n in range(N)]


def check_one_rest():
    """ONE_REST_DCT, _COSINE and _SINE: one rest that is not 0, where it should be; a tie at DCT(512) of N = 1,024"""
    def not_0(*work): return [abs(rest) for rest in rests(work) if rest]
    def size_after(before): return abs(ref.round30(759_250_125 * before)[1])
    for N, size in itertools.product(ref.LENGTHS[1:], (1, -1, 654_321, -2 ** 19, 2 ** 19, MOST)):
        x = repeated(ref.ONE_REST_DCT, size, N)
        assert not_0(("D", x)) == [size_after(N * size)] == [ref.dct(x)[3]]
        if N < 8:
            continue
        for signs, own, other in ((ref.ONE_REST_COSINE, ref.cosine_dft, ref.sine_dft), (ref.ONE_REST_SINE, ref.sine_dft, ref.cosine_dft)):
            x, silence, rest = repeated(signs, size, N), [0] * N, size_after(N // 2 * size)
            assert not_0(("C", x), ("S", x)) == [rest]
            assert (own(x)[3], other(x)[3]) == (rest, 0)
            assert ref.spectrum(x)[4] == ref.pair(x, silence)[4] == ref.pair(silence, x)[4] == rest
    assert [ref.dct(repeated(ref.ONE_REST_DCT, size, 1024))[3] for size in (2 ** 19, -2 ** 19)] == [2 ** 29] * 2


def check_spectrum_ties():
    """COSINE_TIE and SINE_TIE, of both signs: a tie on one side alone, 2^29 by Spectrum, and by Pair as a and as b"""
    silence = [0] * 16
    for tie, own, other in ((ref.COSINE_TIE, ref.cosine_dft, ref.sine_dft), (ref.SINE_TIE, ref.sine_dft, ref.cosine_dft)):
        for x in (tie, [-sample for sample in tie]):
            assert (own(x)[3], other(x)[3]) == (2 ** 29, 0)
            assert ref.spectrum(x)[4] == ref.pair(x, silence)[4] == ref.pair(silence, x)[4] == 2 ** 29


def check_rests_of_calls():
    """the calls give the largest rest of their block, mark as Spectrum; refused calls, the count query and the way back give none"""
    for call, good in CALLS.items():
        recordings = [key for key in good if key in RECORDINGS]
        block = [0, 0, 5, -7, 11, MOST, 3, 9]
        answer = call(**{**good, **{key: [TOO_MUCH] * START + block + [TOO_MUCH] * 7 for key in recordings}})
        largest = ref.dct(block)[3] if call is ref.cosine_call else ref.spectrum(block)[4]
        assert (answer.refusal, answer.largest_rest) == (0, largest) and largest > 0
    assert ref.count_query(8).largest_rest is ref.inverse_call([1] * 8, 8, 8).largest_rest is None


# --- Direct sums rounded once --------------------------------------------------

def differences_from_direct(x):
    """For each kind of coefficient, the (k, value, direct sum rounded once) that differ."""
    C, S, *_ = ref.spectrum(x)
    real, imaginary, *_ = ref.pair(x, x)
    kinds = {
        "cosine-DFT": (C, ref.exact_cosine, (x,)),
        "sine-DFT": (S, ref.exact_sine, (x,)),
        "DCT": (ref.dct(x)[0], ref.exact_dct, (x,)),
        "real": (real, ref.exact_real, (x, x)),
        "imaginary": (imaginary, ref.exact_imaginary, (x, x)),
    }
    return {
        name: [(k, y, ref.rounded_direct(exact(*blocks, k))) for k, y in enumerate(values)
               if y != ref.rounded_direct(exact(*blocks, k))]
        for name, (values, exact, blocks) in kinds.items()}


def check_differs_from_direct():
    """DIFFERS_FROM_DIRECT is the first 0/1 block of 16 that differs in every kind"""
    for number in range(2 ** 16):
        x = tuple(number >> n & 1 for n in range(16))
        differing = differences_from_direct(x)
        if all(differing.values()):
            break
    assert x == ref.DIFFERS_FROM_DIRECT
    print("    DIFFERS_FROM_DIRECT =", x)
    for name, places in differing.items():
        for k, value, direct in places:
            print("    %s(%d) is %d, its direct sum rounded once %d" % (name, k, value, direct))


# --- Refusals of the calls on recordings ---------------------------------------

def subsets(keys):
    """Every choice of one or more of the keys."""
    for size in range(1, len(keys) + 1):
        yield from itertools.combinations(keys, size)


GOOD, BAD = [1] * 20, [TOO_MUCH] * 20       # recordings
START, N = 5, 8                             # of the call that is broken below

CALLS = {
    ref.spectrum_call: dict(recording=GOOD, start=START, length=N, allowance=2,
                            cosine_len=5, sine_len=5, scratch_len=ref.scratch_words(N)),
    ref.mark_call: dict(recording=GOOD, start=START, length=N, allowance=2, flat_limit=0, clip_level=1,
                        cosine_len=5, sine_len=5, scratch_len=ref.scratch_words(N)),
    ref.cosine_call: dict(recording=GOOD, start=START, length=N, allowance=12,
                          result_len=8, scratch_len=ref.scratch_words(N)),
    ref.pair_call: dict(a=GOOD, b=GOOD, start=START, length=N, allowance=4,
                        real_len=8, imaginary_len=8, scratch_len=ref.scratch_words(N)),
}
RECORDINGS = ("recording", "a", "b")
RESULT_LENS = ("cosine_len", "sine_len", "result_len", "real_len", "imaginary_len")


def broken(good, numbers):
    """The call with every one of the numbered conditions made to hold.

    (1 and 5 cannot hold together in the strict sense: a length that is none of
    the eleven has no products.  The allowance is then 0 all the same.)
    """
    call = dict(good)
    for key in good:
        if 6 in numbers and key in RECORDINGS:
            call[key] = BAD
        if 3 in numbers and key in RESULT_LENS:
            call[key] = 0
    for number, key, value in ((1, "length", 3), (2, "start", 19), (4, "scratch_len", 0),
                               (5, "allowance", 0), (12, "flat_limit", -1)):
        if number in numbers:
            call[key] = value
    return call


def check_refusals_together():
    """every set of refusals 1 to 6, and 12 of the mark, in every call: the earliest wins"""
    for call, good in CALLS.items():
        assert call(**good).refusal == 0
        for numbers in subsets((1, 2, 3, 4, 5, 6, 12) if call is ref.mark_call else (1, 2, 3, 4, 5, 6)):
            answer = call(**broken(good, numbers))
            place = START if min(numbers) == 6 else None
            assert answer == ref.Answer(min(numbers), place), (call, numbers)


def check_refusal_edges():
    """each condition at its edge, one thing wrong at a time"""
    for call, good in CALLS.items():
        for key, wrong in [("length", 1), ("start", 2), ("scratch_len", 4), ("allowance", 5)]:
            values = {"length": (0, 3, 5, 6, 7, 9, 12, 1023, 1025, 2048, 2 ** 32, 2 ** 63 + 8),
                      "start": (13, 20, 21, 2 ** 32, 2 ** 64 - 8, 2 ** 64 - 1),
                      "scratch_len": (0, good["scratch_len"] - 1), "allowance": (0, good["allowance"] - 1)}[key]
            for value in values:
                assert call(**{**good, key: value}) == ref.Answer(wrong), (call, key, value)
        assert call(**{**good, "start": 12}).refusal == 0
        for key in good:
            if key in RESULT_LENS:
                assert call(**{**good, key: good[key] - 1}) == ref.Answer(3)
                assert call(**{**good, key: good[key] + 1}).refusal == 0
            if key in RECORDINGS:
                assert call(**{**good, key: GOOD[:12]}) == ref.Answer(2)
                assert call(**{**good, key: GOOD[:13]}).refusal == 0


def with_sample(place, sample):
    return GOOD[:place] + [sample] + GOOD[place + 1:]


def check_places_of_refusal_6():
    """refusal 6: its place, both signs, the block alone examined, a before b"""
    for call, good in CALLS.items():
        for key in [key for key in good if key in RECORDINGS]:
            for place in range(20):
                inside = START <= place < START + N
                for sample in (TOO_MUCH, -TOO_MUCH, 2 ** 31 - 1, -2 ** 31):
                    answer = call(**{**good, key: with_sample(place, sample)})
                    assert (answer.refusal, answer.place) == ((6, place) if inside else (0, None))
                for sample in (MOST, -MOST):
                    assert call(**{**good, key: with_sample(place, sample)}).refusal == 0
    good = CALLS[ref.pair_call]
    late, early = with_sample(12, TOO_MUCH), with_sample(5, TOO_MUCH)
    assert ref.pair_call(**{**good, "a": late, "b": early}) == ref.Answer(6, 12)
    assert ref.pair_call(**{**good, "a": early, "b": late}) == ref.Answer(6, 5)


def check_shortest_calls():
    """N = 1 needs one word of each result, its words of scratch and no products"""
    scratch = ref.scratch_words(1)
    assert ref.spectrum_call([7], 0, 1, 0, 1, 1, scratch) == ref.Answer(0, None, ([7], [0]), (0, 0), None, 0)
    assert ref.mark_call([7], 0, 1, 0, 0, 8, 1, 1, scratch) == ref.Answer(0, None, ([7], [0]), (0, 0), ref.FLAT, 0)
    assert ref.cosine_call([7], 0, 1, 0, 1, scratch) == ref.Answer(0, None, ([7],), (0, 0), None, 0)
    assert ref.pair_call([7], [9], 0, 1, 0, 1, 1, scratch) == ref.Answer(0, None, ([7], [9]), (0, 0), None, 0)
    assert ref.spectrum_call([7], 0, 1, 0, 0, 1, scratch) == ref.Answer(3)
    assert ref.spectrum_call([7], 0, 1, 0, 1, 0, scratch) == ref.Answer(3)
    assert ref.cosine_call([7], 0, 1, 0, 1, scratch - 1) == ref.Answer(4)
    assert ref.cosine_call([], 0, 1, 0, 1, scratch) == ref.Answer(2)


# --- The mark of a block -------------------------------------------------------

# Blocks with the largest size of a coefficient from k = 1 on and that of a sample, worked on paper. At N = 2,
# C(1) = x0 - x1 and S is 0; at N = 4, C(1) = x0 - x2, C(2) = x0 - x1 + x2 - x3, S(1) = x1 - x3 and S(2) = 0.
SIZES = (
    ((7,), 0, 7),                                   # no k = 1; 0 is below every limit
    ((-MOST,), 0, MOST),
    ((3, 1), 2, 3),                                 # C 4, 2
    ((-5, 4), 9, 5),                                # C -1, -9
    ((MOST, -MOST), 2 * MOST, MOST),                # C 0, 2000000
    ((1, 2, 3, 4), 2, 4),                           # C 10, -2, -2; S 0, -2, 0: P2
    ((6, 0, -5, 0), 11, 6),                         # C 1, 11, 1; S 0, 0, 0: C(1) alone
    ((-6, 0, 5, 0), 11, 6),                         # C -1, -11, -1; S 0, 0, 0
    ((0, -7, 0, 2), 9, 7),                          # C -5, 0, 5; S 0, -9, 0: S(1) alone
    ((0, 7, 0, -2), 9, 7),                          # C 5, 0, -5; S 0, 9, 0
    ((3, -3, 3, -4), 13, 4),                        # C -1, 0, 13; S 0, 1, 0: the last k alone
    ((-3, 3, -3, 4), 13, 4),                        # C 1, 0, -13; S 0, -1, 0
    ((9, 9, 9, 9), 0, 9),                           # C 36, 0, 0: the mean does not count
    ((MOST,) + (0,) * 7, MOST, MOST),               # P7
    ((0, MOST) + (0,) * 6, MOST, MOST),             # P8
    ((MOST,) * 8, 0, MOST),                         # request (x)
)


def marked(x, flat_limit, clip_level, before=(), behind=()):
    """The mark of a block in the midst of other samples."""
    N = len(x)
    answer = ref.mark_call([*before, *x, *behind], len(before), N, 10 ** 6, flat_limit, clip_level, N, N, ref.scratch_words(N))
    assert answer.refusal == 0
    return answer.mark


def figures_around(coefficient, sample):
    """Allowed figures at the edges of both rules, with the rules that are met; by the largest sizes in the block."""
    for flat_limit, clip_level in itertools.product((coefficient - 1, coefficient, coefficient + 1), (sample, sample + 1)):
        if flat_limit >= 0 and 1 <= clip_level <= MOST:
            met = [ref.FLAT] * (coefficient <= flat_limit) + [ref.CLIPPED] * (sample >= clip_level)
            yield flat_limit, clip_level, met


def first_looked_at(met):
    return min(met, key=ref.LOOKED_AT.index, default=ref.PLAIN)


def check_marks_by_hand():
    """marks worked on paper: each figure at its edge and one beyond, samples outside of the block not examined"""
    for x, coefficient, sample in SIZES:
        for flat_limit, clip_level, met in figures_around(coefficient, sample):
            for outside in ((), (MOST,), (-MOST,), (TOO_MUCH,)):
                assert marked(x, flat_limit, clip_level, outside, outside) == first_looked_at(met), (x, flat_limit, clip_level)
    assert [marked((1, 2, 3, 4), *figures) for figures in ((2, 5), (1, 4), (1, 5))] == [ref.FLAT, ref.CLIPPED, ref.PLAIN] == [1, 2, 3]
    for N in (1, 8):
        assert marked((MOST,) * N, 0, MOST) == ref.LOOKED_AT[0]         # both rules are met: request (x)


def check_mark_with_spectrum():
    """blocks of every length, figures at the edges: Spectrum's answer and the mark by the largest sizes; the largest limit makes all flat"""
    rng = random.Random(33)
    for N in ref.LENGTHS:
        lens = [N // 2 + 1, N // 2 + 1, ref.scratch_words(N)]
        for x in [random_block(rng, N) for _ in range(8 if N < 256 else 1)] + list(extreme_blocks(N))[:6 if N < 256 else 3]:
            spectrum = ref.spectrum_call(x, 0, N, 10 ** 6, *lens)
            coefficient = max(map(abs, [0] + spectrum.results[0][1:] + spectrum.results[1][1:]))
            for flat_limit, clip_level, met in figures_around(coefficient, max(map(abs, x))):
                answer = ref.mark_call(x, 0, N, 10 ** 6, flat_limit, clip_level, *lens)
                assert answer == spectrum._replace(mark=first_looked_at(met))
            assert coefficient <= 2 ** 31 - 1


def check_figures():
    """refusal 12: figures at their ends and beyond them"""
    for flat_limit, clip_level in itertools.product((-2 ** 31, -1, 0, 1, 2 ** 31 - 1), (-2 ** 31, -1, 0, 1, 2, 999_999, MOST, TOO_MUCH, 2 ** 31 - 1)):
        answer = ref.mark_call([5, 6], 0, 2, 0, flat_limit, clip_level, 2, 2, 80)
        if flat_limit in (0, 1, 2 ** 31 - 1) and clip_level in (1, 2, 999_999, MOST):
            assert answer._replace(mark=None) == ref.Answer(0, None, ([11, -1], [0, 0]), (0, 2), None, 0)
        else:
            assert answer == ref.Answer(12)


# --- The month -----------------------------------------------------------------

UNKNOWN = (0, 3, 4, 257, 65_538, 2 ** 32 + 1, 2 ** 32 + 2, 2 ** 63, 2 ** 63 + 1, 2 ** 64 - 2, 2 ** 64 - 1)       # parties


def added(month, party, x, before=(), behind=()):
    """The month with a block, which stands in the midst of other samples, and must be accepted."""
    N = len(x)
    answer, month = ref.month_add(month, party, [*before, *x, *behind], len(before), N, 10 ** 6, N // 2 + 1, N // 2 + 1, ref.scratch_words(N))
    assert answer == ref.spectrum_call(x, 0, N, 10 ** 6, N, N, ref.scratch_words(N)) and answer.refusal == 0
    return month


def roomy_addition(month, party, length):
    """The answer to a block of ones, with enough of everything for every length up to 2,048, and the month then."""
    return ref.month_add(month, party, [1] * 2048, 0, length, 10 ** 6, 1025, 1025, ref.scratch_words(2048))


def month_words(N, **accounts):
    """The words of a month, laid out in another way; road is the account of party 1, rail that of party 2: block number, cosine, sine."""
    words = {0: (ref.EDITION << 16) + N}
    for name, first in (("road", 1), ("rail", 1028)):
        blocks, cosine, sine = accounts.get(name, (0, [], []))
        words |= {first: blocks} | dict(enumerate(cosine, first + 1)) | dict(enumerate(sine, first + 514))
    return [words.get(place, 0) for place in range(2055)]


OWNERS = (("road", 1), ("rail", 2))


def check_months_by_hand():
    """months of N = 1, 2, 4 and 8 worked on paper, word by word after each block, of both parties"""
    second = [0, MOST] + [0] * 6
    for history in (
            [([7], [7], [0]), ([-9], [-2], [0]), ([MOST], [999_998], [0])],
            [([3, 1], [4, 2], [0, 0]), ([-5, 4], [3, -7], [0, 0]), ([MOST, -MOST], [3, 1_999_993], [0, 0])],
            [([1, 2, 3, 4], [10, -2, -2], [0, -2, 0]),                                  # P2
             ([0, -7, 0, 2], [5, -2, 3], [0, -11, 0]),                                  # C -5, 0, 5; S 0, -9, 0
             ([6, 0, -5, 0], [6, 9, 4], [0, -11, 0])],                                  # C 1, 11, 1; S 0, 0, 0
            [(second, [MOST, 707_107, 0, -707_107, -MOST], [0, 707_107, MOST, 707_107, 0]),             # P8
             ([MOST] + [0] * 7, [2 * MOST, 1_707_107, MOST, 292_893, 0], [0, 707_107, MOST, 707_107, 0]),     # P7
             (second, [3 * MOST, 2_414_214, MOST, -414_214, -MOST], [0, 1_414_214, 2 * MOST, 1_414_214, 0])]):
        N = len(history[0][0])
        (refusal, month), accounts = ref.month_begin(N), {}
        assert refusal == 0 and month == month_words(N)
        for (n, (x, cosine, sine)), (owner, party) in itertools.product(enumerate(history, 1), OWNERS):
            month, accounts[owner] = added(month, party, x, (TOO_MUCH,) * n, (-TOO_MUCH,)), (n, cosine, sine)
            assert month == month_words(N, **accounts)
            assert (ref.month_length(month), ref.month_blocks(month, party)) == (N, (0, n))
            assert [ref.month_sums(month, party, k) for k in range(N // 2 + 1)] == [(0, *both) for both in zip(cosine, sine)]
            assert {ref.month_sums(month, party, k) for k in (N // 2 + 1, N, 513, 2 ** 64 - 1)} == {(16, 0, 0)}


def check_month_beginnings():
    """beginning: a month of no blocks, of length 0 after a bad length; then 13 to every block of either party, also to one of length 0"""
    for length in (*ref.LENGTHS, 0, 3, 5, 1023, 1025, 2048, 2 ** 32 + 8, 2 ** 63, 2 ** 64 - 1):
        good = length in ref.LENGTHS
        refusal, month = ref.month_begin(length)
        assert refusal == (0 if good else 1) and month == (month_words(length) if good else [0] * 2055)
        for other, (_, party) in itertools.product((*ref.LENGTHS, 0, 3, 2048, length), OWNERS):
            answer, then = roomy_addition(month, party, other)
            assert answer.refusal == (0 if good and other == length else 13)
            assert ref.month_blocks(then, party) == (0, 1 if good and other == length else 0)
            assert ref.month_sums(month, party, 0) == ((0, 0, 0) if good else (16, 0, 0))


def broken_addition(numbers, owner, party):
    """The arguments of an addition with every one of the numbered conditions made to hold; the other's account is full where this one's is not."""
    call = broken(CALLS[ref.spectrum_call], numbers)
    accounts = {name: (50_000 if (name == owner) == (14 in numbers) else 7, [5] * 5, [-6] * 5) for name, _ in OWNERS}
    return dict(call, party=3 if 15 in numbers else party, month=month_words(4 if 13 in numbers else N, **accounts))


def check_month_refusals_together():
    """every set of refusals 15, 13, 14, 2 to 6 of adding, by either party: the earliest wins, and the month stays; the last block, and one more"""
    order = (15, 13, 14, 2, 3, 4, 5, 6)
    for (owner, party), (other, _) in zip(OWNERS, OWNERS[::-1]):
        for numbers in subsets(order):
            call = broken_addition(numbers, owner, party)
            first = min(numbers, key=order.index)
            assert ref.month_add(**call) == (ref.Answer(first, START if first == 6 else None), call["month"]), numbers
        call, stays = broken_addition((), owner, party), {other: (50_000, [5] * 5, [-6] * 5)}
        answer, month = ref.month_add(**call)
        assert answer.refusal == 0 and month == month_words(N, **stays, **{owner: (8, [13] + [5] * 4, [-6] * 5)})      # C 8, 0, 0, 0, 0
        for blocks, refusal in ((49_998, 0), (49_999, 0), (50_000, 14), (50_001, 14), (100_000, 14), (2 ** 63 - 1, 14), (-1, 0), (-2 ** 63, 0)):
            call["month"] = month_words(N, **stays, **{owner: (blocks, [], [])})
            answer, month = ref.month_add(**call)
            added_up = (blocks, [], []) if refusal else (blocks + 1, [8], [])
            assert answer.refusal == refusal and month == month_words(N, **stays, **{owner: added_up})


def check_unknown_parties():
    """parties that are neither 1 nor 2: 15 to every block, and in reading, before 16; the month stays"""
    full = (50_000, [5] * 5, [6] * 5)
    for party, month in itertools.product(UNKNOWN, (month_words(N), month_words(N, road=full, rail=full), ref.month_begin(3)[1])):
        for length in (*ref.LENGTHS, 0, 3, 2048):
            assert roomy_addition(month, party, length) == (ref.Answer(15), month)
        for start, scratch in itertools.product((0, 2 ** 64 - 1), (0, ref.scratch_words(N))):
            assert ref.month_add(month, party, [TOO_MUCH] * N, start, N, 0, 0, 0, scratch) == (ref.Answer(15), month)
        assert ref.month_blocks(month, party) == (15, 0)
        assert {ref.month_sums(month, party, k) for k in (0, 4, 5, 2 ** 64 - 1)} == {(15, 0, 0)}


def check_owners_apart():
    """both owners' calls in any order, refused ones too: each has the answers and the account that it has from its own calls alone"""
    rng = random.Random(36)
    for N in (1, 4, 16, 64):
        month, alone = ref.month_begin(N)[1], {party: ref.month_begin(N)[1] for _, party in OWNERS}
        for _ in range(120):
            party, length = rng.choice((1, 1, 2, 3)), rng.choice((N, N, N, 2))
            call = random_block(rng, N), rng.choice((0, 0, 0, 1)), length, 10 ** 6, 33, rng.choice((0, 33, 33)), ref.scratch_words(64)
            answer, month = ref.month_add(month, party, *call)
            if party in alone:
                own, alone[party] = ref.month_add(alone[party], party, *call)
                assert own == answer
            assert month == [month[0]] + alone[1][1:1028] + alone[2][1028:]
        assert alone[1][1] > 10 and alone[2][1028] > 5


def check_months():
    """histories of every length with refused blocks in between: each party's sums are those over its accepted blocks, within n * N/8 of the exact"""
    rng = random.Random(34)
    for N, kind in itertools.product(ref.LENGTHS, ("random", "repeated", "extreme")):
        count = 9 if N < 128 else 3
        blocks = {"random": [random_block(rng, N) for _ in range(count)], "repeated": [random_block(rng, N)] * count,
                  "extreme": list(extreme_blocks(N))[:count]}[kind]
        month = ref.month_begin(N)[1]
        other = ref.LENGTHS[ref.LENGTHS.index(N) - 1]
        good = dict(start=0, length=N, allowance=10 ** 6, cosine_len=513, sine_len=513, scratch_len=ref.scratch_words(1024))
        parties = [1 + n % 3 // 2 for n in range(len(blocks))]          # 1, 1, 2, 1, 1, 2, ..
        for x, party in zip(blocks, parties):
            month = added(month, party, x)
            for refusal, wrong in ((15, dict(party=3)), (13, dict(recording=[0] * 1024, length=other)), (2, dict(start=1)), (3, dict(sine_len=0)),
                                   (4, dict(scratch_len=ref.scratch_words(1) - 1)), (6, dict(recording=x[:-1] + [TOO_MUCH]))):
                answer, then = ref.month_add(month, **{**good, "party": party, "recording": x, **wrong})
                assert answer.refusal == refusal and then == month
        accounts = {owner: summed(rng, [x for x, by in zip(blocks, parties) if by == party]) for owner, party in OWNERS}
        assert month == month_words(N, **accounts)


def summed(rng, blocks):
    """The account of a party with these blocks, each sum within its limit."""
    N = len(blocks[0])
    spectra = [ref.spectrum(x) for x in blocks]
    cosine, sine = ([sum(column) for column in zip(*(spectrum[which] for spectrum in spectra))] for which in (0, 1))
    for k in some_k(rng, N // 2, 4):
        for y, exact in ((cosine[k], ref.exact_cosine), (sine[k], ref.exact_sine)):
            of_sums = exact([sum(samples) for samples in zip(*blocks)], k)              # exact sums are linear
            assert ref.exact_month(exact, blocks, k) == of_sums
            assert ref.within_eighths(y, of_sums, len(blocks), N)
    return len(blocks), cosine, sine


def check_month_limit():
    """the limit n * N/8: reached exactly is within, one beyond is not; no blocks leave no room"""
    for N, n, sign in itertools.product(ref.LENGTHS, (0, 1, 2, 3, 49_999, 50_000), (1, -1)):
        limit = n * N * ref.B // 8
        assert ref.within_eighths(5, 5 * ref.B + sign * limit, n, N)
        assert not ref.within_eighths(5, 5 * ref.B + sign * (limit + 1), n, N)
        assert n != 1 or ref.within_eighth(5, 5 * ref.B + sign * limit, N)


def check_words_of_no_month():
    """words that no month left there: another number than a mark is the length 0, a sum beyond 2^62 in size stays, others are added to"""
    mark = ref.EDITION << 16
    words = (-mark - 8, mark - 2 ** 32 + 8, mark + 2 ** 32 + 8, 2 ** 63 - 1, -2 ** 63, mark - 1, mark, mark + 3, mark + 2048, mark + 65_536)
    others = [(edition << 16) + N for edition in (0, 1, ref.EDITION - 10_000, ref.EDITION - 1, ref.EDITION + 1) for N in ref.LENGTHS]
    for first in (*words, *others):
        month = [first] + [9] * 2054
        assert ref.month_length(month) == 0
        for (_, party), other in itertools.product(OWNERS, (*ref.LENGTHS, 0, first % 2 ** 64, (first - mark) % 2 ** 64)):
            assert ref.month_sums(month, party, 0) == (16, 0, 0) and ref.month_blocks(month, party) == (0, 9)
            assert roomy_addition(month, party, other) == (ref.Answer(13), month)
    whole = 2 ** 62
    for held, then in ((whole, whole + 3), (-whole, 3 - whole), (whole + 1, whole + 1), (-whole - 1, -whole - 1), (2 ** 63 - 1, 2 ** 63 - 1),
                       (-2 ** 63, -2 ** 63), (whole - 1, whole + 2), (0, 3)):
        for party, month in ((1, [mark + 1, 4] + [held] * 2053), (2, [mark + 1] + [held] * 1027 + [4] + [held] * 1026)):
            changed = {1: 5, 2: then} if party == 1 else {1028: 5, 1029: then}          # the sine is 0
            assert added(month, party, [3]) == [changed.get(place, word) for place, word in enumerate(month)]


# --- The page ------------------------------------------------------------------

HEADING = b"   k       cosine         sine\n"


def page_of(cosine, sine, N):
    """The page of an accepted call, with just the bytes that it takes."""
    page = ref.page_call(cosine, sine, N, 31 * (N // 2 + 2))
    assert page.refusal == 0
    return page.data


def check_page_lines():
    """pages written by hand, to the byte: the ends of 32 bits, each number of digits, both signs, k of one digit to three"""
    assert page_of([7], [0], 1) == HEADING + b"   0            7            0\n"
    assert page_of([4, 2], [0, 0], 2) == HEADING + b"   0            4            0\n" + b"   1            2            0\n"
    assert page_of([-2 ** 31, 0, 2 ** 31 - 1], [2 ** 31 - 1, -1, -2 ** 31], 4) == HEADING + (
        b"   0  -2147483648   2147483647\n"
        b"   1            0           -1\n"
        b"   2   2147483647  -2147483648\n")
    cosine = [1, -12, 123, -1234, 12345, -123456, 1234567, -12345678, 123456789, -1234567890]
    rows = (b"            1           -1", b"          -12           12", b"          123         -123", b"        -1234         1234",
            b"        12345       -12345", b"      -123456       123456", b"      1234567     -1234567", b"    -12345678     12345678",
            b"    123456789   -123456789", b"  -1234567890   1234567890")
    page = page_of(cosine + [0] * 503, [-number for number in cosine] + [-9] * 503, 1024).splitlines(True)
    assert page[:11] == [HEADING] + [b"   %d" % k + row + b"\n" for k, row in enumerate(rows)]
    assert [page[1 + k] for k in (10, 99, 100, 512)] == [
        b"  10            0           -9\n", b"  99            0           -9\n",
        b" 100            0           -9\n", b" 512            0           -9\n"]


def check_pages():
    """pages of every length: a heading and a line of 31 bytes for each k from 0 to N/2, words behind not printed; they read back as the input"""
    rng = random.Random(35)
    for N in ref.LENGTHS:
        yielded = {1: 1, 2: 2, 4: 3, 8: 5, 16: 9, 32: 17, 64: 33, 128: 65, 256: 129, 512: 257, 1024: 513}[N]
        assert yielded == len(ref.spectrum([1] * N)[0])
        assert ref.page_bytes(N) == 31 * (1 + yielded)
        for _ in range(4):
            cosine, sine = ([rng.randint(-2 ** 31, 2 ** 31 - 1) >> rng.randrange(32) for _ in range(yielded)] for _ in range(2))
            page = page_of(cosine, sine, N)
            lines = page.splitlines(True)
            assert lines[0] == HEADING and len(lines) == 1 + yielded and {len(line) for line in lines} == {31}
            assert {(line[4], line[17], line[30]) for line in lines} == {(32, 32, 10)}
            columns = [(line[:4], line[5:17], line[18:30]) for line in lines[1:]]
            assert [tuple(map(int, entries)) for entries in columns] == list(zip(range(yielded), cosine, sine))
            assert all(not entry.endswith(b" ") and entry.split() == [b"%d" % int(entry)] for entries in columns for entry in entries)
            for more in (1, 31, 5000):
                assert ref.page_call(cosine + [5] * more, sine + [6] * (more - 1), N, len(page) + more) == ref.Page(0, page)


def broken_page(numbers, N):
    """The call on a block of N, or of 3 N, with every one of the numbered conditions made to hold."""
    length = 3 * N if 1 in numbers else N
    stored = length // 2 + (0 if 2 in numbers else 1)
    return dict(cosine=[5] * stored, sine=[6] * stored, length=length, page_len=31 * (length // 2 + 2) - (1 if 3 in numbers else 0))


def check_page_refusals():
    """every set of refusals 1, 2, 3 of a page at every length: the earliest wins; each at its edge, of the cosine and of the sine"""
    for N in ref.LENGTHS:
        assert ref.page_call(**broken_page((), N)).refusal == 0
        for numbers in subsets((1, 2, 3)):
            assert ref.page_call(**broken_page(numbers, N)) == ref.Page(min(numbers)), numbers
        enough, few, size = [0] * (N // 2 + 1), [0] * (N // 2), 31 * (N // 2 + 2)
        for cosine, sine in ((few, enough), (enough, few), (few, few), ([], enough), (enough, []), ([], [])):
            assert ref.page_call(cosine, sine, N, size) == ref.page_call(cosine, sine, N, 0) == ref.Page(2)
        for short in (0, 1, 30, 31, size - 32, size - 31, size - 1):
            assert ref.page_call(enough, enough, N, short) == ref.Page(3)
    for length in (0, 3, 5, 6, 7, 9, 1023, 1025, 2048, 2 ** 32, 2 ** 32 + 8, 2 ** 63, 2 ** 64 - 1):
        assert ref.page_call([0] * 2048, [0] * 2048, length, 10 ** 6) == ref.Page(1)


# --- The way back from stored coefficients -------------------------------------

def limit(N):
    return N * 1_000_000 + N


def check_wave_round_the_circle():
    """T round the circle: T itself up to place 1,024, K's symmetries, near the cosine"""
    assert [ref.T_on_circle(j) for j in range(1025)] == ref.T
    for j in range(-5000, 9000):
        entry = ref.T_on_circle(j)
        assert entry == ref.T_on_circle(j + 4096) == ref.T_on_circle(-j) == -ref.T_on_circle(2048 - j)
        assert abs(entry - 2 ** 30 * math.cos(2 * math.pi * j / 4096)) < 0.5001


def check_nearest():
    """v / m to the nearest: every v around zero for some m, ties to the larger"""
    for m in (1, 2, 4, 7, 1024):
        for v in range(-3 * m, 3 * m + 1):
            assert ref.nearest(v, m) == math.floor(Fraction(v, m) + Fraction(1, 2))


def check_inverse_by_hand():
    """values worked by hand at N = 1, 2 and 4: the sums before rounding, and P1 to P6 sent back"""
    one, eighth, quarter, three = 2 ** 30, 992_008_094, 759_250_125, 410_903_207  # T(0), T(256), T(512), T(768)
    assert ref.inverse_sum([7], 0) == 7 * one
    assert [ref.inverse_sum([4, 1], n) for n in range(2)] == [4 * one + 2 * quarter, 4 * one - 2 * quarter]
    waves = ([one // 2] * 4, [eighth, three, -three, -eighth],
             [quarter, -quarter, -quarter, quarter], [three, -eighth, eighth, -three])
    for k, wave in enumerate(waves):
        for size in (1, -1, limit(4), -limit(4)):
            stored = [size if j == k else 0 for j in range(4)]
            assert [ref.inverse_sum(stored, n) for n in range(4)] == [2 * size * entry for entry in wave]
    for stored, block in (([7], [7]), ([10, -3, 0, 0], [1, 2, 3, 4]), ([4, 1], [3, 1]),
                          ([1, -1], [0, 1]), ([0, -1], [-1, 1])):
        assert ref.dct(block)[0] == stored
        assert ref.inverse_dct(stored) == block


def check_inverse_ties():
    """INVERSE_TIES, and half a step up to N = 256: exact ties before rounding, to the larger"""
    for stored, n, value in ref.INVERSE_TIES:
        before = Fraction(ref.inverse_sum(stored, n), len(stored) * 2 ** 30)
        assert before.denominator == 2 and value - before == Fraction(1, 2)
        assert ref.inverse_dct(stored)[n] == value
    for N in ref.LENGTHS[1:-2]:
        for sign, value in ((1, 1), (-1, 0)):
            assert ref.inverse_dct([sign * N // 2] + [0] * (N - 1)) == [value] * N


def stored_blocks(rng, N):
    """Accepted coefficients: random of two sizes, and the limit with the signs that make the last value largest."""
    for size in (1000, limit(N)):
        yield [rng.randint(-size, size) for _ in range(N)]
    yield [limit(N) if ref.T_on_circle((2 * N - 1) * k * 1024 // N) > 0 else -limit(N) for k in range(N)]


def check_inverse_sums():
    """stored blocks at all lengths: each value is its fraction's nearest, and fits 32 bits"""
    rng = random.Random(30)
    for N in ref.LENGTHS:
        for c in stored_blocks(rng, N):
            values = ref.inverse_dct(c)
            assert len(values) == N and fits_word(values)
            for n in some_k(rng, N - 1, 4):
                scaled = [Fraction(2 * ref.T_on_circle(k * (2 * n + 1) * (1024 // N)), 2 ** 30) for k in range(N)]
                exact = (sum(map(operator.mul, c, scaled)) - c[0]) / N
                assert Fraction(-1, 2) < values[n] - exact <= Fraction(1, 2)
    assert ref.inverse_sum(c, N - 1) > 2 ** 70      # of the last block: beyond 64 bits


def check_round_trip():
    """a block sent through Cosine and back: accepted, each sample within N, at all lengths"""
    rng = random.Random(31)
    for N in ref.LENGTHS:
        blocks = [random_block(rng, N) for _ in range(40 if N < 64 else 2)] + list(extreme_blocks(N))[:40 if N < 256 else 1]
        blocks += [[MOST if n == place else 0 for n in range(N)] for place in range(min(N, 2))]
        for x in blocks:
            answer = ref.inverse_call(ref.dct(x)[0], N, N)
            assert answer.refusal == 0
            assert max(abs(value - sample) for value, sample in zip(answer.results[0], x)) <= N


STORED = [5] * 8        # the coefficients of the call that is broken below


def broken_inverse(numbers):
    """The call with every one of the numbered conditions made to hold."""
    stored = list(STORED)
    if 10 in numbers:
        stored[2] = limit(8) + 1
    length = 6 if 1 in numbers else 8
    return dict(coefficients=stored[:length - 1] if 2 in numbers else stored, length=length,
                values_len=length - 1 if 3 in numbers else length)


def check_inverse_refusals_together():
    """every set of refusals 1, 2, 3, 10 of the way back: the earliest wins"""
    assert ref.inverse_call(**broken_inverse(())).refusal == 0
    for numbers in subsets((1, 2, 3, 10)):
        place = 2 if min(numbers) == 10 else None
        assert ref.inverse_call(**broken_inverse(numbers)) == ref.Answer(min(numbers), place), numbers


def check_inverse_refusal_edges():
    """refusals of the way back at their edges: lengths, sizes, the limit on both sides at every k"""
    for length in (0, 3, 5, 6, 7, 9, 1023, 1025, 2048, 2 ** 32, 2 ** 64 - 1):
        assert ref.inverse_call([0] * 2048, length, 2048) == ref.Answer(1)
    for N in ref.LENGTHS:
        zeros = [0] * N
        assert ref.inverse_call(zeros[1:], N, N) == ref.Answer(2)
        assert ref.inverse_call(zeros, N, N - 1) == ref.Answer(3)
        for k in (0, N // 2, N - 1):
            for size in (limit(N) + 1, -limit(N) - 1, 2 ** 31 - 1, -2 ** 31):
                assert ref.inverse_call(zeros[:k] + [size] * (N - k), N, N) == ref.Answer(10, k)
    for stored in ([limit(8)] * 8, [-limit(8)] * 8, STORED + [limit(8) + 1]):       # the ninth is not examined
        assert ref.inverse_call(stored, 8, 9).refusal == 0


# --- The pair file and the program ---------------------------------------------

def file_bytes(a, b, N, m=None):
    m = len(a) if m is None else m
    return struct.pack("<II%di" % (len(a) + len(b)), m, N, *a, *b)


def broken_file(numbers):
    """A file, and the length of both recordings, with the numbered conditions holding."""
    m = 4097 if 8 in numbers else 6
    a = [TOO_MUCH if 6 in numbers and n == 2 else n for n in range(m)]
    data = file_bytes(a, [0] * m, 3 if 1 in numbers else 2)
    return data[:-1] if 9 in numbers else data, 0 if 3 in numbers else m


def check_file_refusals_together():
    """every set of refusals 8, 9, 1, 3, 6 of a file, and 7 with what it allows"""
    order = (8, 9, 1, 3, 6)
    for numbers in subsets(order):
        data, lent = broken_file(numbers)
        first = min(numbers, key=order.index)
        expected = ref.PairFile(first, 2 if first == 6 else None)
        assert ref.read_pair_file(data, lent, lent) == expected, numbers
        if 3 not in numbers:
            assert ref.pairspec(data) == b"refused %d\n" % first
    for m, length in itertools.product((0, 1, 5000), (0, 2, 3)):
        header = struct.pack("<II", m, length)
        for size in range(8):
            assert ref.read_pair_file(header[:size], 0, 0) == ref.PairFile(7)
            assert ref.pairspec(header[:size]) == b"refused 7\n"


def check_file_edges():
    """each condition of a file at its edge, and what reading gives back"""
    a, b = [3, -MOST, 5], [MOST, 1, -1]
    good = file_bytes(a, b, 2)
    read = ref.read_pair_file
    assert read(good, 3, 4) == ref.PairFile(0, None, 3, 2, tuple(a), tuple(b))
    for m in (0, 4097, 2 ** 31, 2 ** 32 - 1):
        assert read(file_bytes([], [], 2, m), 9, 9) == ref.PairFile(8)
    most = file_bytes([0] * 4096, [0] * 4096, 1024)
    assert read(most, 4096, 4096)[:4] == (0, None, 4096, 1024)
    for data in (good[:-1], good + b"\0", good[:8], most + b"\0"):
        assert read(data, 4096, 4096) == ref.PairFile(9)
    for length in (0, 3, 2048, 2 ** 31, 2 ** 32 - 1):
        assert read(file_bytes(a, b, length), 3, 3) == ref.PairFile(1)
    assert read(good, 2, 3) == read(good, 3, 2) == ref.PairFile(3)
    for place, sample in itertools.product(range(3), (TOO_MUCH, -TOO_MUCH, -2 ** 31)):
        spoilt = [sample if n == place else 0 for n in range(3)]
        assert read(file_bytes(spoilt, b, 2), 3, 3) == ref.PairFile(6, place)
        assert read(file_bytes(a, spoilt, 2), 3, 3) == ref.PairFile(6, place)
    assert read(file_bytes([0, 0, TOO_MUCH], [TOO_MUCH, 0, 0], 2), 3, 3) == ref.PairFile(6, 2)


def check_pairspec():
    """pairspec: the paper's example to the byte, blocks, tails, and no block"""
    assert ref.pairspec(file_bytes([3, 1], [0, 2], 2)) == (
        b"block k re im\n"
        b"0 0 4 2\n"
        b"0 1 2 -2\n")
    assert ref.pairspec(file_bytes([3, 1, 4], [0, 2, 4], 4)) == b"block k re im\n"
    assert ref.pairspec(file_bytes([3, 1, 4], [0, 2, 4], 1)) == (
        b"block k re im\n0 0 3 0\n1 0 1 2\n2 0 4 4\n")
    rng = random.Random(8)
    for length in (1, 2, 16, 64):
        m = 3 * length + length // 2
        a, b = random_block(rng, m), random_block(rng, m)
        lines = ref.pairspec(file_bytes(a, b, length)).decode("ascii").split("\n")
        assert lines[0] == "block k re im" and lines[-1] == "" and len(lines) == 3 * length + 2
        for block in range(3):
            part = slice(block * length, (block + 1) * length)
            for k, parts in enumerate(zip(*ref.pair(a[part], b[part])[:2])):
                expected = [block, k, *parts]
                assert lines[1 + block * length + k] == " ".join(map(str, expected))


# --- The writer of the pair file ------------------------------------------------

def check_written_bytes():
    """files written by hand, byte for byte: the paper's example, negative samples, the ends of the range"""
    for a, b, length, written in (
            ([3, 1], [0, 2], 2, "02000000 02000000  03000000 01000000  00000000 02000000"),
            ([7], [-1], 1, "01000000 01000000  07000000  ffffffff"),
            ([-2, -256, 255], [256, -257, -65536], 1024,
             "03000000 00040000  feffffff 00ffffff ff000000  00010000 fffeffff 0000ffff"),
            ([MOST, -MOST], [999_999, -999_999], 512, "02000000 00020000  40420f00 c0bdf0ff  3f420f00 c1bdf0ff"),
            ([123_456, -123_456], [65_535, 65_536], 8, "02000000 08000000  40e20100 c01dfeff  ffff0000 00000100")):
        data = bytes.fromhex(written)
        for more in (0, 1, 100):
            assert ref.write_pair_file(a, b, length, len(data) + more) == ref.WrittenFile(0, None, data)
        assert ref.write_pair_file(a, b, length, len(data) - 1) == ref.WrittenFile(3)
    most = ref.write_pair_file([0] * 4096, [0] * 4096, 1, 32_776)
    assert most == ref.WrittenFile(0, None, bytes.fromhex("00100000 01000000") + bytes(32_768))


def check_written_and_read():
    """files of every length, written and read: the input; read and written: the file; struct and the example write the same"""
    rng = random.Random(22)
    for length, m in itertools.product(ref.LENGTHS, (1, 2, 5, 64, 300, 4095, 4096)):
        a, b = random_block(rng, m), random_block(rng, m)
        data = ref.write_pair_file(a, b, length, 8 + 8 * m).data
        assert data == file_bytes(a, b, length)
        assert ref.read_pair_file(data, m, m) == ref.PairFile(0, None, m, length, tuple(a), tuple(b))
    example = subprocess.run([sys.executable, EXAMPLES / "train_crossing.py"], check=True, stdout=subprocess.PIPE).stdout
    for data in (example, (EXAMPLES / "train_crossing.pair").read_bytes()):
        read = ref.read_pair_file(data, 4096, 4096)
        assert (read.refusal, read.m, read.length) == (0, 600, 256)
        assert ref.write_pair_file(read.a, read.b, read.length, 4808).data == data


def broken_write(numbers, samples):
    """The call with every one of the numbered conditions made to hold; 8 by this many samples."""
    m = samples if 8 in numbers else 6
    a, b = list(range(m)), list(range(m + 1 if 11 in numbers else m))
    if 6 in numbers and b:
        b[len(b) // 2] = -TOO_MUCH
    return dict(a=a, b=b, length=12 if 1 in numbers else 4, file_len=8 * m + (7 if 3 in numbers else 8))


def check_write_refusals_together():
    """every set of refusals 8, 11, 1, 6, 3 of the writer: the earliest wins"""
    order = (8, 11, 1, 6, 3)
    assert ref.write_pair_file(**broken_write((), 0)).refusal == 0
    for numbers, samples in itertools.product(subsets(order), (0, 4097)):
        first = min(numbers, key=order.index)
        expected = ref.WrittenFile(first, 3 if first == 6 else None)
        assert ref.write_pair_file(**broken_write(numbers, samples)) == expected, numbers


def check_write_refusal_edges():
    """each refusal of the writer at its edge: sizes, lengths, the range on both sides at every place, a before b"""
    write = ref.write_pair_file
    for m in (0, 4097, 5000):
        assert write([0] * m, [0] * m, 8, 10 ** 6) == ref.WrittenFile(8)
        assert write([0] * m, [0] * 3, 8, 10 ** 6) == ref.WrittenFile(8)
    for m in (1, 3, 4096):
        for other in (0, m - 1, m + 1, 2 * m):
            assert write([0] * m, [0] * other, 8, 10 ** 6) == ref.WrittenFile(11)
        for size in (0, 7, 8, 8 * m, 8 * m + 7):
            assert write([0] * m, [0] * m, 8, size) == ref.WrittenFile(3)
    for length in (0, 3, 5, 6, 7, 9, 1023, 1025, 2048, 2 ** 32, 2 ** 32 + 8, 2 ** 63, 2 ** 64 - 1):
        assert write([0], [0], length, 16) == ref.WrittenFile(1)
    for place, sample in itertools.product(range(3), (TOO_MUCH, -TOO_MUCH, 2 ** 31 - 1, -2 ** 31)):
        spoilt = [sample if n == place else 0 for n in range(3)]
        assert write(spoilt, [0] * 3, 8, 32) == write([0] * 3, spoilt, 8, 32) == ref.WrittenFile(6, place)
    assert write([0, 0, TOO_MUCH], [TOO_MUCH, 0, 0], 8, 32) == ref.WrittenFile(6, 2)
    assert write([TOO_MUCH, 0, 0], [0, 0, TOO_MUCH], 8, 32) == ref.WrittenFile(6, 0)


def run():
    """Runs every check; whether all passed."""
    if not __debug__:
        sys.exit("the checks are assertions: run without -O")
    passed = failed = 0
    for name, check in list(globals().items()):
        if name.startswith("check_"):
            since = time.perf_counter()
            try:
                check()
            except Exception:
                failed += 1
                traceback.print_exc(file=sys.stdout)
                print("FAILED: %s" % check.__doc__)
            else:
                passed += 1
                print("passed in %6.3f s: %s" % (time.perf_counter() - since, check.__doc__))
    print("%d passed, %d failed" % (passed, failed))
    return failed == 0
