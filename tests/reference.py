"""Reference implementation of docs/01-scope.md and of requests (i) to (iii) and (v) to (viii) of document 02, for tests only.

This module was written from the papers alone (documents 01 and 02, and source
document 001 for the equations) and shares no code with the product.  It says
what every call answers, in whole numbers of any size, with no thought for speed.

  the cosine circle    UNIT_STEP, K(place), T, T_on_circle(place)
  the rounding         round30(v), nearest(v, m)
  the transforms       cosine_dft(x), sine_dft(x), dct(x), spectrum(x), pair(a, b)
  the way back         inverse_sum(c, n), inverse_dct(c)
  the mark             meets(rule, x, C, S, flat_limit, clip_level), mark_of(..)
  the counts           closed_counts(N), tallied_counts(N)
  the exact sums       exact_cosine(x, k) .. exact_imaginary(a, b, k), all times 2^80
  the distances        within_eighth, within_quarter_more, within_quarter, within_eighths
  the calls            spectrum_call, mark_call, cosine_call, pair_call,
                       inverse_call, count_query
  the month            month_mark(N), account(party), month_begin(length),
                       month_add(month, party, ..), month_length(month),
                       month_blocks(month, party), month_sums(month, party, k),
                       exact_month(exact, blocks, k)
  the page             page_bytes(N), page_call(cosine, sine, length, page_len)
  the pair file        read_pair_file(data, a_len, b_len), pairspec(data),
                       write_pair_file(a, b, length, file_len)
  telling blocks       DIFFERS_FROM_DIRECT, TIES, COSINE_TIE, SINE_TIE, INVERSE_TIES,
                       ONE_REST_DCT, ONE_REST_COSINE, ONE_REST_SINE

N is always the length of a block, C a cosine-DFT, S a sine-DFT.  Numbers in
round brackets, as (12), are the equations of source document 001.

`python3 tests/reference.py --self-test` runs tests/reference_self_test.py.
"""

import functools
import math
import struct
import sys
from typing import NamedTuple, Optional

LENGTHS = (1, 2, 4, 8, 16, 32, 64, 128, 256, 512, 1024)
LARGEST_SAMPLE = 1_000_000
MOST_FILE_SAMPLES = 4_096

# A 0/1 block of 16 samples on which every kind of coefficient (cosine-DFT,
# sine-DFT, DCT, and Pair's two parts with this block as both a and b) has some
# k where the exact sum, rounded once to the nearest, is not the value of the
# transform.  It is the first such block when the samples are counted up as a
# binary number with x(0) as its lowest digit.
DIFFERS_FROM_DIRECT = (0, 1, 1, 0, 0, 0, 0, 0, 0, 0, 0, 0, 0, 0, 0, 0)

# Blocks of 4 samples on which DCT(k) is rounded from an exact tie, 8090.5 or
# -8090.5, each with its k and the value that the rounding must give.
TIES = (
    ((13726, 0, 11996, 0), 1, 8091),
    ((-13726, 0, -11996, 0), 1, -8090),
    ((-11996, 0, 13726, 0), 3, 8091),
    ((11996, 0, -13726, 0), 3, -8090),
)

# Blocks of 16 samples whose cosine-DFT alone, or whose sine-DFT alone, takes the DCT of
# the first of TIES.
COSINE_TIE = (0, 6863, 0, 0, 0, 5998, 0, 0, 0, 0, 0, 5998, 0, 0, 0, 6863)
SINE_TIE = (0, 6863, 0, 0, 0, 5998, 0, 0, 0, 0, 0, -5998, 0, 0, 0, -6863)

# Stored coefficients of which value n is rounded from an exact tie, each with
# its n and the value that the rounding must give.  T takes part in the last
# four: value 0 is rounded from 1315053.5 or -1315053.5, from 1249461.5 or
# -1249461.5.
INVERSE_TIES = (
    ((1, 0), 1, 1),
    ((-1, 0), 1, 0),
    ((3, 0), 0, 2),
    ((-3, 0), 0, -1),
    ((-8, 3319397, 0, -1140922), 0, 1315054),
    ((8, -3319397, 0, 1140922), 0, -1315053),
    ((7, 1243048, 0, 3529008), 0, 1249462),
    ((-7, -1243048, 0, -3529008), 0, -1249461),
)

# Signs that, repeated over a block of samples of one size, leave one rest that is not
# 0: in the DCT, from N = 2 on, that of DCT(N/2); in the cosine-DFT alone, or in the
# sine-DFT alone, from N = 8 on, that of the middle of the DCT of N/4.
ONE_REST_DCT = (1, -1, -1, 1)
ONE_REST_COSINE = (1, 1, 0, -1, -1, -1, 0, 1)
ONE_REST_SINE = (0, 1, 1, 1, 0, -1, -1, -1)


# --- The cosine circle ---------------------------------------------------------

B = 2 ** 80


def make_unit_step():
    """The pair (c, s) of one place: a right angle halved ten times."""
    c, s = 0, B
    for _ in range(10):
        c, s = math.isqrt(B * (B + c) // 2), math.isqrt(B * (B - c) // 2)
    return c, s


UNIT_STEP = make_unit_step()


def make_first_quarter():
    """K(0) .. K(1024), by stepping from (B, 0)."""
    c1, s1 = UNIT_STEP
    c, s = B, 0
    reached = []
    for _ in range(1024):
        reached.append(c)
        c, s = (c * c1 - s * s1) // B, (s * c1 + c * s1) // B
    return reached + [0]


FIRST_QUARTER = make_first_quarter()


def on_circle(quarter, place):
    """The wave with this first quarter, round the circle; any whole number is a place."""
    place %= 4096
    if place > 2048:
        place = 4096 - place
    if place > 1024:
        return -quarter[2048 - place]
    return quarter[place]


def K(place):
    """2^80 times the cosine at a place of the circle."""
    return on_circle(FIRST_QUARTER, place)


T = [(K(j) + 2 ** 49) // 2 ** 50 for j in range(1025)]


WHOLE_T = [on_circle(T, place) for place in range(4096)]


def T_on_circle(place):
    """T round the circle by K's symmetries."""
    return WHOLE_T[place % 4096]


# --- The rounding --------------------------------------------------------------

def nearest(v, m):
    """v / m to the nearest whole number, a tie going to the larger."""
    return (2 * v + m) // (2 * m)


def round30(v):
    """v / 2^30, so rounded, and its rest: v less 2^30 times the rounded number."""
    rounded = nearest(v, 2 ** 30)
    return rounded, v - 2 ** 30 * rounded


# --- Tallies -------------------------------------------------------------------

# A term that is zero for every block.  It is kept apart from a 0 that the
# samples happen to give, because a sum with it is free.
ALWAYS_ZERO = None


def negative(term):
    """The term with its sign changed; this is free."""
    return ALWAYS_ZERO if term is ALWAYS_ZERO else -term


class Tally:
    """The products and sums made so far, each counted where it is made, and the largest
    size of a rest among the roundings, looked at where each is made."""

    def __init__(self):
        self.products = 0
        self.sums = 0
        self.largest_rest = 0

    def product(self, entry, value):
        self.products += 1
        return entry * value

    def sum(self, left, right):
        if left is ALWAYS_ZERO:
            return right
        if right is ALWAYS_ZERO:
            return left
        self.sums += 1
        return left + right

    def difference(self, left, right):
        return self.sum(left, negative(right))

    def rounded(self, v):
        rounded, rest = round30(v)
        self.largest_rest = max(self.largest_rest, abs(rest))
        return rounded

    def taken(self):
        return self.products, self.sums, self.largest_rest


# --- Coefficients at any k, by (6) to (10) -------------------------------------

def dct_at(D, N, k):
    """DCT(k) from the stored D(0) .. D(N-1)."""
    if k < 0:
        return dct_at(D, N, -k)                         # (7)
    if k == N:
        return ALWAYS_ZERO                              # (6)
    if k > N:
        return negative(dct_at(D, N, 2 * N - k))        # (8)
    return D[k]


def cosine_at(C, N, k):
    """cosine-DFT(k), k = 0 .. N, from the stored C(0) .. C(N/2)."""
    return C[k] if k <= N // 2 else C[N - k]            # (9)


def sine_at(S, N, k):
    """sine-DFT(k), k = 0 .. N, from the stored S(0) .. S(N/2)."""
    return S[k] if k <= N // 2 else negative(S[N - k])  # (10)


# --- The transforms as recursions on terms -------------------------------------

def cosine_terms(x, tally):
    """cosine-DFT(k), k = 0 .. N/2, by (12)."""
    N = len(x)
    if N == 1:
        return [x[0]]
    if N == 2:
        return [tally.sum(x[0], x[1]), tally.difference(x[0], x[1])]
    x1 = x[0::2]
    x2 = [tally.sum(x[2 * n + 1], x[N - 2 * n - 1]) for n in range(N // 4)]
    C = cosine_terms(x1, tally)
    D = dct_terms(x2, tally)
    return [tally.sum(cosine_at(C, N // 2, k), dct_at(D, N // 4, k))
            for k in range(N // 2 + 1)]


def sine_terms(x, tally):
    """sine-DFT(k), k = 0 .. N/2, by (15)."""
    N = len(x)
    if N <= 2:
        return [ALWAYS_ZERO] * N
    x1 = x[0::2]
    x3 = [tally.difference(x[2 * n + 1], x[N - 2 * n - 1]) for n in range(N // 4)]
    x3 = [negative(term) if n % 2 == 1 else term for n, term in enumerate(x3)]
    S = sine_terms(x1, tally)
    D = dct_terms(x3, tally)
    return [tally.sum(sine_at(S, N // 2, k), dct_at(D, N // 4, N // 4 - k))
            for k in range(N // 2 + 1)]


def rearranged(x):
    """x4 of (16): even samples from the front, odd samples from the back."""
    N = len(x)
    x4 = [0] * N
    for n in range(N // 2):
        x4[n] = x[2 * n]
        x4[N - n - 1] = x[2 * n + 1]
    return x4


def rotated(c, s, cosine, sine, tally):
    """DCT(k) and DCT(N-k) from C(k) and S(k) by (20), each rounded once."""
    p1 = c + s                                          # free: table entries alone
    p2 = s - c                                          # free: table entries alone
    s1 = tally.sum(cosine, sine)
    m1 = tally.product(c, s1)
    m2 = tally.product(p1, sine)
    m3 = tally.product(p2, cosine)
    low = tally.difference(m1, m2)
    high = tally.sum(m1, m3)
    assert low == c * cosine - s * sine                 # (19)
    assert high == s * cosine + c * sine                # (19)
    return tally.rounded(low), tally.rounded(high)


def dct_terms(x, tally):
    """DCT(k), k = 0 .. N-1, by (16), (18) and (19)."""
    N = len(x)
    if N == 1:
        return [x[0]]
    x4 = rearranged(x)
    C = cosine_terms(x4, tally)
    S = sine_terms(x4, tally)
    D = [0] * N
    D[0] = C[0]
    for k in range(1, N // 2):
        place = 1024 * k // N
        D[k], D[N - k] = rotated(T[place], T[1024 - place], C[k], S[k], tally)
    D[N // 2] = tally.rounded(tally.product(T[512], C[N // 2]))
    return D


def pair_terms(a, b, tally):
    """Pair's real(k) and imaginary(k), k = 0 .. N-1."""
    N = len(a)
    C_a, S_a = cosine_terms(a, tally), sine_terms(a, tally)
    C_b, S_b = cosine_terms(b, tally), sine_terms(b, tally)
    real = [tally.sum(cosine_at(C_a, N, k), sine_at(S_b, N, k)) for k in range(N)]
    imaginary = [tally.difference(cosine_at(C_b, N, k), sine_at(S_a, N, k))
                 for k in range(N)]
    return real, imaginary


# --- The transforms as values, counts and largest rest -------------------------

def numbers(terms):
    return [0 if term is ALWAYS_ZERO else term for term in terms]


def values_and_taken(recursion, x):
    tally = Tally()
    terms = recursion(list(x), tally)
    return numbers(terms), *tally.taken()


def cosine_dft(x):
    """(values for k = 0 .. N/2, products, sums, largest rest)"""
    return values_and_taken(cosine_terms, x)


def sine_dft(x):
    """(values for k = 0 .. N/2, products, sums, largest rest)"""
    return values_and_taken(sine_terms, x)


def dct(x):
    """(values for k = 0 .. N-1, products, sums, largest rest)"""
    return values_and_taken(dct_terms, x)


def spectrum(x):
    """(cosine-DFT, sine-DFT, products, sums, largest rest), k = 0 .. N/2"""
    tally = Tally()
    C, S = cosine_terms(list(x), tally), sine_terms(list(x), tally)
    return numbers(C), numbers(S), *tally.taken()


def pair(a, b):
    """(real parts, imaginary parts, products, sums, largest rest), k = 0 .. N-1"""
    tally = Tally()
    real, imaginary = pair_terms(list(a), list(b), tally)
    return numbers(real), numbers(imaginary), *tally.taken()


# --- The way back from stored DCT-II coefficients ------------------------------

def inverse_sum(c, n):
    """Value n times N * 2^30, before it is rounded."""
    N = len(c)
    step = (2 * n + 1) * (1024 // N)
    return c[0] * 2 ** 30 + 2 * sum(c[k] * T_on_circle(step * k) for k in range(1, N))


def inverse_dct(c):
    """The values for n = 0 .. N-1"""
    N = len(c)
    return [nearest(inverse_sum(c, n), N * 2 ** 30) for n in range(N)]


# --- The mark of a block -------------------------------------------------------

FLAT, CLIPPED, PLAIN = 1, 2, 3
LOOKED_AT = (FLAT, CLIPPED)     # in this order: a block that meets both rules has the first as its mark


def meets(rule, x, C, S, flat_limit, clip_level):
    """Whether the block x with the coefficients C and S meets the rule FLAT or CLIPPED."""
    if rule == FLAT:
        return all(abs(C[k]) <= flat_limit and abs(S[k]) <= flat_limit for k in range(1, len(C)))
    return any(abs(sample) >= clip_level for sample in x)


def mark_of(x, C, S, flat_limit, clip_level):
    for rule in LOOKED_AT:
        if meets(rule, x, C, S, flat_limit, clip_level):
            return rule
    return PLAIN


# --- The counts ----------------------------------------------------------------

class SixCounts(NamedTuple):
    """Every count of one length."""
    dct_products: int
    dct_sums: int
    spectrum_products: int
    spectrum_sums: int
    pair_products: int
    pair_sums: int


@functools.lru_cache(maxsize=None)
def tallied_counts(N):
    """The counts as the recursions make them; the length alone decides them."""
    silence = [0] * N
    return SixCounts(*dct(silence)[1:3], *spectrum(silence)[2:4], *pair(silence, silence)[2:4])


def closed_counts(N):
    """The published closed forms (27), (28), (29); nothing at N = 1."""
    L = LENGTHS.index(N)
    if N == 1:
        return SixCounts(N * L // 2, N * (3 * L - 2) // 2 + 1, 0, 0, 0, 0)
    return SixCounts(
        N * L // 2, N * (3 * L - 2) // 2 + 1,
        N * (L - 3) // 2 + 2, N * (3 * L - 5) // 2 + 4,
        N * (L - 3) + 4, 3 * N * (L - 1) + 4)


# --- The exact sums, times 2^80, and the distances -----------------------------

def exact_cosine(x, k):
    step = k * (4096 // len(x))
    return sum(sample * K(n * step) for n, sample in enumerate(x))


def exact_sine(x, k):
    step = k * (4096 // len(x))
    return sum(sample * K(n * step - 1024) for n, sample in enumerate(x))


def exact_dct(x, k):
    step = k * (1024 // len(x))
    return sum(sample * K((2 * n + 1) * step) for n, sample in enumerate(x))


def exact_real(a, b, k):
    return exact_cosine(a, k) + exact_sine(b, k)


def exact_imaginary(a, b, k):
    return exact_cosine(b, k) - exact_sine(a, k)


def rounded_direct(exact):
    """An exact sum over 2^80, rounded once, a tie going to the larger."""
    return (exact + B // 2) // B


def distance(y, exact):
    return abs(y * B - exact)


def within_eighth(y, exact, N):
    """Within N/8: the limit of the cosine-DFT and the sine-DFT."""
    return 8 * distance(y, exact) <= N * B


def within_quarter_more(y, exact, N):
    """Within (N + 1)/4: the limit of the DCT."""
    return 4 * distance(y, exact) <= (N + 1) * B


def within_quarter(y, exact, N):
    """Within N/4: the limit of Pair's two parts."""
    return 4 * distance(y, exact) <= N * B


def exact_month(exact, blocks, k):
    """The exact sum of a party in a month: that of its blocks' exact sums, exact_cosine or exact_sine."""
    return sum(exact(x, k) for x in blocks)


def within_eighths(y, exact, n, N):
    """Within n * N/8: the limit of the sums of a party with n blocks in a month."""
    return 8 * distance(y, exact) <= n * N * B


# --- The calls -----------------------------------------------------------------

class Answer(NamedTuple):
    """What a call gives back.

    refusal is 0 for an accepted call, else the number of the table "When a call
    is turned down", or 10 to 15 of document 02; place is given with refusals
    6 and 10 only.  results, counts and largest_rest are those of an accepted call;
    the way back has no counts and no rest, the count query no rest.  mark is that
    of an accepted mark_call.
    """
    refusal: int
    place: Optional[int] = None
    results: tuple = ()
    counts: tuple = ()
    mark: Optional[int] = None
    largest_rest: Optional[int] = None


def first_out_of_range(recording, start, end, largest=LARGEST_SAMPLE):
    """The first place from start, before end, whose number is beyond the largest on either side."""
    for place in range(start, end):
        if not -largest <= recording[place] <= largest:
            return place
    return None


def first_out_of_any(recordings, start, end):
    """The same place in the first of the recordings that has one."""
    places = (first_out_of_range(recording, start, end) for recording in recordings)
    return next((place for place in places if place is not None), None)


def scratch_words(N):
    """The words of scratch that a block of N samples needs: nowhere else in tests/ and bench/ is it said in Python."""
    return 8 * N + 64


def largest_coefficient(N):
    """The largest that a stored DCT-II coefficient may be, on either side."""
    return N * LARGEST_SAMPLE + N


def turned_down(recordings, start, N, allowance, result_words, result_lens,
                scratch_len, products):
    """The Answer of a refused call, or None.

    result_words and products give the words and products the call needs at a
    length; they are asked only once the length is known to be one of the eleven.
    """
    if N not in LENGTHS:
        return Answer(1)
    if any(start + N > len(recording) for recording in recordings):
        return Answer(2)
    if any(result_len < result_words(N) for result_len in result_lens):
        return Answer(3)
    if scratch_len < scratch_words(N):
        return Answer(4)
    if allowance < products(N):
        return Answer(5)
    place = first_out_of_any(recordings, start, start + N)
    return None if place is None else Answer(6, place)


def spectrum_call(recording, start, length, allowance, cosine_len, sine_len, scratch_len):
    refused = turned_down(
        [recording], start, length, allowance,
        lambda N: N // 2 + 1, [cosine_len, sine_len], scratch_len,
        lambda N: tallied_counts(N).spectrum_products)
    if refused:
        return refused
    cosine, sine, products, sums, largest = spectrum(recording[start:start + length])
    return Answer(0, None, (cosine, sine), (products, sums), largest_rest=largest)


def bad_figures(flat_limit, clip_level):
    return flat_limit < 0 or clip_level < 1 or clip_level > 1_000_000


def mark_call(recording, start, length, allowance, flat_limit, clip_level, cosine_len, sine_len,
              scratch_len):
    answer = spectrum_call(recording, start, length, allowance, cosine_len, sine_len, scratch_len)
    if answer.refusal:
        return answer
    if bad_figures(flat_limit, clip_level):
        return Answer(12)
    block = recording[start:start + length]
    return answer._replace(mark=mark_of(block, *answer.results, flat_limit, clip_level))


def cosine_call(recording, start, length, allowance, result_len, scratch_len):
    refused = turned_down(
        [recording], start, length, allowance,
        lambda N: N, [result_len], scratch_len,
        lambda N: tallied_counts(N).dct_products)
    if refused:
        return refused
    values, products, sums, largest = dct(recording[start:start + length])
    return Answer(0, None, (values,), (products, sums), largest_rest=largest)


def pair_call(a, b, start, length, allowance, real_len, imaginary_len, scratch_len):
    refused = turned_down(
        [a, b], start, length, allowance,
        lambda N: N, [real_len, imaginary_len], scratch_len,
        lambda N: tallied_counts(N).pair_products)
    if refused:
        return refused
    end = start + length
    real, imaginary, products, sums, largest = pair(a[start:end], b[start:end])
    return Answer(0, None, (real, imaginary), (products, sums), largest_rest=largest)


def inverse_call(coefficients, length, values_len):
    if length not in LENGTHS:
        return Answer(1)
    if len(coefficients) < length:
        return Answer(2)
    if values_len < length:
        return Answer(3)
    place = first_out_of_range(coefficients, 0, length, largest_coefficient(length))
    if place is not None:
        return Answer(10, place)
    return Answer(0, None, (inverse_dct(coefficients[:length]),))


def count_query(length):
    """An Answer whose counts are the SixCounts of the length."""
    if length not in LENGTHS:
        return Answer(1)
    return Answer(0, None, (), tallied_counts(length))


# --- The month -----------------------------------------------------------------

# A month is the list of its 2,055 words: the mark, and for each of the parties 1 and 2 an
# account: its block number, and its sums for k = 0, 1, .. from the account's word
# FIRST_COSINE on and from FIRST_SINE on.  The mark holds the edition and the length;
# where another number stands, the length is read as 0.  A sum beyond LARGEST_SUM in size
# stays, whatever stands in the other words.

EDITION = 40_000                # the version of the library since which months are so laid out and so made
PARTIES = (1, 2)
ACCOUNT_WORDS = 1_027
FIRST_COSINE, FIRST_SINE = 1, 514
MONTH_WORDS = 2_055
MOST_BLOCKS = 50_000            # of a party
LARGEST_SUM = 2 ** 62


def month_mark(N):
    """Word 0 of a month that is begun for N."""
    return 65_536 * EDITION + N


def account(party):
    """The place of the first word of the party's account."""
    return 1 + ACCOUNT_WORDS * (party - 1)


def month_begin(length):
    """The refusal, and the month in either answer."""
    refusal, mark = (0, month_mark(length)) if length in LENGTHS else (1, 0)
    return refusal, [mark] + [0] * (MONTH_WORDS - 1)


def month_length(month):
    length = month[0] - month_mark(0)
    return length if length in LENGTHS else 0


def month_blocks(month, party):
    """The refusal, and the party's block number."""
    return (0, month[account(party)]) if party in PARTIES else (15, 0)


def month_add(month, party, recording, start, length, allowance, cosine_len, sine_len, scratch_len):
    """The Answer, and the month then."""
    if party not in PARTIES:
        return Answer(15), month
    if length == 0 or length != month_length(month):
        return Answer(13), month
    if month[account(party)] >= MOST_BLOCKS:
        return Answer(14), month
    answer = spectrum_call(recording, start, length, allowance, cosine_len, sine_len, scratch_len)
    return answer, month if answer.refusal else month_with(month, party, *answer.results)


def month_with(month, party, cosine, sine):
    """The month with the coefficients of one more block of the party."""
    month, own = list(month), account(party)
    month[own] += 1
    for first, coefficients in ((FIRST_COSINE, cosine), (FIRST_SINE, sine)):
        for place, coefficient in enumerate(coefficients, own + first):
            if abs(month[place]) <= LARGEST_SUM:
                month[place] += coefficient
    return month


def month_sums(month, party, k):
    """The refusal, and the party's sums of the cosine and of the sine coefficients for this k."""
    if party not in PARTIES:
        return 15, 0, 0
    N, own = month_length(month), account(party)
    if N == 0 or k > N // 2:
        return 16, 0, 0
    return 0, month[own + FIRST_COSINE + k], month[own + FIRST_SINE + k]


# --- The page ------------------------------------------------------------------

COLUMNS = (4, 12, 12)           # of k, cosine and sine


def page_line(*entries):
    """The entries of a line, each right aligned in its column, with one space between, and a line feed."""
    return " ".join(str(entry).rjust(width) for entry, width in zip(entries, COLUMNS)) + "\n"


def page_bytes(N):
    """The bytes of a page: 31 for the heading, and 31 for each k that Spectrum yields."""
    return 31 + 31 * (N // 2 + 1)


class Page(NamedTuple):
    """What printing a page gives back; data is the page, which stands in the first bytes
    of the lent buffer.  refusal is as in Answer."""
    refusal: int
    data: bytes = b""


def page_call(cosine, sine, length, page_len):
    if length not in LENGTHS:
        return Page(1)
    yielded = range(length // 2 + 1)
    if len(cosine) < len(yielded) or len(sine) < len(yielded):
        return Page(2)
    if page_len < page_bytes(length):
        return Page(3)
    lines = [page_line("k", "cosine", "sine")] + [page_line(k, cosine[k], sine[k]) for k in yielded]
    return Page(0, "".join(lines).encode("ascii"))


# --- The pair file and the program ---------------------------------------------

def file_size(m):
    """The bytes of a file with m samples of each recording."""
    return 8 + 8 * m


class PairFile(NamedTuple):
    """What reading a pair file gives back; a and b are the m words written to each
    lent recording.  refusal and place are as in Answer."""
    refusal: int
    place: Optional[int] = None
    m: Optional[int] = None
    length: Optional[int] = None
    a: tuple = ()
    b: tuple = ()


def read_pair_file(data, a_len, b_len):
    if len(data) < 8:
        return PairFile(7)
    m, N = struct.unpack_from("<II", data)
    if m == 0 or m > MOST_FILE_SAMPLES:
        return PairFile(8)
    if len(data) != file_size(m):
        return PairFile(9)
    if N not in LENGTHS:
        return PairFile(1)
    if a_len < m or b_len < m:
        return PairFile(3)
    samples = struct.unpack_from("<%di" % (2 * m), data, 8)
    a, b = samples[:m], samples[m:]
    place = first_out_of_any((a, b), 0, m)
    if place is not None:
        return PairFile(6, place)
    return PairFile(0, None, m, N, a, b)


class WrittenFile(NamedTuple):
    """What writing a pair file gives back; data is the file, which stands in the first
    bytes of the lent buffer.  refusal and place are as in Answer."""
    refusal: int
    place: Optional[int] = None
    data: bytes = b""


def write_pair_file(a, b, length, file_len):
    m = len(a)
    if m == 0 or m > MOST_FILE_SAMPLES:
        return WrittenFile(8)
    if len(b) != m:
        return WrittenFile(11)
    if length not in LENGTHS:
        return WrittenFile(1)
    place = first_out_of_any((a, b), 0, m)
    if place is not None:
        return WrittenFile(6, place)
    if file_len < file_size(m):
        return WrittenFile(3)
    sizes = [size.to_bytes(4, "little") for size in (m, length)]
    samples = [sample.to_bytes(4, "little", signed=True) for sample in (*a, *b)]
    return WrittenFile(0, None, b"".join(sizes + samples))


def pairspec(data):
    """All that the program prints for these bytes on its standard input."""
    file = read_pair_file(data, MOST_FILE_SAMPLES, MOST_FILE_SAMPLES)
    if file.refusal:
        return b"refused %d\n" % file.refusal
    N = file.length
    lines = ["block k re im"]
    for block in range(file.m // N):
        answer = pair_call(file.a, file.b, block * N, N, tallied_counts(N).pair_products,
                           N, N, scratch_words(N))
        assert answer.refusal == 0
        for k, (re, im) in enumerate(zip(*answer.results)):
            lines.append("%d %d %d %d" % (block, k, re, im))
    return "".join(line + "\n" for line in lines).encode("ascii")


if __name__ == "__main__":
    if sys.argv[1:] != ["--self-test"]:
        sys.exit("usage: python3 tests/reference.py --self-test")
    import reference_self_test
    sys.exit(0 if reference_self_test.run() else 1)
