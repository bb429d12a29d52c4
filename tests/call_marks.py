#!/usr/bin/env python3
"""Calls mealbis_mark of the library, over its C interface, and compares each answer with that of tests/reference.py and with mealbis_spectrum's.

    python3 tests/call_marks.py [--library PATH] [--seed NUMBER]

Builds libmealbis.a and a shared library of it, target/shared/libmealbis.so; or takes another shared library. Of every call it compares the
answer, the record (products, sums, largest_rest, place, mark), both buffers of coefficients, scratch and the recording, with guards before
and behind each. Each input also goes through mealbis_spectrum, which must answer and leave behind the same, but for the mark and refusal 12.

The last line is 'N passed, 0 failed'. Exit status 1 where something differs.
"""
import collections
import itertools
import sys
from typing import NamedTuple

from library import OUT, Calls, every_set, first, held, lengths_up_to, lent_samples, mealbis, run
from reference import (CLIPPED, COSINE_TIE, FLAT, LARGEST_SAMPLE, LENGTHS, LOOKED_AT, ONE_REST_COSINE, ONE_REST_SINE, PLAIN, SINE_TIE,
                       mark_call, meets, scratch_words, spectrum, spectrum_call)
from spectrum_calls import (REACHING, UNBOUNDED, Far, SpectrumCall, beyond_edges, broken, conditions, just_enough, largest_blocks, lend,
                            out_of_range, placed, random_block, roomy, wave)

ORDER = (1, 2, 3, 4, 5, 6, 12)      # in which mealbis_mark tests
LARGEST = 2 ** 31 - 1               # flat limit
BOTH = LOOKED_AT[0]                 # the mark of a block that meets both rules


# --- calls -------------------------------------------------------------------------

class Call(NamedTuple):
    """What mealbis_mark is given, in the order of the reference."""
    recording: list
    start: int
    length: int
    allowance: int
    flat_limit: int
    clip_level: int
    cosine_len: int
    sine_len: int
    scratch_len: int

    def for_spectrum(self):
        return SpectrumCall(*self[:4], *self[6:])


def with_figures(call, flat_limit, clip_level):
    """The call of mealbis_mark that takes these figures beside what mealbis_spectrum is given."""
    return Call(*call[:4], flat_limit, clip_level, *call[4:])


def marking(rng, x, flat_limit, clip_level):
    """An accepted call on the block x with these figures."""
    return with_figures(placed(rng, x), flat_limit, clip_level)


class MarkCalls(Calls):
    """Calls of mealbis_mark; met counts, by length, the marks and the rules that were met."""

    def __init__(self, library, rng):
        super().__init__(library, rng)
        self.mark_function, self.spectrum_function = self.function("mealbis_mark"), self.function("mealbis_spectrum")
        self.met = collections.Counter()

    def mark(self, name, call, number=0, mark=None):
        """It must answer as the reference, and the reference by this number and, where one is given, this mark. The reference's answer then."""
        answer = mark_call(*call)
        if answer.refusal != number or mark not in (None, answer.mark):
            self.add(name, ["the reference answers %d and mark %s; %d and %s are expected" % (answer.refusal, answer.mark, number, mark)])
        name += "; N %d, start %d, flat limit %d, clip level %d" % (call.length, call.start, call.flat_limit, call.clip_level)
        recording = lent_samples("the recording", call.recording)
        self.compare_mark(name, call, recording, answer)
        plain = spectrum_call(*call.for_spectrum()) if answer.refusal == 12 else answer
        given = recording, call.start, call.length, call.allowance, *lend(self.rng, call, plain)
        self.compare("Spectrum of " + name, self.spectrum_function, given, plain.refusal)
        if answer.refusal == 0:
            met = [meets(rule, call.for_spectrum().block(), *answer.results, call.flat_limit, call.clip_level) for rule in (FLAT, CLIPPED)]
            self.met.update([(call.length, answer.mark), (call.length, *met)])
        return answer

    def compare_mark(self, name, call, recording, answer):
        lent = lend(self.rng, call, answer, mealbis.MarkAnswer, mark=answer.mark or 0)
        given = recording, call.start, call.length, call.allowance, call.flat_limit, call.clip_level, *lent
        self.compare(name, self.mark_function, given, answer.refusal)


def largest_sizes(x):
    """The largest size of a coefficient of the block from k = 1 on, and that of a sample."""
    cosine, sine, *_ = spectrum(x)
    return max(map(abs, cosine[1:] + sine[1:]), default=0), max(map(abs, x))


# --- the rule of a flat block --------------------------------------------------------

def some_k(rng, N):
    """Each k from 1 on where they are few, else both ends, the middle and some others."""
    if N <= 16:
        return range(1, N // 2 + 1)
    return sorted({1, 2, N // 4, N // 2 - 1, N // 2, *rng.sample(range(1, N // 2), 2)})


def try_edges(calls, name, x):
    """Figures at the edges of both rules, and one beyond; each of the four ways to meet them. The largest sample is below 1,000,000."""
    coefficient, sample = largest_sizes(x)
    for flat_limit, clip_level, mark in ((coefficient, sample + 1, FLAT), (coefficient, sample, BOTH),
                                         (coefficient - 1, sample + 1, PLAIN), (coefficient - 1, sample, CLIPPED)):
        calls.mark(name, marking(calls.rng, x, flat_limit, clip_level), mark=mark)


def check_each_coefficient(calls):
    """One coefficient beyond the flat limit, all others below it: of the cosine and of the sine, of both signs, the mean small or large."""
    rng = calls.rng
    for N, kind, sign in itertools.product(LENGTHS[1:], ("cosine", "sine"), (1, -1)):
        for k in some_k(rng, N):
            if kind == "sine" and k == N // 2:
                continue                                    # it is 0 in every block
            mean = rng.choice((0, rng.choice((1, -1)) * rng.randint(450_000, 600_000)))
            x = [mean + sample for sample in wave(N, k, sign * rng.choice((5, 77, 390_000)), kind)]
            name = "%s of k = %d alone, sign %d, mean %d" % (kind, k, sign, mean)
            words = dict(zip(("cosine", "sine"), spectrum(x)))
            limit = abs(words[kind][k]) - 1
            beyond = [(which, j) for which in words for j in range(1, N // 2 + 1) if abs(words[which][j]) > limit]
            calls.add(name, [None if beyond == [(kind, k)] and sign * words[kind][k] > 0 else "beyond %d are %s" % (limit, beyond)])
            try_edges(calls, name, x)


def check_equal_samples(calls):
    """All samples equal, of either sign: flat by limit 0, however large the mean; with N = 1, where every block is flat."""
    rng = calls.rng
    for N, size in itertools.product(LENGTHS, (0, 1, 2, 1000, rng.randint(3, 999_998), 999_999, LARGEST_SAMPLE)):
        for sample, clip_level in itertools.product({size, -size}, sorted({1, max(1, size), min(size + 1, LARGEST_SAMPLE), LARGEST_SAMPLE})):
            mark = BOTH if size >= clip_level else FLAT
            calls.mark("all samples %d" % sample, marking(rng, [sample] * N, 0, clip_level), mark=mark)


def check_largest_coefficients(calls):
    """The largest coefficients that a block can have, and the largest flat limits: the greatest makes every block flat."""
    for N in LENGTHS[1:]:
        for x in largest_blocks(N):
            coefficient, _ = largest_sizes(x)
            for flat_limit in (coefficient, coefficient + 1, LARGEST - 1, LARGEST):
                calls.mark("the ends of the range", marking(calls.rng, x, flat_limit, LARGEST_SAMPLE), mark=BOTH)
            if coefficient > 0:
                calls.mark("the ends of the range", marking(calls.rng, x, coefficient - 1, LARGEST_SAMPLE), mark=CLIPPED)


# --- the rule of a clipped block -----------------------------------------------------

def check_each_sample(calls):
    """One sample that reaches the clip level, or stays one below it: of both signs, at the first, the last and a middle place of the block."""
    rng = calls.rng
    for N, level, sign in itertools.product(LENGTHS, (1, 2, 1000, 999_999, LARGEST_SAMPLE), (1, -1)):
        for place in sorted({0, N // 2, N - 1}):
            x = [rng.choice((0, level - 1, 1 - level)) for _ in range(N)]
            x[place] = sign * level
            name = "%d at place %d of the block" % (x[place], place)
            calls.mark(name, marking(rng, x, 0, level), mark=BOTH if N == 1 else CLIPPED)
            if level < LARGEST_SAMPLE:
                calls.mark(name, marking(rng, x, 0, level + 1), mark=FLAT if N == 1 else PLAIN)


def check_outside(calls):
    """Samples just before and just behind the block that reach the clip level, of both signs: they do not count."""
    for N, outside, level in itertools.product(LENGTHS, REACHING, (2, LARGEST_SAMPLE)):
        x = [n % 2 for n in range(N)]
        for before, behind in ((0, 1), (1, 0), (1, 1), (N, N)):
            call = Call([outside] * before + x + [outside] * behind, before, N, UNBOUNDED, 0, level, N + 1, N + 1, scratch_words(N))
            name = "%d samples before and %d behind are %d" % (before, behind, outside)
            calls.mark(name, call, mark=FLAT if N == 1 else PLAIN)


# --- both rules ----------------------------------------------------------------------

def check_known(calls):
    """Blocks worked on paper, and those of request (x)."""
    top = LARGEST_SAMPLE
    impulse = [0, top] + [0] * 6                            # P8: the largest sizes of a coefficient and of a sample are 1,000,000
    for x, flat_limit, clip_level, mark in (
            ([7], 0, 8, FLAT), ([7], 0, 7, BOTH), ([-top], 0, top, BOTH),
            ([3, 1], 2, 4, FLAT), ([3, 1], 1, 3, CLIPPED), ([3, 1], 1, 4, PLAIN), ([3, 1], 2, 3, BOTH),     # C 4, 2
            ([1, 2, 3, 4], 2, 5, FLAT), ([1, 2, 3, 4], 1, 4, CLIPPED), ([1, 2, 3, 4], 1, 5, PLAIN),         # P2: C 10, -2, -2; S 0, -2, 0
            ([0, -7, 0, 2], 9, 8, FLAT), ([0, -7, 0, 2], 8, 7, CLIPPED), ([0, -7, 0, 2], 8, 8, PLAIN),      # C -5, 0, 5; S 0, -9, 0
            (impulse, top, top, BOTH), (impulse, top - 1, top, CLIPPED), ([top] + [0] * 7, top - 1, top, CLIPPED),
            ([top], 0, top, BOTH), ([top] * 8, 0, top, BOTH)):                                              # request (x)
        calls.mark("block %s" % x, marking(calls.rng, x, flat_limit, clip_level), mark=mark)


def check_random(calls):
    """Random blocks with figures near the largest coefficient and the largest sample of the block."""
    rng = calls.rng
    for N in LENGTHS:
        for i in range(200 if N < 256 else 60):
            x = random_block(rng, N)
            coefficient, sample = largest_sizes(x)
            limits = (coefficient - 1, coefficient, coefficient + 1, coefficient // 2, rng.randint(0, 2 * coefficient + 1))
            levels = (sample - 1, sample, sample + 1, sample + 1, rng.randint(1, LARGEST_SAMPLE))
            flat_limit, clip_level = max(0, rng.choice(limits)), min(max(1, rng.choice(levels)), LARGEST_SAMPLE)
            calls.mark("random block %d" % i, marking(rng, x, flat_limit, clip_level))


def check_met(calls):
    """Every mark, and each of the four ways to meet the two rules, came up at every length; at N = 1 every block met that of flat."""
    for N in LENGTHS:
        marks = (FLAT, CLIPPED, PLAIN) if N > 1 else (FLAT,)
        ways = itertools.product((True, False) if N > 1 else (True,), (True, False))
        for what in [(N, mark) for mark in {*marks, BOTH}] + [(N, *way) for way in ways]:
            calls.add("N %d" % N, [None if calls.met[what] >= 10 else "%s came up %d times" % (what, calls.met[what])])
    calls.add("N 1", ["%s came up" % (what,) for what in calls.met if what in ((1, PLAIN), (1, False, True), (1, False, False))])


# --- the largest rest ----------------------------------------------------------------

def check_rests(calls):
    """Blocks with one rest that is not 0, of the cosine-DFT or of the sine-DFT, of both signs, and ties; below N = 8 there is none."""
    rng = calls.rng

    def rest(x, expected):
        answer = calls.mark("one rest", marking(rng, x, 0, 1))
        calls.add("its size", [None if expected(answer.largest_rest) else "the reference answers %d" % answer.largest_rest])

    for N, signs in itertools.product(LENGTHS, (ONE_REST_COSINE, ONE_REST_SINE)):
        for size in (1, -1, LARGEST_SAMPLE, -LARGEST_SAMPLE, *(rng.randint(-LARGEST_SAMPLE, LARGEST_SAMPLE) for _ in range(4))):
            rest([size * signs[n % 8] for n in range(N)], lambda size_of_rest: (size_of_rest > 0) == (N >= 8 and size != 0))
    for tie, sign in itertools.product((COSINE_TIE, SINE_TIE), (1, -1)):
        rest([sign * sample for sample in tie], lambda size_of_rest: size_of_rest == 2 ** 29)


# --- refusals ------------------------------------------------------------------------

FLAT_LIMITS = {-2 ** 31: False, -1: False, 0: True, 1: True, LARGEST: True}
CLIP_LEVELS = {-2 ** 31: False, -1: False, 0: False, 1: True, 2: True, 999_999: True, 1_000_000: True, 1_000_001: False, 2 ** 31 - 1: False}
BAD_FIGURES = ((-1, 1), (-2 ** 31, 1_000_000), (0, 0), (0, -1), (LARGEST, 1_000_001), (5, 2 ** 31 - 1), (5, -2 ** 31), (-1, 0), (-7, 1_000_001))


def check_figures(calls):
    """Figures at their ends and beyond them, at every length."""
    rng = calls.rng
    for N, (flat_limit, flat_good), (clip_level, clip_good) in itertools.product(LENGTHS, FLAT_LIMITS.items(), CLIP_LEVELS.items()):
        for x in (random_block(rng, N), [rng.choice((0, 1, -2, 999_999, -1_000_000))] * N):
            calls.mark("figures", marking(rng, x, flat_limit, clip_level), 0 if flat_good and clip_good else 12)


def holding(call):
    """The conditions that hold, whatever the others do, in their order."""
    return held(ORDER, conditions(call.for_spectrum()) | {12: call.flat_limit < 0 or not 1 <= call.clip_level <= 1_000_000})


def broken_marking(rng, numbers, N):
    """A call with the numbered conditions made to hold."""
    figures = rng.choice(BAD_FIGURES) if 12 in numbers else (rng.randint(0, LARGEST), rng.randint(1, LARGEST_SAMPLE))
    return with_figures(broken(rng, numbers, N), *figures)


def check_refusals(calls):
    """Each refusal alone and every set of them together, at many lengths: the earliest wins."""
    met, sets = set(), every_set(ORDER)
    for numbers in sets:
        for N in (3, 6, 12, 1023, 1025, 2048) if 1 in numbers else LENGTHS[3:] if 5 in numbers else LENGTHS[1:]:
            call = broken_marking(calls.rng, numbers, N)
            met.add(holding(call))
            calls.mark("refusals %s" % (holding(call),), call, first(holding(call)))
    calls.require(sets, met)


def check_places(calls):
    """A sample out of range at the first, the last and a middle place of the block, and a later one too; with figures that are good and bad."""
    for N, figures in itertools.product(LENGTHS, ((3, 3), (-1, 0))):
        for name, x, place in out_of_range(calls.rng, N):
            call = marking(calls.rng, x, *figures)
            answer = calls.mark(name, call, 6)
            calls.add("the place", [None if answer.place == call.start + place else "the reference answers place %s" % answer.place])


def check_edges(calls):
    """Buffers, scratch, allowance and start at their edges and one beyond, with good figures and bad ones."""
    for N, flat_limit in itertools.product(LENGTHS, (LARGEST, -1)):
        calls.mark("just enough", with_figures(just_enough(N), flat_limit, 1), 0 if flat_limit == LARGEST else 12)
        for name, call, number in beyond_edges(N):
            calls.mark(name, with_figures(call, flat_limit, 1), number)


def check_lengths(calls):
    """Every length up to 130 and some far ones: the eleven are accepted."""
    for length in lengths_up_to(130):
        calls.mark("a length", with_figures(roomy(calls.rng, length), 0, LARGEST_SAMPLE), 0 if length in LENGTHS else 1)


def check_far(calls):
    """A recording of more than 2^32 words, and a block beyond them: no start and no place is cut to 32 bits."""
    far = Far()
    for last, mark, place in ((-3, PLAIN, None), (-30, CLIPPED, None), (OUT[0], None, 7)):
        x = [5, -3, 5, -3, 5, -3, 5, last]
        near_call, far_call = (with_figures(call, 7, 30) for call in far.hold(x, REACHING))
        answer = mark_call(*near_call)
        calls.add("near block %s" % x, [None if (answer.mark, answer.place) == (mark, place and 2 + place) else "%s" % (answer,)])
        calls.compare_mark("far block %s" % x, far_call, far.recording, far.answer(answer))


CHECKS = (check_known, check_each_coefficient, check_equal_samples, check_largest_coefficients, check_each_sample, check_outside, check_random,
          check_rests, check_met, check_figures, check_refusals, check_places, check_edges, check_lengths, check_far)


if __name__ == "__main__":
    sys.exit(run(MarkCalls, CHECKS, __doc__))
