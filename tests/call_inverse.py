#!/usr/bin/env python3
"""Calls mealbis_inverse_dct of the library, over its C interface, and compares each answer and each value with those of tests/reference.py.

    python3 tests/call_inverse.py [--library PATH] [--seed NUMBER]

Builds libmealbis.a and a shared library of it, target/shared/libmealbis.so; or takes another shared library. Of every call it compares the answer,
its place, the whole buffer of the values and the coefficients, with guards before and behind each.

The last line is 'N passed, 0 failed'. Exit status 1 where something differs.
"""
import sys

from library import Calls, Record, every_set, first, in_memory, lengths_up_to, lent_samples, lent_words, mealbis, run
from reference import INVERSE_TIES, LENGTHS, cosine_call, dct, inverse_call, largest_coefficient, scratch_words
from spectrum_calls import largest_blocks, random_block

ORDER = (1, 2, 3, 10)               # in which mealbis_inverse_dct tests
MOST = 2 ** 31 - 1
UNBOUNDED = 2 ** 64 - 1


class InverseCalls(Calls):
    """Calls of mealbis_inverse_dct."""

    def inverse(self, name, coefficients, length, room, number=0):
        """It must answer as the reference, and the reference by this number."""
        answer = inverse_call(coefficients, length, room)
        name += "; N %d, %d coefficients, %d values" % (length, len(coefficients), room)
        if answer.refusal != number:
            self.add(name, ["the reference answers %d; %d is expected" % (answer.refusal, number)])
        values = lent_words(self.rng, "values", 4, room)
        for written in answer.results:
            values.expect(in_memory("i", written))
        record = Record(self.rng, mealbis.InverseAnswer, place=answer.place or 0)
        self.compare(name, self.function("mealbis_inverse_dct"), (lent_samples("coefficients", coefficients), length, values, record),
                     answer.refusal)

    def whole(self, name, coefficients):
        """An accepted block; the coefficient behind it is beyond every limit and is not examined."""
        N = len(coefficients)
        self.inverse(name, list(coefficients) + [MOST], N, N + self.rng.choice((0, 0, 1, 2, 9)))


def known(calls):
    """blocks of document 01 sent back, and ties"""
    for block in ([7], [1, 2, 3, 4], [3, 1], [0, 1], [-1, 1]):
        calls.whole("the block %s" % block, dct(block)[0])
    for stored, _, _ in INVERSE_TIES:
        calls.whole("a tie", stored)


def stored_kinds(calls):
    """every length: coefficients at the limit, with signs in turn, the last one alone, small ones, and any"""
    for N in LENGTHS:
        limit = largest_coefficient(N)
        kinds = {"the limit": [limit] * N, "the low limit": [-limit] * N, "signs in turn": [limit, -limit] * (N // 2) or [limit],
                 "the last one alone": [0] * (N - 1) + [limit], "small ones": [calls.rng.randint(-1000, 1000) for _ in range(N)],
                 "any": [calls.rng.randint(-limit, limit) for _ in range(N)]}
        for kind, coefficients in kinds.items():
            calls.whole(kind, coefficients)


def small_lengths(calls):
    """many stored blocks of the small lengths, where ties are frequent"""
    for N in (1, 2, 4, 8):
        for _ in range(300):
            calls.whole("any", [calls.rng.randint(-3 * N, 3 * N) for _ in range(N)])


def sent_back(calls):
    """blocks sent through mealbis_cosine and back: each sample within N"""
    for N in LENGTHS:
        for x in (*largest_blocks(N), random_block(calls.rng, N)):
            stored = cosine_call(x, 0, N, UNBOUNDED, N, scratch_words(N)).results[0]
            calls.whole("a block through Cosine", stored)
            back = inverse_call(stored, N, N).results[0]
            calls.add("a block through Cosine and back; N %d" % N,
                      [None if max(abs(y - s) for y, s in zip(back, x)) <= N else "a sample comes back farther off"])


def refusals(calls):
    """every set of refusals"""
    met = set()
    for N in LENGTHS:
        for numbers in every_set(ORDER):
            if 10 in numbers and 2 in numbers and N < 2:
                continue
            length = N + 3 if 1 in numbers and N + 3 not in LENGTHS else 3 if 1 in numbers else N
            stored = [5] * (min(N, length) - 1 if 2 in numbers else max(N, length))
            if 10 in numbers:
                if not stored:
                    continue
                stored[calls.rng.randrange(len(stored))] = calls.rng.choice((1, -1)) * (largest_coefficient(N) + 1)
            room = min(N, length) - 1 if 3 in numbers else max(N, length)
            calls.inverse("refusals %s" % (numbers,), stored, length, room, first(numbers))
            met.add(numbers)
    calls.require(every_set(ORDER), met)


def limits(calls):
    """the limit on either side at every place of 8, then one beyond it, at the last place too"""
    limit = largest_coefficient(8)
    for k in range(8):
        for size in (limit, -limit):
            calls.whole("the limit at %d" % k, [0] * k + [size] + [0] * (7 - k))
        for size in (limit + 1, -limit - 1, MOST, -MOST - 1):
            stored = [0] * 7 + [size]
            stored[k] = size
            calls.inverse("beyond the limit at %d" % k, stored, 8, 8, 10)


def lengths(calls):
    """lengths that are none, and those that are more than is stored"""
    for length in lengths_up_to(20):
        stored = [1] * 16
        calls.inverse("any length", stored, length, 16, 0 if length in LENGTHS and length <= 16 else 2 if length in LENGTHS else 1)


if __name__ == "__main__":
    sys.exit(run(InverseCalls, (known, stored_kinds, small_lengths, sent_back, refusals, limits, lengths), __doc__))
