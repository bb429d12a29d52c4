"""Writes what crates/spectra_test is to write: every case of its src/main.rt, answered by tests/reference.py. It shares nothing with the product.

    python3 tests/expect_spectra.py > crates/spectra_test/stdout
    python3 tests/expect_spectra.py --compare crates/spectra_test/stdout

The second compares, line by line, and changes nothing; its last line is 'N passed, M failed'.
"""

import sys
from typing import NamedTuple

import answers
import reference
from answers import digest, shown

LARGEST = 2**64 - 1


class Case(NamedTuple):
    start: int
    length: int
    allowance: int
    a: int
    b: int
    first: int
    second: int
    scratch: int


def line(name, answer, results, scratch_len, length):
    """One line: the answer, then every word lent, where only an accepted call has written."""
    row = [answer.refusal]
    row += [] if answer.place is None else [answer.place]
    row += answer.counts
    row += [] if answer.largest_rest is None else [answer.largest_rest]
    scratch = [90] * scratch_len
    for words, values in zip(results, answer.results):
        words[: len(values)] = values
    if answer.refusal == 0:
        cleared = reference.scratch_words(length)
        scratch[:cleared] = [0] * cleared
    for words in results:
        row += shown(words)
    row.append(digest(scratch))
    print(name, *row)


def run_spectrum(a, case):
    answer = reference.spectrum_call(
        a[: case.a], case.start, case.length, case.allowance, case.first, case.second, case.scratch)
    line("spectrum", answer, [[70] * case.first, [80] * case.second], case.scratch, case.length)


def run_cosine(a, case):
    answer = reference.cosine_call(
        a[: case.a], case.start, case.length, case.allowance, case.first, case.scratch)
    line("cosine", answer, [[70] * case.first], case.scratch, case.length)


def run_pair(a, b, case):
    answer = reference.pair_call(
        a[: case.a], b[: case.b], case.start, case.length, case.allowance, case.first, case.second, case.scratch)
    line("pair", answer, [[70] * case.first, [80] * case.second], case.scratch, case.length)


def run_query(length):
    answer = reference.count_query(length)
    print("counts", *(answer.counts if answer.refusal == 0 else [answer.refusal]))


def run_calls(a, b, case):
    run_spectrum(a, case)
    run_cosine(a, case)
    run_pair(a, b, case)


def run_roomy(a, b, start, length, allowance=20000):
    room = min(length, 1024)
    run_calls(a, b, Case(start, length, allowance, len(a), len(b), room + 2, room + 3, reference.scratch_words(room) + 2))


def recording(words, kind, seed):
    samples, state = [], seed
    for i in range(words):
        state = (state * 1103515245 + 12345) % 2**31
        samples.append((
            1_000_000,
            -1_000_000,
            -1_000_000 if i % 2 else 1_000_000,
            1_000_000 if i == 4 else 0,
            1 if i in (4, 5) else 0,
            state % 2_000_001 - 1_000_000,
            524_288 * reference.ONE_REST_DCT[(i - 3) % 4],
            654_321 * reference.ONE_REST_SINE[(i - 3) % 8])[kind])
    return samples


def run_kinds():
    for kind in range(8):
        a, b = recording(1040, kind, 1), recording(1040, 7 - kind, 2)
        for length in reference.LENGTHS:
            run_roomy(a, b, 3, length)


def run_refusals(conditions):
    def pick(condition, good, bad):
        return bad if condition in conditions else good

    a, b = [2_000_000] * 2 + [5] * 8, [-2_000_000] * 2 + [6] * 8
    enough = reference.scratch_words(8)
    a[4], b[3] = pick(8, 5, 1_000_005), pick(9, 6, -1_000_001)
    run_calls(a, b, Case(
        2, pick(1, 8, 6), pick(7, 100, 1), pick(2, 10, 7), pick(3, 10, 7), pick(4, 8, 3), pick(5, 8, 3), pick(6, enough, enough - 25)))


def run_blocks_to_try():
    for block in ([7], [1, 2, 3, 4], [3, 1], [0, 1], [-1, 1]):
        padded = block + [0] * (4 - len(block))
        run_roomy(padded, padded[::-1], 0, len(block))
    for block, _, _ in reference.TIES:
        run_roomy(list(block), list(block)[::-1], 0, 4)
    silence = [0] * 16
    for a, b in ((reference.COSINE_TIE, silence), (silence, reference.SINE_TIE), (reference.SINE_TIE, reference.COSINE_TIE)):
        run_roomy(list(a), list(b), 0, 16)
    a, b = recording(16, 3, 1), recording(16, 5, 2)
    run_roomy(a, b, 4, 8, 12)
    run_roomy(a, b, 4, 8, 11)
    run_roomy(a, b, 3, 8)
    a[4] = 1_000_001
    run_roomy(a, b, 4, 8)


def run_starts(length):
    a, b = [1] * 8, [2] * 9
    run_roomy(a, b, 0, length)
    run_roomy(a, b, 7, length)
    run_roomy(a, b, 8, length, 0)
    run_roomy(a, b, LARGEST, length)
    run_roomy([], b, 0, length)
    run_query(length)


def run_all():
    run_kinds()
    for i in range(10):
        for j in range(i, 10):
            run_refusals({i, j})
    run_blocks_to_try()
    for length in [*range(10), 1024, 2048, LARGEST]:
        run_starts(length)
    for level in range(13):
        for length in (2**level - 1, 2**level, 2**level + 1):
            run_query(length)


if __name__ == "__main__":
    sys.exit(answers.main(run_all))
