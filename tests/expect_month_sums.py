"""Writes what crates/months_test is to write: every month of its src/main.rt, by tests/reference.py. It shares nothing with the product.

    python3 tests/expect_month_sums.py > crates/months_test/stdout
    python3 tests/expect_month_sums.py --compare crates/months_test/stdout

The second compares, line by line, and changes nothing; its last line is 'N passed, M failed'.
"""

import sys

import answers
import reference

SAMPLES = 2_100
ROOM = SAMPLES  # words of both result buffers
SCRATCH = reference.scratch_words(1_024)
ALLOWANCE = 20_000


def recording():
    return [1_000_001 if i == 700 else i * 386_093 % 2_000_001 - 1_000_000 for i in range(SAMPLES)]


def write_account(month, party):
    """A line for the party, and one for each k up to one more than Spectrum yields."""
    print("party", party, reference.month_blocks(month, party)[1])
    for k in range(reference.month_length(month) // 2 + 2):
        refusal, cosine, sine = reference.month_sums(month, party, k)
        print("", k, *(() if refusal else (cosine, sine)))


def write_month(month):
    print("month", reference.month_length(month))
    for party in reference.PARTIES:
        write_account(month, party)


def filled(month, samples, length, calls):
    """The month after calls, each a number, which says where its block begins, and a party."""
    for i, party in calls:
        _, month = reference.month_add(month, party, samples, i % 400 * 3, length, ALLOWANCE, ROOM, ROOM, SCRATCH)
    return month


def begun(samples, length, calls):
    return filled(reference.month_begin(length)[1], samples, length, calls)


def of_party(party, count):
    return enumerate([party] * count)


def both_parties():
    """The calls of both parties in one month."""
    return [(i, 1 + (i * 7 % 11 + i * 5 % 13 + i * 3 % 17) % 2) for i in range(450)]


def run_length(samples, length, other):
    month = begun(samples, length, both_parties())
    month = filled(month, samples, other, of_party(1, 5))
    write_month(filled(month, samples, length, of_party(3, 5)))


def run_alone(samples, length):
    """Both accounts of one month, and each again from a month with the calls of its party alone."""
    month = begun(samples, length, both_parties())
    for party in reference.PARTIES:
        write_account(month, party)
    for party in reference.PARTIES:
        write_account(begun(samples, length, [call for call in both_parties() if call[1] == party]), party)


def run_full(value, length):
    """As many equal blocks as party 1 may add: of 50,001 the last is refused. Each of its sums is 50,000 times the coefficient. Then 3 of party 2."""
    _, month = reference.month_begin(length)
    samples, own = [value] * SAMPLES, reference.account(1)
    month[own] = reference.MOST_BLOCKS - 1
    month = filled(month, samples, length, of_party(1, 2))
    for place in range(own + reference.FIRST_COSINE, own + reference.ACCOUNT_WORDS):
        month[place] *= reference.MOST_BLOCKS
    write_month(filled(month, samples, length, of_party(2, 3)))


def run_all():
    samples = recording()
    for length in reference.LENGTHS:
        run_length(samples, length, 2 * length)
    run_length(samples, 3, 3)
    run_length(samples, 0, 0)
    run_length(samples, 2_048, 1_024)
    for length in (1, 8, 64, 1_024):
        run_alone(samples, length)
    run_full(1_000_000, 1)
    run_full(-1_000_000, 2)
    run_full(1_000_000, 4)


if __name__ == "__main__":
    sys.exit(answers.main(run_all))
