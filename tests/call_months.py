#!/usr/bin/env python3
"""Calls the months of the library, over its C interface, and compares each answer and each month with those of tests/reference.py.

    python3 tests/call_months.py [--library PATH] [--seed NUMBER]
    python3 tests/call_months.py --example PARTY FILE ..        what the example `months` prints for these pair files, by the reference alone

Builds libmealbis.a and a shared library of it, target/shared/libmealbis.so; or takes another shared library. After every call of
mealbis_month_begin and mealbis_month_add it compares every word of the month, and of adding also the answer, the record (products, sums,
largest_rest, place), both buffers of coefficients, scratch and the recording, with guards before and behind each. What
mealbis_month_length, mealbis_month_blocks and mealbis_month_sums read is compared, too, and that they leave the month as it is.

The last line is 'N passed, 0 failed'. Exit status 1 where something differs.
"""
import array
import collections
import itertools
import struct
import sys
from pathlib import Path

from library import (BAD_LENGTHS, FAR_LENGTHS, GUARD, OUT, ROOT, Calls, Lent, Record, every_set, first, held, in_memory, lengths_up_to,
                     lent_samples, mealbis, run)
from reference import (ACCOUNT_WORDS, COSINE_TIE, DIFFERS_FROM_DIRECT, EDITION, FIRST_COSINE, FIRST_SINE, LARGEST_SAMPLE, LARGEST_SUM, LENGTHS,
                       MONTH_WORDS, MOST_FILE_SAMPLES, PARTIES, SINE_TIE, account, exact_cosine, exact_month, exact_sine, month_add, month_begin,
                       month_blocks, month_length, month_mark, month_sums, read_pair_file, scratch_words, spectrum, spectrum_call, within_eighths)
from spectrum_calls import (UNBOUNDED, Far, SpectrumCall, beyond_edges, broken, conditions, just_enough, largest_blocks, lend, out_of_range,
                            placed, random_block, roomy)

ORDER = (15, 13, 14, 2, 3, 4, 5, 6)     # in which mealbis_month_add tests
REFUSED = (15, 13, 2, 3, 4, 5, 6)       # by these before a party is full
OTHER = {1: 2, 2: 1}                    # the other party
UNKNOWN = (0, 3, 4, 5, 257, 258, 65_537, 65_538, 2 ** 31 + 1, 2 ** 32, 2 ** 32 + 1, 2 ** 32 + 2, 2 ** 32 + 3, 2 << 32, 2 ** 63, 2 ** 63 + 1,
           2 ** 63 + 2, 2 ** 64 - 2, 2 ** 64 - 1)       # parties that are neither 1 nor 2
SMALLEST, LARGEST = -2 ** 63, 2 ** 63 - 1
OTHER_EDITIONS = (0, 1, EDITION - 10_000, EDITION - 1, EDITION + 1, 2 * EDITION, EDITION + 2 ** 15, EDITION - 2 ** 16, EDITION + 2 ** 16, -EDITION)
NO_MARKS = (*(65_536 * edition + N for edition in OTHER_EDITIONS for N in LENGTHS),
            *(month_mark(length) for length in (0, -1, -8, -1024, 3, 12, 1023, 1025, 2048, 32_768, 65_535, 65_536, 2 ** 32)),
            0, -1, -8, 3, 2048, 8 << 32, -month_mark(8), ~month_mark(8), SMALLEST + month_mark(8), LARGEST, SMALLEST, SMALLEST + 8)
FAR_K = (512, 513, 514, 515, 1023, 1024, 1025, 1026, 1027, 1028, 1029, 2054, 2055, 2 ** 31, 2 ** 32, 2 ** 32 + 1, 2 ** 61, 2 ** 63,
         2 ** 64 - 515, 2 ** 64 - 2, 2 ** 64 - 1)
EXAMPLE = ("1", "examples/train_crossing.pair", "2", "examples/train_crossing.pair", "1", "examples/train_crossing.pair"), "examples/months.txt"


# --- calls -------------------------------------------------------------------------

class Month(Lent):
    """The words of a month; `words` are those that should stand there."""

    alone = True

    def __init__(self, rng, words):
        super().__init__("the month", MONTH_WORDS, in_memory("q", words), (rng.randbytes(GUARD), rng.randbytes(GUARD)))
        self.expected = bytearray(self.expected)
        self.words = words

    def become(self, words):
        self.expect(in_memory("q", words))
        self.words = words

    def put(self, place, word):
        """The same of one word."""
        struct.pack_into("=q", self.expected, self.first + 8 * place, word)
        self.words[place] = word

    def now(self):
        """What stands in the words now."""
        return list(array.array("q", self.front(8 * MONTH_WORDS)))


def any_words(rng, count=MONTH_WORDS):
    """Words of which the next call knows nothing."""
    return list(array.array("q", rng.randbytes(8 * count)))


def any_account(rng):
    return any_words(rng, ACCOUNT_WORDS)


def account_words(blocks, cosine, sine):
    """An account with these sums from k = 0 on, all else 0."""
    words = [blocks] + [0] * 1026
    words[1:1 + len(cosine)], words[514:514 + len(sine)] = cosine, sine
    return words


def times(number, rows):
    """The account of a party with so many blocks of these coefficients."""
    return account_words(number, *([number * coefficient for coefficient in row] for row in rows))


def month_words(N, accounts):
    """A month with the accounts of these parties, all else 0."""
    return [month_mark(N)] + [word for party in (1, 2) for word in accounts.get(party, [0] * 1027)]


def of_account(words, party):
    return words[account(party):account(party) + ACCOUNT_WORDS]


class MonthCalls(Calls):
    """Calls on months; answered counts the answers of adding by the month's length and the party, None for an unknown one."""

    def __init__(self, library, rng):
        super().__init__(library, rng)
        self.begin_function, self.add_function, self.sums_function = (self.function("mealbis_month_" + name) for name in ("begin", "add", "sums"))
        self.length_function, self.blocks_function = self.function("mealbis_month_length"), self.function("mealbis_month_blocks")
        self.spectrum_function = self.function("mealbis_spectrum")
        self.answered = collections.Counter()

    def party(self):
        return self.rng.choice(PARTIES)

    def begin(self, name, length, words=None):
        """A month begun in these words, or in any."""
        month = Month(self.rng, words or any_words(self.rng))
        self.begin_again(name, month, length)
        return month

    def begin_again(self, name, month, length):
        refusal, words = month_begin(length)
        month.become(words)
        self.compare("%s, begun for %d" % (name, length), self.begin_function, (month, length), refusal)

    def block(self, name, month, party, call, number=0):
        """A block added: it must answer as the reference, and the reference by this number. The reference's answer then."""
        answer, then = self.expected(name, month, party, call, number)
        lent = lent_samples("the recording", call.recording), *lend(self.rng, call, answer)
        self.compare_block(name, month, party, call, lent, answer.refusal, then)
        return answer

    def expected(self, name, month, party, call, number):
        answer, then = month_add(month.words, party, *call)
        if answer.refusal != number:
            self.add(name, ["the reference answers %d; %d is expected" % (answer.refusal, number)])
        self.answered[month_length(month.words), party if party in PARTIES else None, answer.refusal] += 1
        return answer, then

    def compare_block(self, name, month, party, call, lent, number, then):
        """The call on a recording and the other memory that is lent; what the library answers."""
        held = [month.words[place] for place in (0, 1, 1028)]
        name += "; party %d, month marked %d with %d and %d blocks, N %d, start %d" % (party, *held, call.length, call.start)
        month.become(then)
        return self.compare(name, self.add_function, (month, party, lent[0], call.start, call.length, call.allowance, *lent[1:]), number)

    def beside(self, name, both, alone, party, call, number):
        """The same block added to the month of both parties and to that of this one alone, each time in memory that held the same: the library
        leaves the same in it, and the same account, whatever the reference says."""
        answer, then = self.expected(name, both, party, call, number)
        lent, left, own = (lent_samples("the recording", call.recording), *lend(self.rng, call, answer)), [], account(party)
        then_alone = alone.words[:own] + of_account(then, party) + alone.words[own + ACCOUNT_WORDS:]
        for month, words in ((both, then), (alone, then_alone)):
            for one in lent:
                one.refill()
            answered = self.compare_block(name, month, party, call, lent, number, words)
            left.append((answered, [bytes(one.memory) for one in lent], of_account(month.now(), party)))
        self.add(name, [None if left[0] == left[1] else "party %d has another answer or account where the other party has calls" % party])

    def read(self, name, month, places):
        """The length, and of each party and of an unknown one the block number and the sums for each k of the places."""
        self.compare(name + ", the length", self.length_function, (month,), month_length(month.words))
        for party in (*PARTIES, self.rng.choice(UNKNOWN)):
            self.read_account("%s, party %d" % (name, party), month, party, places)

    def read_account(self, name, month, party, places):
        refusal, blocks = month_blocks(month.words, party)
        record = Record(self.rng, mealbis.BlocksAnswer, blocks=blocks)
        self.compare(name + ", the block number", self.blocks_function, (month, party, record), refusal)
        for k in places:
            refusal, cosine, sine = month_sums(month.words, party, k)
            record = Record(self.rng, mealbis.SumsAnswer, cosine=cosine, sine=sine)
            self.compare("%s, the sums for k = %d" % (name, k), self.sums_function, (month, party, k, record), refusal)

    def near(self, name, month, party, blocks, places, number=1):
        """Each sum that stands in the party's account for a k of the places is within n * N/8 of the exact sum of its n blocks, which are these,
        each so many times."""
        now, n, N = of_account(month.now(), party), number * len(blocks), month_length(month.words)
        for k, (first, exact) in itertools.product(places, ((FIRST_COSINE, exact_cosine), (FIRST_SINE, exact_sine))):
            word = now[first + k]
            good = within_eighths(word, number * exact_month(exact, blocks, k), n, N)
            told = "word %d of its account, %d, is too far from its exact sum" % (first + k, word)
            self.add("%s, %d blocks of %d by party %d" % (name, n, N, party), [None if good else told])


def some_k(N):
    return sorted({0, min(1, N // 2), N // 4, N // 2})


# --- accepted blocks and refused ones -----------------------------------------------

def check_known(calls):
    """Months worked on paper, block by block, of both parties in turn."""
    top = LARGEST_SAMPLE
    second = [0, top] + [0] * 6
    for history in (
            [([7], [7], [0]), ([-9], [-2], [0]), ([top], [999_998], [0])],
            [([3, 1], [4, 2], [0, 0]), ([-5, 4], [3, -7], [0, 0]), ([top, -top], [3, 1_999_993], [0, 0])],
            [([1, 2, 3, 4], [10, -2, -2], [0, -2, 0]), ([0, -7, 0, 2], [5, -2, 3], [0, -11, 0]), ([6, 0, -5, 0], [6, 9, 4], [0, -11, 0])],
            [(second, [top, 707_107, 0, -707_107, -top], [0, 707_107, top, 707_107, 0]),
             (second, [2 * top, 1_414_214, 0, -1_414_214, -2 * top], [0, 1_414_214, 2 * top, 1_414_214, 0])]):
        N = len(history[0][0])
        month, known = calls.begin("a month worked on paper", N), {}
        for (n, (x, cosine, sine)), party in itertools.product(enumerate(history, 1), PARTIES):
            calls.block("block %s" % x, month, party, placed(calls.rng, x))
            now, known[party] = month.now(), account_words(n, cosine, sine)
            calls.add("block %s, by hand" % x, [None if now == month_words(N, known) else "the words are %s" % [word for word in now if word]])
            calls.read("block %s" % x, month, range(N + 3))


def other_length(rng, N):
    """The length of a block that does not belong in a month of N."""
    return rng.choice([length for length in (*LENGTHS, 3, 6, 12, 1023, 1025, 2048) if length != N])


def possible(numbers, N):
    """Those of the refusals that a block of N samples can meet: up to N = 4 no product is spent."""
    return [number for number in numbers if number != 5 or N > 4]


def held_conditions(month, party, call):
    """The conditions that hold, whatever the others do, in their order; 14 for an unknown party where both parties are full."""
    other_length = call.length not in LENGTHS or month.words[0] != month_mark(call.length)
    full = all(month.words[place] >= 50_000 for place in {1: [1], 2: [1028]}.get(party, [1, 1028]))
    return held(ORDER, conditions(call) | {15: party not in (1, 2), 13: other_length, 14: full})


def held_first(month, party, call):
    return first(held_conditions(month, party, call))


def spoilt(rng, numbers, N, party):
    """The party, or an unknown one by 15, and a call on a block of N, or of another length by 13, with those among 2 to 6 made to hold."""
    return rng.choice(UNKNOWN) if 15 in numbers else party, broken(rng, numbers, other_length(rng, N) if 13 in numbers else N)


def with_others(rng, number, N, chance):
    """This refusal, and each other one by chance."""
    return [number, *(other for other in possible(REFUSED, N) if rng.random() < chance)]


def sums_over(blocks):
    """The account of a party with these blocks."""
    rows = zip(*(spectrum(x)[:2] for x in blocks))
    return account_words(len(blocks), *([sum(column) for column in zip(*row)] for row in rows)) if blocks else [0] * 1027


def check_histories(calls):
    """Months of every length, blocks of both parties in any order and refused ones in between: each party's sums are those over its accepted ones."""
    rng = calls.rng
    for N, turn in itertools.product(LENGTHS, range(3)):
        month, blocks = calls.begin("a history", N), {1: [], 2: []}
        for _ in range(8 if N < 128 else 3):
            party, x = calls.party(), random_block(rng, N) if rng.randrange(4) else rng.choice(list(largest_blocks(N)))
            blocks[party].append(x)
            calls.block("history %d" % turn, month, party, placed(rng, x))
            for number, (own, chance) in itertools.product(possible(REFUSED, N), ((1, 0), (2, 0), (calls.party(), 0.5))):
                numbers = with_others(rng, number, N, chance)
                by, call = spoilt(rng, numbers, N, own)
                calls.block("history %d, refusals %s" % (turn, numbers), month, by, call, held_first(month, by, call))
        good = month.now() == month_words(N, {party: sums_over(blocks[party]) for party in PARTIES})
        calls.add("history %d of %d" % (turn, N), [None if good else "the words are not the sums over the accepted blocks"])
        for party in PARTIES:
            calls.near("history %d" % turn, month, party, blocks[party], some_k(N))
        calls.read("history %d" % turn, month, (*range(N // 2 + 3), *FAR_K))


def months_apart(calls, N, blocks):
    """A month whose parties hold so many blocks, and for each party one with the same account of its own and anything in the other's."""
    rng = calls.rng
    if blocks == (0, 0):
        return calls.begin("both", N), {party: calls.begin("alone", N) for party in PARTIES}
    accounts = {party: times(number, spectrum(random_block(rng, N))[:2]) for party, number in zip(PARTIES, blocks)}
    alone = {party: Month(rng, month_words(N, {party: accounts[party], OTHER[party]: any_account(rng)})) for party in PARTIES}
    return Month(rng, month_words(N, accounts)), alone


def check_apart(calls):
    """Calls of both parties in any order, refused ones too, and those of each alone in a month of its own: the same answers, buffers and accounts."""
    rng = calls.rng
    for N, blocks in itertools.product(LENGTHS, ((0, 0), (0, 0), (49_997, 2), (1, 49_998), (49_998, 49_996), (7, 50_000), (50_000, 49_998))):
        both, alone = months_apart(calls, N, blocks)
        for _ in range(24 if N < 128 else 8):
            numbers = with_others(rng, rng.choice(possible(REFUSED, N)), N, rng.choice((0, 0.4))) if rng.randrange(2) else []
            party, call = spoilt(rng, numbers, N, calls.party())
            number = held_first(both, party, call)
            if party in PARTIES:
                calls.beside("both and alone", both, alone[party], party, call, number)
            else:
                calls.block("both", both, party, call, number)
        for party in PARTIES:
            good = of_account(both.now(), party) == of_account(alone[party].now(), party)
            calls.add("party %d of a month of %d" % (party, N), [None if good else "its account is another where it is alone"])


def check_as_spectrum(calls):
    """Blocks added to a month and given to Spectrum one by one: its words summed are the party's."""
    rng = calls.rng
    for N in LENGTHS:
        month, sums = calls.begin("as Spectrum", N), {party: [0, [0] * (N // 2 + 1), [0] * (N // 2 + 1)] for party in PARTIES}
        for _ in range(6 if N < 256 else 3):
            call, party = placed(rng, random_block(rng, N)), calls.party()
            answer = calls.block("as Spectrum", month, party, call)
            lent = lend(rng, call, answer)
            given = lent_samples("the recording", call.recording), call.start, N, call.allowance, *lent
            calls.compare("Spectrum", calls.spectrum_function, given, 0)
            sums[party][0] += 1
            for row, buffer in zip(sums[party][1:], lent):
                for k, coefficient in enumerate(array.array("i", buffer.front(4 * len(row)))):
                    row[k] += coefficient
            good = month.now() == month_words(N, {party: account_words(*sums[party]) for party in PARTIES})
            calls.add("the sums of Spectrum's words, N %d" % N, [None if good else "they are not the month's"])


def check_taken_up(calls):
    """Two months in turn, and each of them copied to other memory and taken up there; and a month begun again."""
    rng = calls.rng
    for N, other in zip(LENGTHS, (*LENGTHS[3:], *LENGTHS[:3])):
        months = [calls.begin("taken up", length) for length in (N, other)]
        for turn, party in enumerate((1, 2, 2, 1)):
            for which, length in enumerate((N, other)):
                calls.block("in turn", months[which], party, placed(rng, random_block(rng, length)))
                calls.block("in turn, the other's", months[which], party, placed(rng, random_block(rng, (other, N)[which])), 13)
            if turn == 1:
                months = [Month(rng, month.now()) for month in months]
        for month, length, party in zip(months, (other, N), PARTIES):
            calls.begin_again("taken up", month, length)
            calls.block("begun again", month, party, placed(rng, random_block(rng, length)))
            calls.read("begun again", month, range(length // 2 + 2))


# --- the end of a month --------------------------------------------------------------

def again(calls, name, month, party, x):
    """A function that adds the block once more, in memory that holds anything before the call; everything is compared after it."""
    N, own = len(x), account(party)
    call = SpectrumCall(x, 0, N, UNBOUNDED, N // 2 + 1, N // 2 + 1, scratch_words(N))
    answer = spectrum_call(*call)
    lent = lend(calls.rng, call, answer)
    given = month, party, lent_samples("the recording", x), 0, N, UNBOUNDED, *lent
    rows = zip((FIRST_COSINE, FIRST_SINE), answer.results)
    changed = [(own + place, coefficient) for first, row in rows for place, coefficient in enumerate(row, first) if coefficient]

    def add():
        for one in lent:
            one.refill()
        for place, change in ((own, 1), *changed):
            month.put(place, month.words[place] + change)
        calls.compare(name, calls.add_function, given, 0)
    return add


def one_more(calls, name, month, party, N):
    """One more block of a party that is full: 14, or 13 by another length, or 15 by another party, and all is as it was."""
    rng = calls.rng
    for numbers in ((14,), (14, 2), (14, 3), (14, 4), (14, 6), (14, 2, 3, 4, 6)):
        calls.block(name + ", one more", month, party, broken(rng, numbers, N), 14)
    for length in (*LENGTHS, 0, 3, 2048):
        if length != N:
            calls.block(name + ", another length", month, party, broken(rng, (), length), 13)
    calls.block(name + ", an unknown party", month, rng.choice(UNKNOWN), broken(rng, (), N), 15)
    calls.read(name + ", then", month, some_k(N))


def check_full(calls):
    """50,000 blocks of the largest samples of each party at N = 1, 2 and 1,024, of one after the other or in turn, and one more, which is refused."""
    for N, runs in ((1, ((1,), (2,))), (2, ((1, 2),)), (1024, ((2,), (1,)))):
        name, blocks, known = "a full month of %d" % N, {1: [LARGEST_SAMPLE] * N, 2: [-LARGEST_SAMPLE] * N}, {}
        month = calls.begin(name, N)
        for parties in runs:
            added = [again(calls, name, month, party, blocks[party]) for party in parties]
            for _, add in itertools.product(range(50_000), added):
                add()
            known |= {party: account_words(50_000, [50_000 * N * blocks[party][0]], []) for party in parties}
            calls.add(name, [None if month.now() == month_words(N, known) else "its words are not 50,000 times those of a block"])
            for party in known:
                one_more(calls, name, month, party, N)
        calls.read(name, month, (*range(N // 2 + 2), *FAR_K))
        calls.begin_again(name, month, N)
        for party in PARTIES:
            calls.block(name + ", begun again", month, party, placed(calls.rng, blocks[party]))


def check_last_blocks(calls):
    """The last blocks of a party at every length, on the sums of so many, whatever the other party holds; then 14, and 13 by another length."""
    rng, of_other = calls.rng, itertools.cycle((0, 49_999, 50_000, None, 50_001))
    for N in LENGTHS:
        every = [LARGEST_SAMPLE] * N, [-LARGEST_SAMPLE] * N, *itertools.islice(largest_blocks(N), 7 if N < 256 else 3)
        for x, party in zip(every, itertools.cycle(PARTIES)):
            rows = spectrum(x)[:2]
            for before, number in ((49_998, 0), (49_999, 0), (50_000, 14), (50_001, 14)):
                blocks = next(of_other)
                other = {OTHER[party]: any_account(rng) if blocks is None else times(blocks, rows)}
                month = Month(rng, month_words(N, other | {party: times(before, rows)}))
                calls.block("block %d" % (before + 1), month, party, placed(rng, x), number)
                calls.block("another length", month, party, broken(rng, (), other_length(rng, N)), 13)
                if before == 49_999:
                    calls.block("block 50,001", month, party, placed(rng, x), 14)
                    full = month_words(N, other | {party: times(50_000, rows)})
                    calls.add("a full month of %d" % N, [None if month.now() == full else "its words are not 50,000 times those of a block"])
                    calls.near("the last block", month, party, [x], some_k(N), 50_000)
                    calls.read("a full month", month, some_k(N))


# --- beginning and reading -------------------------------------------------------------

def check_beginnings(calls):
    """Every length and bad ones, begun in memory with anything in it; then blocks of every length and of bad ones: 13 but for the month's own."""
    rng = calls.rng
    bad_blocks = (0, 3, 1023, 2048, 2 ** 32, 2 ** 63, 2 ** 64 - 1)
    before = month_words(8, {1: account_words(50_000, [5] * 513, [6] * 513), 2: account_words(49_999, [7] * 513, [8] * 513)})
    for length in (*LENGTHS, *BAD_LENGTHS, *FAR_LENGTHS):
        for words in (None, [-1] * MONTH_WORDS, [LARGEST] * MONTH_WORDS, before):
            month = calls.begin("a beginning", length, words)
            known = [month_mark(length) if length in LENGTHS else 0] + [0] * 2054
            calls.add("a beginning for %d" % length, [None if month.now() == known else "other words"])
        for other in (*LENGTHS, *bad_blocks, length):
            good = length in LENGTHS and other == length
            calls.block("after a beginning for %d" % length, month, calls.party(), roomy(rng, other), 0 if good else 13)
        if length not in LENGTHS:
            for numbers in ((2,), (3,), (4,), (6,), (2, 3, 4, 6)):
                calls.block("after a beginning for %d" % length, month, calls.party(), broken(rng, numbers, rng.choice(LENGTHS[1:])), 13)
        calls.read("a beginning for %d" % length, month, (0, 1, *FAR_K))


def check_empty_after_refusal(calls):
    """A month with blocks begun again with a bad length: no word of it is left, and 13 answers its own length."""
    rng = calls.rng
    for N in LENGTHS:
        for bad in (0, 3, 2048, 2 ** 32 + N, N << 32, 2 ** 64 - N, month_mark(N)):
            month = calls.begin("before a bad length", N)
            for party in PARTIES:
                calls.block("before a bad length", month, party, placed(rng, random_block(rng, N)))
            calls.begin_again("a bad length", month, bad)
            calls.add("a bad length", [None if month.now() == [0] * MONTH_WORDS else "a word is not 0"])
            for party in PARTIES:
                calls.block("after a bad length", month, party, placed(rng, random_block(rng, N)), 13)
            for length in (0, bad):
                calls.block("after a bad length, a block of another", month, calls.party(), roomy(rng, length), 13)
            calls.read("after a bad length", month, (0, 1, N // 2, *FAR_K))


def check_reading(calls):
    """Months with anything in their words, of every length and of none: the sums for each k up to N/2, and 16 for every other; 15 before it."""
    rng = calls.rng
    for N in LENGTHS:
        for blocks in (0, 1, 49_999, 50_000, 50_001, 2 ** 31, 2 ** 32 + 5, LARGEST, -1, SMALLEST):
            month = Month(rng, month_words(N, {party: [rng.choice((blocks, 7)), *any_account(rng)[1:]] for party in PARTIES}))
            calls.read("a month of %d" % N, month, (0, 1))
        calls.read("a month of %d" % N, month, (*range(N // 2 + 4), *FAR_K, N // 2 + 2 ** 32, N // 2 + 1 + 2 ** 32))
    for first in NO_MARKS:
        calls.read("a first word %d" % first, Month(rng, [first, *any_words(rng)[1:]]), (0, 1, rng.choice(FAR_K)))


def check_other_words(calls):
    """Words that no month left there: sums around 2^62 and at the ends, a block number below 0; anything in the other account, which stays."""
    rng = calls.rng
    ends = [sign * (LARGEST_SUM + more) for sign in (1, -1) for more in (-10 ** 9, -1, 0, 0, 0, 1, 1, 2, 10 ** 9)]
    ends += [LARGEST, SMALLEST, SMALLEST + 1, 0]
    for (N, blocks), party in zip(itertools.product(LENGTHS, (0, -1, -5, SMALLEST, 49_990)), itertools.cycle(PARTIES)):
        own, other = [blocks, *rng.choices(ends, k=1026)], rng.choice((any_account(rng), rng.choices(ends, k=1027)))
        month = Month(rng, month_words(N, {party: own, OTHER[party]: other}))
        for turn in range(3):
            x = rng.choice(([LARGEST_SAMPLE] * N, [-LARGEST_SAMPLE] * N, random_block(rng, N), [rng.randint(1, 3) for _ in range(N)]))
            calls.block("sums at their ends, %d" % turn, month, party, placed(rng, x))
            refused = broken(rng, rng.choice(((2,), (3,), (4,), (6,))), N)
            calls.block("sums at their ends, refused", month, party, refused, held_first(month, party, refused))
        calls.read("sums at their ends", month, some_k(N))
    last = 2 ** 62
    for held, then in ((last, last + 3), (-last, 3 - last), (last - 1, last + 2), (last + 1, last + 1), (-last - 1, -last - 1),
                       (LARGEST, LARGEST), (SMALLEST, SMALLEST)):
        for party in PARTIES:
            month = Month(rng, month_words(1, {party: [-7] + [held] * 1026, OTHER[party]: [held] * 1027}))
            calls.block("every sum %d" % held, month, party, placed(rng, [3]))
            known = month_words(1, {party: [-6, then] + [held] * 1025, OTHER[party]: [held] * 1027})
            calls.add("every sum %d, by hand" % held, [None if month.now() == known else "the words are %s" % month.now()[:4]])


# --- words that are no month of this version ---------------------------------------------

def old_record(rng, N):
    """A month of the version before, in 1,028 words: the length, the block number, 513 sums of the cosine and 513 of the sine."""
    blocks, rows = rng.choice((0, 1, 2, 99_999, 100_000)), spectrum(random_block(rng, N))[:2]
    return [N, blocks] + [word for row in rows for word in [blocks * coefficient for coefficient in row] + [0] * (513 - len(row))]


def stays(calls, name, month, lengths, places):
    """13 to blocks of these lengths by either party, the length 0, and 16 for every k of the places; every word stays."""
    held = list(month.words)
    for length, party in itertools.product(lengths, PARTIES):
        calls.block(name, month, party, broken(calls.rng, (), length) if length <= 2048 else just_enough(8)._replace(length=length), 13)
    calls.read(name, month, places)
    calls.add(name, [None if month_length(held) == 0 and month.now() == held else "a word has changed"])


def check_old_records(calls):
    """Months of the version before, zeros or anything behind them: 13 to blocks of every length, the length 0, 16 for every k; every word stays."""
    rng = calls.rng
    for N, behind in itertools.product((0, *LENGTHS), ("zeros", "anything", "an account")):
        old = old_record(rng, N) if N else [0] * 1028
        words = {"zeros": [0] * 1027, "anything": any_account(rng), "an account": times(5, spectrum(random_block(rng, N or 8))[:2])}[behind]
        stays(calls, "an old month of %d, %s behind it" % (N, behind), Month(rng, old + words), (*LENGTHS, 0), (*range(N // 2 + 2), *FAR_K))


def check_no_marks(calls):
    """First words that are no mark, some near to one: of other editions, of lengths of none, negative and at the ends of 64 bits; they stay."""
    rng = calls.rng
    for first in NO_MARKS:
        month = Month(rng, [first, *rng.choice((any_words(rng), month_words(8, {1: [50_000] * 1027})))[1:]])
        lengths = {rng.choice(LENGTHS), 0, 8, first % 65_536, first % 2 ** 32, first % 2 ** 64, (first - month_mark(0)) % 2 ** 64}
        stays(calls, "a first word %d" % first, month, sorted(lengths), (0, 1, 512))


# --- refusals ------------------------------------------------------------------------

def check_refusals(calls):
    """Each refusal alone and every set of them together, by either party and by unknown ones: the earliest wins, and the month stays."""
    rng, met, sets, parties = calls.rng, {1: set(), 2: set(), None: set()}, every_set(ORDER), itertools.cycle(PARTIES)
    for numbers in sets:
        for N in LENGTHS[3:] if 5 in numbers else LENGTHS[1:]:
            others = [3, 6, 2048, rng.choice([other for other in LENGTHS[3:] if other != N])]
            for length in (rng.sample(others, 1) if 15 in numbers else others) if 13 in numbers else (N,):
                own = next(parties)
                blocks = {party: rng.choice((50_000, 50_001) if 14 in numbers else (0, 5, 49_999)) for party in PARTIES}
                blocks[OTHER[own]] = blocks[OTHER[own]] if 15 in numbers else rng.choice((0, 49_999, 50_000, 100_000))
                month = Month(rng, month_words(N, {party: account_words(blocks[party], [9] * 513, [-9] * 513) for party in PARTIES}))
                party, call = rng.choice(UNKNOWN) if 15 in numbers else own, broken(rng, numbers, length)
                holding = held_conditions(month, party, call)
                met[None if 15 in numbers else own].add(holding)
                calls.block("refusals %s" % (holding,), month, party, call, first(holding))
    for party, found in met.items():
        calls.require([numbers for numbers in sets if (15 in numbers) == (party is None)], found)


def check_unknown(calls):
    """Parties that are neither 1 nor 2, at every length: 15 to a block that each of the two may add, and in reading, before 16."""
    rng = calls.rng
    for N, party in itertools.product(LENGTHS, UNKNOWN):
        month = calls.begin("an unknown party", N)
        for own in PARTIES:
            calls.block("before an unknown party", month, own, just_enough(N))
        calls.block("an unknown party", month, party, just_enough(N), 15)
        calls.read_account("an unknown party %d" % party, month, party, (0, N // 2, N // 2 + 1, *rng.sample(FAR_K, 3)))
        for words in (month_words(N, {1: [50_000] * 1027, 2: [50_000] * 1027}), any_words(rng), [0] * MONTH_WORDS):
            month = Month(rng, words)
            calls.block("an unknown party", month, party, just_enough(N), 15)
            calls.read_account("an unknown party %d" % party, month, party, (0, rng.choice(FAR_K)))


def check_places(calls):
    """A sample out of range at the first, the last and a middle place of the block, and a later one too."""
    rng = calls.rng
    for N in LENGTHS:
        month = calls.begin("places", N)
        calls.block("places", month, calls.party(), placed(rng, random_block(rng, N)))
        for name, x, place in out_of_range(rng, N):
            call = placed(rng, x)
            answer = calls.block(name, month, calls.party(), call, 6)
            calls.add("the place", [None if answer.place == call.start + place else "the reference answers place %s" % answer.place])


def check_edges(calls):
    """Buffers, scratch, allowance and start at their edges and one beyond."""
    for N in LENGTHS:
        month = calls.begin("edges", N)
        for (name, call, number), party in zip(beyond_edges(N), itertools.cycle(PARTIES)):
            calls.block("just enough", month, party, just_enough(N))
            calls.block(name, month, party, call, number)


def check_lengths(calls):
    """Blocks of every length up to 130 and of some far ones, in a month of each length: 13 but for its own."""
    for N in LENGTHS:
        month = calls.begin("lengths", N)
        for length in lengths_up_to(130):
            calls.block("a length", month, calls.party(), roomy(calls.rng, length), 0 if length == N else 13)


def check_far(calls):
    """A recording of more than 2^32 words, and a block beyond them: no start and no place is cut to 32 bits."""
    far, month = Far(), calls.begin("far", 8)
    for last, party, number, place in ((-3, 1, 0, None), (-30, 2, 0, None), (OUT[0], 1, 6, 7)):
        near_call, far_call = far.hold([5, -3, 5, -3, 5, -3, 5, last], (9, 9))
        answer, then = month_add(month.words, party, *near_call)
        calls.add("near block", [None if (answer.refusal, answer.place) == (number, place and 2 + place) else "%s" % (answer,)])
        lent = far.recording, *lend(calls.rng, far_call, far.answer(answer))
        calls.compare_block("far block, last sample %d" % last, month, party, far_call, lent, number, then)


def check_met(calls):
    """Every answer of adding came up for every length and either party that it can come up for, and 15 alone for unknown ones."""
    for N, party, number in itertools.product((0, *LENGTHS), (*PARTIES, None), (0, *ORDER)):
        can = [15] if party is None else [13] if N == 0 else possible((0, *ORDER[1:]), N)
        count = calls.answered[N, party, number]
        good = count >= 5 if number in can else count == 0
        calls.add("answer %d to party %s in a month of %d" % (number, party, N), [None if good else "it came up %d times" % count])


# --- distances ---------------------------------------------------------------------

def check_distances(calls):
    """Sums within n * N/8 of the exact ones, n the party's: one block again and again, whose distances add up, others, and many more of one party."""
    rng, shares = calls.rng, itertools.cycle(((1,), (2, 2, 2, 1), (2,), (1, 1, 1, 2), (1, 2)))
    for N in LENGTHS:
        count = 24 if N < 64 else 6 if N < 512 else 3
        histories = {"random": [random_block(rng, N) for _ in range(count)], "one block again": [random_block(rng, N)] * count,
                     "the ends of the range": [rng.choice(list(largest_blocks(N))) for _ in range(count)]}
        if N == 16:
            histories |= {"a block that differs": [list(DIFFERS_FROM_DIRECT)] * count, "ties": [list(COSINE_TIE), list(SINE_TIE)] * count}
        for name, blocks in histories.items():
            month, of_party = calls.begin(name, N), {1: [], 2: []}
            for x, party in zip(blocks, itertools.cycle(next(shares))):
                calls.block(name, month, party, placed(rng, x))
                of_party[party].append(x)
            for party in PARTIES:
                calls.near(name, month, party, of_party[party], range(N // 2 + 1) if N < 64 else some_k(N))


# --- the example -------------------------------------------------------------------

def read_file(path):
    file = read_pair_file(Path(path).read_bytes(), MOST_FILE_SAMPLES, MOST_FILE_SAMPLES)
    if file.refusal:
        sys.exit("refused %d: %s" % (file.refusal, path))
    return file


def example(words):
    """What examples/c/months.c and examples/rust/months.rs print for these parties and pair files, in turn."""
    months = []
    for party, path in zip(words[::2], words[1::2]):
        file = read_file(path)
        N = file.length
        months = months or [month_begin(N)[1] for _ in "ab"]
        for which, start in itertools.product(range(2), range(0, file.m - N + 1, N)):
            lens = N // 2 + 1, N // 2 + 1, scratch_words(N)
            answer, months[which] = month_add(months[which], int(party), (file.a, file.b)[which], start, N, UNBOUNDED, *lens)
            if answer.refusal:
                sys.exit("refused %d: %s" % (answer.refusal, path))
    a, b = months
    lines = ["length %d" % month_length(a)]
    for party in PARTIES:
        lines += ["party %d blocks %d" % (party, month_blocks(a, party)[1]), "k cosine_a sine_a cosine_b sine_b"]
        for k in range(month_length(a) // 2 + 1):
            lines.append("%d %d %d %d %d" % (k, *month_sums(a, party, k)[1:], *month_sums(b, party, k)[1:]))
    return "".join(line + "\n" for line in lines)


def check_example(calls):
    """examples/months.txt is what the reference prints for examples/train_crossing.pair, of both parties."""
    words, stored = EXAMPLE
    good = (ROOT / stored).read_text() == example([word if word.isdigit() else ROOT / word for word in words])
    calls.add(stored, [None if good else "it differs"])


CHECKS = (check_known, check_histories, check_apart, check_as_spectrum, check_taken_up, check_full, check_last_blocks, check_beginnings,
          check_empty_after_refusal, check_reading, check_other_words, check_old_records, check_no_marks, check_refusals, check_unknown, check_places,
          check_edges, check_lengths, check_far, check_distances, check_met, check_example)


if __name__ == "__main__":
    if sys.argv[1:2] == ["--example"] and len(sys.argv) > 3 and len(sys.argv) % 2 == 0:
        sys.stdout.write(example(sys.argv[2:]))
    else:
        sys.exit(run(MonthCalls, CHECKS, __doc__))
