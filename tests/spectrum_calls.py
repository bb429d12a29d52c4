"""What the scripts have in common that call Spectrum, alone or with more beside it: what it is given, blocks, refusals, the memory lent."""

import itertools
import math
from typing import NamedTuple

from library import OUT, PAGE, Mapped, Record, in_memory, lent_words, mealbis
from reference import LARGEST_SAMPLE, LENGTHS, scratch_words, tallied_counts

UNBOUNDED = 2 ** 64 - 1             # allowance
REACHING = (LARGEST_SAMPLE, -LARGEST_SAMPLE)
AROUND = REACHING * 3 + OUT         # samples outside of a block: the largest, or out of range


class SpectrumCall(NamedTuple):
    """What mealbis_spectrum is given, in the order of the reference."""
    recording: list
    start: int
    length: int
    allowance: int
    cosine_len: int
    sine_len: int
    scratch_len: int

    def block(self):
        return self.recording[self.start:self.start + self.length]


def random_block(rng, N):
    size = rng.choice((1, 9, 1000, 300_000, LARGEST_SAMPLE))
    return rng.choices(range(-size, size + 1), k=N)


def wave(N, k, size, kind):
    """A wave that has coefficient k alone, but for rounding: of the cosine, or of the sine."""
    turn = {"cosine": math.cos, "sine": math.sin}[kind]
    return [round(size * turn(2 * math.pi * n * k / N)) for n in range(N)]


def largest_blocks(N):
    """Blocks of the ends of the range: alternating, and with the signs of a wave."""
    yield [REACHING[n % 2] for n in range(N)]
    for k, kind in itertools.product({1, N // 4, N // 2}, ("cosine", "sine")):
        yield [REACHING[sample < 0] for sample in wave(N, k, 1000, kind)]


def placed(rng, x):
    """An accepted call on the block x, which stands amid other samples, with just enough of everything or with something to spare."""
    N = len(x)
    before, behind = (rng.choices(AROUND, k=rng.choice((0, 1, 1, 2, 3, N + 1))) for _ in range(2))
    products = tallied_counts(N).spectrum_products
    cosine, sine, scratch = (rng.choice((0, 0, 1, 5)) for _ in range(3))
    return SpectrumCall([*before, *x, *behind], len(before), N, rng.choice((products, products + 1, 2 ** 32, UNBOUNDED)),
                        N // 2 + 1 + cosine, N // 2 + 1 + sine, scratch_words(N) + scratch)


def lend(rng, call, answer, kind=mealbis.Answer, **more):
    """Buffers of coefficients and scratch, and behind them the record, for a call, in which this answer should stand; more are further fields."""
    sizes = {"cosine": (4, call.cosine_len), "sine": (4, call.sine_len), "scratch": (8, call.scratch_len)}
    buffers = [lent_words(rng, name, *size) for name, size in sizes.items()]
    if answer.refusal == 0:
        cleared = bytes(8 * scratch_words(call.length))
        for buffer, written in zip(buffers, (*(in_memory("i", words) for words in answer.results), cleared)):
            buffer.expect(written)
    products, sums = answer.counts or (0, 0)
    record = Record(rng, kind, products=products, sums=sums, largest_rest=answer.largest_rest or 0, place=answer.place or 0, **more)
    return [*buffers, record]


# --- refusals ------------------------------------------------------------------------

def conditions(call):
    """Whether each of the conditions 1 to 6 holds, whatever the others do. Of a bad length, which has no products, an allowance of 0 stands for 5."""
    N = call.length
    products = tallied_counts(N).spectrum_products if N in LENGTHS else 1
    return {1: N not in LENGTHS, 2: call.start + N > len(call.recording), 3: min(call.cosine_len, call.sine_len) < N // 2 + 1,
            4: call.scratch_len < scratch_words(N), 5: call.allowance < products, 6: any(abs(sample) > 1_000_000 for sample in call.block())}


def broken(rng, numbers, N):
    """A call with the numbered conditions among 2 to 6 made to hold, on a block of N samples from a place on."""
    start, listed = rng.choice((1, 2, 9)), N // 2 + 1
    recording = rng.choices(AROUND, k=start) + random_block(rng, N) + rng.choices(AROUND, k=3)
    if 6 in numbers:
        recording[start + rng.randrange(max(1, N - 1))] = rng.choice(OUT)
    if 2 in numbers:
        recording = recording[:start + N - 1]
    short = rng.choice(((listed - 1, listed), (listed, listed - 1), (0, 0))) if 3 in numbers else (listed, listed + 1)
    products = tallied_counts(N).spectrum_products if N in LENGTHS else 1
    allowance = rng.choice((0, products - 1)) if 5 in numbers else rng.choice((products, UNBOUNDED))
    return SpectrumCall(recording, start, N, allowance, *short, scratch_words(N) - (rng.choice((1, 64)) if 4 in numbers else 0))


def roomy(rng, length):
    """A call with enough of everything for blocks of up to 2,048 samples, 256 again and again, whatever the length."""
    return SpectrumCall(random_block(rng, 256) * 8, 0, length, UNBOUNDED, 1025, 1025, scratch_words(2048))


def out_of_range(rng, N):
    """(name, block, place): a sample out of range at the first, the last and a middle place of the block, and a later one too."""
    for out, place in itertools.product(OUT, sorted({0, N // 2, N - 1})):
        for later in sorted({place, N - 1}):
            x = random_block(rng, N)
            x[place], x[later] = out, out
            yield "%d at places %d and %d of the block" % (out, place, later), x, place


def just_enough(N):
    """A call with just enough of everything."""
    return SpectrumCall([0] * N + [1, 2], 2, N, tallied_counts(N).spectrum_products, N // 2 + 1, N // 2 + 1, scratch_words(N))


def beyond_edges(N):
    """(name, call, refusal): the same with buffers, scratch, allowance or start one beyond its edge, or far."""
    enough, listed = just_enough(N), N // 2 + 1
    changes = [(3, "cosine_len", listed - 1), (3, "cosine_len", 0), (3, "sine_len", listed - 1), (3, "sine_len", 0),
               (4, "scratch_len", scratch_words(N) - 1), (4, "scratch_len", 0), (2, "recording", [])]
    changes += [(2, "start", start) for start in (3, 2 ** 32, 2 ** 64 - N, 2 ** 64 - 1)]
    changes += [(5, "allowance", enough.allowance - 1)] if enough.allowance else []
    for number, name, value in changes:
        yield "%s %s" % (name, value), enough._replace(**{name: value}), number


# --- far blocks ------------------------------------------------------------------------

class Far:
    """A recording of more than 2^32 words, and a block of 8 beyond them; `near` is the same block in a short recording."""

    def __init__(self):
        self.at = 2 ** 32 + 1024
        self.recording = Mapped("the far recording", 4, self.at + PAGE, 4 * self.at // PAGE)

    def hold(self, x, around):
        """The near call and the far one on this block amid these samples."""
        near = SpectrumCall([*around, *x, *around], len(around), 8, UNBOUNDED, 5, 5, scratch_words(8))
        self.recording.hold(in_memory("i", near.recording))
        return near, near._replace(start=self.at + near.start)

    def answer(self, near):
        """The near call's answer, as the far call must give it."""
        return near if near.place is None else near._replace(place=self.at + near.place)
