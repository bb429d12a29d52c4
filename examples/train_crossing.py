#!/usr/bin/env python3
"""Makes examples/train_crossing.pair: the strain at the two abutments of a rail bridge while a train of four cars crosses.

    python3 examples/train_crossing.py > examples/train_crossing.pair

A model, not a recording: 32 samples a second in hundredths of a microstrain. Each axle bends the near abutment as it rolls on and the far one as it rolls off;
the deck rings at 3.8 Hz, in opposite phase at the two ends where the second mode, 7.1 Hz, is struck; a little noise comes on top. The first block of 256 samples
holds the crossing, the second the ringing after it; the last 88 samples are a tail that makes no block.
"""
import math
import random
import struct
import sys

RATE = 32            # samples a second
SAMPLES = 600
BLOCK = 256
SPAN = 24.0          # metres
SPEED = 16.0         # metres a second
AXLES = [car * 21.0 + offset for car in range(4) for offset in (0.0, 2.5, 14.0, 16.5)]
WEIGHT = 2600.0      # hundredths of a microstrain for one axle above an abutment


def bending(x):
    """The share of an axle at x metres from the near abutment that bends it; nothing off the bridge."""
    return (1 - x / SPAN) ** 2 * math.sin(math.pi * min(1.0, x / 3.0) / 2) if 0 <= x <= SPAN else 0.0


def ringing(t, frequency, damping, strokes):
    """A mode struck by each axle as it rolls on, decaying since."""
    return sum(math.exp(-damping * (t - s)) * math.sin(2 * math.pi * frequency * (t - s)) for s in strokes if t > s)


def main():
    rng = random.Random(7)
    strokes = [1.0 + axle / SPEED for axle in AXLES]
    a, b = [], []
    for n in range(SAMPLES):
        t = n / RATE
        places = [SPEED * (t - 1.0) - axle for axle in AXLES]
        first = 420 * ringing(t, 3.8, 0.25, strokes)
        second = 260 * ringing(t, 7.1, 0.6, strokes)
        a.append(WEIGHT * sum(bending(x) for x in places) + first + second + rng.gauss(0, 25))
        b.append(WEIGHT * sum(bending(SPAN - x) for x in places) + first - second + rng.gauss(0, 25))
    words = [round(x) for x in a + b]
    assert all(-1_000_000 <= x <= 1_000_000 for x in words)
    sys.stdout.buffer.write(struct.pack("<II", SAMPLES, BLOCK) + struct.pack("<%di" % len(words), *words))


if __name__ == "__main__":
    main()
