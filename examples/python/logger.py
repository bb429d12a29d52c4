#!/usr/bin/env python3
"""A logger's turn in Python: reads a pair file, takes the spectrum of one block of a, stores its cosine block and brings the strain back, and
takes the pair spectrum of the first block of a and b; then three refusals.

    MEALBIS_LIBRARY=target/shared/libmealbis.so python3 examples/python/logger.py

Run it at the top of the repository; examples/logger.txt is what it prints. bindings/python/mealbis.py has the calls, and include/mealbis.h says
what each does. Who has installed the module needs neither the variable nor the path below.
"""
import sys
from pathlib import Path

sys.path.insert(0, str(Path(__file__).resolve().parents[2] / "bindings/python"))
import mealbis      # noqa: E402


def print_rows(heading, first, second, rows):
    print(heading)
    for k in rows:
        print(k, first[k], second[k])


def print_spent(answer):
    print("spent %d products and %d sums; largest rest %d" % (answer.products, answer.sums, answer.largest_rest))


def main():
    # the recordings of the two abutments
    a, b, length = mealbis.read(Path("examples/train_crossing.pair").read_bytes())
    print("read %d samples of each abutment, in blocks of %d" % (len(a), length))

    # what a block of this length costs
    costs = mealbis.counts(length)
    print("a block costs, in products and sums: Cosine %d %d, Spectrum %d %d, Pair %d %d" % costs)

    # the second block of a, with just its allowance
    spectrum = mealbis.spectrum(a, length, length, costs.spectrum_products)
    print_rows("Spectrum of a, block 1: k cosine sine", spectrum.cosine, spectrum.sine, range(29, 32))
    print_spent(spectrum)

    # the same block stored as its cosine coefficients, and the strain back from these
    stored = mealbis.cosine(a, length, length, costs.dct_products).coefficients
    values = mealbis.inverse_dct(stored, length)
    print_rows("Cosine of a, block 1, stored and brought back: i coefficient value", stored, values, range(3))
    furthest = max(abs(sample - value) for sample, value in zip(a[length:2 * length], values))
    print("largest distance from a sample: %d, the limit is %d" % (furthest, length))
    stored[7] = -1_000_001 * length - 1
    try:
        mealbis.inverse_dct(stored, length)
    except mealbis.Refused as refused:
        print("a coefficient beyond its limit: refused %d, at place %d" % (refused.number, refused.place))

    # the first block of both
    pair = mealbis.pair(a, b, 0, length, costs.pair_products)
    print_rows("Pair of a and b, block 0: k real imaginary", pair.re, pair.im, range(3))
    print_spent(pair)

    # refusals: what was given before stays as it is
    try:
        mealbis.spectrum(a, 0, length, costs.spectrum_products - 1)
    except mealbis.Refused as refused:
        print("one product less allowed: refused %d" % refused.number)
    a[300] = 1_000_001
    try:
        mealbis.spectrum(a, length, length, costs.spectrum_products)
    except mealbis.Refused as refused:
        print("a sample too large: refused %d, at place %d" % (refused.number, refused.place))
    print_rows("still Pair's: k real imaginary", pair.re, pair.im, range(1))


if __name__ == "__main__":
    main()
