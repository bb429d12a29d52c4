#!/usr/bin/env python3
"""Draws the spectra of both abutments from pairspec's output, as a PNG picture. Needs matplotlib (Debian: python3-matplotlib).

    ./pairspec examples/train_crossing.pair |
        python3 examples/plot.py --rate 32 --title 'A train crosses a rail bridge' > docs/train_crossing.png

pairspec prints Z, the DFT of a + ib, for each block. The spectra of a and b alone follow from it: A(k) = (Z(k) + conj Z(N - k)) / 2 and
B(k) = (Z(k) - conj Z(N - k)) / 2i. Each block is a panel: the amplitudes at a and at b, 2|A(k)|/N and 2|B(k)|/N, for k = 1 .. N/2.
"""
import argparse
import sys

try:
    import matplotlib
except ImportError:
    sys.exit("plot: needs matplotlib for %s (Debian: python3-matplotlib, for /usr/bin/python3)" % sys.executable)
matplotlib.use("Agg")
from matplotlib import pyplot  # after the choice of a backend without a window

MOST_PANELS = 8
CURVES = (("abutment a", "#0072b2", "-"), ("abutment b", "#d55e00", "--"))


def read_blocks(lines):
    """The complex coefficients of each block."""
    if not lines or lines[0] != "block k re im" or len(lines) == 1:
        sys.exit("plot: no block to draw" + (": " + lines[0] if lines else ""))
    blocks = {}
    for line in lines[1:]:
        block, _, re, im = map(int, line.split())
        blocks.setdefault(block, []).append(complex(re, im))
    return [blocks[number] for number in sorted(blocks)]


def amplitudes(Z):
    """Those of a and of b in microstrain, k = 1 .. N/2; a sample is hundredths of a microstrain."""
    N = len(Z)
    pairs = [(Z[k], Z[N - k].conjugate()) for k in range(1, N // 2 + 1)]
    scales = [(1 if 2 * k == N else 2) / N / 100 for k in range(1, N // 2 + 1)]
    return ([scale * abs(z + w) / 2 for scale, (z, w) in zip(scales, pairs)],
            [scale * abs(z - w) / 2 for scale, (z, w) in zip(scales, pairs)])


def draw_panel(panel, number, Z, rate):
    N = len(Z)
    across = [k * rate / N if rate else k for k in range(1, N // 2 + 1)]
    for (name, colour, style), heights in zip(CURVES, amplitudes(Z)):
        panel.plot(across, heights, style, color=colour, label=name, linewidth=1.4)
    panel.set_yscale("log")
    panel.set_ylabel("amplitude (microstrain)")
    panel.grid(True, which="major", color="0.88")
    seconds = ", %g s to %g s" % (number * N / rate, (number + 1) * N / rate) if rate else ""
    panel.set_title("block %d: samples %d to %d%s" % (number, number * N, (number + 1) * N - 1, seconds), fontsize="medium", loc="left")
    panel.legend(loc="upper right")


def main():
    words = argparse.ArgumentParser(description=__doc__.split("\n")[0])
    words.add_argument("--rate", type=float, help="samples a second, for frequencies in Hz; else the axis has k")
    words.add_argument("--title", help="what the recordings are")
    words = words.parse_args()
    blocks = read_blocks(sys.stdin.read().splitlines())
    N = len(blocks[0])
    if N < 4:
        sys.exit("plot: blocks of fewer than 4 samples have no curve")
    if len(blocks) > MOST_PANELS:
        print("plot: the first %d of %d blocks" % (MOST_PANELS, len(blocks)), file=sys.stderr)
    shown = blocks[:MOST_PANELS]
    figure, panels = pyplot.subplots(len(shown), 1, figsize=(9, 0.8 + 3.1 * len(shown)), sharex=True, sharey=True, squeeze=False)
    for number, Z in enumerate(shown):
        draw_panel(panels[number][0], number, Z, words.rate)
    panels[-1][0].set_xlabel("frequency (Hz)" if words.rate else "k (periods in a block of %d samples)" % N)
    figure.suptitle("%s: spectra of the strain at both abutments" % words.title if words.title else "Spectra of the strain at both abutments")
    figure.tight_layout()
    figure.savefig(sys.stdout.buffer, format="png", dpi=100, metadata={"Software": None})


if __name__ == "__main__":
    main()
