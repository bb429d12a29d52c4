#!/usr/bin/env python3
"""Both abutments' months in Python, for two owners: adds all blocks of pair files to a month of a and to a month of b, each file for a party, and
prints the sums of both parties.

    MEALBIS_LIBRARY=target/shared/libmealbis.so python3 examples/python/months.py PARTY FILE [PARTY FILE ..]

Party 1 is the road owner, 2 the rail owner. It prints the length of the months and, for each party, its number of blocks, a heading, and a line for
each k. The months are begun for the first file's block length; the library refuses (13) the first block of another length, and (15) a block of any
other party. A file without a block adds nothing, whatever its party.
Exit status: 0 the sums are printed; 1 the library refuses a file or a block; 2 a file could not be read, the output not be written, or the
arguments are wrong. examples/months.txt is what it prints for examples/train_crossing.pair, added by party 1, by party 2 and by party 1 again.
"""
import sys
from pathlib import Path

sys.path.insert(0, str(Path(__file__).resolve().parents[2] / "bindings/python"))
import mealbis      # noqa: E402


def add_file(months, party, data):
    """Adds the file's blocks to the months of a and b, which are begun before the first file's."""
    file = mealbis.read(data)
    if not months:
        months += [mealbis.Month(file.length), mealbis.Month(file.length)]
    for month, recording in zip(months, (file.a, file.b)):
        for start in range(0, len(recording) - file.length + 1, file.length):
            month.add(party, recording, start, file.length)


def printed(a, b):
    lines = ["length %d" % a.length]
    for party in (1, 2):
        lines += ["party %d blocks %d" % (party, a.blocks(party)), "k cosine_a sine_a cosine_b sine_b"]
        for k in range(a.length // 2 + 1):
            lines.append("%d %d %d %d %d" % (k, *a.sums(party, k), *b.sums(party, k)))
    return "".join(line + "\n" for line in lines)


def is_party(word):
    """Whether the word is a number, of digits alone; the library says whether it is a party."""
    return word.isascii() and word.isdigit() and int(word) < 2 ** 64


def main(words):
    parties, paths = words[::2], words[1::2]
    if not words or len(parties) != len(paths) or not all(map(is_party, parties)):
        print("usage: months PARTY FILE [PARTY FILE ..]", file=sys.stderr)
        return 2
    months = []
    for party, path in zip(parties, paths):
        try:
            data = Path(path).read_bytes()
        except OSError as error:
            print("months: %s: %s" % (path, error.strerror), file=sys.stderr)
            return 2
        try:
            add_file(months, int(party), data)
        except mealbis.Refused as refused:
            place = ", place %d" % refused.place if refused.number == 6 else ""
            print("refused %d: %s: %s%s" % (refused.number, path, refused.reason, place), file=sys.stderr)
            return 1
    try:
        sys.stdout.write(printed(*months))
        sys.stdout.flush()
    except OSError:
        return 2
    return 0


if __name__ == "__main__":
    sys.exit(main(sys.argv[1:]))
