#!/usr/bin/env python3
"""Runs the examples that examples/build has built, and those in Python, and compares what they print with what is stored and with each other.

    python3 tests/run_examples.py [--library PATH]

What is stored beside the examples was checked against tests/reference.py: examples/months.txt and examples/binder_pages.txt are made by it,
    f=examples/train_crossing.pair; python3 tests/call_months.py --example 1 $f 2 $f 1 $f > examples/months.txt
    python3 tests/call_pages.py --example a examples/train_crossing.pair > examples/binder_pages.txt
The examples in Python take the shared library, which is built where no other is given. The last line is 'N passed, M failed'.
"""
import argparse
import os
import subprocess
import sys
import tempfile
from pathlib import Path

from library import ROOT, shared_library

BUILT = ROOT / "target/examples"
CROSSING = "examples/train_crossing.pair"


class Results:
    def __init__(self):
        self.passed = self.failed = 0

    def add(self, name, good, told=""):
        self.passed += bool(good)
        self.failed += not good
        if not good:
            print("FAILED: %s %s" % (name, told))

    def equal(self, name, got, wanted):
        at = next((i for i, (one, other) in enumerate(zip(got, wanted)) if one != other), min(len(got), len(wanted)))
        self.add(name, got == wanted, "from byte %d on %r and not %r" % (at, got[at:at + 60], wanted[at:at + 60]))


class Examples:
    """The programs of one name, in each language that has one."""

    def __init__(self, results, library, name):
        self.results, self.name = results, name
        self.environment = {**os.environ, "MEALBIS_LIBRARY": str(library)}
        self.programs = {language: [str(BUILT / ("%s_%s" % (name, language)))] for language in ("c", "rust")}
        script = ROOT / "examples/python" / (name + ".py")
        if script.is_file():
            self.programs["python"] = [sys.executable, str(script)]

    def run(self, what, status, *words, prints=None, says=None):
        """Each ends with this status on these words, prints these bytes, says on standard error what begins so; all the same. What is printed."""
        told = {}
        for language, program in self.programs.items():
            done = subprocess.run([*program, *map(str, words)], cwd=ROOT, env=self.environment, stdin=subprocess.DEVNULL, capture_output=True, timeout=600)
            name = "%s in %s, %s:" % (self.name, language, what)
            self.results.add(name, done.returncode == status, "it ends with status %d, %r" % (done.returncode, done.stderr[:200]))
            if prints is not None:
                self.results.equal(name, done.stdout, prints)
            if says is not None:
                self.results.add(name, done.stderr.startswith(says), "it says %r" % done.stderr[:200])
            told[language] = done.stdout, done.stderr
        first, *others = told.values()
        # what is said of a file that is not there is the system's, in each language's words
        alike = all(other == first if status != 2 else other[0] == first[0] for other in others)
        self.results.add("%s, %s: in every language the same" % (self.name, what), alike, repr(told)[:500])
        return first[0]

    def loses(self, *words):
        """Each ends with status 2 where its output cannot be written."""
        for language, program in self.programs.items():
            with open("/dev/full", "wb") as full:
                done = subprocess.run([*program, *map(str, words)], cwd=ROOT, env=self.environment, stdout=full, stderr=subprocess.DEVNULL, timeout=600)
            self.results.add("%s in %s says that its output is lost:" % (self.name, language), done.returncode == 2, "status %d" % done.returncode)


def stored(name):
    return (ROOT / "examples" / name).read_bytes()


def pair_file(samples, length):
    """A pair file of silence."""
    return samples.to_bytes(4, "little") + length.to_bytes(4, "little") + bytes(8 * samples)


def run_logger(examples, folder):
    examples("logger").run("on the crossing", 0, prints=stored("logger.txt"))


def run_write_crossing(examples, folder):
    programs = examples("write_crossing")
    written = folder / "crossing.pair"
    standard = programs.run("to standard output", 0)
    for language, program in list(programs.programs.items()):
        programs.programs = {language: program}
        programs.run("to a file", 0, written, prints=b"")
        programs.results.equal("write_crossing in %s writes the same to both:" % language, written.read_bytes(), standard)
    done = subprocess.run(["./pairspec", str(written)], cwd=ROOT, stdin=subprocess.DEVNULL, stdout=subprocess.PIPE, timeout=3600)
    programs.results.equal("pairspec prints examples/write_crossing.txt:", done.stdout, stored("write_crossing.txt"))


def run_sort_blocks(examples, folder):
    programs = examples("sort_blocks")
    programs.run("on the crossing", 0, CROSSING, 20000, 6000, prints=stored("sort_blocks.txt"))
    programs.run("a bad flat limit", 1, CROSSING, -1, 6000, says=b"refused 12: ")
    programs.run("a bad clip level", 1, CROSSING, 20000, 1000001, says=b"refused 12: ")
    programs.run("a file that is none", 1, "examples/sort_blocks.txt", 20000, 6000, says=b"refused 8: ")


def added_once():
    """k and its four sums where the crossing is added once, as party 2 does in examples/months.txt."""
    lines = stored("months.txt").decode().splitlines()
    return [tuple(map(int, line.split())) for line in lines[lines.index("party 2 blocks 2") + 2:]]


def of_parties(length, blocks, rows):
    """What months prints of a month with so many blocks and these rows of each party."""
    lines = ["length %d" % length]
    for party in (0, 1):
        lines += ["party %d blocks %d" % (party + 1, blocks[party]), "k cosine_a sine_a cosine_b sine_b", *(" ".join(map(str, row)) for row in rows[party])]
    return "".join(line + "\n" for line in lines).encode()


def of_crossings(*times):
    """The same where party 1 has added the crossing so many times, and party 2 so many."""
    return of_parties(256, [2 * n for n in times], [[(k, *(n * word for word in words)) for k, *words in added_once()] for n in times])


def run_months(examples, folder):
    programs, other, empty = examples("months"), folder / "other.pair", folder / "empty.pair"
    other.write_bytes(pair_file(16, 8))
    empty.write_bytes(pair_file(1, 2))
    programs.run("of two parties", 0, 1, CROSSING, 2, CROSSING, 1, CROSSING, prints=stored("months.txt"))
    programs.results.equal("examples/months.txt has twice as much for party 1:", of_crossings(2, 1), stored("months.txt"))
    programs.run("in another order", 0, 2, CROSSING, 1, CROSSING, 1, CROSSING, prints=stored("months.txt"))
    programs.run("with the parties exchanged", 0, 2, CROSSING, 1, CROSSING, 2, CROSSING, prints=of_crossings(1, 2))
    programs.run("of party 1 alone", 0, *[1, CROSSING] * 3, prints=of_crossings(3, 0))
    programs.run("of party 2 alone", 0, 2, CROSSING, prints=of_crossings(0, 1))
    programs.run("without a block", 0, 3, empty, prints=of_parties(2, (0, 0), [[(k, 0, 0, 0, 0) for k in (0, 1)]] * 2))
    programs.run("a file that is none", 1, 1, CROSSING, 2, "examples/months.txt", prints=b"", says=b"refused 8: ")
    programs.run("blocks of another length", 1, 1, CROSSING, 2, other, prints=b"", says=b"refused 13: ")
    for party in (0, 3, 2 ** 32 + 1, 2 ** 64 - 1):
        told = b"refused 15: examples/train_crossing.pair: the party is neither 1 nor 2\n"
        programs.run("party %d" % party, 1, 1, CROSSING, party, CROSSING, prints=b"", says=told)
        programs.run("party %d, another length" % party, 1, 1, CROSSING, party, other, prints=b"", says=b"refused 15: ")
    run_full_months(programs, folder)
    usage = b"usage: months PARTY FILE [PARTY FILE ..]\n"
    for wrong in ("", "-1", "+1", "1x", "road", 2 ** 64):
        programs.run("no number, %s" % wrong, 2, 1, CROSSING, wrong, CROSSING, prints=b"", says=usage)
    for few in ((), (1,), (CROSSING,), (1, CROSSING, 2)):
        programs.run("%d words" % len(few), 2, *few, prints=b"", says=usage)
    programs.run("no such file", 2, 1, folder / "none.pair", prints=b"")


def run_full_months(programs, folder):
    """12 files of 4,096 blocks and one of 848 are the 50,000 that a party may add, whatever the other adds."""
    silence, rest = folder / "silence.pair", folder / "rest.pair"
    silence.write_bytes(pair_file(4096, 1))
    rest.write_bytes(pair_file(848, 1))
    rows = [[(0, 0, 0, 0, 0)]] * 2
    for party in (1, 2):
        full, others = [party, silence] * 12 + [party, rest], 3 - party
        blocks = {party: 50_000, others: 4096}
        programs.run("party %d is full, and the other adds" % party, 0, *full, others, silence, prints=of_parties(1, (blocks[1], blocks[2]), rows))
        told = b"refused 14: %s: the party holds 50,000 blocks in the month\n" % bytes(rest)
        programs.run("a block more of party %d" % party, 1, *full, others, silence, party, rest, prints=b"", says=told)
    programs.run("both are full", 0, *[1, silence, 2, silence] * 12, 1, rest, 2, rest, prints=of_parties(1, (50_000, 50_000), rows))


def sums(pages):
    """The pages added up: k and the sums of its cosines and sines."""
    found = {}
    for line in pages.decode().splitlines():
        if not line.split()[0].isalpha():
            k, cosine, sine = map(int, line.split())
            found[k] = [found.get(k, [0, 0])[0] + cosine, found.get(k, [0, 0])[1] + sine]
    return found


def run_binder_pages(examples, folder):
    programs, silence, empty = examples("binder_pages"), folder / "silence.pair", folder / "empty.pair"
    silence.write_bytes(pair_file(4096, 1))
    empty.write_bytes(pair_file(1, 2))
    whole = stored("binder_pages.txt")
    programs.run("of a", 0, "a", CROSSING, prints=whole)
    of_b = programs.run("of b", 0, "b", CROSSING)
    programs.results.add("the pages of b add up to its month:", sums(of_b) == {k: [cosine, sine] for k, _, _, cosine, sine in added_once()})
    programs.run("of one block", 0, "a", CROSSING, 1, prints=whole[len(whole) // 2:])
    many = programs.run("of many blocks", 0, "b", silence)
    programs.results.add("4,096 pages of two lines:", many.count(b"\n") == 8192)
    programs.run("without a block", 0, "a", empty, prints=b"")
    programs.run("a file that is none", 1, "a", "examples/months.txt", prints=b"", says=b"refused 8: examples/months.txt: ")
    programs.run("no abutment c", 2, "c", CROSSING, prints=b"")
    programs.run("no block 2", 2, "a", CROSSING, 2, prints=b"")
    programs.run("no block 0", 2, "a", empty, 0, prints=b"")
    programs.run("no number", 2, "a", CROSSING, -1, prints=b"")
    programs.run("without a file", 2, "a", prints=b"")
    programs.run("no such file", 2, "a", folder / "none.pair", prints=b"")
    programs.loses("a", CROSSING)


def main():
    words = argparse.ArgumentParser(description=__doc__.split("\n")[0])
    words.add_argument("--library", metavar="PATH")
    words = words.parse_args()
    library, results = Path(words.library or shared_library()).resolve(), Results()
    with tempfile.TemporaryDirectory() as folder:
        for check in (run_logger, run_write_crossing, run_sort_blocks, run_months, run_binder_pages):
            check(lambda name: Examples(results, library, name), Path(folder))
    print("%d passed, %d failed" % (results.passed, results.failed))
    return 1 if results.failed else 0


if __name__ == "__main__":
    sys.exit(main())
