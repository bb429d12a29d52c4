#!/usr/bin/env python3
"""Compiles tests/c/struct_header.c, which holds include/mealbis_struct.h to include/mealbis.h, as C99 and as C++ without a warning, and runs it; then
over headers with one mistake each, where it must fail.

    python3 tests/run_struct_header.py

It needs the Rattle kit (`rt`), a C compiler (CC, else cc) and, for C++, a compiler for it (CXX, else c++); where there is none, it says so and counts
nothing for it. The last line is 'N passed, M failed'.
"""
import os
import re
import shutil
import subprocess
import sys
import tempfile
from pathlib import Path

ROOT = Path(__file__).resolve().parent.parent
SOURCE = ROOT / "tests/c/struct_header.c"
HEADER = ROOT / "include/mealbis_struct.h"
ARCHIVE = ROOT / "crates/mealbis/out/libmealbis.a"
CC, CXX = os.environ.get("CC", "cc"), os.environ.get("CXX", "c++")
WARNINGS = ["-Wall", "-Wextra", "-Wconversion", "-pedantic", "-Werror"]

# what stands in the header, and a mistake for it; tried at each place where it stands
MISTAKES = [
    (r"start, length,(?=\s+work->allowance)", "length, start,"),
    (r"(?<=month, )party(?=, recording)", "3 - party"),
    (r"(?<=month, )party(?=, recording)", "1"),
    (r"(?<=month, )party(?=, recording)", "(party == 1 ? 1 : 2)"),
    (r"(?<=month, )party(?=, recording)", "(uint32_t)party"),
    (r"work->allowance", "UINT64_MAX"),
    (r"work->first, work->first_words,", "work->second, work->second_words,"),
    (r"work->first_words", "work->scratch_words"),
    (r"work->second_words", "work->first_words"),
    (r"work->scratch_words", "MEALBIS_SCRATCH_WORDS(length)"),
    (r"recording\.words", "(start + length)"),
    (r"a\.samples, a\.words, b\.samples, b\.words", "b.samples, b.words, a.samples, a.words"),
    (r"b\.samples, b\.words", "a.samples, a.words"),
    (r"flat_limit, clip_level(?=,\s+work->first)", "clip_level, flat_limit"),
    (r"(?<=    )work->mark = MEALBIS_NO_MARK;", ""),
    (r"= answer\.(sums|products|largest_rest|place)\b", "= answer.mark"),
    (r"= answer\.mark", "= answer.sums"),
    (r"UINT64_MAX, +\{", "0, {"),
]


def run(*words, within=ROOT):
    done = subprocess.run([str(word) for word in words], cwd=within, stdin=subprocess.DEVNULL, stdout=subprocess.PIPE, stderr=subprocess.STDOUT, text=True)
    return done.returncode, done.stdout


class Results:
    def __init__(self):
        self.passed = self.failed = 0

    def add(self, good, told):
        self.passed += bool(good)
        self.failed += not good
        if not good:
            print("run_struct_header: %s" % told)


def built_and_run(folder, words, include):
    """(status, what was said) of the compiler or, where it accepts, of the program."""
    program = folder / "program"
    status, said = run(*words, *include, "-c", SOURCE, "-o", folder / "program.o")
    if status == 0:
        status, said = run(words[0], folder / "program.o", ARCHIVE, "-o", program)
    return ("not built", said) if status else run(program)


def main():
    results = Results()
    status, said = run("rt", "lib", "--cpu", "x86-64", within=ROOT / "crates/mealbis")
    if status:
        sys.exit("%s\n0 passed, 1 failed" % said)
    ways = [[CC, "-std=c99", level, *WARNINGS] for level in ("-O0", "-O2")]
    if shutil.which(CXX):
        ways += [[CXX, "-std=%s" % standard, "-O2", "-x", "c++", *WARNINGS] for standard in ("c++11", "c++17")]
    else:
        print("not run: there is no %s, so the header is not tried in C++" % CXX)
    with tempfile.TemporaryDirectory() as made:
        folder = Path(made)
        for words in ways:
            status, said = built_and_run(folder, words, ["-Iinclude"])
            counts = re.search(r"^(\d+) passed, (\d+) failed\n\Z", said, re.M)
            results.add(status == 0 and counts, "%s: %s\n%s" % (" ".join(words[:3]), status, said))
            if counts:
                results.passed += int(counts[1])
                results.failed += int(counts[2])
        header = HEADER.read_text()
        begin = header.index("#ifndef MEALBIS_STRUCT_H")
        for pattern, mistake in MISTAKES:
            places = [place for place in re.finditer(pattern, header) if place.start() > begin]
            results.add(places, "nothing in the header is %s" % pattern)
            for place in places:
                wrong = header[:place.start()] + mistake + header[place.end():]
                (folder / "mealbis_struct.h").write_text(wrong)
                status, said = built_and_run(folder, [CC, "-std=c99"], ["-I%s" % folder, "-Iinclude"])
                line = header.count("\n", 0, place.start()) + 1
                results.add(status == 1 and "failed: " in said, "line %d, %s for %s: the test does not see it (%s)\n%s" % (line, mistake, pattern, status, said))
    print("%d passed, %d failed" % (results.passed, results.failed))
    return 1 if results.failed else 0


if __name__ == "__main__":
    sys.exit(main())
