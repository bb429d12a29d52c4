#!/usr/bin/env python3
"""Builds tests/c/self_check.c, which holds the library to what only C can see of include/mealbis.h, at two levels of optimisation, and runs it.

    python3 tests/run_self_check.py [--archive PATH]

Builds libmealbis.a where no other archive is given. It needs a C compiler (CC, else cc). It also tries that a number thrown away is warned of, that
the header can be read as C++, where the compiler can, and that no call takes more stack than the header says. The last line is 'N passed, M failed'.
"""
import argparse
import os
import re
import subprocess
import sys

from library import ROOT, static_library

BUILT = ROOT / "target/self_check"
CC = os.environ.get("CC", "cc")
THROWN_AWAY = ('#include "mealbis.h"\nvoid begin(mealbis_month *month) { mealbis_month_begin(month, 8); }\n'
               'void blocks(mealbis_month *month, mealbis_blocks *told) { mealbis_month_blocks(month, 1, told); }\n')
EMPTY = "int main(void) { return 0; }\n"
USES = ('#include "mealbis.h"\nint main(void) { mealbis_month month; mealbis_blocks told; uint32_t begun = mealbis_month_begin(&month, 8);\n'
        'return (int)(begun + mealbis_month_blocks(&month, 2, &told) + mealbis_version() - MEALBIS_VERSION); }\n')


class Results:
    def __init__(self):
        self.passed = self.failed = 0

    def add(self, name, good, told=""):
        self.passed += bool(good)
        self.failed += not good
        if not good:
            print("FAILED: %s\n%s" % (name, told))
        return good


def compiled(*words, **more):
    return subprocess.run([CC, "-Iinclude", *map(str, words)], cwd=ROOT, stdout=subprocess.PIPE, stderr=subprocess.STDOUT, text=True, **more)


def stated_stack():
    """What the header says that each call takes of the stack; of the calls on a month that it does not name, `the other calls on a month`."""
    text = " ".join((ROOT / "include/mealbis.h").read_text().replace("\n * ", " ").split())
    text = re.search(r"Measured at length 1,024, in bytes: (.*?);", text)[1]
    return {name: int(size.replace(",", "")) for name, size in re.findall(r"(mealbis_\w+|the other calls on a month) ([\d,]*\d)", text)}


def check_program(results, archive, level):
    """The program, and what it says of the stack."""
    program = BUILT / ("self_check_" + level)
    done = compiled("-" + level, "-Wall", "-Wextra", "-Wconversion", "-Werror", "-std=c99", "tests/c/self_check.c", archive, "-o", program)
    if not results.add("self_check.c is built at -%s" % level, done.returncode == 0, done.stdout):
        return
    done = subprocess.run([program, "--stack"], stdout=subprocess.PIPE, stderr=subprocess.STDOUT, text=True, timeout=600)
    counts = re.search(r"^(\d+) passed, (\d+) failed$", done.stdout, re.M)
    results.add("self_check ends well at -%s" % level, counts and done.returncode == 0, done.stdout)
    results.passed += int(counts[1]) if counts else 0
    results.failed += int(counts[2]) if counts else 0
    stated, taken = stated_stack(), dict(re.findall(r"^(mealbis_\w+): (\d+) bytes of stack$", done.stdout, re.M))
    results.add("the stack of 13 calls is measured", len(taken) == 13 and len(stated) > 10, done.stdout)
    for name, size in taken.items():
        most = stated.get(name, stated.get("the other calls on a month", 0))
        results.add("the stack of %s" % name, int(size) <= most, "it takes %s bytes, and the header says %d" % (size, most))


def check_warning(results):
    """A compiler that can warns where the number of an answer is thrown away, and of nothing else."""
    done = compiled("-std=c99", "-x", "c", "-", "-c", "-o", "/dev/null", input=THROWN_AWAY)
    results.add("a number thrown away is warned of", done.returncode == 0 and done.stdout.count("unused-result") == 2, done.stdout)


def check_languages(results, archive):
    """The header in each standard of C, and in C++ where the compiler has it."""
    for language, standard in (("c", "c99"), ("c", "c11"), ("c", "c17"), ("c++", "c++11"), ("c++", "c++17")):
        if compiled("-x", language, "-std=" + standard, "-", "-fsyntax-only", input=EMPTY).returncode:
            print("not run, since %s has no %s" % (CC, standard))
            continue
        program = BUILT / "uses"
        options = "-Wall", "-Wextra", "-Wconversion", "-pedantic", "-Werror"
        done = compiled("-x", language, "-std=" + standard, *options, "-", "-x", "none", archive, "-o", program, input=USES)
        good = done.returncode == 0 and subprocess.run([program]).returncode == 0
        results.add("the header in %s" % standard, good, done.stdout)


def main():
    words = argparse.ArgumentParser(description=__doc__.split("\n")[0])
    words.add_argument("--archive", metavar="PATH")
    words = words.parse_args()
    BUILT.mkdir(parents=True, exist_ok=True)
    archive, results = os.path.abspath(words.archive or static_library()), Results()
    for level in ("O0", "O2"):
        check_program(results, archive, level)
    check_warning(results)
    check_languages(results, archive)
    print("%d passed, %d failed" % (results.passed, results.failed))
    return 1 if results.failed else 0


if __name__ == "__main__":
    sys.exit(main())
