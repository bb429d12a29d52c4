#!/usr/bin/env python3
"""Runs the commands that README.md, docs/*.md, examples/README.md and tests/README.md show with their output, and compares.

    python3 tests/check_samples.py [FILE..]

A fence marked `console` holds commands, each on a line that begins with `$ `, and below a command what it writes to standard output; a line `..`
stands for any number of lines left out. Each command is run by sh at the top of the repository and must end with status 0; one with nothing
below it is not run. A fence marked `c` is a whole program, which is compiled without a warning (CC, else cc), linked with
crates/mealbis/out/libmealbis.a and run in the same way; the fence marked `text` that comes next is what it writes. The last line is
'N passed, M failed'.
"""
import os
import re
import shlex
import subprocess
import sys
from pathlib import Path

ROOT = Path(__file__).resolve().parent.parent
PROGRAM = "target/samples/program"
COMPILED = ("mkdir -p target/samples && printf %%s %s > %s.c && "
            '"${CC:-cc}" -O2 -std=c99 -Wall -Wextra -Wconversion -Werror -Iinclude %s.c crates/mealbis/out/libmealbis.a -o %s && %s')


def documents():
    return [ROOT / "README.md", *sorted((ROOT / "docs").glob("*.md")), ROOT / "examples/README.md", ROOT / "tests/README.md"]


def samples(path):
    """(line, what is shown, the command for sh, its output) for each command and program that is shown with its output."""
    kind, found = None, []
    for number, line in enumerate(path.read_text().splitlines(), 1):
        if line.startswith("```"):
            kind = line[3:] if kind is None else None
            if kind == "c":
                found.append((number, "the program", [], []))
        elif kind == "console" and line.startswith("$ "):
            found.append((number, line[2:], [line[2:]], []))
        elif kind == "c":
            found[-1][2].append(line)
        elif kind == "console" or kind == "text" and found and found[-1][1] == "the program":
            found[-1][3].append(line)
    return [(number, shown, command_of(shown, lines), output) for number, shown, lines, output in found if output]


def command_of(shown, lines):
    if shown != "the program":
        return lines[0]
    return COMPILED % (shlex.quote("\n".join(lines) + "\n"), *4 * [PROGRAM])


def matches(output, wrote):
    pattern = "".join(r"(?:.*\n)*?" if line == ".." else re.escape(line) + "\n" for line in output)
    return re.fullmatch(pattern, wrote)


def main():
    passed = failed = 0
    for path in map(Path, sys.argv[1:] or documents()):
        for number, shown, command, output in samples(path):
            done = subprocess.run(["sh", "-c", command], cwd=ROOT, stdin=subprocess.DEVNULL, stdout=subprocess.PIPE, text=True, timeout=3600)
            good = done.returncode == 0 and matches(output, done.stdout)
            passed += bool(good)
            failed += not good
            if not good:
                print("%s:%d: %s: status %d, wrote\n%s\n    and it is said to write\n%s"
                      % (os.path.relpath(path, ROOT), number, shown, done.returncode, done.stdout[:2000], "\n".join(output)))
    if not passed + failed:
        print("no sample found")
        failed = 1
    print("%d passed, %d failed" % (passed, failed))
    return 1 if failed else 0


if __name__ == "__main__":
    sys.exit(main())
