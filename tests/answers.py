"""What the scripts have in common that say what a test program of crates/ is to write: how a row of words is shown, and the comparison of a file."""

import contextlib
import io
import itertools
import sys


def digest(words):
    value = 0
    for word in words:
        value = (value * 65599 + word + 2**31) % 4294967291
    return value


def shown(words):
    return words if len(words) <= 20 else [digest(words)]


def compare(run_all, path):
    """Whether the file at path has just the lines that run_all prints."""
    answers = io.StringIO()
    with contextlib.redirect_stdout(answers):
        run_all()
    with open(path, encoding="ascii") as file:
        pairs = list(itertools.zip_longest(answers.getvalue().splitlines(True), file.read().splitlines(True)))
    wrong = [(number, *pair) for number, pair in enumerate(pairs, 1) if pair[0] != pair[1]]
    for number, answer, stored in wrong:
        print("%s, line %d: has %r\n    expected %r" % (path, number, stored, answer))
    print("%d passed, %d failed" % (len(pairs) - len(wrong), len(wrong)))
    return not wrong


def main(run_all):
    """Prints what run_all prints, or with --compare FILE holds the file to it; the status to end with."""
    if sys.argv[1:2] == ["--compare"] and len(sys.argv) == 3:
        return 0 if compare(run_all, sys.argv[2]) else 1
    if len(sys.argv) > 1:
        sys.exit("usage: python3 %s [--compare FILE]" % sys.argv[0])
    run_all()
    return 0
