#!/usr/bin/env python3
"""Runs the script examples/build where something is missing or cannot be built: what stood in target/examples must stay.

    python3 tests/run_examples_build.py [SCRIPT]        another script than examples/build

The runs are of a copy in a folder of its own, with stand-ins for rt, the C compiler and rustc, which make programs that only tell who built them; so
what is looked at is what is built and where, and not the comparisons that follow. The last line is 'N passed, M failed'.
"""
import os
import re
import shutil
import subprocess
import sys
import tempfile
from pathlib import Path

ROOT = Path(__file__).resolve().parent.parent
SCRIPT = Path(sys.argv[1] if len(sys.argv) > 1 else ROOT / "examples/build")
TOOLS = "awk cat cmp cp diff dirname grep head mkdir mktemp mv rm sed sh sleep sort tail wc yes".split()
EXAMPLES = "binder_pages logger months sort_blocks write_crossing".split()

# builds the file behind -o; where the file `broken` has the name of its source it fails, as rt does where it has `rt`
STAND_IN = """#!/bin/sh
case $0 in */rt) ! grep -qx rt ../../broken; exit ;; esac
for word; do
    case $word in *.c | *.rs) grep -qx "${word##*/}" broken && echo 'error' && exit 1 ;; esac
    [ "$before" = -o ] && { echo '#!/bin/sh'; echo "# $(cat by)"; } > "$word" && chmod +x "$word"
    before=$word
done
"""


class Results:
    def __init__(self):
        self.passed = self.failed = 0

    def add(self, name, got, expected):
        if got == expected:
            self.passed += 1
        else:
            self.failed += 1
            print("run_examples_build: %s: FAILED\n    got      %r\n    expected %r" % (name, got, expected))


class Copy:
    """The script in a folder of its own, with stand-ins."""

    def __init__(self, folder):
        self.top, self.tools = folder / "the repository", folder / "tools"
        for made in (self.top / "examples", self.top / "crates/mealbis", self.tools):
            made.mkdir(parents=True)
        shutil.copy(SCRIPT, self.top / "examples/build")
        for tool in TOOLS:
            (self.tools / tool).symlink_to(shutil.which(tool))
        for name in ("rt", "cc", "rustc"):
            (self.tools / name).write_text(STAND_IN)
            (self.tools / name).chmod(0o755)

    def run(self, by, *words, broken=""):
        """(what it printed, who built each program that stands now, the folders beside)"""
        (self.top / "by").write_text(by)
        (self.top / "broken").write_text(broken + "\n")
        done = subprocess.run([self.top / "examples/build", *words], env=dict(os.environ, PATH=str(self.tools), CC="cc"), timeout=60,
                              stdin=subprocess.DEVNULL, stdout=subprocess.PIPE, stderr=subprocess.STDOUT, text=True)
        built = {path.name: path.read_text().split("# ")[-1].strip() for path in (self.top / "target/examples").glob("*")
                 if re.search(r"_(c|rust|O\d)$", path.name) and not path.name.startswith("reasons")}
        return done, built, sorted(path.name for path in (self.top / "target").iterdir() if path.name != "examples")


def main():
    results = Results()
    with tempfile.TemporaryDirectory() as folder:
        copy = Copy(Path(folder))
        done, built, beside = copy.run("first")
        first, in_c = built, [name for name in built if not name.endswith("_rust")]
        examples = sorted(name for name in built if re.search("_(c|rust)$", name))
        results.add("all is built", (examples, set(built.values()), beside),
                    (sorted(name + kind for name in EXAMPLES for kind in ("_c", "_rust")), {"first"}, []))
        results.add("it ends in counts", bool(re.search(r"^\d+ passed, \d+ failed\Z", done.stdout.strip(), re.M)), True)
        for broken in ("rt", "logger.c", "months.rs", "binder_pages.c"):
            done, built, beside = copy.run("second", broken=broken)
            results.add("%s is not built" % broken, (done.returncode, built, beside), (1, first, []))
            results.add("it says so of %s" % broken, "not all is built, and target/examples is as it was\n" in done.stdout, True)
        done, built, beside = copy.run("third", "--only-c", broken="logger.rs")
        third = dict(first, **dict.fromkeys(in_c, "third"))
        results.add("only C", (built, beside), (third, []))
        results.add("only C is run", "_rust" in done.stdout, False)
        (copy.tools / "rustc").unlink()
        done, built, beside = copy.run("fourth")
        results.add("without rustc", (built, beside), (dict(first, **dict.fromkeys(in_c, "fourth")), []))
        results.add("it says so", done.stdout.splitlines()[0], "not run: there is no rustc, so only the programs in C are built and run")
        results.add("nothing of Rust is run", "_rust" in done.stdout, False)
        for words in (["--help"], ["--only-c", "--only-c"]):
            done, built, beside = copy.run("fifth", *words)
            results.add("arguments %s" % words, (done.returncode, done.stdout, set(built.values())),
                        (2, "usage: examples/build [--only-c]\n", {"first", "fourth"}))
    print("%d passed, %d failed" % (results.passed, results.failed))
    return 1 if results.failed else 0


if __name__ == "__main__":
    sys.exit(main())
