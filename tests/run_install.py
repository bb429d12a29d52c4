#!/usr/bin/env python3
"""Runs ./install into a folder of its own and builds against what it put there, as a project would.

    python3 tests/run_install.py

examples/c/logger.c is linked by what pkg-config says, with the shared library and with the archive, and must print examples/logger.txt; the struct
header is tried by tests/c/struct_header.c; the Python module, where the tree has one, makes README.md's call and must print what README.md shows. Where
pkg-config is missing it says so and counts nothing for it. The last line is 'N passed, M failed'.
"""
import os
import re
import shutil
import subprocess
import sys
import tempfile
from pathlib import Path

ROOT = Path(__file__).resolve().parent.parent
CC = os.environ.get("CC", "cc")
TOOLS = "awk cat chmod cp dirname flock ln mkdir mktemp mv readlink rm sed sh".split()


class Results:
    def __init__(self):
        self.passed = self.failed = 0

    def add(self, name, got, expected):
        if got == expected:
            self.passed += 1
        else:
            self.failed += 1
            print("run_install: %s: FAILED\n    got      %r\n    expected %r" % (name, got, expected))


def run(*words, cwd=ROOT, **environment):
    done = subprocess.run([str(word) for word in words], cwd=cwd, env=dict(os.environ, **environment), stdin=subprocess.DEVNULL,
                          stdout=subprocess.PIPE, stderr=subprocess.STDOUT, text=True)
    return done.returncode, done.stdout


def put(prefix):
    return sorted(str(path.relative_to(prefix)) for path in prefix.rglob("*") if not path.is_dir())


def check_missing(results, folder):
    """Without rt or a compiler, and where the build fails, a sentence is said and no file is put."""
    usage = (2, "install: usage: ./install PREFIX\n")
    for words in ([], [""], ["--no"], [folder / "a", folder / "b"]):
        results.add("arguments %s" % words, run("./install", *words), usage)
    status, said = run("./install", "--help")
    results.add("help", (status, "./install PREFIX" in said, "pkg-config" in said), (0, True, True))
    tools = folder / "tools"
    tools.mkdir()
    for tool in TOOLS:
        (tools / tool).symlink_to(shutil.which(tool))
    results.add("without rt", run("./install", folder / "none", PATH=str(tools), CC="cc"),
                (2, "install: rt is not on the PATH. It is part of the Rattle kit; README.md says which version\n"))
    (tools / "rt").write_text("#!/bin/sh\necho 'rt: the library words did not build, so nothing above it was checked'\nexit 1\n")
    (tools / "rt").chmod(0o755)
    results.add("without a compiler", run("./install", folder / "none", PATH=str(tools), CC="cc"),
                (2, "install: there is no C compiler, cc, to make the shared library with (CC may name another)\n"))
    (tools / "cc").symlink_to("rt")
    status, said = run("./install", folder / "none", PATH=str(tools), CC="cc")
    results.add("not proved", (status, "words did not build" in said, said.splitlines()[-1]), (2, True, "install: not built"))
    results.add("no file is put", put(folder / "none"), [])


def check_put(results, prefix, said, major):
    expected = ["include/mealbis.h", "include/mealbis_struct.h", "lib/libmealbis.a", "lib/libmealbis.so", "lib/libmealbis.so.%s" % major,
                "lib/pkgconfig/mealbis.pc"]
    if (ROOT / "bindings/python/mealbis.py").exists():
        expected.append("lib/python3/mealbis.py")
    results.add("what is put", put(prefix), expected)
    for file in expected:
        results.add("it says where %s is" % file, bool(re.search(r"^%s( -> .*)?$" % re.escape(str(prefix / file)), said, re.M)), True)
    for header in expected[:2]:
        results.add("the header as it is", (prefix / header).read_bytes(), (ROOT / header).read_bytes())


def check_pkg_config(results, folder, prefix, version):
    found = {"PKG_CONFIG_PATH": str(prefix / "lib/pkgconfig")}
    results.add("the version", run("pkg-config", "--modversion", "mealbis", **found), (0, version + "\n"))
    status, flags = run("pkg-config", "--cflags", "--libs", "mealbis", **found)
    results.add("flags", (status, flags.split()), (0, ["-I%s/include" % prefix, "-L%s/lib" % prefix, "-lmealbis"]))
    shared, static, structs = folder / "shared", folder / "static", folder / "structs"
    logger, printed = "examples/c/logger.c", (0, (ROOT / "examples/logger.txt").read_text())
    results.add("linked shared", run(CC, logger, *flags.split(), "-o", shared), (0, ""))
    results.add("linked static", run(CC, logger, "-Wl,-Bstatic", *flags.split(), "-Wl,-Bdynamic", "-o", static), (0, ""))
    results.add("linked with structs", run(CC, "tests/c/struct_header.c", *flags.split(), "-o", structs), (0, ""))
    at_run = {"LD_LIBRARY_PATH": str(prefix / "lib")}
    results.add("shared runs", run(shared, **at_run), printed)
    status, said = run(structs, **at_run)
    results.add("structs run", (status, said.splitlines()[-1:] != [], said[-10:]), (0, True, " 0 failed\n"))
    for library in ("libmealbis.so", "libmealbis.so.%s" % version.split(".")[0]):
        (prefix / "lib" / library).rename(folder / library)
    results.add("static runs alone", run(static), printed)
    results.add("shared does not", run(shared, **at_run)[0] != 0, True)
    for library in ("libmealbis.so", "libmealbis.so.%s" % version.split(".")[0]):
        (folder / library).rename(prefix / "lib" / library)


MODULE = """
import mealbis
print(mealbis.__file__)
answer = mealbis.spectrum([1, 2, 3, 4], 0, 4)
for k, (cosine, sine) in enumerate(zip(answer.cosine, answer.sine)):
    print(k, cosine, sine)
"""


def check_module(results, folder, prefix):
    """The module finds the library in the folder above its own."""
    module = prefix / "lib/python3/mealbis.py"
    shown = re.search(r"It prints k, cosine and sine:\n\n```text\n(.*?)```", (ROOT / "README.md").read_text(), re.S)[1]
    results.add("the Python module", run("python3", "-c", MODULE, cwd=folder, PYTHONPATH=str(module.parent), MEALBIS_LIBRARY=""),
                (0, "%s\n%s" % (module, shown)))


def main():
    results = Results()
    number = int(re.search(r"^#define MEALBIS_VERSION (\d+)u$", (ROOT / "include/mealbis.h").read_text(), re.M)[1])
    version = "%d.%d.%d" % (number // 10000, number // 100 % 100, number % 100)
    with tempfile.TemporaryDirectory() as made:
        folder = Path(made).resolve()
        check_missing(results, folder)
        prefix = folder / "opt/mealbis"
        status, said = run(ROOT / "install", "opt/mealbis", cwd=folder)
        results.add("installed", status, 0)
        if status:
            print(said)
        else:
            check_put(results, prefix, said, version.split(".")[0])
            if shutil.which("pkg-config"):
                check_pkg_config(results, folder, prefix, version)
            else:
                print("not run: there is no pkg-config, so nothing is linked by it")
            if (prefix / "lib/python3/mealbis.py").exists():
                check_module(results, folder, prefix)
    print("%d passed, %d failed" % (results.passed, results.failed))
    return 1 if results.failed else 0


if __name__ == "__main__":
    sys.exit(main())
