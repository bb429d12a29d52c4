#!/usr/bin/env python3
"""Runs the script ./pairspec: when it builds and what it says then, two runs at once, signals, its arguments, reasons, and its exit status.

    python3 tests/run_pairspec_script.py

Most runs are of a copy in a folder of its own, with a stand-in for `rt` that builds a stand-in for the program; the last are of the script itself,
which builds the program where that is not done. The last line is 'N passed, M failed'.
"""
import os
import pty
import re
import shutil
import signal
import struct
import subprocess
import sys
import tempfile
import time
from pathlib import Path

ROOT = Path(__file__).resolve().parent.parent
SCRIPT = Path(sys.argv[1] if len(sys.argv) > 1 else ROOT / "pairspec")
EXAMPLE = ROOT / "examples/train_crossing.pair"
HEADER = ROOT / "include/mealbis.h"
TOOLS = "awk cat cp cut dirname find flock grep head ls mkdir mkfifo mktemp mv readlink rm sed setsid sh sha256sum sleep sort tail tee tr wc".split()
NOBODY = 65534

# says what rt says of two crates and a program, runs the program, and notes that it was called. It takes the sources as they are when it begins. As rt
# does, it says nothing of a library that is built, and goes by a stamp, of the sources and the program. Its call number N lasts as long as there is a
# file hold.N, and notes its process and one that it started.
RT = """#!/bin/sh
folder=${PWD##*/}
cd ../.. || exit 2
echo "$* $folder" >> calls
number=$(wc -l < calls)
[ -e broken ] && echo 'rt: the library whole did not build, so nothing above it was checked' >&2 && exit 1
made=$(cat crates/words/src/lib.rt 2> /dev/null)
sum=$(cat crates.txt crates/*/src/* | sha256sum)
if [ -e "hold.$number" ]; then
    sleep 60 &
    echo $$ $! > "processes.$number"
    while [ -e "hold.$number" ]; do sleep 0.02; done
    kill $!
fi
out=crates/pairspec/out
mkdir -p $out
if [ "$(cat $out/pairspec.stamp 2> /dev/null)" = "$sum $(cat $out/pairspec 2> /dev/null | sha256sum)" ]; then
    echo 'rt: nothing has changed since the last proved build, by out/pairspec.stamp, so nothing is checked now' >&2
else
    {
        echo 'rt: chose --jobs 2 for words'
        echo 'fn words::word: proved'
        echo 'logic=proved functions=1 sum=dac8208d650f15bf'
        echo 'rt: chose --jobs 2 for pairspec'
        echo 'fn pairspec::main: proved'
        echo 'logic=proved functions=1 axioms=2 sum=dac8208d650f15bf'
    } >&2
    { echo '#!/bin/sh'; echo "made='$made'"; cat program; } > $out/pairspec
    chmod +x $out/pairspec
    echo "$sum $(sha256sum < $out/pairspec)" > $out/pairspec.stamp
fi
echo 'rt: running out/pairspec; to give it other input, run that file yourself' >&2
exec $out/pairspec
"""
# writes its input; after a first line `made from` also what it was made from. `ends` ends it
PROGRAM = """read -r first && echo "$first" && cat
[ "$first" != 'made from' ] || echo "$made"
[ "$first" != ends ] || exit 3
"""
GOOD = (0, b"block k re im\n0 0 1 2\n")
BUILDS = "pairspec: the sources are new or have changed; proving and building, some minutes where all are new"
WAITS = "pairspec: another run is building; waiting for it"
CHANGED = "pairspec: the sources changed while they were built; run it again"
PROVED = ["pairspec: 2 of 3 crates proved (words)", "pairspec: 3 of 3 crates proved (pairspec)"]


class Results:
    def __init__(self):
        self.passed = self.failed = 0

    def add(self, name, got, expected):
        if got == expected:
            self.passed += 1
        else:
            self.failed += 1
            print("pairspec_script: %s: FAILED\n    got      %r\n    expected %r" % (name, got, expected))


def until(holds, seconds=5):
    """Whether it holds before that time is over."""
    end = time.monotonic() + seconds
    while not holds() and time.monotonic() < end:
        time.sleep(0.01)
    return bool(holds())


def alive(process):
    try:
        return Path("/proc/%d/stat" % process).read_text().rsplit(")", 1)[1].split()[0] != "Z"
    except FileNotFoundError:
        return False


class Started:
    """A run that is not waited for."""

    def __init__(self, copy):
        self.said_to = tempfile.TemporaryFile(dir=copy.folder)
        self.process = subprocess.Popen([copy.script], env=copy.environment,
                                        stdin=subprocess.PIPE, stdout=subprocess.PIPE, stderr=self.said_to)
        self.process.stdin.write(GOOD[1])
        self.process.stdin.close()

    def said(self):
        self.said_to.seek(0)
        return self.said_to.read().decode().splitlines()

    def end(self):
        """(status, output), or nothing where it has not ended after some seconds."""
        try:
            status = self.process.wait(5)
        except subprocess.TimeoutExpired:
            return None
        return status, self.process.stdout.read()


class Copy:
    """The script in a folder of its own, with stand-ins."""

    def __init__(self, folder):
        self.folder = folder
        self.top = folder / "the repository"
        self.script = self.top / "pairspec"
        self.temporary = folder / "temporary"
        self.environment = dict(os.environ, PATH="%s:%s" % (folder / "bin", os.environ["PATH"]), TMPDIR=str(self.temporary))
        crates = self.top / "crates"
        for made in (folder / "bin", self.temporary, self.top / "include", crates / "whole/src", crates / "words/src", crates / "pairspec/src"):
            made.mkdir(parents=True)
        self.source = crates / "words/src/lib.rt"
        self.source.write_text("// words\n")
        (crates / "pairspec/src/main.rt").write_text("// pairspec\n")
        (self.top / "crates.txt").write_text("# of whole it is made by way of words\nwhole:\nwords: whole\npairspec: words io libc\nother: whole\n")
        shutil.copy(SCRIPT, self.script)
        shutil.copy(HEADER, self.top / "include")
        self.program = self.top / "program"
        for path, text in ((folder / "bin/rt", RT), (self.program, PROGRAM)):
            path.write_text(text)
            path.chmod(0o755)

    def run(self, *words, input=GOOD[1], script=None, **more):
        done = subprocess.run([script or self.script, *words], input=input, env=more.pop("env", self.environment), timeout=20,
                              stdout=more.pop("stdout", subprocess.PIPE), stderr=more.pop("stderr", subprocess.PIPE), **more)
        return done.returncode, done.stdout, done.stderr.decode() if done.stderr is not None else None

    def made_from(self):
        """The source that the program which is run now was made from."""
        return self.run(input=b"made from\n")[1].decode().partition("\n")[2]

    def builds(self):
        calls = self.top / "calls"
        return calls.read_text().count("run pairspec\n") if calls.exists() else 0

    def hold(self, call):
        """Has this build, counted from now on, last until the file is removed."""
        file = self.top / ("hold.%d" % (self.builds() + call))
        file.write_text("")
        return file

    def processes(self, held):
        """The processes of a build that is held; of one that does not begin, none."""
        file = held.with_name(held.name.replace("hold", "processes"))
        until(lambda: file.exists() and file.read_text().endswith("\n"), 2)
        return [int(word) for word in file.read_text().split()] if file.exists() else []

    def without(self, *missing):
        """An environment with the tools that the script may use, less some."""
        tools = Path(tempfile.mkdtemp(dir=self.folder))
        for tool in TOOLS:
            if tool not in missing:
                (tools / tool).symlink_to(shutil.which(tool))
        tools.chmod(0o755)
        return dict(self.environment, PATH=str(tools))


def check_builds(results, copy):
    status, out, said = copy.run()
    results.add("first run", ((status, out), copy.builds()), (GOOD, 1))
    results.add("progress", said.splitlines(), [BUILDS, *PROVED])
    results.add("second run", (copy.run(), copy.builds()), ((*GOOD, ""), 1))
    copy.source.write_text("// words, changed\n")
    results.add("a changed source", (copy.run()[:2], copy.builds()), (GOOD, 2))
    results.add("and no more", (copy.run(), copy.builds()), ((*GOOD, ""), 2))
    copy.source.unlink()
    results.add("a source less", (copy.run()[:2], copy.builds()), (GOOD, 3))
    shutil.rmtree(copy.top / "target/pairspec", ignore_errors=True)
    (copy.top / "crates/pairspec/out/pairspec").unlink()
    results.add("no program", (copy.run()[:2], copy.builds()), (GOOD, 4))
    (copy.top / "broken").write_text("")
    copy.source.write_text("// words, wrong\n")
    status, out, said = copy.run()
    results.add("not proved", (status, out, "whole did not build" in said, copy.builds()), (2, b"", True, 5))
    results.add("still not proved", (copy.run()[:2], copy.builds()), ((2, b""), 6))
    (copy.top / "broken").unlink()
    results.add("proved again", (copy.run()[:2], copy.builds()), (GOOD, 7))


def check_content(results, copy):
    """Whether the program fits its sources is judged by their content."""
    copy.source.write_text("// words, older\n")
    os.utime(copy.source, (10 ** 9, 10 ** 9))
    results.add("an older source", copy.made_from(), "// words, older\n")
    before = copy.builds()
    os.utime(copy.source)
    results.add("a source as it was, only newer", (copy.run(), copy.builds()), ((*GOOD, ""), before))
    (copy.top / "crates/other/src").mkdir(parents=True)
    (copy.top / "crates/other/src/lib.rt").write_text("// other\n")
    (copy.top / "crates/words/must-fail").mkdir()
    (copy.top / "crates/words/must-fail/wrong.edit").write_text("")
    results.add("files that it is not made of", (copy.run(), copy.builds()), ((*GOOD, ""), before))
    text = copy.source.read_text()
    copy.source.write_text("// words, tried\n")
    subprocess.run(["rt", "run"], cwd=copy.top / "crates/pairspec", env=copy.environment, stdin=subprocess.DEVNULL, stdout=subprocess.DEVNULL,
                   stderr=subprocess.DEVNULL, check=True)
    copy.source.write_text(text)
    os.utime(copy.source, (10 ** 9, 10 ** 9))
    results.add("rt was run on others", copy.made_from(), text)
    for path in (copy.top / "crates/pairspec/out/pairspec", *copy.top.glob("target/pairspec/program.*")):
        path.unlink()
    results.add("no program, and a stamp", copy.run()[:2], GOOD)


def check_two_runs(results, copy):
    copy.source.write_text("// words, for two\n")
    held, other = copy.hold(1), copy.hold(2)
    before = copy.builds()
    first = Started(copy)
    copy.processes(held)
    second = Started(copy)
    until(second.said)
    held.unlink()
    other.unlink()
    results.add("two at once", (first.end(), second.end(), copy.builds() - before), (GOOD, GOOD, 1))
    results.add("who builds", first.said(), [BUILDS, *PROVED])
    results.add("who waits", second.said(), [WAITS])

    copy.source.write_text("// words, before\n")
    held = copy.hold(1)
    first = Started(copy)
    copy.processes(held)
    copy.source.write_text("// words, behind\n")
    held.unlink()
    results.add("sources that change meanwhile", (first.end(), first.said()[-1]), ((2, b""), CHANGED))
    results.add("are built then", copy.made_from(), "// words, behind\n")

    copy.source.write_text("// words, before\n")
    held, other = copy.hold(1), copy.hold(2)
    first = Started(copy)
    copy.processes(held)
    time.sleep(0.02)
    copy.source.write_text("// words, behind\n")
    time.sleep(0.02)
    second = Started(copy)
    until(second.said)
    for process in (second.process.pid, *copy.processes(other)):
        os.kill(process, signal.SIGKILL)
    second.end()
    other.unlink()
    held.unlink()
    first.end()
    results.add("a run that is killed vouches for nothing", copy.made_from(), "// words, behind\n")


def check_signals(results, copy):
    for number in (signal.SIGINT, signal.SIGTERM, signal.SIGHUP):
        copy.source.write_text("// words, for %s\n" % number.name)
        held = copy.hold(1)
        run = Started(copy)
        processes = copy.processes(held)
        run.process.send_signal(number)
        ended = run.end()
        over = until(lambda: not any(map(alive, processes)), 2)
        results.add("%s ends the run and the build" % number.name, (ended, len(processes), over), ((128 + number, b""), 2, True))
        held.unlink()
        for process in filter(alive, processes):
            os.kill(process, signal.SIGKILL)
        run.process.kill()
        run.end()
        results.add("after %s" % number.name, (copy.run()[:2], copy.made_from()), (GOOD, "// words, for %s\n" % number.name))

    # of a run that is killed the build goes on, and is waited for
    copy.source.write_text("// words, for a kill\n")
    held = copy.hold(1)
    run = Started(copy)
    copy.processes(held)
    run.process.kill()
    second = Started(copy)
    until(second.said)
    results.add("the build of a killed run is waited for", second.said(), [WAITS])
    held.unlink()
    results.add("and its lock is gone", (second.end(), copy.made_from()), (GOOD, "// words, for a kill\n"))
    # who waits can be ended, too
    copy.source.write_text("// words, for a wait\n")
    held, other = copy.hold(1), copy.hold(2)
    first = Started(copy)
    copy.processes(held)
    second = Started(copy)
    until(second.said)
    second.process.send_signal(signal.SIGTERM)
    results.add("who waits is ended", second.end(), (143, b""))
    other.unlink()
    held.unlink()
    results.add("and who builds is not", first.end(), GOOD)
    second.process.kill()
    results.add("what is left behind", sorted(path.name for path in (copy.top / "target/pairspec").glob("making*")), [])
    results.add("programs that are kept", len(list((copy.top / "target/pairspec").glob("program.*"))), 1)
    results.add("temporary files", list(copy.temporary.iterdir()), [])


def check_missing(results, copy):
    no_rt = copy.without("rt")
    results.add("without rt, built", copy.run(env=no_rt), (*GOOD, ""))
    copy.source.write_text("// words, without rt\n")
    said = "pairspec: the program must be built, and rt is not on the PATH. It is part of the Rattle kit; README.md says which version\n"
    results.add("without rt", copy.run(env=no_rt), (2, b"", said))
    for tool in ("flock", "setsid"):
        environment = copy.without(tool)
        environment["PATH"] += ":%s" % (copy.folder / "bin")
        said = "pairspec: the program must be built, and %s is not on the PATH (util-linux has it)\n" % tool
        results.add("without %s" % tool, copy.run(env=environment), (2, b"", said))
    # read only: for root, as nobody
    as_user = {"user": NOBODY, "group": NOBODY, "extra_groups": []} if os.getuid() == 0 else {}
    copy.folder.chmod(0o755)
    kept = copy.top / "target/pairspec"
    said = "pairspec: the program must be built, and %s cannot be written to\n" % kept.parent
    folders = [copy.top, *(path for path in (copy.top / "target", kept) if path.exists())]
    for folder in folders:
        folder.chmod(0o555)
    results.add("read only", copy.run(**as_user), (2, b"", said))
    copy.source.write_text("// words, for a wait\n")
    results.add("read only, built", copy.run(**as_user), (*GOOD, ""))
    for folder in folders:
        folder.chmod(0o755)
    (copy.top / "target").rename(copy.top / "aside")
    copy.top.chmod(0o555)
    results.add("read only, never built", copy.run(**as_user), (2, b"", said))
    copy.top.chmod(0o755)
    (copy.top / "aside").rename(copy.top / "target")
    (copy.top / "crates.txt").rename(copy.top / "aside.txt")
    results.add("no sources", copy.run(), (2, b"", "pairspec: cannot read the sources, crates.txt and crates/, in %s\n" % copy.top))
    (copy.top / "aside.txt").rename(copy.top / "crates.txt")


def check_arguments(results, copy):
    folder = copy.folder
    good = (0, b"block k re im\n0 0 3 4\n", "")
    named = folder / "a file.pair"
    named.write_bytes(good[1])
    before = copy.builds()
    results.add("a file", copy.run(named, input=b""), good)
    results.add("a file, from its folder", copy.run(named.name, input=b"", cwd=folder), good)
    for link in (folder / "bin/pairspec", folder / "pairspec"):
        link.symlink_to(os.path.relpath(copy.script, link.parent))
        results.add("a link", copy.run(named, script=link, cwd="/"), good)
    (folder / "again").symlink_to("pairspec")
    results.add("a link to a link, found by PATH", copy.run(named, script="pairspec", cwd="/"), good)
    results.add("a link to a link", copy.run("a file.pair", script="./again", cwd=folder), good)
    results.add("standard input by its name", copy.run("-"), (*GOOD, ""))
    for words in (["--explain", named], [named, "--explain"]):
        results.add("arguments %s" % words, copy.run(*words), good)
    usage = (2, b"", "usage: pairspec [--explain] [FILE]    (standard input where there is no FILE)\n")
    for words in ([""], [named, named], ["-", named], ["-v", named], ["--", named]):
        results.add("arguments %s" % words, copy.run(*words), usage)
    results.add("no such file", copy.run("nothing.pair"), (2, b"", "pairspec: cannot read nothing.pair\n"))
    results.add("a folder", copy.run("/"), (2, b"", "pairspec: cannot read /\n"))
    results.add("builds", copy.builds(), before)
    copy.source.write_text("// words, not for help\n")
    status, out, said = copy.run("--help")
    results.add("help", (status, out.startswith(b"usage: pairspec [--explain] [FILE]\n"), b"Exit status" in out, said, copy.builds()),
                (0, True, True, "", before))
    copy.source.write_text("// words, for a wait\n")


def header_reasons():
    """What mealbis_reason of the header says of each number."""
    text = HEADER.read_text()
    said = dict(re.findall(r'case (MEALBIS_\w+):\s+return "(.*)";', text))
    return {int(number): said[name] for name, number in re.findall(r"#define (MEALBIS_\w+) (\d+)u\b", text) if name in said}


def on_terminal(copy, *words, **more):
    """A run whose standard error is a terminal: (status, output, what it said there)."""
    master, slave = pty.openpty()
    status, out, _ = copy.run(*words, stderr=slave, **more)
    os.write(slave, b"end")
    said = b""
    while not said.endswith(b"end"):
        said += os.read(master, 1000)
    os.close(master)
    os.close(slave)
    return status, out, said[:-3].decode().replace("\r\n", "\n")


def check_status(results, copy):
    results.add("a refusal", copy.run(input=b"refused 8\n"), (1, b"refused 8\n", ""))
    reasons = header_reasons()
    results.add("reasons of the header", len({reasons[number] for number in (1, 6, 7, 8, 9)}), 5)
    for number in (1, 6, 7, 8, 9):
        line, told = b"refused %d\n" % number, "pairspec: %s\n" % reasons[number]
        results.add("the reason %d" % number, copy.run("--explain", input=line), (1, line, told))
        results.add("the reason %d on a terminal" % number, on_terminal(copy, input=line), (1, line, told))
    results.add("a terminal, and no refusal", on_terminal(copy), (*GOOD, ""))
    results.add("nothing written", copy.run(input=b""), (2, b"", "pairspec: the program wrote nothing\n"))
    results.add("a program that fails", copy.run(input=b"ends\n"), (2, b"", "pairspec: the program ended with status 3\n"))
    for status, what in ((0, b"block k re im\n" + b"0 0 1 2\n" * 20000), (1, b"refused 8\n")):
        lost = (2, None, "pairspec: the output could not be written\n")
        with open("/dev/full", "wb") as full:
            results.add("output that cannot be written", copy.run(input=what, stdout=full), lost)
        closed = subprocess.run(["sh", "-c", 'exec "$0" >&-', copy.script], input=what, env=copy.environment, stderr=subprocess.PIPE)
        results.add("output that is closed", (closed.returncode, None, closed.stderr.decode()), lost)
        for by_signal in (True, False):
            reader, writer = os.pipe()
            os.close(reader)
            results.add("a pipe that is closed", copy.run(input=what, stdout=writer, restore_signals=by_signal), (status, None, ""))
            os.close(writer)


def check_itself(results):
    """The script of the repository and the program itself."""
    def run(data, *words):
        done = subprocess.run([ROOT / "pairspec", *words], input=data, stdout=subprocess.PIPE, stderr=subprocess.PIPE)
        return done.returncode, done.stdout, done.stderr.decode()
    example = EXAMPLE.read_bytes()
    run(example)
    wrote = run(example)
    program = subprocess.run([ROOT / "crates/pairspec/out/pairspec"], input=example, stdout=subprocess.PIPE)
    results.add("the example", wrote, (0, program.stdout, ""))
    def file(samples, length, first):
        return struct.pack("<IIi", samples, length, first) + bytes(8 * samples - 4)
    refused = {1: file(2, 3, 0), 6: file(2, 2, 1000001), 7: b"", 8: file(4097, 2, 0), 9: example[:-1]}
    reasons = header_reasons()
    for number, data in refused.items():
        results.add("a file with %d" % number, run(data), (1, b"refused %d\n" % number, ""))
        results.add("its reason", run(data, "--explain"), (1, b"refused %d\n" % number, "pairspec: %s\n" % reasons[number]))
    for _ in range(10):
        piped = subprocess.run(["sh", "-c", './pairspec "$0" | head -1', EXAMPLE], cwd=ROOT, stdout=subprocess.PIPE, stderr=subprocess.PIPE)
        results.add("its first line", (piped.stdout, piped.stderr), (b"block k re im\n", b""))


def main():
    # where the gate runs in the background these are ignored, and what is started here would ignore them, too
    for number in (signal.SIGINT, signal.SIGTERM, signal.SIGHUP):
        signal.signal(number, signal.SIG_DFL)
    results = Results()
    with tempfile.TemporaryDirectory() as folder:
        copy = Copy(Path(folder))
        check_builds(results, copy)
        check_content(results, copy)
        check_two_runs(results, copy)
        check_signals(results, copy)
        check_missing(results, copy)
        check_arguments(results, copy)
        check_status(results, copy)
    check_itself(results)
    print("%d passed, %d failed" % (results.passed, results.failed))
    return 1 if results.failed else 0


if __name__ == "__main__":
    sys.exit(main())
