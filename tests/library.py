"""What the scripts have in common that call the library over its C interface: the shared library, memory that is lent, calls that are compared,
sets of refusals and lengths that every call is tried with. What the functions take and return is declared in bindings/python/mealbis.py.

    python3 tests/library.py        builds libmealbis.a and target/shared/libmealbis.so, which the scripts then take by --library
"""

import argparse
import array
import ctypes
import itertools
import mmap
import random
import subprocess
import sys
from pathlib import Path

from reference import LARGEST_SAMPLE, LENGTHS

ROOT = Path(__file__).resolve().parent.parent
sys.path.insert(0, str(ROOT / "bindings/python"))
import mealbis                      # noqa: E402

BUILT = ROOT / "target/shared"
OUT = (LARGEST_SAMPLE + 1, -LARGEST_SAMPLE - 1, 2 ** 31 - 1, -2 ** 31)      # samples out of range
BAD_LENGTHS = (0, 3, 5, 6, 7, 9, 1023, 1025, 1536, 2048, 2 ** 31, 2 ** 32, 2 ** 32 + 1, 2 ** 32 + 8, 2 ** 42, 2 ** 63, 2 ** 63 + 8,
               2 ** 64 - 8, 2 ** 64 - 1)
FAR_LENGTHS = (*(length << 32 for length in LENGTHS), *(length + 2 ** 32 for length in LENGTHS), *(2 ** 64 - length for length in LENGTHS))
GUARD = 64                          # bytes before and behind what is lent, or a few more
PAGE = 4096
MOST_SHOWN = 20                     # failures


def build(*words, within=ROOT):
    done = subprocess.run(words, cwd=within, stdin=subprocess.DEVNULL, stdout=subprocess.PIPE, stderr=subprocess.STDOUT, text=True)
    if done.returncode:
        sys.exit("%s\n0 passed, 1 failed" % done.stdout)


def static_library():
    """The library as it is built now."""
    build("rt", "lib", "--cpu", "x86-64", within=ROOT / "crates/mealbis")
    return ROOT / "crates/mealbis/out/libmealbis.a"


def shared_library():
    """The same, as a shared one."""
    BUILT.mkdir(parents=True, exist_ok=True)
    made = BUILT / "libmealbis.so"
    build("cc", "-shared", "-o", made, "-Wl,--whole-archive", static_library(), "-Wl,--no-whole-archive")
    return made


# --- memory that is lent ---------------------------------------------------------

class Lent:
    """Memory lent to a call as so many words, between two guards; all of it is compared afterwards."""

    alone = False                   # lent by its pointer alone, without a count

    def __init__(self, name, count, held, guards):
        self.name, self.count, self.pointers = name, count, {}
        self.first = len(guards[0])
        whole = b"".join((guards[0], held, guards[1]))
        self.memory = (ctypes.c_uint8 * len(whole)).from_buffer_copy(whole)
        assert ctypes.addressof(self.memory) % 8 == 0
        self.held = self.expected = whole

    def pointer(self, further=0):
        """Its first byte, or one further on."""
        return ctypes.c_void_p(ctypes.addressof(self.memory) + self.first + further)

    def given(self, kind):
        """The arguments by which it is lent, the pointer being of this kind."""
        pointer = self.pointers.get(kind) or self.pointers.setdefault(kind, ctypes.cast(self.pointer(), kind))
        return [pointer] if self.alone else [pointer, self.count]

    def expect(self, written):
        """These bytes should stand in front after the call, and all else stay."""
        end = self.first + len(written)
        self.expected = self.expected[:self.first] + written + self.expected[end:]

    def refill(self):
        """What stood there at first, guards too."""
        ctypes.memmove(self.memory, self.held, len(self.held))

    def front(self, size):
        return bytes(self.memory)[self.first:self.first + size]

    def difference(self):
        got = bytes(self.memory)
        if got == self.expected:
            return None
        at = next(i for i, (left, right) in enumerate(zip(got, self.expected)) if left != right)
        return "byte %d of %s (%d lent) is %d and not %d" % (at - self.first, self.name, self.count, got[at], self.expected[at])


class Mapped(Lent):
    """So many words, all 0, in memory of which only one page can be written; that page is compared."""

    def __init__(self, name, word_size, count, page=0):
        self.name, self.count, self.first, self.pointers = name, count, -page * PAGE, {}
        libc = ctypes.CDLL(None, use_errno=True)
        libc.mmap.restype = ctypes.c_void_p
        size, readable = ctypes.c_size_t(word_size * count), mmap.PROT_READ
        address = libc.mmap(None, size, readable, mmap.MAP_PRIVATE | mmap.MAP_ANONYMOUS, -1, ctypes.c_long(0))
        if address == ctypes.c_void_p(-1).value:
            raise OSError(ctypes.get_errno(), "no %d bytes of address space for %s" % (size.value, name))
        written = address + page * PAGE
        libc.mprotect(ctypes.c_void_p(written), ctypes.c_size_t(PAGE), readable | mmap.PROT_WRITE)
        self.memory = (ctypes.c_uint8 * PAGE).from_address(written)
        self.expected = bytes(self.memory)

    def hold(self, held):
        """These bytes in front of the page."""
        self.memory[:len(held)] = held
        self.expected = bytes(self.memory)


def in_memory(code, words):
    return array.array(code, words).tobytes()


def lent_samples(name, samples):
    """A recording to be read; the words around it are out of range."""
    guard = in_memory("i", OUT * 4)
    return Lent(name, len(samples), in_memory("i", samples), (guard, guard))


def lent_bytes(rng, name, held):
    """The bytes of a file or of a page, which may begin at any place of memory."""
    return Lent(name, len(held), held, (rng.randbytes(GUARD + rng.randrange(8)), rng.randbytes(GUARD)))


def lent_words(rng, name, word_size, count):
    """Words to be written, with anything in them."""
    return Lent(name, count, rng.randbytes(word_size * count), (rng.randbytes(GUARD), rng.randbytes(GUARD)))


class Record(Lent):
    """A record with anything in it: in each of its fields the value should stand."""

    alone = True

    def __init__(self, rng, kind, **fields):
        assert fields.keys() == {name for name, _ in kind._fields_}
        guards, held = [rng.randbytes(GUARD) for _ in range(2)], rng.randbytes(ctypes.sizeof(kind))
        super().__init__("the record (%s)" % ", ".join(fields), len(fields), held, guards)
        self.kind = kind
        self.expect(bytes(kind(**fields)))

    def now(self):
        """The record with what stands in it now."""
        return self.kind.from_buffer_copy(self.front(ctypes.sizeof(self.kind)))


# --- what every call is tried with ---------------------------------------------------

def lengths_up_to(most):
    """Every length up to this one, the rest of the eleven, and far ones, among them those that end in the bits of one of the eleven."""
    return (*range(most + 1), *(length for length in LENGTHS if length > most), *BAD_LENGTHS, *FAR_LENGTHS)


def every_set(order):
    """Every set of these refusals, none too, each in their order."""
    return [numbers for size in range(len(order) + 1) for numbers in itertools.combinations(order, size)]


def held(order, holds):
    """Of the conditions, those that hold, in their order: the first is the answer."""
    return tuple(number for number in order if holds[number])


def first(numbers):
    """The number of an answer to a call for which these conditions hold."""
    return numbers[0] if numbers else 0


# --- calls -------------------------------------------------------------------------

class Calls:
    """Makes calls and counts those that came out as they should."""

    def __init__(self, library, rng):
        self.library, self.rng = library, rng
        self.passed = self.failed = 0

    def function(self, name):
        return getattr(self.library, name)

    def add(self, name, wrong):
        wrong = [told for told in wrong if told]
        self.passed += not wrong
        self.failed += bool(wrong)
        if wrong and self.failed <= MOST_SHOWN:
            print("%s: FAILED\n    %s" % (name, "\n    ".join(wrong)))

    def compare(self, name, function, given, number):
        """One call on lent memory, the record too, and on numbers; what it answers."""
        arguments = []
        for one in given:
            wanted = function.argtypes[len(arguments)]
            if isinstance(one, Lent):
                arguments += one.given(wanted)
            else:
                arguments.append(ctypes.cast(one, wanted) if isinstance(one, ctypes.c_void_p) else one)
        answer = function(*arguments)
        told = None if answer == number else "the answer is %d and not %d" % (answer, number)
        self.add(name, [told, *(one.difference() for one in given if isinstance(one, Lent))])
        return answer

    def require(self, sets, met):
        """Each of these sets of refusals came up."""
        for numbers in sets:
            self.add("refusals %s together" % (numbers,), [None if numbers in met else "no call met them"])


def run(kind, checks, description):
    """Runs the checks with calls of this kind, on the library of the words or as it is built now; the status to end with."""
    words = argparse.ArgumentParser(description=description.split("\n")[0])
    words.add_argument("--library", metavar="PATH")
    words.add_argument("--seed", type=int, default=20260911)
    words = words.parse_args()
    print("%s: seed %d" % (Path(sys.argv[0]).stem, words.seed))
    calls = kind(mealbis.load(words.library or shared_library()), random.Random(words.seed))
    for check in checks:
        before = calls.passed
        check(calls)
        print("%5d passed: %s" % (calls.passed - before, check.__doc__))
    print("%d passed, %d failed" % (calls.passed, calls.failed))
    return 1 if calls.failed else 0


if __name__ == "__main__":
    print("%s\n1 passed, 0 failed" % shared_library().relative_to(ROOT))
