"""Spectra of strain blocks: the calls of include/mealbis.h for Python, over the shared library. The header says what each call does.

    >>> import mealbis
    >>> spectrum = mealbis.spectrum([1, 2, 3, 4], 0, 4)
    >>> spectrum.cosine.tolist(), spectrum.sine.tolist()
    ([10, -2, -2], [0, -2, 0])
    >>> mealbis.spectrum([1, 2, 3, 1_000_001], 0, 4)
    Traceback (most recent call last):
    mealbis.Refused: refused 6: a sample is out of range, at place 3

Recordings and coefficients are lists or other sequences of whole numbers, `array.array`, or NumPy arrays of one dimension. Those of 32 bits
that can be written, `array.array("i", ..)` or dtype int32, are lent to the library as they are, and nobody may write them while a call
runs; all others are copied, the whole recording at each call. Results are `array.array("i", ..)`, and NumPy arrays where the first
recording or row of coefficients is one. NumPy is not needed.

A call that the library refuses raises Refused. A number that does not fit the library's type, a sample beyond 32 bits or a negative start,
raises OverflowError, and what is no whole number TypeError, before the library is called.

The library is found at the first call: the path in the environment variable MEALBIS_LIBRARY, else libmealbis.so beside this file or in a
folder above it (PREFIX/lib for PREFIX/lib/python3/mealbis.py), else the system's. load(path) takes another.
"""

import array
import ctypes
import operator
import os
import sys
from pathlib import Path
from typing import NamedTuple

VERSION = 40000                     # of the header that these declarations belong to: 10000 major + 100 minor + patch
LENGTHS = (1, 2, 4, 8, 16, 32, 64, 128, 256, 512, 1024)
LARGEST_SAMPLE = 1_000_000
LARGEST_REST = 2 ** 29
MOST_FILE_SAMPLES = 4096
MOST_BLOCKS = 50_000                # of a party in a month
MONTH_WORDS = 2055
UNBOUNDED = 2 ** 64 - 1             # the allowance of everything

FLAT, CLIPPED, PLAIN = 1, 2, 3      # the marks of a block

_REASONS = {
    0: "accepted",
    1: "the length is none of the eleven",
    2: "the recording or the coefficients end too soon",
    3: "a buffer for results is too short",
    4: "scratch is too short",
    5: "the allowance is below the products that are spent",
    6: "a sample is out of range",
    7: "the file is shorter than 8 bytes",
    8: "the sample count is 0 or above 4,096",
    9: "the file is not 8 + 8 * samples bytes long",
    10: "a stored coefficient is beyond its limit",
    11: "the two recordings differ in length",
    12: "the flat limit is negative, or the clip level is outside 1 to 1,000,000",
    13: "the block's length is not the month's",
    14: "the party holds 50,000 blocks in the month",
    15: "the party is neither 1 nor 2",
    16: "no sum of the month belongs to this k",
}


def reason(number):
    """The number of an answer in words."""
    return _REASONS.get(number, "no call of this version gives this number")


class Refused(ValueError):
    """The library has refused a call: `number` by the header's table, `reason` in words, and `place` of refusals 6 and 10, else None."""

    def __init__(self, number, place=None):
        super().__init__(number, place)
        self.number, self.place, self.reason = number, place, reason(number)

    def __str__(self):
        return "refused %d: %s%s" % (self.number, self.reason, "" if self.place is None else ", at place %d" % self.place)


# --- the declarations: tests/check_declarations.py holds them to the Rattle source --------------------

Size = ctypes.c_uint64              # mealbis_size: 64 bits on every machine


class Answer(ctypes.Structure):
    """Of mealbis_spectrum, mealbis_month_add, mealbis_cosine and mealbis_pair."""
    _fields_ = [("products", ctypes.c_uint64), ("sums", ctypes.c_uint64), ("largest_rest", ctypes.c_uint64), ("place", Size)]


class MarkAnswer(ctypes.Structure):
    """Of mealbis_mark."""
    _fields_ = [("products", ctypes.c_uint64), ("sums", ctypes.c_uint64), ("largest_rest", ctypes.c_uint64), ("place", Size),
                ("mark", ctypes.c_uint64)]


class BlocksAnswer(ctypes.Structure):
    """Of mealbis_month_blocks."""
    _fields_ = [("blocks", ctypes.c_int64)]


class SumsAnswer(ctypes.Structure):
    """Of mealbis_month_sums."""
    _fields_ = [("cosine", ctypes.c_int64), ("sine", ctypes.c_int64)]


class PageAnswer(ctypes.Structure):
    """Of mealbis_page."""
    _fields_ = [("bytes", Size)]


class InverseAnswer(ctypes.Structure):
    """Of mealbis_inverse_dct."""
    _fields_ = [("place", Size)]


class CountsAnswer(ctypes.Structure):
    """Of mealbis_counts."""
    _fields_ = [("dct_products", ctypes.c_uint64), ("dct_sums", ctypes.c_uint64), ("spectrum_products", ctypes.c_uint64),
                ("spectrum_sums", ctypes.c_uint64), ("pair_products", ctypes.c_uint64), ("pair_sums", ctypes.c_uint64)]


class ReadAnswer(ctypes.Structure):
    """Of mealbis_read."""
    _fields_ = [("samples", Size), ("length", Size), ("place", Size)]


class WriteAnswer(ctypes.Structure):
    """Of mealbis_write."""
    _fields_ = [("bytes", Size), ("place", Size)]


class MonthWords(ctypes.Structure):
    """The words of a month."""
    _fields_ = [("words", ctypes.c_int64 * MONTH_WORDS)]


def _buffer(name, word=ctypes.c_int32, unit="words"):
    """A buffer is a pointer and a count."""
    return (name, ctypes.POINTER(word)), ("%s_%s" % (name, unit), Size)


def _record(kind, name="answer"):
    return name, ctypes.POINTER(kind)


_BLOCK = ("start", Size), ("length", Size), ("allowance", ctypes.c_uint64)
_SCRATCH = _buffer("scratch", ctypes.c_int64)
_MONTH = "month", ctypes.POINTER(MonthWords)
_PARTY = "party", Size

# What each function returns, and the names and types of its parameters.
DECLARATIONS = {
    "mealbis_version": (ctypes.c_uint32, ()),
    "mealbis_spectrum": (ctypes.c_uint32, (
        *_buffer("recording"), *_BLOCK, *_buffer("cosine"), *_buffer("sine"), *_SCRATCH, _record(Answer))),
    "mealbis_mark": (ctypes.c_uint32, (
        *_buffer("recording"), *_BLOCK, ("flat_limit", ctypes.c_int32), ("clip_level", ctypes.c_int32),
        *_buffer("cosine"), *_buffer("sine"), *_SCRATCH, _record(MarkAnswer))),
    "mealbis_month_begin": (ctypes.c_uint32, (_MONTH, ("length", Size))),
    "mealbis_month_add": (ctypes.c_uint32, (
        _MONTH, _PARTY, *_buffer("recording"), *_BLOCK, *_buffer("cosine"), *_buffer("sine"), *_SCRATCH, _record(Answer))),
    "mealbis_month_length": (Size, (_MONTH,)),
    "mealbis_month_blocks": (ctypes.c_uint32, (_MONTH, _PARTY, _record(BlocksAnswer, "blocks"))),
    "mealbis_month_sums": (ctypes.c_uint32, (_MONTH, _PARTY, ("k", Size), _record(SumsAnswer, "sums"))),
    "mealbis_page": (ctypes.c_uint32, (
        *_buffer("cosine"), *_buffer("sine"), ("length", Size), *_buffer("page", ctypes.c_uint8, "bytes"), _record(PageAnswer))),
    "mealbis_cosine": (ctypes.c_uint32, (
        *_buffer("recording"), *_BLOCK, *_buffer("coefficients"), *_SCRATCH, _record(Answer))),
    "mealbis_inverse_dct": (ctypes.c_uint32, (
        *_buffer("coefficients"), ("length", Size), *_buffer("values"), _record(InverseAnswer))),
    "mealbis_pair": (ctypes.c_uint32, (
        *_buffer("a"), *_buffer("b"), *_BLOCK, *_buffer("re"), *_buffer("im"), *_SCRATCH, _record(Answer))),
    "mealbis_counts": (ctypes.c_uint32, (("length", Size), _record(CountsAnswer))),
    "mealbis_read": (ctypes.c_uint32, (
        *_buffer("file", ctypes.c_uint8, "bytes"), *_buffer("a"), *_buffer("b"), _record(ReadAnswer))),
    "mealbis_write": (ctypes.c_uint32, (
        *_buffer("a"), *_buffer("b"), ("length", Size), *_buffer("file", ctypes.c_uint8, "bytes"), _record(WriteAnswer))),
}


def declare(library):
    """Tells ctypes what the functions of the library take and return."""
    for name, (returned, parameters) in DECLARATIONS.items():
        function = getattr(library, name)
        function.restype = returned
        function.argtypes = [kind for _, kind in parameters]
    return library


# --- the library ----------------------------------------------------------------------------------

class WrongLibrary(RuntimeError):
    """The library that was found is not of the version that these declarations belong to."""


_loaded = None


def _places():
    """Where the library may be, the likeliest first; the last is the system's."""
    here = Path(__file__).resolve().parent
    near = [folder / "libmealbis.so" for folder in (here, here.parent, here.parent / "lib", here.parent.parent)]
    return [str(path) for path in near if path.is_file()] + ["libmealbis.so"]


def load(path=None):
    """Loads the shared library, at this path or where it is found, for all calls from now on, and gives it with its functions declared.

    OSError where there is none, WrongLibrary where it is of another version."""
    global _loaded
    path = str(path or os.environ.get("MEALBIS_LIBRARY") or _places()[0])
    try:
        library = ctypes.CDLL(path)
    except OSError as error:
        raise OSError("no library for Mealbis: %s (MEALBIS_LIBRARY may name its path)" % error) from None
    try:
        found = declare(library).mealbis_version()
    except AttributeError as error:
        raise WrongLibrary("%s is not of version %d: %s" % (path, VERSION, error)) from None
    if found != VERSION:
        raise WrongLibrary("%s is of version %d, and this module of %d" % (path, found, VERSION))
    _loaded = library
    return library


def _library():
    return _loaded or load()


def version():
    """The version of the library: 10000 major + 100 minor + patch."""
    return _library().mealbis_version()


# --- what is lent -----------------------------------------------------------------------------------

class _Lent:
    """Memory for a call, of words of this type: `given` are a pointer and the count of words that it has."""

    def __init__(self, word, words):
        self.words, count = words, memoryview(words).nbytes // ctypes.sizeof(word)
        self.first = word.from_buffer(words) if count else word()
        self.given = ctypes.byref(self.first), count


def _is_numpy(values):
    numpy = sys.modules.get("numpy")
    return numpy is not None and isinstance(values, numpy.ndarray)


def _as_they_are(values):
    """A view of words of 32 bits that can be lent as they are; None of all else."""
    try:
        view = memoryview(values)
    except (TypeError, ValueError, BufferError):
        return None
    if view.format != "i" or view.itemsize != 4 or view.ndim != 1 or not view.c_contiguous or view.readonly:
        return None
    aligned = not len(view) or ctypes.addressof(ctypes.c_int32.from_buffer(view)) % 4 == 0
    return view if aligned else None


def _samples(values):
    """Words of 32 bits to be read, copied where they are not such."""
    if isinstance(values, (bytes, bytearray, str)):
        raise TypeError("whole numbers are wanted, not %s" % type(values).__name__)
    view = _as_they_are(values)
    return _Lent(ctypes.c_int32, array.array("i", list(values)) if view is None else view)


def _results(count):
    return _Lent(ctypes.c_int32, array.array("i", bytes(4 * count)))


def _scratch(length):
    return _Lent(ctypes.c_int64, bytearray(8 * (8 * length + 64)))


def _listed(length):
    """The length, for the size of buffers; 0 where it is none of the eleven, since the library refuses it whatever is lent."""
    return length if length in LENGTHS else 0


def _yielded(lent, like):
    """The words of a result, as a NumPy array where the input was one."""
    return sys.modules["numpy"].frombuffer(lent.words, dtype="int32") if _is_numpy(like) else lent.words


def _number(name, value, least, most):
    value = operator.index(value)
    if not least <= value <= most:
        raise OverflowError("%s is %d, which is outside %d to %d" % (name, value, least, most))
    return value


def _size(name, value):
    return _number(name, value, 0, 2 ** 64 - 1)


def _figure(name, value):
    return _number(name, value, -2 ** 31, 2 ** 31 - 1)


def _accepted(number, place=None):
    if number:
        raise Refused(number, place if number in (6, 10) else None)


# --- the calls ----------------------------------------------------------------------------------------

class Spectrum(NamedTuple):
    """The cosine-DFT and the sine-DFT of a block, k = 0 .. N/2, and what was spent."""
    cosine: array.array
    sine: array.array
    products: int
    sums: int
    largest_rest: int


class Marked(NamedTuple):
    """A spectrum, and the mark of its block: FLAT, CLIPPED or PLAIN."""
    mark: int
    cosine: array.array
    sine: array.array
    products: int
    sums: int
    largest_rest: int


class Cosine(NamedTuple):
    """The DCT-II of a block, k = 0 .. N-1, and what was spent."""
    coefficients: array.array
    products: int
    sums: int
    largest_rest: int


class Pair(NamedTuple):
    """The complex DFT of two blocks, k = 0 .. N-1, and what was spent."""
    re: array.array
    im: array.array
    products: int
    sums: int
    largest_rest: int


class Counts(NamedTuple):
    """What the calls spend on a block of a length."""
    dct_products: int
    dct_sums: int
    spectrum_products: int
    spectrum_sums: int
    pair_products: int
    pair_sums: int


class Sums(NamedTuple):
    """The sums of a party in a month for one k."""
    cosine: int
    sine: int


class PairFile(NamedTuple):
    """The two recordings of a pair file, and the length of a block."""
    a: array.array
    b: array.array
    length: int


def _spent(answer):
    return answer.products, answer.sums, answer.largest_rest


def _transformed(function, recordings, block, more, result_words, record=Answer):
    """A call on recordings: `block` is start, length and allowance, `more` what stands before the results. The results and the record."""
    start, length, allowance = _size("start", block[0]), _size("length", block[1]), _size("allowance", block[2])
    N = _listed(length)
    lent = [_samples(recording) for recording in recordings]
    results = [_results(words if N else 0) for words in result_words(N)]
    scratch, answer = _scratch(N), record()
    given = [one for buffer in lent for one in buffer.given]
    taken = [one for buffer in (*results, scratch) for one in buffer.given]
    number = function(*given, start, length, allowance, *more, *taken, ctypes.byref(answer))
    _accepted(number, answer.place)
    return [_yielded(result, recordings[0]) for result in results], answer


def _of_spectrum(N):
    return N // 2 + 1, N // 2 + 1


def spectrum(recording, start, length, allowance=UNBOUNDED):
    """The spectrum of the block of `length` samples from `start` on. It refuses by 1, 2, 5 and 6."""
    rows, answer = _transformed(_library().mealbis_spectrum, [recording], (start, length, allowance), (), _of_spectrum)
    return Spectrum(*rows, *_spent(answer))


def mark(recording, start, length, flat_limit, clip_level, allowance=UNBOUNDED):
    """The spectrum of a block and its mark by two figures: flat, where every coefficient from k = 1 on is at most flat_limit in size; else
    clipped, where a sample is at least clip_level in size; else plain. It refuses by 1, 2, 5, 6 and 12."""
    figures = _figure("flat_limit", flat_limit), _figure("clip_level", clip_level)
    block = start, length, allowance
    rows, answer = _transformed(_library().mealbis_mark, [recording], block, figures, _of_spectrum, MarkAnswer)
    return Marked(answer.mark, *rows, *_spent(answer))


def cosine(recording, start, length, allowance=UNBOUNDED):
    """The DCT-II of a block, with no factor 2 and no special weight at k = 0. It refuses by 1, 2, 5 and 6."""
    rows, answer = _transformed(_library().mealbis_cosine, [recording], (start, length, allowance), (), lambda N: (N,))
    return Cosine(*rows, *_spent(answer))


def pair(a, b, start, length, allowance=UNBOUNDED):
    """The complex DFT of a + i b for the blocks from `start` on. It refuses by 1, 2, 5 and 6; the place of 6 is in a, or, where a's sample
    there is in range, in b."""
    rows, answer = _transformed(_library().mealbis_pair, [a, b], (start, length, allowance), (), lambda N: (N, N))
    return Pair(*rows, *_spent(answer))


def inverse_dct(coefficients, length):
    """The strain back from the first `length` coefficients of cosine(), each value within `length` of its sample. It refuses by 1, 2 and 10."""
    length = _size("length", length)
    lent, values, answer = _samples(coefficients), _results(_listed(length)), InverseAnswer()
    _accepted(_library().mealbis_inverse_dct(*lent.given, length, *values.given, ctypes.byref(answer)), answer.place)
    return _yielded(values, coefficients)


def counts(length):
    """What the calls spend on a block of this length; the products are the least allowance that they accept. It refuses by 1."""
    answer = CountsAnswer()
    _accepted(_library().mealbis_counts(_size("length", length), ctypes.byref(answer)))
    return Counts(*(getattr(answer, name) for name in Counts._fields))


def page(cosine, sine, length):
    """The page of a spectrum for the site binder: lines of 30 columns with k, cosine[k] and sine[k] below a heading. It refuses by 1 and 2."""
    length = _size("length", length)
    rows, answer = (_samples(cosine), _samples(sine)), PageAnswer()
    text = _Lent(ctypes.c_uint8, bytearray(31 * (_listed(length) // 2 + 2)))
    _accepted(_library().mealbis_page(*rows[0].given, *rows[1].given, length, *text.given, ctypes.byref(answer)))
    return text.words[:answer.bytes].decode("ascii")


def read(data):
    """The recordings of a pair file, of its bytes. It refuses by 7, 8, 9, 1 and 6; the place of 6 is in a, or, where a has no sample out of
    range, in b."""
    file, answer = _Lent(ctypes.c_uint8, bytearray(memoryview(data))), ReadAnswer()
    a, b = (_results(MOST_FILE_SAMPLES) for _ in "ab")
    _accepted(_library().mealbis_read(*file.given, *a.given, *b.given, ctypes.byref(answer)), answer.place)
    return PairFile(a.words[:answer.samples], b.words[:answer.samples], answer.length)


def write(a, b, length):
    """The bytes of the pair file of two recordings of one length, in blocks of `length`. It refuses by 8, 11, 1 and 6."""
    length = _size("length", length)
    recordings, answer = (_samples(a), _samples(b)), WriteAnswer()
    file = _Lent(ctypes.c_uint8, bytearray(8 + 8 * min(recordings[0].given[1], MOST_FILE_SAMPLES)))
    number = _library().mealbis_write(*recordings[0].given, *recordings[1].given, length, *file.given, ctypes.byref(answer))
    _accepted(number, answer.place)
    return bytes(file.words[:answer.bytes])


class Month:
    """The sums of the spectra of many blocks of one length, for two owners: the parties 1 and 2.

        >>> month = Month(4)
        >>> for party, block in (1, [1, 2, 3, 4]), (2, [6, 0, -5, 0]), (1, [0, -7, 0, 2]):
        ...     _ = month.add(party, block, 0)
        >>> month.blocks(1), month.sums(1, 1)
        (2, Sums(cosine=-2, sine=-11))
        >>> month.blocks(2), month.sums(2, 1)
        (1, Sums(cosine=11, sine=0))
        >>> month.blocks(3)
        Traceback (most recent call last):
        mealbis.Refused: refused 15: the party is neither 1 nor 2
    """

    def __init__(self, length):
        """A month of no blocks, for both parties. It refuses by 1."""
        self._words = MonthWords()
        self.begin(length)

    def begin(self, length):
        """Begins again, for this length. It refuses by 1; the month then is of the length 0, and no block belongs in it."""
        _accepted(_library().mealbis_month_begin(ctypes.byref(self._words), _size("length", length)))

    def add(self, party, recording, start, length=None, allowance=UNBOUNDED):
        """Adds the block from `start` on for a party, of the month's length where none is given, and gives its spectrum. It refuses by 15, 13, 14,
        2, 5 and 6; the month then stays as it was."""
        party = _size("party", party)

        def added(*arguments):
            return _library().mealbis_month_add(ctypes.byref(self._words), party, *arguments)

        block = start, self.length if length is None else length, allowance
        rows, answer = _transformed(added, [recording], block, (), _of_spectrum)
        return Spectrum(*rows, *_spent(answer))

    @property
    def length(self):
        """The length for which it is begun; 0 where that was refused."""
        return _library().mealbis_month_length(ctypes.byref(self._words))

    def blocks(self, party):
        """How many blocks the party added. It refuses by 15."""
        answer = BlocksAnswer()
        _accepted(_library().mealbis_month_blocks(ctypes.byref(self._words), _size("party", party), ctypes.byref(answer)))
        return answer.blocks

    def sums(self, party, k):
        """The sums of cosine[k] and of sine[k] over the party's blocks. It refuses by 15 and 16."""
        party, k, answer = _size("party", party), _size("k", k), SumsAnswer()
        _accepted(_library().mealbis_month_sums(ctypes.byref(self._words), party, k, ctypes.byref(answer)))
        return Sums(answer.cosine, answer.sine)

    def tobytes(self):
        """The words of the month, to be stored."""
        return bytes(self._words)

    @classmethod
    def frombytes(cls, data):
        """A month taken up again from what tobytes() gave; ValueError where it is of another size, as one of an earlier version is."""
        if len(data) != ctypes.sizeof(MonthWords):
            raise ValueError("a month has %d bytes, not %d" % (ctypes.sizeof(MonthWords), len(data)))
        month = cls.__new__(cls)
        month._words = MonthWords.from_buffer_copy(data)
        return month

    def __repr__(self):
        return "<Month of %d, %d and %d blocks>" % (self.length, self.blocks(1), self.blocks(2))
