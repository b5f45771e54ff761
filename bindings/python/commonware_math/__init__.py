"""Data cut into shards, and polynomials over the Goldilocks field, by a library whose every function is proved.

>>> shards = split(b"any three of five shards give these bytes back", 3, 5)
>>> join({4: shards[4], 0: shards[0], 2: shards[2]}, 3, 5)
b'any three of five shards give these bytes back'

These shards are values of polynomials whose coefficients are the data. For bytes that are mostly read whole take ``systematic``:
there the data stand in the first ``min`` shards as they are, and parity shards follow.

An element of the field is a whole number below ``MODULUS``, 2**64 - 2**32 + 1. Words are a contiguous buffer of
unsigned 64-bit numbers: an ``array('Q')``, a memoryview or an array of numpy. If a call only reads them, a list of
numbers will do. A call that writes in place makes no copy of the buffer, and leaves it as it was if it raises.

Calls share nothing and let other threads run, so calls on buffers of their own may run in threads at the same time.
Nothing may change a buffer while a call has it.
"""

from __future__ import annotations

import builtins
import ctypes
import math
import sys
from array import array
from collections import abc
from mmap import mmap
from typing import Any, Callable, Iterable, Mapping, Optional, Protocol, SupportsIndex, Union, overload

from . import _library
from ._library import library as _lib, number as _number

# `eval` is left out, since it would hide the one of Python: it is `commonware_math.eval`.
__all__ = [
    "MODULUS", "version", "has_vectors", "proved", "shard_size", "split", "join", "join_corrected", "roots", "systematic", "evaluate",
    "interpolate", "recover", "correct", "decode", "weights", "weights_at_roots", "encode_poly", "decode_poly", "Error", "OutOfMemory",
    "OutOfRange", "WrongSize", "TooFew", "Mismatch", "WrongIndex", "Conflict", "Inconsistent", "EndOfBuffer", "InvalidVarint",
    "InvalidLength", "ExtraData", "Repeated", "TooMany", "WrongRoot",
]

#: The version of this package. ``version()`` is that of the library.
__version__ = "1.0.0"

#: P, the modulus of the field
MODULUS = 2**64 - 2**32 + 1


class _Array(Protocol):
    """An array of numpy."""

    @property
    def __array_interface__(self) -> dict[str, Any]: ...


class _Buffer(Protocol):
    """A buffer of any type, as newer Pythons say it."""

    def __buffer__(self, flags: int, /) -> memoryview: ...


#: Words that a call writes in place
Cells = Union["array[int]", memoryview, "ctypes.Array[ctypes.c_uint64]", _Array]
#: Words that a call only reads
Words = Union[Iterable[SupportsIndex], Cells]
Bytes = Union[bytes, bytearray, memoryview, "array[Any]", mmap, "ctypes.Array[Any]", _Array, _Buffer]
#: Whether each row is filled
Marks = Union[Iterable[SupportsIndex], Bytes]


class Error(Exception):
    """A call was refused, and wrote nothing. ``status`` is what the library answered, and ``numbers`` the part of the
    text that says which numbers are wrong.

    >>> import commonware_math
    >>> try:
    ...     commonware_math.eval([4, MODULUS], 5)
    ... except Error as error:
    ...     print(error.status, error)
    2 out of range: coefficient 1 is 18446744069414584321
    """

    status: int = 0

    def __init__(self, numbers: str = "") -> None:
        text = ctypes.create_string_buffer(32)
        _lib.cwm_status_text(self.status, text, len(text))
        self.numbers = numbers
        super().__init__(": ".join(filter(None, (text.value.decode(), numbers))))

    def __reduce__(self) -> tuple[type[Error], tuple[str]]:
        """A refusal crosses to another process: the text is made anew there."""
        return type(self), (self.numbers,)


class OutOfMemory(Error, MemoryError):
    """Memory ran out."""

    status = 1


class OutOfRange(Error, ValueError):
    """A word is ``MODULUS`` or more, a byte that says whether a row is filled is neither 0 nor 1, or the high half of a word of
    a systematic data shard is all ones under the mask."""

    status = 2


class WrongSize(Error, ValueError):
    """A number of words, rows or columns is none that the call takes."""

    status = 3


class TooFew(Error):
    """There are fewer than ``min`` shards, or fewer filled rows than coefficients."""

    status = 4


class Mismatch(Error, ValueError):
    """Not 1 <= ``min`` <= ``total``, or shards of different lengths."""

    status = 5


class WrongIndex(Error, ValueError):
    """An index is not below the total, or, for weights, not above the one before it."""

    status = 6


class Conflict(Error):
    """Two shards have one index and unequal words. The keys of a mapping differ, but two of them may be one number: such
    as objects with ``__index__`` that do not say that they are equal."""

    status = 7


class Inconsistent(Error):
    """Nothing fits: the shards are those of no data, or no polynomial is near the values."""

    status = 8


class EndOfBuffer(Error, ValueError):
    """The bytes end within a polynomial."""

    status = 9


class InvalidVarint(Error, ValueError):
    """The bytes begin with no length."""

    status = 10


class InvalidLength(Error, ValueError):
    """The length is zero."""

    status = 11


class ExtraData(Error, ValueError):
    """Bytes follow the polynomial."""

    status = 12


class Repeated(Error, ValueError):
    """A point is there twice."""

    status = 13


class TooMany(Error, ValueError):
    """A block with a root has more than 65,536 shards."""

    status = 14


class WrongRoot(Error):
    """The data of the shards under a root have another root."""

    status = 15


_ERRORS = {error.status: error for error in Error.__subclasses__()}
_Numbers = dict[type[Error], Callable[[], str]]


def _done(status: int, numbers: _Numbers) -> None:
    """Raises the refusal, if the call was refused, with its numbers."""
    if status in _ERRORS:
        error = _ERRORS[status]
        raise error(numbers[error]() if error in numbers else "")
    if status:
        raise RuntimeError(f"the library answers {status}, which is no status of version {_library.MAJOR}.0")


def _large(*named: tuple[str, Any, int]) -> str:
    """The first word that is no element: of lists of words, each with its name and length."""
    for name, at, count in named:
        for begin in range(0, count, 4096):
            for i, word in enumerate(at[begin : builtins.min(count, begin + 4096)], begin):
                if word >= MODULUS:
                    return f"{name} {i} is {word}"
    return ""


def _indices(values: Iterable[SupportsIndex]) -> tuple[Any, int]:
    numbers = [_number(value, 32) for value in values]
    return (ctypes.c_uint32 * max(1, len(numbers)))(*numbers), len(numbers)


class _Shards:
    """What a call is handed: the indices of the shards and how many they are, and their bytes, one behind the other."""

    def __init__(self, shards: Any, min: SupportsIndex, total: SupportsIndex) -> None:
        self.min, self.total = _number(min, 32), _number(total, 32)
        pairs = self._pairs(shards)
        self.indices, self.count = _indices(index for index, _ in pairs)
        rows = [_library.row_of_bytes(shard) for _, shard in pairs]
        sizes = [row.nbytes for row in rows]
        for index, size in zip(self.indices, sizes):
            if size != sizes[0]:
                raise Mismatch(f"shard {self.indices[0]} has {sizes[0]} bytes, and shard {index} has {size}")
        self.size = sizes[0] if sizes else 0
        self.bytes = b"".join(rows)
        self.at, self.length = _library.read_bytes(self.bytes)
        # No more come back.
        self.room = builtins.min(self.min, self.count) * self.size

    @staticmethod
    def _pairs(shards: Any) -> list[tuple[int, Bytes]]:
        """The shards, each beside its index."""
        if not isinstance(shards, abc.Mapping):
            raise TypeError(
                "shards are a mapping, each under its index, such as {0: .., 2: ..}, or dict(enumerate(shards)) for all of "
                f"them in their order: not a {type(shards).__name__}"
            )
        return list(shards.items())

    def numbers(self) -> _Numbers:
        of_split = f"min {self.min}, total {self.total}"
        return {
            OutOfRange: self._large,
            WrongSize: lambda: f"shards of {self.size} bytes, which 8 does not divide" if self.size % 8 else "",
            TooFew: lambda: f"{self._settled()} of {self.min} shards",
            Mismatch: lambda: of_split,
            WrongIndex: lambda: f"index {max(self.indices[: self.count])}, total {self.total}",
            Conflict: lambda: f"index {[index for index, rows in self._rows().items() if len(rows) > 1][0]}",
            Inconsistent: lambda: f"{self._settled()} shards, {of_split}",
        }

    def _rows(self) -> dict[int, set[bytes]]:
        """The different shards of each index."""
        rows: dict[int, set[bytes]] = {}
        for i, index in enumerate(self.indices[: self.count]):
            rows.setdefault(index, set()).add(self.bytes[i * self.size : (i + 1) * self.size])
        return rows

    def _settled(self) -> int:
        """How many indices have a shard, and no two different ones."""
        return sum(len(rows) == 1 for rows in self._rows().values())

    def _large(self) -> str:
        """The first word of a shard that is no element."""
        words = array("Q", self.bytes[: self.length // 8 * 8])
        if sys.byteorder == "little":
            words.byteswap()
        cols = self.size // 8
        for i in range(self.count):
            found = _large(("word", words[i * cols : (i + 1) * cols], cols))
            if found:
                return f"{found} in shard {self.indices[i]}"
        return ""


class _Cells:
    """Cells that a call writes in place, how many they are, and how many a row has: as many as ``cols`` says, or as a row of the
    buffer itself."""

    def __init__(self, cells: Cells, cols: Optional[SupportsIndex]) -> None:
        self.at, self.count = _library.borrowed(cells)
        shape = _library.shape(cells)
        of_buffer = math.prod(shape[1:]) if len(shape) > 1 else None
        self.cols = _number(cols, 64) if cols is not None else 1 if of_buffer is None else of_buffer
        if of_buffer not in (None, self.cols):
            raise WrongSize(f"rows of {of_buffer}, and cols is {self.cols}")

    def numbers(self) -> _Numbers:
        return {
            OutOfRange: lambda: _large(("cell", self.at, self.count)),
            WrongSize: lambda: f"{self.count} cells in rows of {self.cols}",
        }


class _Rows(_Cells):
    """Cells, and a byte for each row, which says whether it is filled."""

    def __init__(self, cells: Cells, cols: Optional[SupportsIndex], filled: Marks) -> None:
        super().__init__(cells, cols)
        self.marks, self.rows = _marks(filled)

    def numbers(self) -> _Numbers:
        sizes = f"{self.count} cells in rows of {self.cols}, {self.rows} rows marked"
        return {OutOfRange: self._large, WrongSize: lambda: sizes}

    def filled(self) -> int:
        """How many rows are filled."""
        return sum(self.marks[: self.rows])

    def _large(self) -> str:
        """The first mark that is none, or the first cell of a filled row that is no element."""
        for i, mark in enumerate(self.marks[: self.rows]):
            if mark > 1:
                return f"mark {i} is {mark}"
        for i, mark in enumerate(self.marks[: self.rows]):
            for k in range(i * self.cols, (i + 1) * self.cols) if mark else ():
                if self.at[k] >= MODULUS:
                    return f"cell {k} is {self.at[k]}"
        return ""


def _marks(filled: Any) -> tuple[Any, int]:
    """One byte a row, copied: those of a buffer of bytes, or items that are true or false."""
    try:
        are_bytes = memoryview(filled).itemsize == 1
    except TypeError:
        are_bytes = False
    if are_bytes:
        return _library.read_bytes(memoryview(filled).tobytes())
    items = list(filled)
    if not all(item in (True, False) for item in items):
        raise TypeError("whether a row is filled is neither True nor False")
    return _library.read_bytes(bytes(bool(item) for item in items))


def _array(at: Any, count: int) -> "array[int]":
    found = array("Q")
    found.frombytes(memoryview(at).cast("B")[: 8 * count])
    return found


def version() -> tuple[int, int, int]:
    """Returns the version of the library: major, minor and patch.

    >>> version() >= (1, 0, 0)
    True
    """
    number: int = _lib.cwm_version()
    return number // 10000, number // 100 % 100, number % 100


def has_vectors() -> bool:
    """Returns whether the library computes eight words at a time, by vectors. Its answers are the same either way.

    >>> has_vectors() in (False, True)
    True
    """
    return bool(_lib.cwm_has_vectors())


def proved() -> dict[str, str]:
    """Returns which proved sources the library was made of, as the file beside it says: its ``version``; the ``commit`` and
    the ``date`` of the sources; the ``kit`` that proved them, with its logic; the ``levels`` of processor for which the
    library is there; and ``vectors``, those at which it computes with vectors, or ``none``. A package also has ``gate``: the
    last line of the gate of that commit, or ``not run``.

    Raises FileNotFoundError if there is no such file, as beside a library that ``./install`` did not install.

    >>> proved()["version"]
    '1.0.0'
    """
    return _library.proved()


def shard_size(length: SupportsIndex, min: SupportsIndex, total: SupportsIndex) -> int:
    """Returns how many bytes each of ``total`` shards of so many bytes has, of which any ``min`` give them back.

    >>> shard_size(1000, 4, 6)
    264
    """
    length, min, total = _number(length, 64), _number(min, 32), _number(total, 32)
    size = ctypes.c_size_t()
    _done(
        _lib.cwm_shard_bytes_sizes(length, min, total, ctypes.byref(size)),
        {Mismatch: lambda: f"min {min}, total {total}", WrongSize: lambda: f"{length} bytes, min {min}, total {total}"},
    )
    return size.value


def split(data: Bytes, min: SupportsIndex, total: SupportsIndex) -> list[bytes]:
    """Cuts the bytes into shards: ``total`` of one length, of which any ``min`` give the bytes back.

    Keep the index of each beside it, and ``min`` and ``total``. The shards hide nothing of the data. Cut large data
    into blocks of some 256 KiB and split each by itself: that is faster, and joins of them take little memory.

    >>> shards = split(b"0123456789", 2, 3)
    >>> [len(shard) for shard in shards]
    [24, 24, 24]
    """
    min, total = _number(min, 32), _number(total, 32)
    at, count = _library.read_bytes(data)
    size = shard_size(count, min, total)
    out = _library.bytes_of(total * size)
    _done(_lib.cwm_split_bytes(at, count, min, total, out, total * size), {})
    view = memoryview(out).cast("B")
    return [bytes(view[i * size : (i + 1) * size]) for i in range(total)]


def join(shards: Mapping[int, Bytes], min: SupportsIndex, total: SupportsIndex) -> bytes:
    """Returns the bytes that the shards, each under its index, give back: ``min`` of them or more.

    If there are more than ``min``, damage to one is sure to raise ``Inconsistent`` or ``OutOfRange``. If there are
    just ``min``, it may go unnoticed. Limit ``total`` before you join shards from someone you do not trust: the
    memory grows with it.

    >>> shards = split(b"0123456789", 2, 3)
    >>> join({2: shards[2], 0: shards[0]}, 2, 3)
    b'0123456789'
    >>> join({2: shards[2]}, 2, 3)
    Traceback (most recent call last):
    commonware_math.TooFew: too few: 1 of 2 shards
    """
    of = _Shards(shards, min, total)
    out, written = _library.bytes_of(of.room), ctypes.c_size_t()
    _done(
        _lib.cwm_join_bytes(
            of.indices, of.count, of.min, of.total, of.at, of.length, out, of.room, ctypes.byref(written)
        ),
        of.numbers(),
    )
    return bytes(memoryview(out).cast("B")[: written.value])


def join_corrected(
    shards: Mapping[int, Bytes], min: SupportsIndex, total: SupportsIndex
) -> tuple[bytes, list[int]]:
    """Does what ``join`` does though some of the shards are wrong: returns the bytes, and the indices of these shards.

    Of n shards at most (n - min) / 2 may be wrong. If no bytes are so near, it raises ``Inconsistent``.

    >>> shards = split(b"0123456789", 2, 4)
    >>> join_corrected({0: shards[0], 1: shards[1], 2: shards[0], 3: shards[3]}, 2, 4)
    (b'0123456789', [2])
    """
    of = _Shards(shards, min, total)
    out, written, many = _library.bytes_of(of.room), ctypes.c_size_t(), ctypes.c_size_t()
    wrong = (ctypes.c_size_t * builtins.max(1, of.count))()
    _done(
        _lib.cwm_join_bytes_corrected(
            of.indices, of.count, of.min, of.total, of.at, of.length, out, of.room, ctypes.byref(written), wrong,
            of.count, ctypes.byref(many),
        ),
        of.numbers(),
    )
    return bytes(memoryview(out).cast("B")[: written.value]), sorted(of.indices[i] for i in wrong[: many.value])


def evaluate(cells: Cells, cols: Optional[SupportsIndex] = None) -> None:
    """Puts the values at all points of a domain in place of the coefficients, in each column.

    Cell (i, k) is ``cells[i * cols + k]``. There are N rows, a power of two; row i holds coefficient i of each
    polynomial, and gets the values at point i, power i of the root of order N. A buffer that has rows of its own, such
    as an array of numpy with two dimensions, gives ``cols`` itself; of others it is 1, unless you say it.

    >>> cells = array("Q", [4, 6, 8, 0])
    >>> evaluate(cells)
    >>> cells[0] == 4 + 6 + 8
    True
    """
    of = _Cells(cells, cols)
    _done(_lib.cwm_evaluate(of.at, of.count, of.cols), of.numbers())


def interpolate(cells: Cells, cols: Optional[SupportsIndex] = None) -> None:
    """Goes the way back from ``evaluate``: puts the coefficients in place of the values, in each column.

    >>> cells = array("Q", [4, 6, 8, 0])
    >>> evaluate(cells)
    >>> interpolate(cells)
    >>> list(cells)
    [4, 6, 8, 0]
    """
    of = _Cells(cells, cols)
    _done(_lib.cwm_interpolate(of.at, of.count, of.cols), of.numbers())


def recover(cells: Cells, filled: Marks, cols: Optional[SupportsIndex] = None) -> None:
    """Puts the coefficients in place of the values of the rows that are filled; the other rows may hold anything.

    ``filled`` has one item a row. Polynomials of at most m coefficients come back from any m rows.

    >>> cells = array("Q", [4, 6, 0, 0])
    >>> evaluate(cells)
    >>> cells[0] = cells[3] = 0
    >>> recover(cells, [False, True, True, False])
    >>> list(cells)
    [4, 6, 0, 0]
    """
    of = _Rows(cells, cols, filled)
    _done(_lib.cwm_recover(of.at, of.count, of.cols, of.marks, of.rows), of.numbers())


def correct(
    cells: Cells, filled: Marks, count: SupportsIndex, cols: Optional[SupportsIndex] = None
) -> list[int]:
    """Does what ``recover`` does though some of the filled rows are wrong, and returns which, by rising number.

    The polynomials have at most ``count`` coefficients; of m filled rows at most (m - count) / 2 may be wrong. If no
    polynomials are so near, it raises ``Inconsistent``.

    >>> cells = array("Q", [4, 6, 0, 0])
    >>> evaluate(cells)
    >>> cells[2] += 1
    >>> correct(cells, [True] * 4, 2), list(cells)
    ([2], [4, 6, 0, 0])
    """
    of, count = _Rows(cells, cols, filled), _number(count, 64)
    room = of.rows // 2
    wrong, written = (ctypes.c_size_t * builtins.max(1, room))(), ctypes.c_size_t()
    _done(
        _lib.cwm_correct(
            of.at, of.count, of.cols, of.marks, of.rows, count, wrong, room, ctypes.byref(written)
        ),
        {
            **of.numbers(),
            TooFew: lambda: f"{of.filled()} of {count} filled rows",
            Inconsistent: lambda: f"{of.filled()} filled rows, {count} coefficients",
        },
    )
    return list(wrong[: written.value])


@overload
def eval(coefficients: Words, x: Iterable[SupportsIndex]) -> list[int]: ...
@overload
def eval(coefficients: Words, x: SupportsIndex) -> int: ...
def eval(coefficients: Words, x: Union[SupportsIndex, Iterable[SupportsIndex]]) -> Union[int, list[int]]:
    """Returns the value at x of the polynomial with these coefficients, from the constant upwards. If x is several points,
    returns the list of the values there. For all points of a domain ``evaluate`` is faster.

    >>> import commonware_math
    >>> commonware_math.eval([4, 6, 8], 5)
    234
    >>> commonware_math.eval([4, 6, 8], [0, 1, 5])
    [4, 18, 234]
    """
    at, count = _library.read(coefficients)
    points, several = _library.one_or_more(x)
    values, value = [], ctypes.c_uint64()
    for i, point in enumerate(points):
        _done(
            _lib.cwm_eval(at, count, point, ctypes.byref(value)),
            {
                OutOfRange: lambda: _large(("coefficient", at, count))
                or (f"point {i} is {point}" if several else f"x is {point}"),
                WrongSize: lambda: f"{count} coefficients",
            },
        )
        values.append(value.value)
    return values if several else values[0]


def decode(points: Words, values: Words, count: SupportsIndex) -> tuple["array[int]", list[int]]:
    """Finds the only polynomial of ``count`` coefficients that has all n values but at most (n - count) / 2.

    Returns its coefficients, and the places of the wrong values.

    >>> coefficients, wrong = decode([1, 2, 3, 4], [3, 5, 8, 9], 2)
    >>> list(coefficients), wrong
    ([1, 2], [2])
    """
    points_at, n = _library.read(points)
    values_at, m = _library.read(values)
    wanted = _number(count, 64)
    # One too many is refused as more are.
    k = builtins.min(wanted, n + 1)
    room = builtins.max(0, n - k) // 2
    found = _library.words(k)
    wrong, written = (ctypes.c_size_t * builtins.max(1, room))(), ctypes.c_size_t()

    def twice() -> str:
        """The first point that was there before."""
        seen: dict[int, int] = {}
        for i, point in enumerate(points_at[:n]):
            if seen.setdefault(point, i) != i:
                return f"points {seen[point]} and {i} are {point}"
        return ""

    _done(
        _lib.cwm_decode(points_at, n, values_at, m, found, k, wrong, room, ctypes.byref(written)),
        {
            OutOfRange: lambda: _large(("point", points_at, n), ("value", values_at, m)),
            WrongSize: lambda: f"{n} points, {m} values, {wanted} coefficients",
            Inconsistent: lambda: f"{n} values, {wanted} coefficients",
            Repeated: twice,
        },
    )
    return _array(found, k), list(wrong[: written.value])


def weights(points: Words, x: SupportsIndex) -> "array[int]":
    """Returns a weight for each of n points: the values at the points, each times its weight, add up to the value at x,
    for every polynomial of at most n coefficients.

    >>> list(weights([1, 2], 3)) == [MODULUS - 1, 2]
    True
    """
    at, count = _library.read(points)
    found, x = _library.words(count), _number(x, 64)
    _done(
        _lib.cwm_weights(at, count, x, found, count),
        {OutOfRange: lambda: _large(("point", at, count)) or f"x is {x}"},
    )
    return _array(found, count)


def weights_at_roots(total: SupportsIndex, indices: Iterable[SupportsIndex], x: SupportsIndex) -> "array[int]":
    """Returns the same weights for the points of a domain that have these indices, which rise and are below ``total``.
    The domain has ``total`` points, rounded up to a power of two.

    >>> list(weights_at_roots(2, [0, 1], 1))
    [1, 0]
    """
    at, count = _indices(indices)
    found, total, x = _library.words(count), _number(total, 32), _number(x, 64)

    def wrong() -> str:
        """The first index that is too large, or does not rise."""
        for i in range(count):
            if at[i] >= total:
                return f"index {at[i]}, total {total}"
            if i and at[i] <= at[i - 1]:
                return f"index {at[i]} after {at[i - 1]}"
        return ""

    _done(
        _lib.cwm_weights_at_roots(total, at, count, x, found, count),
        {WrongIndex: wrong, WrongSize: lambda: f"total {total}", OutOfRange: lambda: f"x is {x}"},
    )
    return _array(found, count)


def encode_poly(coefficients: Words) -> bytes:
    """Returns the encoding of the polynomial: how many coefficients, then each as 8 bytes, highest first.

    >>> encode_poly([4, 6]).hex()
    '0200000000000000040000000000000006'
    """
    at, count = _library.read(coefficients)
    out, written = _library.bytes_of(8 * count + 5), ctypes.c_size_t()
    _done(
        _lib.cwm_encode_poly(at, count, out, 8 * count + 5, ctypes.byref(written)),
        {OutOfRange: lambda: _large(("coefficient", at, count)), WrongSize: lambda: f"{count} coefficients"},
    )
    return bytes(out[: written.value])


def decode_poly(encoded: Bytes) -> "array[int]":
    """Returns the coefficients of the polynomial that the bytes encode. Bytes behind it raise ``ExtraData``.

    >>> list(decode_poly(encode_poly([4, 6])))
    [4, 6]
    """
    at, count = _library.read_bytes(encoded)
    found, written = _library.words(count // 8), ctypes.c_size_t()

    def length() -> tuple[int, int]:
        """How many coefficients there are, and where the first of them begins."""
        number = place = 0
        while place < count:
            number |= (at[place] & 127) << 7 * place
            place += 1
            if at[place - 1] < 128:
                break
        return number, place

    def large() -> str:
        number, begin = length()
        words = [int.from_bytes(bytes(at[begin + 8 * i : begin + 8 * i + 8]), "big") for i in range(number)]
        return _large(("coefficient", words, number))

    def behind() -> str:
        number, begin = length()
        return f"{count} bytes, and {number} coefficients take {begin + 8 * number}"

    _done(
        _lib.cwm_decode_poly(at, count, found, count // 8, ctypes.byref(written)),
        {EndOfBuffer: lambda: f"{count} bytes", OutOfRange: large, ExtraData: behind},
    )
    return _array(found, written.value)


# Last, since it stands on what is above.
from . import roots, systematic  # noqa: E402
