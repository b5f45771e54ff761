"""Systematic shards: the first ``min`` hold the data byte for byte, parity shards follow, and any ``min`` give all others back.

>>> data = b"any three of five shards give these bytes back"
>>> shards, mask = encode(data, 3, 5)
>>> shards[0]
b'any three of fiv'
>>> shards[1:2] == rebuild({0: shards[0], 2: shards[2], 4: shards[4]}, [1], len(data), 3, 5, mask)
True
>>> decode({3: shards[3], 1: shards[1], 4: shards[4]}, len(data), 3, 5, mask)
b'any three of five shards give these bytes back'

As long as no data shard is lost, the data are read without this package: they are the data shards one behind the other, up to the
length of the data. So take these calls for bytes that are mostly read whole. Take ``split`` and ``join`` of ``commonware_math``
where the data are to be packed into elements as the Rust crate packs words. A data shard is a piece of the data as it is: it
hides nothing at all.

Keep beside each shard its index, and for each block how many bytes it has, ``min``, ``total`` and the mask. ``encode`` answers
the mask, which is nearly always 0. Nothing is signed: keep a hash of the data too, since among just ``min`` shards damage goes
unnoticed. Cut large data into blocks of some 256 KiB, and encode each by itself.

From zfec: ``zfec.easyfec.Encoder(k, m).encode(data)`` becomes ``encode(data, k, m)``, and ``decode(blocks, sharenums, padlen)`` of
a ``zfec.easyfec.Decoder(k, m)`` becomes ``decode(zip(sharenums, blocks), size, k, m, mask)``. From reedsolo: what a byte of a
codeword is there is a whole shard here, so ``RSCodec(n - k)`` over k bytes becomes ``encode(data, k, n)``, and what stood at
``erase_pos`` is left out of the shards. Shards of these packages are none of this one.
"""

from __future__ import annotations

import ctypes
import sys
from array import array
from collections import abc
from typing import Any, Iterable, Mapping, SupportsIndex, Union

from . import MODULUS, Bytes, Inconsistent, Mismatch, WrongIndex, WrongSize, _done, _indices, _library, _Numbers, _Shards
from ._library import library as _lib, number as _number

__all__ = ["shard_size", "data_size", "encode", "rebuild", "rebuild_corrected", "decode", "verify"]

#: Shards, each under its index, or pairs of an index and a shard
Shards = Union[Mapping[int, Bytes], Iterable[tuple[SupportsIndex, Bytes]]]


def _sizes(size: int, min: int, total: int, index: int) -> tuple[int, int]:
    """How many bytes a shard has, and how many of those of this index are data."""
    row, data = ctypes.c_size_t(), ctypes.c_size_t()
    _done(
        _lib.cwm_systematic_sizes(size, min, total, index, ctypes.byref(row), ctypes.byref(data)),
        {
            Mismatch: lambda: f"min {min}, total {total}",
            WrongSize: lambda: f"{size} bytes, min {min}, total {total}",
            WrongIndex: lambda: f"index {index}, total {total}",
        },
    )
    return row.value, data.value


def _cut(at: Any, size: int, count: int) -> list[bytes]:
    """The bytes in so many shards of one size."""
    view = memoryview(at).cast("B")
    return [bytes(view[i * size : (i + 1) * size]) for i in range(count)]


class _Held(_Shards):
    """What a call is handed: shards, and how the block was encoded whose shards they are."""

    def __init__(
        self, shards: Shards, size: SupportsIndex, min: SupportsIndex, total: SupportsIndex, mask: SupportsIndex
    ) -> None:
        super().__init__(shards, min, total)
        self.data, self.mask = _number(size, 64), _number(mask, 32)
        self.row, _ = _sizes(self.data, self.min, self.total, 0)
        if self.count and self.size != self.row:
            raise WrongSize(f"shards of {self.size} bytes, and those of {self.data} bytes, min {self.min}, have {self.row}")

    @staticmethod
    def _pairs(shards: Any) -> list[tuple[int, Bytes]]:
        """The shards, each beside its index."""
        pairs = list(shards.items() if isinstance(shards, abc.Mapping) else shards)
        if not all(isinstance(pair, tuple) and len(pair) == 2 for pair in pairs):
            raise TypeError(
                "shards are a mapping, each under its index, or pairs of an index and a shard, such as enumerate(shards) for "
                "all of them in their order"
            )
        return pairs

    def handed(self) -> tuple[Any, ...]:
        """The shards, as each call takes them."""
        return self.indices, self.count, self.at, self.length

    def numbers(self, wanted: Iterable[int] = ()) -> _Numbers:
        said = f"{self.data} bytes, min {self.min}, total {self.total}, mask {self.mask}"
        indices = [*self.indices[: self.count], *wanted]
        return {
            **super().numbers(),
            WrongIndex: lambda: f"index {[i for i in indices if i >= self.total][0]}, total {self.total}",
            Inconsistent: lambda: f"{self._settled()} shards, {said}",
        }

    def _words(self, shard: bytes) -> "array[int]":
        words = array("Q", shard)
        if sys.byteorder == "big":
            words.byteswap()
        return words

    def _is_element(self, index: int, word: int) -> bool:
        """Whether the word may stand in the shard of this index: in a parity shard it is below P, and in a data shard its high
        half is not all ones under the mask."""
        return word < MODULUS if index >= self.min else word >> 32 ^ self.mask != 2**32 - 1

    def _settled(self) -> int:
        """How many indices have one shard, however often, besides those with a word that may not stand there."""
        sound = [
            [row for row in rows if all(self._is_element(index, word) for word in self._words(row))]
            for index, rows in self._rows().items()
        ]
        return sum(len(rows) == 1 for rows in sound)

    def _large(self) -> str:
        """The first word that may not stand where it stands."""
        for i, index in enumerate(self.indices[: self.count]):
            for k, word in enumerate(self._words(self.bytes[i * self.size : (i + 1) * self.size])):
                if not self._is_element(index, word):
                    under = f" under the mask {self.mask}" if index < self.min else ""
                    return f"word {k} is {word} in shard {index}{under}"
        return ""


def shard_size(size: SupportsIndex, min: SupportsIndex, total: SupportsIndex) -> int:
    """Returns how many bytes each of ``total`` shards of so many bytes of data has: a multiple of 8.

    >>> shard_size(1000, 10, 16)
    104
    """
    return _sizes(_number(size, 64), _number(min, 32), _number(total, 32), 0)[0]


def data_size(size: SupportsIndex, min: SupportsIndex, total: SupportsIndex, index: SupportsIndex) -> int:
    """Returns how many bytes of the shard of this index are data. Zeros fill the others of a data shard.

    >>> [data_size(1000, 10, 16, i) for i in (0, 8, 9, 10)]
    [104, 104, 64, 0]
    """
    return _sizes(_number(size, 64), _number(min, 32), _number(total, 32), _number(index, 32))[1]


def encode(data: Bytes, min: SupportsIndex, total: SupportsIndex) -> tuple[list[bytes], int]:
    """Cuts the bytes into ``min`` data shards, adds parity shards, and returns all ``total`` shards, and the mask.

    The data shards are the bytes as they are, with zeros behind the last one. Any ``min`` of the shards give all others back.

    >>> shards, mask = encode(b"0123456789", 2, 3)
    >>> shards[:2], len(shards[2]), mask
    ([b'01234567', b'89\\x00\\x00\\x00\\x00\\x00\\x00'], 8, 0)
    """
    min, total = _number(min, 32), _number(total, 32)
    at, count = _library.read_bytes(data)
    row = shard_size(count, min, total)
    room, mask = (total - min) * row, ctypes.c_uint32()
    parity = _library.bytes_of(room)
    _done(_lib.cwm_systematic_encode(at, count, min, total, parity, room, ctypes.byref(mask)), {})
    view = memoryview(at).cast("B")[:count]
    shards = [bytes(view[i * row : (i + 1) * row]).ljust(row, b"\0") for i in range(min)]
    return shards + _cut(parity, row, total - min), mask.value


def rebuild(
    shards: Shards,
    wanted: Iterable[SupportsIndex],
    size: SupportsIndex,
    min: SupportsIndex,
    total: SupportsIndex,
    mask: SupportsIndex,
) -> list[bytes]:
    """Returns the shards of the wanted indices, in their order, from ``min`` shards or more, data shards or parity shards.

    If there are more than ``min``, damage to one is sure to raise ``Inconsistent`` or ``OutOfRange``. If there are just ``min``,
    it may go unnoticed.

    >>> shards, mask = encode(b"0123456789", 2, 3)
    >>> rebuild({1: shards[1], 2: shards[2]}, [0], 10, 2, 3, mask)
    [b'01234567']
    >>> rebuild({1: shards[1]}, [0], 10, 2, 3, mask)
    Traceback (most recent call last):
    commonware_math.TooFew: too few: 1 of 2 shards
    """
    of, (indices, count) = _Held(shards, size, min, total, mask), _indices(wanted)
    out = _library.bytes_of(count * of.row)
    _done(
        _lib.cwm_systematic_rebuild(
            *of.handed(), of.data, of.min, of.total, of.mask, indices, count, out, count * of.row
        ),
        of.numbers(indices[:count]),
    )
    return _cut(out, of.row, count)


def rebuild_corrected(
    shards: Shards,
    wanted: Iterable[SupportsIndex],
    size: SupportsIndex,
    min: SupportsIndex,
    total: SupportsIndex,
    mask: SupportsIndex,
) -> tuple[list[bytes], list[int]]:
    """Does what ``rebuild`` does though some of the shards are wrong: returns the wanted shards, and the indices of the wrong ones.

    A shard with a word that may not stand there counts as missing, and so does an index whose other shards differ. Of m indices
    that remain at most (m - min) / 2 may have a wrong shard. If no data are so near, it raises ``Inconsistent``.

    >>> shards, mask = encode(b"0123456789", 2, 4)
    >>> wrong = {0: shards[0], 1: shards[0], 2: shards[2], 3: shards[3]}
    >>> rebuild_corrected(wrong, [1], 10, 2, 4, mask) == ([shards[1]], [1])
    True
    """
    of, (indices, count) = _Held(shards, size, min, total, mask), _indices(wanted)
    out, many = _library.bytes_of(count * of.row), ctypes.c_size_t()
    left_out = (ctypes.c_size_t * (of.count or 1))()
    _done(
        _lib.cwm_systematic_rebuild_corrected(
            *of.handed(), of.data, of.min, of.total, of.mask, indices, count, out, count * of.row, left_out, of.count,
            ctypes.byref(many),
        ),
        of.numbers(indices[:count]),
    )
    return _cut(out, of.row, count), sorted(of.indices[i] for i in left_out[: many.value])


def decode(
    shards: Shards, size: SupportsIndex, min: SupportsIndex, total: SupportsIndex, mask: SupportsIndex
) -> bytes:
    """Returns the data from ``min`` shards or more. Data shards that are there are copied.

    It refuses as ``rebuild`` does, and raises ``Inconsistent`` too if a byte past the end of the data is not zero.

    >>> shards, mask = encode(b"0123456789", 2, 3)
    >>> decode({2: shards[2], 0: shards[0]}, 10, 2, 3, mask)
    b'0123456789'
    """
    of = _Held(shards, size, min, total, mask)
    data = _library.bytes_of(of.data)
    _done(_lib.cwm_systematic_decode(*of.handed(), of.min, of.total, of.mask, data, of.data), of.numbers())
    return bytes(memoryview(data).cast("B")[: of.data])


def verify(
    shards: Shards, size: SupportsIndex, min: SupportsIndex, total: SupportsIndex, mask: SupportsIndex
) -> bool:
    """Returns whether the shards, ``min`` or more, are shards of the same data.

    Just ``min`` shards always are, of some data. It refuses as ``rebuild`` does, but for ``Conflict`` and ``Inconsistent``.

    >>> shards, mask = encode(b"0123456789", 2, 3)
    >>> verify(enumerate(shards), 10, 2, 3, mask)
    True
    >>> verify({0: shards[0], 1: shards[1], 2: shards[0]}, 10, 2, 3, mask)
    False
    """
    of, belong = _Held(shards, size, min, total, mask), ctypes.c_uint32()
    _done(
        _lib.cwm_systematic_verify(*of.handed(), of.data, of.min, of.total, of.mask, ctypes.byref(belong)), of.numbers()
    )
    return belong.value == 1
