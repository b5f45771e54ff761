"""Roots of systematic shards: 32 bytes that bind the data, and with them each shard is checked alone, whoever hands it in.

>>> data = b"any three of five shards give these bytes back"
>>> shards, mask, root, paths = commit(data, 3, 5)
>>> len(root), len(str(root))
(32, 64)
>>> is_under(root, shards[4], paths[4], 4, len(data), 3, 5, mask)
True
>>> handed = [(i, mask, shards[i], paths[i]) for i in (0, 2, 3, 4)] + [(1, mask, shards[0], paths[1])]
>>> join_under(root, handed, len(data), 3, 5)
(b'any three of five shards give these bytes back', [4])

The shards and the mask are those of ``systematic.encode``. The root depends on the data, ``min`` and ``total`` alone. Give each
holder of a shard its index, the mask and its path with it, and keep the root where nobody else can change it. If an honest
``commit`` made it, ``join_under`` gives the data that were committed to, or two different messages that were hashed have the same
digest. Someone who makes a root himself can make it of shards of no data: ``strict=True`` refuses these. A root hides nothing.

The record of a shard is the size of the data, its index, ``min``, ``total`` and the mask, eight bytes each, the highest first, and
then the shard. A leaf is the SHA-512/256 of a byte of 0 and the record, a node above two others that of a byte of 1 and their
digests, and a last node without a neighbour goes up as it is. A path is the digests of the neighbours on the way up, from below.
"""

from __future__ import annotations

import ctypes
from typing import Any, Iterable, SupportsIndex, Union

from . import Bytes, TooMany, TooFew, WrongIndex, _done, _library
from ._library import library as _lib, number as _number
from .systematic import _cut, _sizes

__all__ = ["Commitment", "path_size", "commit", "is_under", "join_under"]

#: How many bytes a digest has
DIGEST = 32

#: A shard as it is handed in: its index, its mask, its bytes and its path
Shown = tuple[SupportsIndex, SupportsIndex, Bytes, Bytes]


class Commitment(bytes):
    """A root: 32 bytes. It is made of these or of 64 hexadecimal digits, which ``str`` gives.

    >>> str(Commitment(bytes(31) + b"\\x07"))[-4:]
    '0007'
    >>> Commitment("07" * 32) == Commitment(b"\\x07" * 32)
    True
    """

    def __new__(cls, root: Union[str, Bytes]) -> "Commitment":
        made = super().__new__(cls, bytes.fromhex(root) if isinstance(root, str) else bytes(_library.row_of_bytes(root)))
        if len(made) != DIGEST:
            raise ValueError(f"a root has {DIGEST} bytes, and not {len(made)}")
        return made

    def __str__(self) -> str:
        return self.hex()

    def __repr__(self) -> str:
        return f"Commitment('{self}')"


def _path_sizes(total: int, index: int) -> tuple[int, int]:
    """How many digests the path of the shard of this index has, and how many the longest."""
    steps, room = ctypes.c_size_t(), ctypes.c_size_t()
    _done(
        _lib.cwm_path_sizes(total, index, ctypes.byref(steps), ctypes.byref(room)),
        {WrongIndex: lambda: f"index {index}, total {total}"},
    )
    return steps.value, room.value


def path_size(total: SupportsIndex, index: SupportsIndex) -> int:
    """Returns how many bytes the path of the shard of this index has.

    >>> [path_size(5, i) for i in range(5)]
    [96, 96, 96, 96, 32]
    """
    return DIGEST * _path_sizes(_number(total, 32), _number(index, 32))[0]


def _bytes(value: Bytes) -> bytes:
    return value if isinstance(value, bytes) else _library.row_of_bytes(value).tobytes()


def commit(data: Bytes, min: SupportsIndex, total: SupportsIndex) -> tuple[list[bytes], int, Commitment, list[bytes]]:
    """Returns all ``total`` shards and the mask, as ``systematic.encode`` does, the root, and the path of each shard.

    If ``total`` is more than 65,536, it raises ``TooMany``.
    """
    min, total = _number(min, 32), _number(total, 32)
    at, count = _library.read_bytes(data)
    row, _ = _sizes(count, min, total, 0)
    if total > 65536:
        raise TooMany(f"total {total}")
    _, room = _path_sizes(total, 0)
    length, places, mask = (total - min) * row, total * room, ctypes.c_uint32()
    parity, root, paths = _library.bytes_of(length), _library.bytes_of(DIGEST), _library.bytes_of(places * DIGEST)
    _done(_lib.cwm_commit(at, count, min, total, parity, length, ctypes.byref(mask), root, paths, places), {})
    view = memoryview(at).cast("B")[:count]
    shards = [bytes(view[i * row : (i + 1) * row]).ljust(row, b"\0") for i in range(min)] + _cut(parity, row, total - min)
    found = _cut(paths, room * DIGEST, total)
    return shards, mask.value, Commitment(root), [found[i][: path_size(total, i)] for i in range(total)]


def is_under(
    root: Union[str, Bytes],
    shard: Bytes,
    path: Bytes,
    index: SupportsIndex,
    size: SupportsIndex,
    min: SupportsIndex,
    total: SupportsIndex,
    mask: SupportsIndex,
) -> bool:
    """Returns whether these bytes are under the root as the shard of this index and this mask, by the path.

    A shard or a path of another length is not.
    """
    top, row, steps = Commitment(root), _bytes(shard), _bytes(path)
    size, min, total = _number(size, 64), _number(min, 32), _number(total, 32)
    index, mask, under = _number(index, 32), _number(mask, 32), ctypes.c_uint32()
    if len(row) != _sizes(size, min, total, 0)[0] or len(steps) % DIGEST:
        return False
    _done(
        _lib.cwm_shard_is_under(
            bytes(top), row, len(row), size, min, total, mask, index, steps, len(steps) // DIGEST, ctypes.byref(under)
        ),
        {},
    )
    return under.value == 1


def join_under(
    root: Union[str, Bytes],
    shards: Iterable[Shown],
    size: SupportsIndex,
    min: SupportsIndex,
    total: SupportsIndex,
    strict: bool = False,
) -> tuple[bytes, list[int]]:
    """Returns the data that the shards under the root give back, and the positions of the others.

    Each shard is its index, its mask, its bytes and its path, and its position is its place among them. Shards under the root with
    different masks raise ``Inconsistent``, too few ``TooFew``, and what is no shard of any data as ``systematic.decode`` does. If
    ``strict`` is true, the data have this root, or it raises ``WrongRoot``.
    """
    top = Commitment(root)
    size, min, total = _number(size, 64), _number(min, 32), _number(total, 32)
    row, _ = _sizes(size, min, total, 0)
    _, room = _path_sizes(total, 0)
    given = [(_number(i, 32), _number(mask, 32), _bytes(shard), _bytes(path)) for i, mask, shard, path in shards]
    # what has another length than a shard or a path is not under the root
    fits = [t for t, (i, _, shard, path) in enumerate(given) if i < total and len(shard) == row and len(path) == path_size(total, i)]
    k = len(fits)
    indices = (ctypes.c_uint32 * (k or 1))(*(given[t][0] for t in fits))
    masks = (ctypes.c_uint32 * (k or 1))(*(given[t][1] for t in fits))
    rows = b"".join(given[t][2] for t in fits)
    paths = b"".join(given[t][3].ljust(room * DIGEST, b"\0") for t in fits)
    data, left_out, many = _library.bytes_of(size), (ctypes.c_size_t * (k or 1))(), ctypes.c_size_t()
    _done(
        _lib.cwm_join_under(
            bytes(top), indices, k, masks, k, rows, k * row, paths, k * room, min, total, bool(strict), data, size, left_out, k,
            ctypes.byref(many),
        ),
        {TooFew: lambda: f"of {len(given)} shards, {min} wanted", TooMany: lambda: f"total {total}"},
    )
    wrong = {fits[i] for i in left_out[: many.value]} | (set(range(len(given))) - set(fits))
    return bytes(memoryview(data).cast("B")[:size]), sorted(wrong)
