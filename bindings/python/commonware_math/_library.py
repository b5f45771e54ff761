"""The shared library, found and declared, and memory handed to it.

The declarations are those of ``commonware_math.h``. A call through ctypes lets other threads run, and the library
shares nothing between calls.
"""

from __future__ import annotations

import ctypes
import operator
import os
import re
import subprocess
import sys
from pathlib import Path
from typing import Any, Iterable, Iterator, Optional

MAJOR = 1
NAME = f"libcommonware_math.so.{MAJOR}"
# Of a package that has the library in it, as the wheel does, the folder is laid out as a prefix.
OWN = Path(__file__).resolve().parent / "lib"


def _levels() -> list[str]:
    """The levels of processor that this one has, by the system's loader, the highest first."""
    try:
        said = subprocess.run(["/lib64/ld-linux-x86-64.so.2", "--help"], capture_output=True, text=True, check=False)
    except OSError:
        return []
    return re.findall(r"^ *(x86-64-v\d) \(supported", said.stdout, re.MULTILINE)


def _in_folder(folder: Path) -> Iterator[str]:
    """The library in the folder: the one for the highest level of this processor, where it has one, and that for all."""
    if (folder / "glibc-hwcaps").is_dir():
        for level in _levels():
            path = folder / "glibc-hwcaps" / level / NAME
            if path.exists():
                yield str(path)
    yield str(folder / NAME)


def _by_pkg_config() -> Iterator[str]:
    """The folder that pkg-config names, where both are there."""
    try:
        said = subprocess.run(
            ["pkg-config", "--variable=libdir", "commonware_math"], capture_output=True, text=True, check=False
        )
    except OSError:
        return
    if said.returncode == 0 and said.stdout.strip():
        yield from _in_folder(Path(said.stdout.strip()))


def _candidates() -> Iterator[str]:
    """Where the library may be: what COMMONWARE_MATH_LIB names, or the package's own, and nothing else; or the places of an
    installation."""
    named = os.environ.get("COMMONWARE_MATH_LIB")
    if named:
        path = Path(named)
        yield from _in_folder(path) if path.is_dir() else [str(path)]
        return
    if OWN.is_dir():
        yield from _in_folder(OWN)
        return
    yield NAME
    yield from _by_pkg_config()
    for prefix in (Path(sys.prefix), Path("/usr/local"), Path.home() / ".local"):
        yield from _in_folder(prefix / "lib")


def _load() -> ctypes.CDLL:
    tried = []
    for candidate in _candidates():
        try:
            return ctypes.CDLL(candidate)
        except OSError as error:
            tried.append(str(error))
    raise ImportError(
        "commonware_math: no library: the wheel of this package has it in it, ./install of the repository installs it, and "
        "COMMONWARE_MATH_LIB may name it: " + "; ".join(tried)
    )


_size, _u32, _u64, _at = ctypes.c_size_t, ctypes.c_uint32, ctypes.c_uint64, ctypes.c_void_p
_SIGNATURES = {
    "cwm_version": [],
    "cwm_has_vectors": [],
    "cwm_status_text": [_u32, _at, _size],
    "cwm_eval": [_at, _size, _u64, _at],
    "cwm_evaluate": [_at, _size, _size],
    "cwm_interpolate": [_at, _size, _size],
    "cwm_recover": [_at, _size, _size, _at, _size],
    "cwm_correct": [_at, _size, _size, _at, _size, _size, _at, _size, _at],
    "cwm_decode": [_at, _size, _at, _size, _at, _size, _at, _size, _at],
    "cwm_weights": [_at, _size, _u64, _at, _size],
    "cwm_weights_at_roots": [_u32, _at, _size, _u64, _at, _size],
    "cwm_encode_poly": [_at, _size, _at, _size, _at],
    "cwm_decode_poly": [_at, _size, _at, _size, _at],
    "cwm_shard_sizes": [_size, _u32, _u32, _at],
    "cwm_split": [_at, _size, _u32, _u32, _at, _size],
    "cwm_join": [_at, _size, _u32, _u32, _at, _size, _at, _size, _at],
    "cwm_join_corrected": [_at, _size, _u32, _u32, _at, _size, _at, _size, _at, _at, _size, _at],
    "cwm_shard_bytes_sizes": [_size, _u32, _u32, _at],
    "cwm_split_bytes": [_at, _size, _u32, _u32, _at, _size],
    "cwm_join_bytes": [_at, _size, _u32, _u32, _at, _size, _at, _size, _at],
    "cwm_join_bytes_corrected": [_at, _size, _u32, _u32, _at, _size, _at, _size, _at, _at, _size, _at],
    "cwm_systematic_sizes": [_size, _u32, _u32, _u32, _at, _at],
    "cwm_systematic_encode": [_at, _size, _u32, _u32, _at, _size, _at],
    "cwm_systematic_rebuild": [_at, _size, _at, _size, _size, _u32, _u32, _u32, _at, _size, _at, _size],
    "cwm_systematic_decode": [_at, _size, _at, _size, _u32, _u32, _u32, _at, _size],
    "cwm_systematic_verify": [_at, _size, _at, _size, _size, _u32, _u32, _u32, _at],
    "cwm_systematic_rebuild_corrected": [
        _at, _size, _at, _size, _size, _u32, _u32, _u32, _at, _size, _at, _size, _at, _size, _at,
    ],
    "cwm_path_sizes": [_u32, _u32, _at, _at],
    "cwm_commit": [_at, _size, _u32, _u32, _at, _size, _at, _at, _at, _size],
    "cwm_shard_is_under": [_at, _at, _size, _size, _u32, _u32, _u32, _u32, _at, _size, _at],
    "cwm_join_under": [
        _at, _at, _size, _at, _size, _at, _size, _at, _size, _u32, _u32, _u32, _at, _size, _at, _size, _at,
    ],
}

library = _load()
for _name, _arguments in _SIGNATURES.items():
    _function = getattr(library, _name)
    _function.argtypes = _arguments
    _function.restype = _u32
if library.cwm_version() // 10000 != MAJOR:
    raise ImportError(f"commonware_math: the library is of another version: {library.cwm_version()}")


def _loaded_from() -> str:
    """The file from which the library was loaded."""
    at = ctypes.cast(library.cwm_version, ctypes.c_void_p).value or 0
    with open("/proc/self/maps", encoding="utf-8", errors="surrogateescape") as maps:
        for line in maps:
            begin, end = (int(number, 16) for number in line.split(maxsplit=1)[0].split("-"))
            if begin <= at < end:
                return line.rstrip("\n").split(maxsplit=5)[5]
    raise FileNotFoundError("commonware_math: the system does not say from where the library was loaded")


def proved() -> dict[str, str]:
    """What the file of the library's prefix says, by the word before each colon."""
    path = _loaded_from()
    prefix = re.match(r"(.*)/lib(?:64)?/", path)
    if prefix is None:
        raise FileNotFoundError(f"commonware_math: no prefix, and so no proved.txt, above {path}")
    text = Path(prefix[1], "share", f"commonware_math-{MAJOR}", "proved.txt").read_text(encoding="utf-8")
    return dict(line.split(": ", 1) for line in text.splitlines())


# Where a length is zero, this is handed over, which is not null.
NOWHERE = (_u64 * 1)()

# What words are.
WORDS = "a buffer of unsigned 64-bit words is wanted, such as array('Q') or an array of numpy with dtype=numpy.uint64"


def number(value: Any, bits: int) -> int:
    """The number, where so many bits hold it: ctypes would cut it off. What is no whole number is a TypeError."""
    found = operator.index(value)
    if not 0 <= found < 1 << bits:
        # Python refuses to print numbers of thousands of digits.
        told = str(found) if found.bit_length() <= 128 else f"a number of {found.bit_length()} bits"
        raise OverflowError(f"{told} is not from 0 to 2**{bits} - 1")
    return found


def words(count: int) -> Any:
    """New words, all zero."""
    return (_u64 * count)() if count else NOWHERE


def bytes_of(count: int) -> Any:
    """New bytes, all zero."""
    return (ctypes.c_uint8 * count)() if count else NOWHERE


def _contiguous(view: memoryview) -> memoryview:
    """The view, whose items have to lie one behind the other."""
    if not view.c_contiguous:
        raise TypeError("not a contiguous buffer")
    return view


def _buffer(value: Any) -> Optional[memoryview]:
    """The buffer, if the value has one."""
    try:
        return memoryview(value)
    except TypeError:
        return None


def _view(view: memoryview) -> memoryview:
    """The view, whose items have to be words."""
    if view.itemsize != 8 or view.format.lstrip("@=<") not in ("Q", "L"):
        raise TypeError(f"{WORDS}: not one with items of format '{view.format}', {view.itemsize} bytes each")
    return _contiguous(view)


def shape(value: Any) -> tuple[int, ...]:
    """The dimensions of a buffer."""
    return memoryview(value).shape or ()


def borrowed(value: Any) -> tuple[Any, int]:
    """The caller's words, which a call writes in place, and how many they are."""
    view = _buffer(value)
    if view is None:
        raise TypeError(f"{WORDS}, since the call writes in place: not a {type(value).__name__}")
    view = _view(view)
    if view.readonly:
        raise TypeError("the words are written in place, and the buffer is read-only")
    if view.nbytes == 0:
        return NOWHERE, 0
    at = (_u64 * (view.nbytes // 8)).from_buffer(view)
    if ctypes.addressof(at) % 8:
        raise TypeError("the words don't lie at an address that 8 divides")
    return at, len(at)


def read(value: Any) -> tuple[Any, int]:
    """Words that a call reads: a buffer of words as it is, where it can be written, and else a copy; or numbers."""
    view = _buffer(value)
    if view is None:
        return _read_numbers(value)
    view = _view(view)
    count = view.nbytes // 8
    if count == 0:
        return NOWHERE, 0
    if not view.readonly:
        at = (_u64 * count).from_buffer(view)
        if ctypes.addressof(at) % 8 == 0:
            return at, count
    return (_u64 * count).from_buffer_copy(view), count


def _read_numbers(values: Any) -> tuple[Any, int]:
    """Numbers, as words of their own."""
    numbers = [operator.index(n) for n in values]
    for n in numbers:
        if not 0 <= n < 1 << 64:
            number(n, 64)
    return ((_u64 * len(numbers))(*numbers), len(numbers)) if numbers else (NOWHERE, 0)


def one_or_more(value: Any) -> tuple[list[int], bool]:
    """One word, or several, and whether these are several."""
    try:
        return [number(operator.index(value), 64)], False
    except TypeError:
        if not isinstance(value, Iterable):
            raise
    return [number(n, 64) for n in value], True


def row_of_bytes(value: Any) -> memoryview:
    """The bytes as they lie in memory, without a copy."""
    return _contiguous(memoryview(value))


def read_bytes(value: Any) -> tuple[Any, int]:
    """Bytes that a call reads: without a copy, unless they are a read-only view."""
    if isinstance(value, bytes):
        return (value, len(value)) if value else (NOWHERE, 0)
    view = row_of_bytes(value)
    if view.nbytes == 0:
        return NOWHERE, 0
    if view.readonly:
        copy = view.tobytes()
        return copy, len(copy)
    return (ctypes.c_uint8 * view.nbytes).from_buffer(view), view.nbytes
