"""A file is cut into plain pieces, and parity pieces are added. Two pieces are lost, and made anew from the others.

The first MIN pieces, one behind the other, are the file: any program reads them. All are gone through strip by strip, so memory
stays small however long the file is. Each strip is a block of its own, and its mask is kept."""

import tempfile
from contextlib import ExitStack
from pathlib import Path

from commonware_math import systematic

MIN, TOTAL, STRIP = 4, 6, 1024


def strips(size):
    """How many bytes of a piece each strip has."""
    return [min(STRIP, size - at) for at in range(0, size, STRIP)]


def take(pieces, n):
    """The next n bytes of each piece; zeros stand for what lies past its end."""
    return {index: piece.read(n).ljust(n, b"\0") for index, piece in pieces.items()}


with tempfile.TemporaryDirectory() as folder, ExitStack() as stack:
    path = lambda index: Path(folder) / f"file.{index}"
    opened = lambda indices, mode: {i: stack.enter_context(path(i).open(mode)) for i in indices}

    # the file is lines with a number each; a piece has `size` bytes, and the last one what is left
    file = b"".join(b"line %4d\n" % i for i in range(1999))
    size = systematic.shard_size(len(file), MIN, TOTAL)
    for index in range(MIN):
        path(index).write_bytes(file[index * size : (index + 1) * size])

    # the parity pieces, and the mask of each strip
    data, parity, masks = opened(range(MIN), "rb"), opened(range(MIN, TOTAL), "wb"), []
    for n in strips(size):
        rows, mask = systematic.encode(b"".join(take(data, n).values()), MIN, TOTAL)
        for index, piece in parity.items():
            piece.write(rows[index])
        masks.append(mask)
    for piece in parity.values():
        piece.close()

    # pieces 3 and 5 are lost, and the others give them back
    left, lost = opened((0, 1, 2, 4), "rb"), opened((3, 5), "wb")
    for n, mask in zip(strips(size), masks):
        rows = systematic.rebuild(take(left, n), lost, MIN * n, MIN, TOTAL, mask)
        for piece, row in zip(lost.values(), rows):
            piece.write(row)
    for index, piece in lost.items():
        # the zeros that fill the last data piece go
        if index < MIN:
            piece.truncate(systematic.data_size(len(file), MIN, TOTAL, index))
        piece.close()

    for index in range(TOTAL):
        piece = path(index).read_bytes()
        print(f"piece {index}: {len(piece)} bytes" + (f", from {piece[:9].decode()}" if index < MIN else " of parity"))
