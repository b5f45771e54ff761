#!/usr/bin/env python3
"""Writes shard files as docs/SHARDFILE_FORMAT.md describes them, and nothing else.

write_shards.py [--version 2] [--root] [--keys HEX,HEX] [--block B] [--to FOLDER] MIN TOTAL FILE

writes FILE.0, FILE.1 and so on, in place of what has these names. With --root they have paths, and it prints the root of the
file. Unless they are given, the keys are random, and the size of a block is that of `shardfile`. Tests import the functions.

It shares no code with the reader beside it, so that each of them tests the page by itself.
"""

import argparse
import functools
import hashlib
import operator
import os
import secrets
import struct
import typing

P = 2**64 - 2**32 + 1
GENERATOR = 0xEE41F5320C4EA145
MARK = 0x8953484152440D0A
ONES = 2**32 - 1


class Split(typing.NamedTuple):
    """What all shard files of a split have in common."""

    least: int
    total: int
    size: int
    length: int
    keys: tuple
    version: int = 3
    has_paths: int = 0


def words(*numbers):
    return struct.pack(f">{len(numbers)}Q", *numbers)


def fingerprint(numbers, key):
    found = 0
    for number in reversed(numbers):
        found = (found * key + number) % P
    return found


def fingerprints(numbers, keys):
    return words(*(fingerprint(numbers, key) for key in keys))


def header(split, index):
    numbers = [MARK, split.version, index, split.least, split.total, split.size, split.length, *split.keys]
    numbers += [split.has_paths] if split.version == 3 else []
    return words(*numbers) + fingerprints(numbers, split.keys)


def length(number):
    """A length in groups of seven bits."""
    out = []
    while number > 127:
        out.append(number & 127 | 128)
        number >>= 7
    return bytes([*out, number])


def blocks(data, size):
    return [data[begin : begin + size] for begin in range(0, len(data), size)]


# The rows of a block.


def data_rows(block, least):
    """The bytes of each data row, the last ones filled with zeros."""
    size = 8 * -(-len(block) // (8 * least))
    block = block.ljust(least * size, b"\0")
    return [block[row * size : (row + 1) * size] for row in range(least)]


def numbers_of(row):
    return struct.unpack(f"<{len(row) // 8}Q", row)


def mask(rows):
    """The least mask under which no word of these data rows has a high half that is all ones."""
    halves = {number >> 32 for row in rows for number in numbers_of(row)}
    found = 0
    while found ^ ONES in halves:
        found += 1
    return found


def elements(row, index, least, masked):
    """The elements of a row: of a data row under the mask, of a parity row as they are."""
    return [number ^ masked << 32 for number in numbers_of(row)] if index < least else numbers_of(row)


def step(total):
    """The number whose powers are the points of the rows."""
    return pow(GENERATOR, 2**32 >> (total - 1).bit_length(), P)


def product(numbers):
    return functools.reduce(lambda a, b: a * b % P, numbers, 1)


@functools.cache
def weights(least, total):
    """For each parity row the weights with which it is the sum of the data rows: Lagrange's, at its point."""
    points = [pow(step(total), index, P) for index in range(total)]
    below = [product(point - other for other in points[:least] if other != point) for point in points[:least]]
    found = []
    for point in points[least:]:
        above = product(point - other for other in points[:least])
        found.append([above * pow((point - other) * under, -1, P) % P for other, under in zip(points, below)])
    return found


def combined(weights_of_row, columns):
    """For each column the sum of its numbers, each with its weight."""
    return [sum(map(operator.mul, weights_of_row, column)) % P for column in columns]


def rows_of_block(block, least, total):
    """The mask of a block, and the bytes of its TOTAL rows."""
    rows = data_rows(block, least)
    masked = mask(rows)
    columns = list(zip(*(elements(row, 0, least, masked) for row in rows)))
    return masked, rows + [struct.pack(f"<{len(columns)}Q", *combined(those, columns)) for those in weights(least, total)]


def record(split, number, index, masked, row):
    """The record of the block with this number, without its path."""
    cells = elements(row, index, split.least, masked)
    front = b"".join(map(length, (index, split.least, split.total, len(cells))))
    return front + words(masked) + row + fingerprints([number, index, len(cells), masked, *cells], split.keys)


# Paths and the root.


def digest(data):
    return hashlib.new("sha512_256", data).digest()


def leaf(split, count, index, masked, row):
    """The leaf of a row of a block of that many bytes."""
    return digest(b"\0" + words(count, index, split.least, split.total, masked) + row)


def tree(digests):
    """The levels of the tree over these digests, the lowest first."""
    levels = [digests]
    while len(levels[-1]) > 1:
        below = levels[-1]
        levels.append([digest(b"\1" + below[i] + below[i + 1]) for i in range(0, len(below) - 1, 2)])
        levels[-1] += below[len(below) & ~1 :]
    return levels


def path(levels, index):
    """The digests of the neighbours on the way up from that place of the lowest level."""
    found = b""
    for level in levels:
        found += b"".join(level[index ^ 1 : (index ^ 1) + 1])
        index //= 2
    return found


def pairs(levels):
    """The pairs of children of all nodes: of the top, then those below its left child, then those below its right child."""

    def below(height, place):
        if height == 0:
            return b""
        children = levels[height - 1][2 * place : 2 * place + 2]
        rest = [below(height - 1, 2 * place + i) for i in range(len(children))]
        return b"".join((children if len(children) == 2 else []) + rest)

    return below(len(levels) - 1, 0)


def tree_of_block(split, count, masked, rows):
    """The tree of a block of that many bytes with this mask and these rows; its top is the root of the block."""
    return tree([leaf(split, count, index, masked, row) for index, row in enumerate(rows)])


def file_root(split, levels):
    """The root of the file, over the tree of the roots of its blocks."""
    return digest(b"\2" + words(split.least, split.total, split.size, split.length) + b"".join(levels[-1]))


# Version 2.


def elements_in_bits(block):
    """The elements of 63 bits of a block."""
    count = -(-len(block) // 8)
    data = struct.pack("<2Q", 1 + count, len(block)) + block.ljust(8 * count, b"\0")
    found = []
    for begin in range(0, len(data), 504):  # 63 words are 64 elements
        part = data[begin : begin + 504]
        bits = int.from_bytes(part, "little")
        found += [bits >> 63 * i & 2**63 - 1 for i in range(-(-8 * len(part) // 63))]
    return found


@functools.cache
def powers(least, total):
    """For each index the powers of its point, by which the coefficients of a column give its value there."""
    return [[pow(step(total), index * row, P) for row in range(least)] for index in range(total)]


def records_of_version_2(split, number, block):
    """The records of a block, by index."""
    those = elements_in_bits(block)
    width = -(-len(those) // split.least)
    those += [0] * (split.least * width - len(those))
    columns = list(zip(*(those[row * width : (row + 1) * width] for row in range(split.least))))
    found = []
    for index, row in enumerate(powers(split.least, split.total)):
        cells = combined(row, columns)
        front = b"".join(map(length, (index, split.least, split.total, width)))
        found.append(front + words(*cells) + fingerprints([number, index, width, *cells], split.keys))
    return found


# Whole files.


def records_of(split, data):
    """For each block the records of its shards, by index, and their paths; and the roots of the blocks, if there are paths."""
    found, tops = [], []
    for number, block in enumerate(blocks(data, split.size)):
        if split.version == 2:
            records = records_of_version_2(split, number, block)
        else:
            masked, rows = rows_of_block(block, split.least, split.total)
            records = [record(split, number, index, masked, row) for index, row in enumerate(rows)]
        levels = tree_of_block(split, len(block), masked, rows) if split.has_paths else [[]]
        found.append((records, [path(levels, index) for index in range(split.total)]))
        tops += levels[-1]
    return found, tops


def shard_files(split, data):
    """The shard files of these bytes by index, and the root of the file, or nothing if there are no paths."""
    found, tops = records_of(split, data)
    levels = tree(tops)
    files = []
    for index in range(split.total):
        parts = [part[index] for block in found for part in block]
        files.append(b"".join([header(split, index), *parts, pairs(levels)]))
    return files, file_root(split, levels) if split.has_paths else None


def size_of_block(least, total):
    """The size of a block that `shardfile` takes."""
    return min(max(2**18, 2**13 * least), 2**20, 2**25 * least // total)


def main():
    parser = argparse.ArgumentParser(description="Writes shard files as docs/SHARDFILE_FORMAT.md describes them.")
    parser.add_argument("--version", type=int, choices=(2, 3), default=3)
    parser.add_argument("--root", action="store_true", help="write paths, and print the root of the file")
    parser.add_argument("--keys", metavar="HEX,HEX", help="two keys of up to 16 digits in place of random ones")
    parser.add_argument("--block", metavar="B", type=int, help="the size of a block in bytes")
    parser.add_argument("--to", metavar="FOLDER", help="the folder of the shard files in place of that of FILE")
    parser.add_argument("least", metavar="MIN", type=int)
    parser.add_argument("total", metavar="TOTAL", type=int)
    parser.add_argument("file", metavar="FILE")
    given = parser.parse_args()
    least, total = given.least, given.total
    keys = [int(key, 16) for key in given.keys.split(",")] if given.keys else [1 + secrets.randbelow(P - 1) for _ in range(2)]
    size = size_of_block(least, total) if given.block is None else given.block
    assert 1 <= least <= total <= 65536 and 1 <= size <= 2**20 and size * total <= 2**25 * least
    assert len(keys) == 2 and all(1 <= key < P for key in keys) and not (given.root and given.version == 2)
    with open(given.file, "rb") as it:
        data = it.read()
    files, root = shard_files(Split(least, total, size, len(data), tuple(keys), given.version, int(given.root)), data)
    name = os.path.join(given.to, os.path.basename(given.file)) if given.to else given.file
    for index, shard in enumerate(files):
        with open(f"{name}.{index}", "wb") as it:
            it.write(shard)
    if root:
        print(root.hex())


if __name__ == "__main__":
    main()
