#!/usr/bin/env python3
"""Joins shard files as docs/SHARDFILE_FORMAT.md describes them, and nothing else: shardfile.py [--root HEX] SHARD.. > FILE.

It takes for each block the first MIN records that fit: by their fingerprints, or with the root of the file by their paths. It
passes over files whose header does not fit, and ends with an assertion where the others are not of one split, where a block has
fewer than MIN records, or where they give none that is as the page says. With a root it takes the files with its numbers.
"""

import argparse
import functools
import hashlib
import operator
import struct
import sys
import typing

P = 2**64 - 2**32 + 1
GENERATOR = 0xEE41F5320C4EA145


class Header(typing.NamedTuple):
    version: int
    index: int
    least: int
    total: int
    size: int
    length: int
    keys: tuple
    has_paths: bool

    def numbers(self):
        return self.least, self.total, self.size, self.length

    def width(self, count):
        """How many words there are in a record of a block of that many bytes."""
        if self.version == 3:
            return rounded_up(count, 8 * self.least)
        return rounded_up(rounded_up(64 * (2 + rounded_up(count, 8)), 63), self.least)


class Record(typing.NamedTuple):
    mask: int
    elements: list
    row: bytes
    fingerprints: tuple
    path: bytes


def value(coefficients, x):
    """The value at x of the polynomial with these coefficients, from the constant upwards."""
    total = 0
    for c in reversed(coefficients):
        total = (total * x + c) % P
    return total


def rounded_up(number, divisor):
    return -(-number // divisor)


def words(data, order=">"):
    return struct.unpack(f"{order}{len(data) // 8}Q", data)


def digest(kind, data):
    return hashlib.new("sha512_256", bytes([kind]) + data).digest()


def length(number):
    """A length in groups of seven bits."""
    return bytes([number]) if number < 128 else bytes([number & 127 | 128]) + length(number >> 7)


def header(data):
    """What the header of a shard file says, or nothing if it does not fit."""
    begin = 88 if data[8:16] == (2).to_bytes(8, "big") else 96
    if data[:8] != b"\x89SHARD\r\n" or len(data) < begin:
        return None
    *said, first, second = words(data[:begin])
    _mark, version, index, least, total, size, bytes_of_file, *keys = said[:9]
    fits = version in (2, 3) and index < total and 1 <= least <= total <= 65536
    fits = fits and 1 <= size <= 2**20 and size * total <= 2**25 * least and bytes_of_file < P
    fits = fits and all(1 <= key < P for key in keys) and said[9:] in ([], [0], [1])
    if not fits or [first, second] != [value(said, key) for key in keys]:
        return None
    return Header(version, index, least, total, size, bytes_of_file, tuple(keys), said[9:] == [1])


def on_right(index, total):
    """For each digest of a path whether it stands on the right."""
    found = []
    while total > 1:
        found += [index % 2 == 0] if index ^ 1 < total else []
        index, total = index // 2, rounded_up(total, 2)
    return found


def shard(data):
    """The header of a shard file, its records, nothing in place of those that do not fit, and the bytes after the last."""
    head = header(data)
    if not head:
        return head, [], b""
    records, at = [], 88 if head.version == 2 else 96
    path = 32 * len(on_right(head.index, head.total)) if head.has_paths else 0
    for begin in range(0, head.length, head.size):
        if at >= len(data):
            break
        width = head.width(min(head.size, head.length - begin))
        front = b"".join(map(length, (head.index, head.least, head.total, width)))
        row = at + len(front) + (8 if head.version == 3 else 0)
        end = row + 8 * width + 16
        is_there = len(data) >= end and data.startswith(front, at)
        records.append(record(head, data[at + len(front) : end + path], width) if is_there else None)
        at = end + path
    return head, records, data[at:]


def record(head, data, width):
    """The record that these bytes are after its lengths, or nothing if there are other words than a row may have."""
    mask = 0
    if head.version == 3:
        mask, data = int.from_bytes(data[:8], "big"), data[8:]
    row, fingerprints, path = data[: 8 * width], data[8 * width : 8 * width + 16], data[8 * width + 16 :]
    elements, below = words(row, ">" if head.version == 2 else "<"), P
    if head.version == 3 and head.index < head.least:
        elements, below = [word ^ mask << 32 for word in elements], P - 1
    return Record(mask, elements, row, words(fingerprints), path) if mask < 2**32 and max(elements) < below else None


def fits_fingerprints(head, number, it):
    said = [number, head.index, len(it.elements), *([it.mask] if head.version == 3 else []), *it.elements]
    return list(it.fingerprints) == [value(said, key) for key in head.keys]


def top_of_path(head, number, it):
    """The digest to which the path of a record leads: the root of its block, if all is as it was written."""
    count = min(head.size, head.length - number * head.size)
    found = digest(0, struct.pack(">5Q", count, head.index, head.least, head.total, it.mask) + it.row)
    for place, is_right in enumerate(on_right(head.index, head.total)):
        neighbour = it.path[32 * place : 32 * place + 32]
        found = digest(1, found + neighbour if is_right else neighbour + found)
    return found


def top_of_file(head, records, pairs):
    """The top of the tree over the blocks, as this file has it."""
    if head.length == 0:
        return b""
    if head.length > head.size:
        return digest(1, pairs[:64])
    return top_of_path(head, 0, records[0]) if records and records[0] else b""


def tops_below(top, blocks, all_pairs, first=0):
    """The roots of the blocks below a node, whose pair is the one with that number; nothing where a pair on the way is lost."""
    if blocks == 1:
        return [top]
    for pair in (pairs[64 * first : 64 * first + 64] for pairs in all_pairs):
        if digest(1, pair) == top:
            left = 1 << (blocks - 1).bit_length() - 1
            rest = tops_below(pair[32:], blocks - left, all_pairs, first + left)
            return tops_below(pair[:32], left, all_pairs, first + 1) + rest
    return [None] * blocks


@functools.cache
def weights(version, indices, total):
    """For each row of elements the weights with which it is the sum of the rows of these indices."""
    step = pow(GENERATOR, 2**32 >> (total - 1).bit_length(), P)
    points = [pow(step, index, P) for index in indices]
    product = [1]
    for point in points:
        product = [(a - point * b) % P for a, b in zip([0, *product], [*product, 0])]
    found = []
    for point in points:
        one = [0]  # to be the coefficients of the polynomial that is 1 at this point and 0 at the others
        for c in product[:0:-1]:
            one.insert(0, (one[0] * point + c) % P)
        scale = pow(value(one, point), P - 2, P)
        one = [c * scale % P for c in one[:-1]]
        found.append(one if version == 2 else [value(one, pow(step, row, P)) for row in range(len(indices))])
    return list(zip(*found))


def block_of(head, number, found):
    """The bytes of a block, by records of MIN indices."""
    count = min(head.size, head.length - number * head.size)
    columns = list(zip(*(it.elements for it in found.values())))
    rows = weights(head.version, tuple(found), head.total)
    elements = [sum(map(operator.mul, row, column)) % P for row in rows for column in columns]
    masks = {it.mask for it in found.values()}
    assert len(masks) == 1, f"block {number} has two masks"
    if head.version == 3:
        data = struct.pack(f"<{len(elements)}Q", *(it ^ mask << 32 for mask in masks for it in elements))
    else:
        elements += [0] * (-len(elements) % 64)
        groups = (elements[at : at + 64] for at in range(0, len(elements), 64))
        data = b"".join(sum(it << 63 * place for place, it in enumerate(group)).to_bytes(512, "little")[:504] for group in groups)
        assert max(elements) < 2**63 and words(data[:16], "<") == (1 + rounded_up(count, 8), count), f"block {number} is none"
        data = data[16:]
    assert not any(data[count:]), f"block {number} is none"
    return data[:count]


def main():
    parser = argparse.ArgumentParser(description="Joins shard files as docs/SHARDFILE_FORMAT.md describes them.")
    parser.add_argument("--root", metavar="HEX", type=bytes.fromhex, help="the root of the file, of 64 digits")
    parser.add_argument("shards", metavar="SHARD", nargs="+")
    given = parser.parse_args()
    shards = [it for it in (shard(open(name, "rb").read()) for name in given.shards) if it[0]]
    assert shards, "no shard file is there"
    if given.root is None:
        assert len({head._replace(index=0) for head, _, _ in shards}) == 1, "there are shard files of two splits"
    else:
        shards = [it for it in shards if it[0].has_paths]
        tops = {(head.numbers(), top_of_file(head, records, pairs)) for head, records, pairs in shards}
        tops = [(numbers, top) for numbers, top in tops if digest(2, struct.pack(">4Q", *numbers) + top) == given.root]
        assert tops, "no shard file is under the root"
        shards = [it for it in shards if it[0].numbers() == tops[0][0]]
    first = shards[0][0]
    blocks = rounded_up(first.length, first.size)
    if given.root is not None and blocks:
        roots = tops_below(tops[0][1], blocks, [pairs for _, _, pairs in shards])
    for number in range(blocks):
        found = {}
        for head, records, _ in shards:
            it = records[number] if number < len(records) and head.index not in found and len(found) < head.least else None
            if it and given.root is None and fits_fingerprints(head, number, it):
                found[head.index] = it
            if it and given.root is not None and top_of_path(head, number, it) == roots[number]:
                found[head.index] = it
        assert len(found) == first.least, f"block {number} has too few shards that fit"
        sys.stdout.buffer.write(block_of(first, number, found))


if __name__ == "__main__":
    main()
