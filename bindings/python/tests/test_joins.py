"""The joins of bytes over 3,000 random sets of shards, many of them damaged, against a model of their own.

The model foresees each answer by plain arithmetic, from docs/SHARDFILE_FORMAT.md (how bytes become cells) and the header (which refusal
is due). It shares nothing with the library. Each set goes to both calls of C, and if no index is there twice, to the package too.
"""

import ctypes
import itertools
import random
import unittest
from collections import Counter, namedtuple
from functools import lru_cache

import commonware_math as cm
from commonware_math._library import library

SETS = 3000
P = 2**64 - 2**32 + 1
ROOT = 0xEE41F5320C4EA145  # of order 2**32
DONE, OUT_OF_RANGE, WRONG_SIZE, TOO_FEW, MISMATCH, WRONG_INDEX, CONFLICT, INCONSISTENT = 0, 2, 3, 4, 5, 6, 7, 8
NAMES = "done - range size few mismatch index conflict inconsistent".split()


# The model: bytes to cells, and back.


def words_of(block):
    """The words of a block: the number of bytes, and then the bytes, eight a word."""
    padded = block + bytes(-len(block) % 8)
    return [len(block), *(int.from_bytes(padded[at : at + 8], "little") for at in range(0, len(padded), 8))]


def elements_of(words, least):
    """The elements of words, with their number in front: as many as fill `least` rows."""
    bits = sum(word << 64 * i for i, word in enumerate([len(words), *words]))
    cols = -(-64 * (len(words) + 1) // 63 // least)
    return [bits >> 63 * i & 2**63 - 1 for i in range(least * cols)]


@lru_cache(None)
def point(index, total):
    return pow(ROOT, (2**32 >> (total - 1).bit_length()) * index, P)


def value(coefficients, x):
    total = 0
    for c in reversed(coefficients):
        total = (total * x + c) % P
    return total


def row_of(elements, least, total, index):
    """The cells of the shard of this index."""
    cols = len(elements) // least
    return [value(elements[k::cols], point(index, total)) for k in range(cols)]


@lru_cache(None)
def basis(points):
    """For each of the points the coefficients of the polynomial that is 1 there, and 0 at the others."""
    found = []
    for x in points:
        product = [1]
        for other in points:
            if other != x:
                scale = pow(x - other, -1, P)
                product = [(a - other * b) * scale % P for a, b in zip([0, *product], [*product, 0])]
        found.append(product)
    return found


def nearest(rows, least, total, radius):
    """The elements whose shards all of the rows are but so many, or None.

    Of the first `least` + radius rows some `least` are right, and these fix the elements. So all that can be are tried.
    """
    for chosen in itertools.combinations(sorted(rows)[: least + radius], least):
        parts = basis(tuple(point(i, total) for i in chosen))
        columns = list(zip(*(rows[i] for i in chosen)))
        elements = [sum(part[r] * y for part, y in zip(parts, column)) % P for r in range(least) for column in columns]
        if sum(row_of(elements, least, total, i) != row for i, row in rows.items()) <= radius:
            return elements
    return None


def block_of(elements, least):
    """The block whose elements these are, or None. They say which one it may be; its elements are then compared with them."""
    taken = sum(element << 63 * i for i, element in enumerate(elements)).to_bytes(8 * len(elements) + 16, "little")
    block = taken[16 : 16 + int.from_bytes(taken[8:16], "little")]
    return block if elements_of(words_of(block), least) == elements else None


Answer = namedtuple("Answer", "status block left_out", defaults=(b"", []))


def foreseen(least, total, indices, data, places=None):
    """The answer to shards that lie in these bytes, if there is room for it. With `places`, that of the join that corrects."""
    count = len(indices)
    if len(data) % (8 * count) if count else len(data):
        return Answer(WRONG_SIZE)
    if places is not None and places < count:
        return Answer(WRONG_SIZE)
    words = [int.from_bytes(data[at : at + 8], "big") for at in range(0, len(data), 8)]
    if any(word >= P for word in words):
        return Answer(OUT_OF_RANGE)
    if not count:
        return Answer(TOO_FEW)
    if not 1 <= least <= total:
        return Answer(MISMATCH)
    if any(index >= total for index in indices):
        return Answer(WRONG_INDEX)
    cols = len(words) // count
    held = [(index, words[i * cols : (i + 1) * cols]) for i, index in enumerate(indices)]
    unequal = {i for i, row in held for j, other in held if i == j and row != other}
    if places is None and unequal:
        return Answer(CONFLICT)
    settled = {index: row for index, row in held if index not in unequal}
    if len(settled) < least:
        return Answer(TOO_FEW)
    elements = nearest(settled, least, total, 0 if places is None else (len(settled) - least) // 2)
    block = None if elements is None else block_of(elements, least)
    if block is None:
        return Answer(INCONSISTENT)
    return Answer(DONE, block, [i for i, (index, row) in enumerate(held) if row_of(elements, least, total, index) != row])


# The sets.


class Set:
    """Shards of some elements, in any order, some of them twice and some of them damaged: what a call is handed."""

    def __init__(self, source):
        self.source = source
        self.least = source.randint(1, 6)
        self.total = source.randint(self.least, 12)
        size = source.choice((0, 1, 7, 8, 9, *(source.randrange(200) for _ in range(5)), source.randrange(485, 500)))
        self.block = source.choice((source.randbytes(size), source.randbytes(size), bytes(size), b"\xff" * size))
        elements = source.choice((self.elements,) * 8 + (self.of_no_block, self.of_no_words))()
        others = elements_of(words_of(source.randbytes(size)), self.least) + [0] * len(elements)
        self.rows, self.others = (
            [row_of(of, self.least, self.total, i) for i in range(self.total)] for of in (elements, others[: len(elements)])
        )
        few, many = source.randrange(self.least), source.randint(self.least, self.total)
        chosen = source.sample(range(self.total), source.choice((few, self.least, self.total) + (many,) * 7))
        again = source.choices(chosen, k=source.choice((0, 0, 1, 3))) if chosen else []
        self.held = [(i, self.rows[i]) for i in chosen + again]
        source.shuffle(self.held)
        kinds = source.choices(self.KINDS, (12, 4, 4, 2, 1, 1, 2, 1), k=source.choice((0, 1, 1, 1, 1, 2, 2, 3)))
        self.kinds = sorted(set(kinds), key=self.KINDS.index)
        for kind in self.kinds:
            kind(self)
        self.indices = [index for index, _ in self.held]
        self.data = b"".join(word.to_bytes(8, "big") for _, row in self.held for word in row)
        if source.randrange(20) == 0:
            self.other_size()
        self.places = max(0, len(self.indices) + source.choice((0,) * 7 + (1, 9, -1)))
        self.spare = source.choice((0, 0, 0, 1, 60, -1, -500))

    # The elements of the block, and some that are those of no block.

    def elements(self):
        return elements_of(words_of(self.block), self.least)

    def of_no_block(self):
        """Words that begin with another number of bytes, end with other ones, or are too many or too few."""
        words = words_of(self.block)
        number = self.source.choice((words[0] + 1, words[0] ^ 1, words[0] + 8, 2**64 - 1, 2**63, 8 * len(words)))
        last = words[-1] | 1 << self.source.choice((62, 63))
        wrong = [number, *words[1:]], [*words[:-1], last], [*words, 0], words[:-1], []
        return elements_of(self.source.choice(wrong), self.least)

    def of_no_words(self):
        """Elements of which one is another, a column more than they need, or random ones."""
        elements = self.elements()
        at = self.source.choice((0, 1, -1, -2, self.source.randrange(len(elements)))) % len(elements)
        old = elements[at]
        changed = elements[:]
        changed[at] = self.source.choice((old + 2**63, old + 1, old ^ 2**62, 2**63, P - 1, P - 2)) % P
        random_ones = [self.source.randrange(P) for _ in elements]
        return self.source.choice((changed, changed, elements + [0] * self.least, random_ones))

    # Damage to what is held.

    def some(self, most):
        """Some of the indices, at most so many."""
        there = sorted({index for index, _ in self.held})
        return self.source.sample(there, max(0, min(len(there), most)))

    def place(self):
        """The place of one of the shards, if there are any."""
        return self.source.sample(range(len(self.held)), min(1, len(self.held)))

    def changed(self, row):
        """The row with one, two or all cells changed to other elements."""
        row = row[:]
        for k in self.source.sample(range(len(row)), min(len(row), self.source.choice((1, 2, len(row))))):
            others = {0, 1, P - 1, self.source.randrange(P), (row[k] + 1) % P, (row[k] ^ 1 << self.source.randrange(64)) % P}
            row[k] = self.source.choice(sorted(others - {row[k]}))
        return row

    def replace(self, rows):
        """These rows in place of all shards of their indices."""
        self.held = [(index, rows.get(index, row)) for index, row in self.held]

    def cells(self):
        """As many indices as may be wrong, or about as many."""
        radius = (len({index for index, _ in self.held}) - self.least) // 2
        most = self.source.choice((radius - 1, radius, radius, radius, radius + 1, radius + 1, self.source.randint(0, 12)))
        self.replace({i: self.changed(self.rows[i]) for i in self.some(most)})

    def another_block(self):
        self.replace({i: self.others[i] for i in self.some(self.source.randint(1, 12))})

    def conflict(self):
        for i in self.some(self.source.choice((1, 1, 2, 3))):
            self.held.insert(self.source.randint(0, len(self.held)), (i, self.changed(self.rows[i])))

    def exchange(self):
        some = self.some(2)
        self.replace({i: self.rows[j] for i, j in zip(some, reversed(some))})

    def no_element(self):
        for i in self.place():
            index, row = self.held[i]
            k = self.source.randrange(len(row))
            large = self.source.choice((P, P + 1, 2**64 - 1, max(P, row[k] + P & 2**64 - 1)))
            self.held[i] = index, row[:k] + [large] + row[k + 1 :]

    def no_index(self):
        for i in self.place():
            index = self.source.choice((self.total, self.total + 1, 16, 2**32 - 1))
            self.held[i] = index, self.held[i][1]

    def other_numbers(self):
        others = (self.least + 1, self.total), (self.least - 1, self.total), (self.least, self.source.randint(1, 16))
        self.least, self.total = self.source.choice(others)

    def no_numbers(self):
        none = (0, self.total), (0, 0), (self.least, 0), (self.total + 1, self.total), (2**32 - 1, 12), (0, 2**32 - 1)
        self.least, self.total = self.source.choice(none)

    KINDS = cells, another_block, conflict, exchange, no_element, no_index, other_numbers, no_numbers

    def other_size(self):
        """Bytes or indices too many or too few."""
        cut = self.source.randint(1, 9)
        self.data = self.source.choice((self.data[:-cut], self.data + bytes(cut), self.data + bytes(8), self.data, b""))
        self.indices = self.source.choice((self.indices, self.indices[:-1], [*self.indices, 0], []))


# The answers.

KEPT = 0xA5A5A5A5A5A5A5A5
BEHIND = 8


def filled(kind, values):
    return (kind * len(values))(*values)


def call(function, case, room, places=None):
    """What a call of C answers, and all memory that it had: what it reads, and what it writes with some behind it."""
    indices, data = filled(ctypes.c_uint32, case.indices + [0]), filled(ctypes.c_uint8, case.data + b"\0")
    out, written = filled(ctypes.c_uint8, b"\xa5" * (room + BEHIND)), ctypes.c_size_t(KEPT)
    arguments = [indices, len(case.indices), case.least, case.total, data, len(case.data), out, room, ctypes.byref(written)]
    left_out, many = filled(ctypes.c_size_t, [KEPT] * ((places or 0) + BEHIND)), ctypes.c_size_t(KEPT)
    if places is not None:
        arguments += [left_out, places, ctypes.byref(many)]
    status = function(*arguments)
    return status, bytes(out), written.value, list(left_out), many.value, list(indices), bytes(data)


def memory(answer, case, room, places=None):
    """What `call` has to give if this is the answer."""
    status, block, left_out = answer
    written, many = (KEPT, KEPT) if status else (len(block), KEPT if places is None else len(left_out))
    out = block + b"\xa5" * (room + BEHIND - len(block))
    marks = left_out + [KEPT] * ((places or 0) + BEHIND - len(left_out))
    return status, out, written, marks, many, case.indices + [0], case.data + b"\0"


def answered(function, *arguments):
    """What a function of the package answers, or the status of its refusal."""
    try:
        return function(*arguments)
    except cm.Error as error:
        return error.status


class Joins(unittest.TestCase):
    def test_3000_sets(self):
        source = random.Random(63)
        self.counts = Counter()
        for n in range(SETS):
            case = Set(source)
            with self.subTest(n=n, kinds=[kind.__name__ for kind in case.kinds]):
                self.by_c(library.cwm_join_bytes, case)
                self.by_c(library.cwm_join_bytes_corrected, case, case.places)
                self.by_package(case)
        said = ", ".join(f"{name} {count}" for name, count in sorted(self.counts.items()))
        print(f"{SETS} sets of shards: {said}")
        # Each answer was there often enough to say something.
        for status in (DONE, OUT_OF_RANGE, WRONG_SIZE, TOO_FEW, MISMATCH, WRONG_INDEX, INCONSISTENT):
            for name in ("join", "corrected"):
                self.assertGreater(self.counts[f"{name}: {NAMES[status]}"], SETS // 60, NAMES[status])
        for name in ("join: conflict", "corrected: some left out", "join: no room", "corrected: no room", "corrected: other data"):
            self.assertGreater(self.counts[name], SETS // 60, name)

    def count(self, name, answer, case):
        self.counts[f"{name}: {NAMES[answer.status]}"] += 1
        self.counts[f"{name}: some left out"] += bool(answer.left_out)
        self.counts[f"{name}: other data"] += answer.status == DONE and answer.block != case.block

    def by_c(self, function, case, *places):
        name = "corrected" if places else "join"
        answer = foreseen(case.least, case.total, case.indices, case.data, *places)
        room = max(0, len(answer.block) + case.spare)
        if room < len(answer.block):
            self.counts[f"{name}: no room"] += 1
            answer = Answer(WRONG_SIZE)
        self.count(name, answer, case)
        self.assertEqual(call(function, case, room, *places), memory(answer, case, room, *places))

    def by_package(self, case):
        """A mapping has each index once, and its rows are equally long."""
        count = len(case.indices)
        if len(set(case.indices)) < count or (len(case.data) % count if count else case.data):
            return
        size = len(case.data) // max(1, count)
        shards = {index: case.data[i * size : (i + 1) * size] for i, index in enumerate(case.indices)}
        status, block, _ = foreseen(case.least, case.total, case.indices, case.data)
        self.assertEqual(answered(cm.join, shards, case.least, case.total), status or block)
        status, block, left_out = foreseen(case.least, case.total, case.indices, case.data, count)
        expected = status or (block, sorted(case.indices[i] for i in left_out))
        self.assertEqual(answered(cm.join_corrected, shards, case.least, case.total), expected)
        self.counts["package"] += 1


if __name__ == "__main__":
    unittest.main()
