"""Systematic shards against a model in plain Python, by the calls of C and by the package.

The model has whole numbers alone: the roots of unity as powers of one of order 2**32, and Lagrange's weights. It shares nothing
with the library. The header says what a mask is and which refusal is due.
"""

import ctypes
import doctest
import itertools
import random
import unittest
from array import array
from collections import Counter
from concurrent.futures import ThreadPoolExecutor
from functools import lru_cache

import commonware_math as cm
from commonware_math import systematic
from commonware_math._library import library

SETS = 2000
P = 2**64 - 2**32 + 1
ROOT = 0xEE41F5320C4EA145  # of order 2**32
ONES = 2**32 - 1
DONE, OUT_OF_RANGE, WRONG_SIZE, TOO_FEW, MISMATCH, WRONG_INDEX, CONFLICT, INCONSISTENT = 0, 2, 3, 4, 5, 6, 7, 8
NAMES = "done - range size few mismatch index conflict inconsistent".split()
# Words whose high half is nearly all ones, or that are near P.
SPECIAL = 0, 1, ONES, 2**32, P - 2, P - 1, P, P + 1, 2**64 - 1, 2**64 - 2**33, 2**63


# The model.


def width_of(size, least):
    """How many words a row has."""
    return -(-size // (8 * least))


def words_of(data):
    """Words of eight bytes, the lowest first, with zeros behind the last byte."""
    padded = data + bytes(-len(data) % 8)
    return [int.from_bytes(padded[at : at + 8], "little") for at in range(0, len(padded), 8)]


def bytes_of(words):
    return b"".join(word.to_bytes(8, "little") for word in words)


def mask_of(words):
    """The least mask under which no high half is all ones."""
    return next(mask for mask in itertools.count() if all(word >> 32 ^ mask != ONES for word in words))


def may_stand(index, word, least, mask):
    return word < P if index >= least else word >> 32 ^ mask != ONES


def under(index, word, least, mask):
    """The word of a data row under the mask, that of a parity row as it is. Twice it is what it was."""
    return word ^ mask << 32 if index < least else word


@lru_cache(None)
def points(total):
    """The powers of the root of order N, which is `total` rounded up to a power of two, as they are asked for."""
    root = pow(ROOT, 2**32 >> (total - 1).bit_length(), P)
    return lru_cache(None)(lambda index: pow(root, index, P))


@lru_cache(None)
def halves(indices, total):
    """For each index the inverse of the product of its differences from the others."""
    xs = [points(total)(i) for i in indices]
    found = []
    for x in xs:
        product = 1
        for other in xs:
            if other != x:
                product = product * (x - other) % P
        found.append(pow(product, -1, P))
    return found


@lru_cache(None)
def weights(indices, total, wanted):
    """Lagrange's weights: by these the values at the indices give the value at the wanted one."""
    x = points(total)(wanted)
    differences = [(x - points(total)(i)) % P for i in indices]
    if 0 in differences:
        return [int(d == 0) for d in differences]
    product = 1
    for d in differences:
        product = product * d % P
    return [product * half * pow(d, -1, P) % P for d, half in zip(differences, halves(indices, total))]


def row_of(rows, least, total, mask, wanted):
    """The words of the wanted row, from those of just `least` rows, each under its index."""
    indices = tuple(sorted(rows))
    of = weights(indices, total, wanted)
    columns = zip(*([under(i, word, least, mask) for word in rows[i]] for i in indices))
    return [under(wanted, sum(w * e for w, e in zip(of, column)) % P, least, mask) for column in columns]


def codeword_of(data, least, total):
    """All rows of the data, as words, and the mask."""
    width = width_of(len(data), least)
    words = words_of(data) + [0] * (least * width - len(words_of(data)))
    mask = mask_of(words)
    rows = {i: words[i * width : (i + 1) * width] for i in range(least)}
    return [rows[i] if i < least else row_of(rows, least, total, mask, i) for i in range(total)], mask


# The calls of C, over memory with some bytes behind that have to stay.

KEPT, BEHIND = 0xA5, 16


def filled(kind, values):
    if isinstance(values, bytes):
        return (kind * max(1, len(values))).from_buffer_copy(values or b"\0")
    return (kind * max(1, len(values)))(*values)


class Held:
    """Rows in hand, one behind the other, and how they were made: what a call of C is handed."""

    def __init__(self, indices, rows, size, least, total, mask):
        self.indices, self.rows = list(indices), rows
        self.size, self.least, self.total, self.mask = size, least, total, mask

    def call(self, function, between, room, after=()):
        """The status, and all that was written: with what is behind the room, and the number in the end."""
        indices, rows = filled(ctypes.c_uint32, self.indices), filled(ctypes.c_uint8, self.rows)
        out = filled(ctypes.c_uint8, bytes([KEPT]) * (room + BEHIND))
        status = function(indices, len(self.indices), rows, len(self.rows), *between, out, room, *after)
        assert bytes(rows)[: len(self.rows)] == self.rows and list(indices)[: len(self.indices)] == self.indices
        return status, bytes(out)

    def rebuild(self, wanted, room=None):
        row = 8 * width_of(self.size, self.least) if self.least else 0
        room = len(wanted) * row if room is None else room
        asked = filled(ctypes.c_uint32, wanted)
        between = self.size, self.least, self.total, self.mask, asked, len(wanted)
        return self.call(library.cwm_systematic_rebuild, between, room)

    def rebuild_corrected(self, wanted, room, places):
        """As `rebuild`, and then the places of `left_out` with some behind, and how many there are."""
        left_out, many = filled(ctypes.c_size_t, [KEPT] * (places + BEHIND)), ctypes.c_size_t(KEPT)
        between = self.size, self.least, self.total, self.mask, filled(ctypes.c_uint32, wanted), len(wanted)
        after = left_out, places, ctypes.byref(many)
        status, out = self.call(library.cwm_systematic_rebuild_corrected, between, room, after)
        return status, out, list(left_out), many.value

    def decode(self):
        return self.call(library.cwm_systematic_decode, (self.least, self.total, self.mask), self.size)

    def verify(self):
        belong = ctypes.c_uint32(KEPT)
        status = library.cwm_systematic_verify(
            filled(ctypes.c_uint32, self.indices), len(self.indices), filled(ctypes.c_uint8, self.rows), len(self.rows),
            self.size, self.least, self.total, self.mask, ctypes.byref(belong),
        )
        return status, belong.value


def encoded(data, least, total):
    """The parity rows, as bytes, and the mask, as C gives them."""
    room = (total - least) * 8 * width_of(len(data), least)
    parity, mask = filled(ctypes.c_uint8, bytes([KEPT]) * (room + BEHIND)), ctypes.c_uint32(KEPT)
    status = library.cwm_systematic_encode(
        filled(ctypes.c_uint8, data), len(data), least, total, parity, room, ctypes.byref(mask)
    )
    assert status == DONE and bytes(parity)[room:] == bytes([KEPT]) * BEHIND, status
    return bytes(parity)[:room], mask.value


def written(block):
    return DONE, block + bytes([KEPT]) * BEHIND


class Coded(unittest.TestCase):
    """What is encoded is what the model has, and any `least` rows give it back."""

    def encode(self, data, least, total):
        """All rows of the data, as bytes, and the mask, which the model has too."""
        rows, mask = codeword_of(data, least, total)
        rows = [bytes_of(row) for row in rows]
        self.assertEqual(encoded(data, least, total), (b"".join(rows[least:]), mask))
        return rows, mask

    def come_back(self, data, rows, mask, least, kept, wanted=None):
        """The wanted rows, or all, and the data come back from the rows that are kept."""
        total = len(rows)
        wanted = list(range(total)) if wanted is None else wanted
        held = Held(kept, b"".join(rows[i] for i in kept), len(data), least, total, mask)
        self.assertEqual(held.rebuild(wanted), written(b"".join(rows[i] for i in wanted)))
        self.assertEqual(held.decode(), written(data))
        self.assertEqual(held.verify(), (DONE, 1))

    def some(self, source, size):
        """Bytes, of which some make words near P or with a high half of ones."""
        words = [source.choice((source.choice(SPECIAL), source.randrange(2**64))) for _ in range(-(-size // 8))]
        return bytes_of(words)[:size]

    def test_each_choice_of_rows(self):
        source, sets = random.Random(1), 0
        for total in range(1, 13):
            for least in range(1, total + 1):
                width = source.choice((1, 1, 2, 3))
                data = self.some(source, 8 * least * width - source.randrange(8))
                rows, mask = self.encode(data, least, total)
                for kept in itertools.combinations(range(total), least):
                    self.come_back(data, rows, mask, least, source.sample(kept, least))
                    sets += 1
        self.assertEqual(sets, sum(2**total - 1 for total in range(1, 13)))

    def test_each_mask(self):
        source = random.Random(2)
        for mask in range(41):
            for _ in range(3):
                # the words that rule out all masks before it, others that rule out none up to it or some behind, and zeros
                high = [ONES - j for j in range(mask)] + source.sample([ONES - j for j in range(mask + 1, mask + 9)], 3)
                high += [source.randrange(2**31) for _ in range(source.randrange(9))]
                source.shuffle(high)
                words = [h << 32 | source.choice((0, 1, ONES, source.randrange(2**32))) for h in high]
                data = bytes_of(words) + bytes(source.randrange(20))
                least = source.randint(1, 6)
                total = least + source.randint(1, 4)
                rows, found = self.encode(data, least, total)
                self.assertEqual(found, mask)
                self.come_back(data, rows, mask, least, source.sample(range(total), least))

    def test_each_size(self):
        source = random.Random(3)
        for size in range(201):
            for _ in range(2):
                least = source.randint(1, 7)
                total = least + source.randint(0, 5)
                data = source.choice((self.some(source, size), bytes(size), b"\xff" * size))
                rows, mask = self.encode(data, least, total)
                count = source.randint(least, total)
                self.come_back(data, rows, mask, least, source.sample(range(total), count))

    def test_widths_about_those_of_strips(self):
        source = random.Random(4)
        for strip in (16, 32, 64, 128, 256):
            for width in (strip - 1, strip, strip + 1):
                for least, total in (1, 2), (2, 4), (3, 5), (5, 11), (8, 32):
                    data = self.some(source, 8 * least * width - source.randrange(8))
                    rows, mask = self.encode(data, least, total)
                    for count in (least, total):
                        self.come_back(data, rows, mask, least, source.sample(range(total), count))

    def test_many_rows_give_the_data(self):
        source = random.Random(5)
        for least, total in (64, 70), (65, 71), (80, 128), (100, 140), (129, 150), (255, 260):
            data = self.some(source, 8 * least * 2 - source.randrange(8))
            rows, mask = self.encode(data, least, total)
            wanted = source.sample(range(total), 9)
            self.come_back(data, rows, mask, least, range(total - least, total), wanted)
            self.come_back(data, rows, mask, least, source.sample(range(total), least + 2), wanted)

    def test_many_rows_from_many(self):
        # so many that they are made by transforms, in a strip of columns and past it
        source = random.Random(8)
        for least, total in (64, 128), (64, 256), (100, 200), (100, 256), (120, 240), (200, 400):
            for width in (1, 3) if total != 128 else (1, 2, 15, 16, 17, 63, 64, 65):
                data = self.some(source, 8 * least * width - source.randrange(8))
                rows, mask = self.encode(data, least, total)
                for kept in range(total - least, total), source.sample(range(total), least), source.sample(range(total), least + 3):
                    self.come_back(data, rows, mask, least, kept)

    def test_many_rows_in_a_large_domain(self):
        source = random.Random(9)
        for least, total in (2000, 2**16), (2000, 2**16 + 1):
            data = self.some(source, 8 * least)
            words = words_of(data)
            mask = mask_of(words)
            parity, found = encoded(data, least, total)
            self.assertEqual(found, mask)
            rows = [data[8 * i : 8 * i + 8] for i in range(least)] + [parity[8 * i : 8 * i + 8] for i in range(total - least)]
            for i in (least, total - 1, *source.sample(range(least, total), 30)):
                self.assertEqual(rows[i], bytes_of(row_of({j: [words[j]] for j in range(least)}, least, total, mask, i)))
            kept = source.sample(range(least, total), least)
            self.come_back(data, rows, mask, least, kept, [*range(least), *source.sample(range(least, total), 2 * least)])

    def test_large_domains(self):
        source = random.Random(6)
        for least, total in (3, 2**16), (2, 2**16 + 1), (4, 100_000):
            width = 3
            data = self.some(source, 8 * least * width)
            words = words_of(data)
            mask = mask_of(words)
            first = {i: words[i * width : (i + 1) * width] for i in range(least)}
            row = lambda i: bytes_of(first[i] if i < least else row_of(first, least, total, mask, i))
            wanted = [0, total - 1, least, total // 2, source.randrange(total)]
            for kept in range(least), source.sample(range(least, total), least), [total - 1 - i for i in range(least)]:
                held = Held(kept, b"".join(map(row, kept)), len(data), least, total, mask)
                self.assertEqual(held.rebuild(wanted), written(b"".join(map(row, wanted))))
                self.assertEqual(held.decode(), written(data))

    def test_words_that_may_not_stand_there(self):
        source = random.Random(7)
        for mask in (0, 1, 5):
            data = bytes_of([ONES - j << 32 for j in range(mask)] + [7] * 6)
            least, total = 3, 6
            rows, found = self.encode(data, least, total)
            self.assertEqual(found, mask)
            large = (P, P + 1, 2**64 - 1)
            hidden = ((ONES ^ mask) << 32, (ONES ^ mask) << 32 | ONES, (ONES ^ mask) << 32 | 1)
            for index in range(total):
                for word in large if index >= least else hidden:
                    kept = source.sample([i for i in range(total) if i != index], least - 1) + [index]
                    words = words_of(rows[index])
                    words[source.randrange(len(words))] = word
                    held = [rows[i] for i in kept[:-1]] + [bytes_of(words)]
                    of = Held(kept, b"".join(held), len(data), least, total, mask)
                    for status, out in of.rebuild([0]), of.decode():
                        self.assertEqual((status, set(out)), (OUT_OF_RANGE, {KEPT}))
                    self.assertEqual(of.verify(), (OUT_OF_RANGE, KEPT))
            # A parity row may hold P - 1, whose high half is all ones, and a data row P or more, as the mask leaves it.
            for index, word in (least, P - 1), (0, 2**64 - 1 if mask else P - 2):
                kept = [index] + [i for i in range(total) if i != index][: least - 1]
                words = words_of(rows[index])
                words[0] = word
                own = {i: words_of(rows[i]) for i in kept[1:]} | {index: words}
                found = [row_of(own, least, total, mask, i) for i in range(total)]
                of = Held(kept, b"".join(bytes_of(own[i]) for i in kept), len(data), least, total, mask)
                self.assertEqual(of.rebuild(list(range(total))), written(b"".join(map(bytes_of, found))))

    def test_sizes(self):
        row, data = ctypes.c_size_t(KEPT), ctypes.c_size_t(KEPT)
        ask = lambda *numbers: library.cwm_systematic_sizes(*numbers, ctypes.byref(row), ctypes.byref(data))
        for size in (*range(70), 8 * (2**31 - 1)):
            for least, total in (1, 1), (3, 5):
                width = width_of(size, least)
                if least * width >= 2**31:
                    continue
                for index in range(total):
                    self.assertEqual(ask(size, least, total, index), DONE)
                    self.assertEqual(row.value, 8 * width)
                    self.assertEqual(data.value, max(0, min(8 * width, size - index * 8 * width)))
        before = row.value, data.value
        for status, *numbers in [
            (MISMATCH, 2**64 - 1, 0, 1, 1),
            (MISMATCH, 2**64 - 1, 2, 1, 1),
            (WRONG_SIZE, 2**64 - 1, 1, 1, 1),
            (WRONG_SIZE, 8 * 2**31 - 7, 1, 1, 1),
            (WRONG_SIZE, 8 * (2**31 - 1), 1, 2**32 - 1, 2**32 - 1),
            (WRONG_INDEX, 0, 1, 1, 1),
            (WRONG_INDEX, 100, 2, 4, 2**32 - 1),
        ]:
            self.assertEqual((status, ask(*numbers)), (status, status), numbers)
        self.assertEqual((row.value, data.value), before)


# Sets of rows, many of them damaged, and what each call has to answer.


class Set:
    """Rows of some data, in any order, some of them twice and some of them damaged, and what is asked for."""

    def __init__(self, source):
        self.source = source
        self.least = source.randint(1, 6)
        self.total = source.randint(self.least, 12)
        size = source.choice((0, 1, 7, 8, 9, source.randrange(120), source.randrange(120), source.randrange(120)))
        ones = b"\xff" * source.choice((0, 0, 16))
        self.data = ones + source.randbytes(size)
        rows, self.mask = codeword_of(self.data, self.least, self.total)
        self.rows, self.size = rows, len(self.data)
        if source.randrange(8) == 0:
            self.past_the_end()
        few, many = source.randrange(self.least), source.randint(self.least, self.total)
        chosen = source.sample(range(self.total), source.choice((few, self.least, self.total) + (many,) * 7))
        again = source.choices(chosen, k=source.choice((0, 0, 1, 3))) if chosen else []
        self.held = [(i, self.rows[i]) for i in chosen + again]
        source.shuffle(self.held)
        self.wanted = source.choices(range(self.total), k=source.choice((0, 1, 1, 2, 5)))
        self.room = None
        self.cut = 0
        kinds = source.choices(self.KINDS, (12, 4, 3, 2, 1, 2, 1, 2, 1), k=source.choice((0, 1, 1, 1, 2, 3)))
        self.kinds = sorted(set(kinds), key=self.KINDS.index)
        for kind in self.kinds:
            kind(self)

    def past_the_end(self):
        """Data rows whose last bytes, past the end of the data, are not zeros, with the parity rows of these."""
        words = [word for row in self.rows[: self.least] for word in row]
        past = 8 * len(words) - self.size
        if past:
            block = bytearray(bytes_of(words))
            block[-self.source.randint(1, past)] = self.source.choice((1, 128, 255))
            rows, mask = codeword_of(bytes(block), self.least, self.total)
            if mask == self.mask:
                self.rows = rows

    def places(self, most):
        return self.source.sample(range(len(self.held)), min(len(self.held), most))

    def changed(self, index, row):
        """The row with some words changed to others that may stand there."""
        row = row[:]
        for k in self.source.sample(range(len(row)), min(len(row), self.source.choice((1, 1, 2)))):
            while True:
                word = row[k] ^ self.source.choice((1, 1 << self.source.randrange(64), self.source.randrange(1, 2**64)))
                if may_stand(index, word, self.least, self.mask):
                    row[k] = word
                    break
        return row

    # Damage.

    def words(self):
        for p in self.places(self.source.randint(1, 3)):
            index, row = self.held[p]
            new = self.changed(index, row)
            self.held = [(i, new if i == index else other) for i, other in self.held]

    def conflict(self):
        for p in self.places(1):
            index, row = self.held[p]
            self.held.insert(self.source.randint(0, len(self.held)), (index, self.changed(index, row)))

    def no_element(self):
        for p in self.places(1):
            index, row = self.held[p]
            if row:
                word = self.source.choice((P, 2**64 - 1)) if index >= self.least else (ONES ^ self.mask) << 32 | 5
                k = self.source.randrange(len(row))
                self.held[p] = index, row[:k] + [word] + row[k + 1 :]

    def no_index(self):
        for p in self.places(1):
            self.held[p] = self.source.choice((self.total, self.total + 1, 16, 2**32 - 1)), self.held[p][1]

    def no_wanted(self):
        self.wanted.insert(self.source.randint(0, len(self.wanted)), self.source.choice((self.total, 2**32 - 1)))

    def other_numbers(self):
        others = (self.least + 1, self.total), (self.least - 1, self.total), (self.least, self.source.randint(1, 16))
        self.least, self.total = self.source.choice(others)

    def no_numbers(self):
        none = (0, self.total), (0, 0), (self.least, 0), (self.total + 1, self.total), (2**32 - 1, 12), (0, 2**32 - 1)
        self.least, self.total = self.source.choice(none)

    def other_mask(self):
        self.mask = self.source.choice((self.mask ^ 1, self.mask + 1, ONES, self.source.randrange(2**32)))

    def other_lengths(self):
        self.size = max(0, self.source.choice((self.size, self.size + 8 * self.least, self.size - 8, 2**34, 2**64 - 1)))
        self.cut, self.room = self.source.choice(((1, None), (0, None), (8, None), (0, -1), (0, 8)))

    KINDS = words, conflict, no_element, no_index, no_wanted, other_numbers, no_numbers, other_mask, other_lengths


def foreseen(case, held, wanted, room):
    """The status that is due to rows in hand, and all rows of their codeword if there is one."""
    least, total, mask = case.least, case.total, case.mask
    if not 1 <= least <= total:
        return MISMATCH, None
    width = width_of(case.size, least)
    if least * width >= 2**31 or total * width >= 2**60:
        return WRONG_SIZE, None
    if len(held.rows) != 8 * width * len(held.indices) or room is not None and room != 8 * width * len(wanted):
        return WRONG_SIZE, None
    if not held.indices:
        return TOO_FEW, None
    if any(i >= total for i in [*held.indices, *wanted]):
        return WRONG_INDEX, None
    words = words_of(held.rows)
    rows = [(i, words[p * width : (p + 1) * width]) for p, i in enumerate(held.indices)]
    if not all(may_stand(i, word, least, mask) for i, row in rows for word in row):
        return OUT_OF_RANGE, None
    if any(i == j and row != other for i, row in rows for j, other in rows):
        return CONFLICT, None
    distinct = dict(rows)
    if len(distinct) < least:
        return TOO_FEW, None
    some = {i: distinct[i] for i in sorted(distinct)[:least]}
    found = [row_of(some, least, total, mask, i) for i in range(total)]
    return (DONE, found) if all(found[i] == row for i, row in distinct.items()) else (INCONSISTENT, None)


class Sets(unittest.TestCase):
    def test_sets(self):
        source, self.counts = random.Random(64), Counter()
        for n in range(SETS):
            case = Set(source)
            with self.subTest(n=n, kinds=[kind.__name__ for kind in case.kinds]):
                self.one(case)
        said = ", ".join(f"{name} {count}" for name, count in sorted(self.counts.items()))
        print(f"{SETS} sets of systematic shards: {said}")
        # Each answer was there often enough to say something.
        for status in (DONE, OUT_OF_RANGE, WRONG_SIZE, TOO_FEW, MISMATCH, WRONG_INDEX, CONFLICT, INCONSISTENT):
            self.assertGreater(self.counts[NAMES[status]], SETS // 60, NAMES[status])
        for name in ("past the end", "belong", "belong not", "package"):
            self.assertGreater(self.counts[name], SETS // 60, name)

    def one(self, case):
        data = b"".join(map(bytes_of, (row for _, row in case.held)))
        held = Held(
            [i for i, _ in case.held], data[: len(data) - case.cut], case.size, case.least, case.total, case.mask
        )
        width = width_of(case.size, case.least) if case.least and case.size < 2**30 else 0
        room = max(0, 8 * width * len(case.wanted) + (case.room or 0))
        status, found = foreseen(case, held, case.wanted, room)
        self.counts[NAMES[status]] += 1
        due = (status, bytes([KEPT]) * (room + BEHIND))
        rows = [bytes_of(found[i]) for i in case.wanted] if found else []
        self.assertEqual(held.rebuild(case.wanted, room), written(b"".join(rows)) if found else due)
        # The others want none, and have no room for rows.
        status, found = foreseen(case, held, [], None)
        belong = status if status not in (CONFLICT, INCONSISTENT) else DONE
        self.counts["belong" if status == DONE else "belong not"] += belong == DONE
        self.assertEqual(held.verify(), (belong, KEPT if belong else int(status == DONE)))
        if case.size < 2**20:
            self.decoded(case, held, status, found)
        self.package(case, held)

    def decoded(self, case, held, status, found):
        block = bytes_of(word for row in (found or [])[: case.least] for word in row)
        if found and any(block[case.size :]):
            self.counts["past the end"] += 1
            status = INCONSISTENT
        due = (status, bytes([KEPT]) * (case.size + BEHIND))
        self.assertEqual(held.decode(), due if status else written(block[: case.size]))

    def package(self, case, held):
        """The package answers as C does, where the rows have one length. What it says of refusals is there."""
        count = len(held.indices)
        if (len(held.rows) % count if count else held.rows) or case.size >= 2**20:
            return
        each = len(held.rows) // max(1, count)
        pairs = [(index, held.rows[p * each : (p + 1) * each]) for p, index in enumerate(held.indices)]
        numbers = case.size, case.least, case.total, case.mask
        status, found = foreseen(case, held, case.wanted, None)
        rows = [bytes_of(found[i]) for i in case.wanted] if found else status
        self.assertEqual(answered(systematic.rebuild, pairs, case.wanted, *numbers), rows)
        status, belong = held.verify()
        self.assertEqual(answered(systematic.verify, pairs, *numbers), status or belong == 1)
        status, out = held.decode()
        self.assertEqual(answered(systematic.decode, pairs, *numbers), status or out[: case.size])
        self.counts["package"] += 1


def answered(function, *arguments):
    """What a function of the package answers, or the status of its refusal."""
    try:
        return function(*arguments)
    except cm.Error as error:
        return error.status


# Rows of which some are wrong.


def nearest(settled, least, total, mask):
    """All rows of the codeword that at most (m - `least`) / 2 of the m settled rows contradict, or None.

    Of the first `least` + that many some `least` are right, and these fix the codeword. So all that can be are tried.
    """
    radius = (len(settled) - least) // 2
    for chosen in itertools.combinations(sorted(settled)[: least + radius], least):
        some = {i: settled[i] for i in chosen}
        found = [row_of(some, least, total, mask, i) for i in range(total)]
        if sum(found[i] != row for i, row in settled.items()) <= radius:
            return found
    return None


def foreseen_corrected(case, held, wanted, room, places):
    """The status, the wanted rows, and the positions of the wrong rows."""
    status, _ = foreseen(case, held, wanted, room)
    if status in (MISMATCH, WRONG_SIZE):
        return status, None, None
    if places < len(held.indices):
        return WRONG_SIZE, None, None
    if status == WRONG_INDEX or not held.indices:
        return status, None, None
    width, words = width_of(case.size, case.least), words_of(held.rows)
    rows = [(i, words[p * width : (p + 1) * width]) for p, i in enumerate(held.indices)]
    sound = [(i, row) for i, row in rows if all(may_stand(i, word, case.least, case.mask) for word in row)]
    unequal = {i for i, row in sound for j, other in sound if i == j and row != other}
    settled = {i: row for i, row in sound if i not in unequal}
    if len(settled) < case.least:
        return TOO_FEW, None, None
    found = nearest(settled, case.least, case.total, case.mask)
    if found is None:
        return INCONSISTENT, None, None
    rebuilt = b"".join(bytes_of(found[i]) for i in wanted)
    return DONE, rebuilt, [p for p, (i, row) in enumerate(rows) if found[i] != row]


class CorrectedSets(unittest.TestCase):
    def test_sets(self):
        source, counts = random.Random(65), Counter()
        for n in range(SETS):
            case = Set(source)
            data = b"".join(bytes_of(row) for _, row in case.held)
            held = Held(
                [i for i, _ in case.held], data[: len(data) - case.cut], case.size, case.least, case.total, case.mask
            )
            width = width_of(case.size, case.least) if case.least and case.size < 2**30 else 0
            room = max(0, 8 * width * len(case.wanted) + (case.room or 0))
            places = max(0, len(held.indices) + source.choice((0,) * 8 + (1, 5, -1)))
            status, rebuilt, wrong = foreseen_corrected(case, held, case.wanted, room, places)
            counts[NAMES[status]] += 1
            counts["some wrong"] += bool(wrong)
            due = (status, bytes([KEPT]) * (room + BEHIND), [KEPT] * (places + BEHIND), KEPT)
            if rebuilt is not None:
                due = (*written(rebuilt), wrong + [KEPT] * (places + BEHIND - len(wrong)), len(wrong))
            with self.subTest(n=n, kinds=[kind.__name__ for kind in case.kinds]):
                self.assertEqual(held.rebuild_corrected(case.wanted, room, places), due)
                self.package(case, held)
        print(f"{SETS} sets, corrected: {', '.join(f'{name} {count}' for name, count in sorted(counts.items()))}")
        for name in ("done", "size", "few", "mismatch", "index", "inconsistent", "some wrong"):
            self.assertGreater(counts[name], SETS // 60, name)

    def package(self, case, held):
        count = len(held.indices)
        if (len(held.rows) % count if count else held.rows) or case.size >= 2**20:
            return
        each = len(held.rows) // max(1, count)
        pairs = [(index, held.rows[p * each : (p + 1) * each]) for p, index in enumerate(held.indices)]
        status, rebuilt, wrong = foreseen_corrected(case, held, case.wanted, None, count)
        found = answered(systematic.rebuild_corrected, pairs, case.wanted, case.size, case.least, case.total, case.mask)
        if rebuilt is None:
            self.assertEqual(found, status)
        else:
            self.assertEqual((b"".join(found[0]), found[1]), (rebuilt, sorted(held.indices[p] for p in wrong)))


class Package(unittest.TestCase):
    DATA = bytes(range(100))

    def test_encode(self):
        for least, total in (1, 1), (3, 5), (4, 4), (7, 30):
            shards, mask = systematic.encode(self.DATA, least, total)
            rows, found = codeword_of(self.DATA, least, total)
            self.assertEqual((shards, mask), ([bytes_of(row) for row in rows], found))
            self.assertEqual({len(shard) for shard in shards}, {systematic.shard_size(100, least, total)})
            self.assertEqual(b"".join(shards[:least])[:100], self.DATA)
            sizes = [systematic.data_size(100, least, total, i) for i in range(total)]
            self.assertEqual(sum(sizes), 100)
        self.assertEqual(systematic.encode(b"", 2, 4), ([b""] * 4, 0))
        self.assertEqual(systematic.encode(b"\xff" * 16, 1, 1), ([b"\xff" * 16], 1))

    def test_buffers(self):
        shards, mask = systematic.encode(self.DATA, 3, 5)
        for given in (bytearray(self.DATA), memoryview(self.DATA), memoryview(bytearray(self.DATA)), array("I", self.DATA)):
            self.assertEqual(systematic.encode(given, 3, 5), (shards, mask))
        left = {4: memoryview(shards[4]), 0: bytearray(shards[0]), 2: memoryview(bytearray(shards[2]))}
        for given in (left, list(left.items()), iter(left.items()), zip(left, left.values())):
            self.assertEqual(systematic.decode(given, 100, 3, 5, mask), self.DATA)
        self.assertEqual(systematic.rebuild(left, iter([1, 1, 0]), 100, 3, 5, mask), [shards[1], shards[1], shards[0]])
        self.assertEqual(systematic.rebuild(left, [], 100, 3, 5, mask), [])
        self.assertTrue(systematic.verify(enumerate(shards), 100, 3, 5, mask))
        self.assertEqual(systematic.decode(enumerate([b""] * 3), 0, 2, 4, 0), b"")

    def refused(self, error, text, function, *arguments):
        """The call has to be refused so, with a text that has this in it."""
        with self.subTest(function=function.__name__, text=text):
            with self.assertRaises(error) as raised:
                function(*arguments)
            self.assertIn(text, str(raised.exception))

    def test_refusals(self):
        shards, mask = systematic.encode(self.DATA, 3, 5)
        left, numbers = {i: shards[i] for i in (0, 2, 4)}, (100, 3, 5, mask)
        high = b"\xff" * 8 + shards[4][8:]
        calls = [
            (systematic.rebuild, lambda some, *numbers: systematic.rebuild(some, [1], *numbers)),
            (systematic.decode, systematic.decode),
            (systematic.verify, systematic.verify),
        ]
        for _, call in calls:
            for error, text, *arguments in [
                (cm.Mismatch, "mismatch: min 6, total 5", left, 100, 6, 5, mask),
                (cm.WrongSize, f"{2**40} bytes, min 3, total 5", left, 2**40, 3, 5, mask),
                (cm.Mismatch, "shard 0 has 40 bytes, and shard 2 has 8", {0: shards[0], 2: shards[2][:8]}, *numbers),
                (cm.WrongSize, "shards of 40 bytes, and those of 50 bytes, min 3, have 24", left, 50, 3, 5, mask),
                (cm.TooFew, "too few: 0 of 3 shards", {}, *numbers),
                (cm.TooFew, "too few: 2 of 3 shards", {0: shards[0], 2: shards[2]}, *numbers),
                (cm.TooFew, "too few: 1 of 3 shards", [(1, shards[1])] * 3, *numbers),
                (cm.WrongIndex, "index 5, total 5", {**left, 5: shards[1]}, *numbers),
                (cm.OutOfRange, f"word 0 is {2**64 - 1} in shard 4", {**left, 4: high}, *numbers),
                (cm.OutOfRange, f"word 0 is {2**64 - 1} in shard 1 under the mask 0", {**left, 1: high}, *numbers),
                (OverflowError, "2**32", left, 100, 3, 5, 2**32),
                (TypeError, "pairs of an index and a shard", shards, *numbers),
                (TypeError, "", {0: "text"}, *numbers),
            ]:
                self.refused(error, text, call, *arguments)
        wrong = {**left, 1: shards[0]}
        for call in (calls[0][1], systematic.decode):
            self.refused(cm.Inconsistent, "4 shards, 100 bytes, min 3, total 5, mask 0", call, wrong, *numbers)
            twice = [*left.items(), (0, shards[1])]
            self.refused(cm.Conflict, "unequal shards of one index: index 0", call, twice, *numbers)
        self.assertFalse(systematic.verify(wrong, *numbers))
        self.refused(cm.WrongIndex, "index 9, total 5", systematic.rebuild, left, [1, 9], *numbers)
        self.refused(cm.WrongIndex, "index 5, total 5", systematic.data_size, 100, 3, 5, 5)
        self.refused(cm.Mismatch, "min 0, total 0", systematic.encode, b"", 0, 0)
        self.refused(cm.Mismatch, "min 2, total 1", systematic.shard_size, 1, 2, 1)
        self.refused(TypeError, "", systematic.encode, "text", 1, 1)
        self.refused(OverflowError, "", systematic.encode, b"", 1, 2**32)

    def test_threads(self):
        blocks = [random.Random(seed).randbytes(50_000) for seed in range(8)]
        with ThreadPoolExecutor(4) as pool:
            self.assertEqual(
                list(pool.map(lambda block: systematic.encode(block, 10, 16), blocks)),
                [systematic.encode(block, 10, 16) for block in blocks],
            )


def load_tests(loader, tests, pattern):
    tests.addTests(doctest.DocTestSuite(systematic))
    return tests


if __name__ == "__main__":
    unittest.main()
