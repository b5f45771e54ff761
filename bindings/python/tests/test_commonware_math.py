"""The calls against plain Python over random input, their errors, the examples of their documentation, and threads."""

import builtins
import doctest
import os
import pickle
import random
import time
import unittest
from array import array
from concurrent.futures import ThreadPoolExecutor
from pathlib import Path

import commonware_math as cm
from commonware_math import MODULUS as P

ROOT = 0xEE41F5320C4EA145  # of order 2**32


def root(points):
    """The root whose order is that power of two."""
    return pow(ROOT, 2**32 // points, P)


def value(coefficients, x):
    """The value at x, by Horner's rule."""
    total = 0
    for c in reversed(coefficients):
        total = (total * x + c) % P
    return total


def weight(points, k, x):
    """The weight of the value at the k-th of distinct points for the value at x."""
    above, below = 1, 1
    for j, p in enumerate(points):
        if j != k:
            above = above * (x - p) % P
            below = below * (points[k] - p) % P
    return above * pow(below, P - 2, P) % P


def shards_of(data, least, total):
    """The shards of the bytes, from the description of their format alone."""
    words = [len(data)] + [int.from_bytes(data[i : i + 8], "little") for i in range(0, len(data), 8)]
    words = [len(words)] + words
    bits = sum(word << 64 * i for i, word in enumerate(words))
    count = -(-64 * len(words) // 63)
    elements = [bits >> 63 * i & 2**63 - 1 for i in range(count)]
    cols = -(-count // least)
    elements += [0] * (least * cols - count)
    w = root(1 << (total - 1).bit_length())
    shard = lambda i: [value(elements[k::cols], pow(w, i, P)) for k in range(cols)]
    return [b"".join(cell.to_bytes(8, "big") for cell in shard(i)) for i in range(total)]


def chance(random_source, count):
    """So many elements, of which some are the least or the greatest."""
    return [random_source.choice((0, 1, P - 1, *(random_source.randrange(P) for _ in range(5)))) for _ in range(count)]


class Counted(unittest.TestCase):
    """Against plain Python: 10,000 calls in all."""

    calls = 0

    def call(self, function, *arguments):
        Counted.calls += 1
        return function(*arguments)

    def test_10000_calls(self):
        source = random.Random(33)
        checks = [self.bytes_in_shards, self.values, self.at_points, self.at_roots, self.on_a_domain, self.encoded, self.decoded]
        while Counted.calls < 10_000:
            source.choice(checks)(source)

    def bytes_in_shards(self, source):
        total = source.randint(1, 9)
        least = source.randint(1, total)
        data = source.randbytes(source.choice((0, 1, 7, 8, 9, source.randrange(60))))
        shards = self.call(cm.split, data, least, total)
        self.assertEqual(shards, shards_of(data, least, total))
        self.assertEqual(self.call(cm.shard_size, len(data), least, total), len(shards[0]))
        for _ in range(3):
            left = source.sample(range(total), source.randint(least, total))
            self.assertEqual(self.call(cm.join, {i: shards[i] for i in left}, least, total), data)
        if least > 1:
            few = source.sample(range(total), least - 1)
            with self.assertRaises(cm.TooFew):
                self.call(cm.join, {i: shards[i] for i in few}, least, total)
        if total > least:
            damaged = {i: bytearray(shards[i]) for i in source.sample(range(total), least + 1)}
            row = damaged[source.choice(list(damaged))]
            row[source.randrange(len(row))] ^= 1 << source.randrange(8)
            with self.assertRaises((cm.Inconsistent, cm.OutOfRange)):
                self.call(cm.join, damaged, least, total)
        wrong = sorted(source.sample(range(total), (total - least) // 2))
        some = {i: bytes(len(shard)) if i in wrong else shard for i, shard in enumerate(shards)}
        wrong = [i for i in wrong if some[i] != shards[i]]
        self.assertEqual(self.call(cm.join_corrected, some, least, total), (data, wrong))

    def values(self, source):
        coefficients, x = chance(source, source.randint(1, 40)), chance(source, 1)[0]
        self.assertEqual(self.call(cm.eval, coefficients, x), value(coefficients, x))

    def at_points(self, source):
        points = list(dict.fromkeys(chance(source, source.randint(1, 6))))
        x = chance(source, 1)[0]
        found = self.call(cm.weights, array("Q", points), x)
        self.assertEqual(list(found), [weight(points, k, x) for k in range(len(points))])

    def at_roots(self, source):
        total = source.randint(1, 20)
        indices = sorted(source.sample(range(total), source.randint(1, min(6, total))))
        x = chance(source, 1)[0]
        w = root(1 << (total - 1).bit_length())
        points = [pow(w, i, P) for i in indices]
        found = self.call(cm.weights_at_roots, total, indices, x)
        self.assertEqual(list(found), [weight(points, k, x) for k in range(len(points))])

    def on_a_domain(self, source):
        rows, cols = 1 << source.randrange(4), source.randint(1, 3)
        most = source.randint(1, rows)
        old = chance(source, most * cols) + [0] * ((rows - most) * cols)
        cells = array("Q", old)
        self.call(cm.evaluate, cells, cols)
        w = root(rows)
        expected = [value(old[k::cols], pow(w, i, P)) for i in range(rows) for k in range(cols)]
        self.assertEqual(list(cells), expected)
        again = array("Q", cells)
        self.call(cm.interpolate, again, cols)
        self.assertEqual(list(again), old)
        filled = set(source.sample(range(rows), source.randint(most, rows)))
        marks = bytes(i in filled for i in range(rows))
        left = array("Q", (cells[n] if n // cols in filled else 2**64 - 1 for n in range(rows * cols)))
        self.call(cm.recover, left, marks, cols)
        self.assertEqual(list(left), old)
        wrong = sorted(source.sample(sorted(filled), (len(filled) - most) // 2))
        for i in wrong:
            cells[i * cols] = (cells[i * cols] + 1) % P
        self.assertEqual(self.call(cm.correct, cells, [i in filled for i in range(rows)], most, cols), wrong)
        self.assertEqual(list(cells), old)

    def encoded(self, source):
        coefficients = chance(source, source.randint(1, 200))
        expected, n = b"", len(coefficients)
        while n >= 128:
            expected, n = expected + bytes([n % 128 + 128]), n // 128
        expected += bytes([n]) + b"".join(c.to_bytes(8, "big") for c in coefficients)
        self.assertEqual(self.call(cm.encode_poly, coefficients), expected)
        self.assertEqual(list(self.call(cm.decode_poly, expected)), coefficients)

    def decoded(self, source):
        coefficients = chance(source, source.randint(1, 4))
        points = source.sample(range(1, 1000), len(coefficients) + source.randrange(6))
        values = [value(coefficients, x) for x in points]
        wrong = sorted(source.sample(range(len(points)), (len(points) - len(coefficients)) // 2))
        for i in wrong:
            values[i] = (values[i] + 1) % P
        found, places = self.call(cm.decode, points, array("Q", values), len(coefficients))
        self.assertEqual((list(found), places), (coefficients, wrong))


class Number:
    """A whole number of a type of its own, which is equal to no other."""

    def __init__(self, value):
        self.value = value

    def __index__(self):
        return self.value


class Names(unittest.TestCase):
    def test_all_names(self):
        there = {}
        exec("from commonware_math import *", there)
        self.assertEqual(there["split"], cm.split)
        self.assertEqual([name for name in there if hasattr(builtins, name)], [])
        self.assertEqual(cm.eval([4, 6, 8], 5), 234)

    def test_version(self):
        self.assertEqual(cm.__version__, Path(__file__).resolve().parents[3].joinpath("VERSION").read_text().strip())


class Refusals(unittest.TestCase):
    def test_each_by_name(self):
        four = array("Q", [1, 2, 3, 4])
        shards = cm.split(b"0123456789", 2, 3)
        for error, function, *arguments in [
            (cm.OutOfRange, cm.eval, [P], 5),
            (cm.OutOfRange, cm.evaluate, array("Q", [P, 0])),
            (cm.OutOfRange, cm.recover, four, bytes([2, 1, 1, 1])),
            (cm.OutOfRange, cm.join, {0: b"\xff" * 24, 1: b"\xff" * 24}, 2, 3),
            (cm.OutOfRange, cm.join_corrected, {0: b"\xff" * 24, 1: b"\xff" * 24}, 2, 3),
            (cm.WrongSize, cm.eval, [], 5),
            (cm.WrongSize, cm.evaluate, array("Q", [1, 2, 3])),
            (cm.WrongSize, cm.evaluate, four, 0),
            (cm.WrongSize, cm.recover, four, [True]),
            (cm.WrongSize, cm.decode, [1], [2], 2),
            (cm.WrongSize, cm.decode, [1], [2], 2**63),
            (cm.WrongSize, cm.decode, [1], [2, 3], 1),
            (cm.WrongSize, cm.weights_at_roots, 0, [], 0),
            (cm.WrongSize, cm.shard_size, 2**62, 1, 1),
            (cm.WrongSize, cm.join, {0: b"123", 1: b"456"}, 2, 3),
            (cm.WrongSize, cm.join_corrected, {0: b"123", 1: b"456"}, 2, 3),
            (cm.TooFew, cm.join, {}, 1, 1),
            (cm.TooFew, cm.join, {1: shards[1]}, 2, 3),
            (cm.TooFew, cm.join_corrected, {1: shards[1]}, 2, 3),
            (cm.TooFew, cm.correct, four, [True, False, False, False], 2),
            (cm.Mismatch, cm.split, b"1", 2, 1),
            (cm.Mismatch, cm.split, b"", 0, 0),
            (cm.Mismatch, cm.join, {0: shards[0], 1: shards[1][:8]}, 2, 3),
            (cm.WrongIndex, cm.join, {0: shards[0], 3: shards[1]}, 2, 3),
            (cm.WrongIndex, cm.weights_at_roots, 4, [1, 1], 0),
            (cm.Inconsistent, cm.join, {0: shards[0], 1: shards[0], 2: shards[0]}, 2, 3),
            (cm.Inconsistent, cm.join_corrected, {0: shards[0], 1: shards[0], 2: shards[0]}, 2, 3),
            (cm.Inconsistent, cm.correct, four, [True] * 4, 2),
            (cm.EndOfBuffer, cm.decode_poly, b""),
            (cm.InvalidVarint, cm.decode_poly, b"\x80\x00"),
            (cm.InvalidLength, cm.decode_poly, b"\x00"),
            (cm.ExtraData, cm.decode_poly, b"\x01" + bytes(9)),
            (cm.Repeated, cm.decode, [1, 1], [2, 3], 1),
            (OverflowError, cm.eval, [1], -1),
            (OverflowError, cm.eval, [2**64], 1),
            (OverflowError, cm.split, b"", 1, 2**32 + 1),
            (OverflowError, cm.weights_at_roots, 4, [2**32], 0),
            (TypeError, cm.eval, [1.5], 2),
            (TypeError, cm.eval, ["1"], 2),
            (TypeError, cm.eval, [1], 2.0),
            (TypeError, cm.recover, four, "TFTF"),
            (TypeError, cm.recover, four, [1, 0, 2, 1]),
            (TypeError, cm.evaluate, bytes(8)),
            (TypeError, cm.evaluate, memoryview(bytes(8)).cast("Q")),
            (TypeError, cm.evaluate, memoryview(bytearray(15))[7:].cast("Q")),
            (TypeError, cm.evaluate, array("I", [1, 2])),
            (TypeError, cm.evaluate, memoryview(four)[::2]),
            (TypeError, cm.evaluate, [1, 2]),
            (TypeError, cm.eval, [1], "2"),
            (TypeError, cm.eval, [1], [2.0]),
            (TypeError, cm.split, "text", 1, 1),
            (TypeError, cm.join, {0: "text"}, 1, 1),
        ]:
            with self.subTest(function=function.__name__, arguments=arguments):
                with self.assertRaises(error):
                    function(*arguments)
        self.assertEqual(list(four), [1, 2, 3, 4])

    def test_texts(self):
        for error in cm.Error.__subclasses__():
            self.assertNotIn(str(error()), ("", "no status", "done"))
        self.assertEqual(sorted(error.status for error in cm.Error.__subclasses__()), list(range(1, 16)))

    def test_other_processes(self):
        for error in cm.Error.__subclasses__():
            for numbers in ("", "1 of 2"):
                again = pickle.loads(pickle.dumps(error(numbers)))
                self.assertEqual((type(again), str(again), again.numbers), (error, str(error(numbers)), numbers))
                self.assertTrue(str(again).endswith(numbers))

    def refused(self, error, text, function, *arguments):
        """The call has to be refused so, with a text that has this in it."""
        with self.subTest(function=function.__name__, text=text):
            with self.assertRaises(error) as raised:
                function(*arguments)
            self.assertIn(text, str(raised.exception))

    def test_numbers(self):
        shards = dict(enumerate(cm.split(b"0123456789", 2, 3)))
        large = {0: shards[0], 2: b"\xff" * 8 + shards[2][8:]}
        cells = array("Q", range(8))
        for function in (cm.join, cm.join_corrected):
            for error, text, *arguments in [
                (cm.TooFew, "too few: 1 of 2 shards", {1: shards[1]}, 2, 3),
                (cm.TooFew, "too few: 0 of 1 shards", {}, 1, 1),
                (cm.Mismatch, "mismatch: min 3, total 2", shards, 3, 2),
                (cm.Mismatch, "shard 0 has 24 bytes, and shard 1 has 8", {0: shards[0], 1: shards[1][:8]}, 2, 3),
                (cm.WrongIndex, "wrong index: index 2, total 2", shards, 2, 2),
                (cm.WrongSize, "wrong size: shards of 3 bytes", {0: b"123", 1: b"456"}, 2, 3),
                (cm.OutOfRange, "word 0 is 18446744073709551615 in shard 2", large, 2, 3),
                (cm.Inconsistent, "nothing fits: 3 shards, min 2, total 3", {i: shards[0] for i in range(3)}, 2, 3),
            ]:
                self.refused(error, text, function, *arguments)
        for error, text, function, *arguments in [
            (cm.Mismatch, "mismatch: min 2, total 1", cm.split, b"1", 2, 1),
            (cm.WrongSize, f"wrong size: {2**62} bytes, min 1, total 1", cm.shard_size, 2**62, 1, 1),
            (cm.WrongSize, "8 cells in rows of 3", cm.evaluate, cells, 3),
            (cm.WrongSize, "8 cells in rows of 0", cm.interpolate, cells, 0),
            (cm.WrongSize, "8 cells in rows of 2, 3 rows marked", cm.recover, cells, [True] * 3, 2),
            (cm.OutOfRange, f"cell 1 is {P}", cm.evaluate, array("Q", [0, P])),
            (cm.OutOfRange, f"cell 3 is {P}", cm.recover, array("Q", [P, P, 1, P]), [False, True], 2),
            (cm.OutOfRange, "mark 1 is 2", cm.recover, cells, bytes([1, 2, 1, 1]), 2),
            (cm.TooFew, "too few: 1 of 2 filled rows", cm.correct, cells, [True, False, False, False], 2, 2),
            (cm.Inconsistent, "4 filled rows, 2 coefficients", cm.correct, array("Q", [1, 2, 3, 4]), [True] * 4, 2),
            (cm.WrongSize, "0 coefficients", cm.eval, [], 5),
            (cm.OutOfRange, f"coefficient 1 is {P}", cm.eval, [1, P], P),
            (cm.OutOfRange, f"x is {P}", cm.eval, [1], P),
            (cm.OutOfRange, f"point 2 is {P}", cm.eval, [1], [3, 2, P]),
            (cm.WrongSize, "1 points, 2 values, 1 coefficients", cm.decode, [1], [2, 3], 1),
            (cm.WrongSize, f"1 points, 1 values, {2**63} coefficients", cm.decode, [1], [2], 2**63),
            (cm.OutOfRange, f"value 1 is {P}", cm.decode, [1, 2], [3, P], 1),
            (cm.Repeated, "points 1 and 3 are 6", cm.decode, [5, 6, 7, 6], [1, 1, 1, 1], 1),
            (cm.Inconsistent, "3 values, 2 coefficients", cm.decode, [1, 2, 3], [1, 2, 4], 2),
            (cm.OutOfRange, f"point 0 is {P}", cm.weights, [P], 0),
            (cm.OutOfRange, f"x is {P}", cm.weights, [1], P),
            (cm.WrongIndex, "index 4, total 4", cm.weights_at_roots, 4, [1, 4], 0),
            (cm.WrongIndex, "index 1 after 2", cm.weights_at_roots, 4, [2, 1], 0),
            (cm.WrongSize, "total 0", cm.weights_at_roots, 0, [], 0),
            (cm.OutOfRange, f"x is {P}", cm.weights_at_roots, 4, [1], P),
            (cm.OutOfRange, f"coefficient 0 is {P}", cm.encode_poly, [P]),
            (cm.EndOfBuffer, "8 bytes", cm.decode_poly, b"\x01" + bytes(7)),
            (cm.ExtraData, "10 bytes, and 1 coefficients take 9", cm.decode_poly, b"\x01" + bytes(9)),
            (cm.OutOfRange, f"coefficient 1 is {2**64 - 1}", cm.decode_poly, b"\x02" + bytes(8) + b"\xff" * 8),
        ]:
            self.refused(error, text, function, *arguments)
        self.assertEqual(cells, array("Q", range(8)))

    def test_two_keys_of_one_number(self):
        shards = cm.split(b"0123456789", 2, 3)
        some = {Number(1): shards[1], Number(1): shards[0], 2: shards[2]}
        self.refused(cm.Conflict, "unequal shards of one index: index 1", cm.join, some, 2, 3)
        self.refused(cm.TooFew, "1 of 2 shards", cm.join, {Number(1): shards[1], Number(1): shards[1]}, 2, 3)
        # Neither of the two counts.
        self.refused(cm.TooFew, "1 of 2 shards", cm.join_corrected, some, 2, 3)

    def test_numbers_of_many_digits(self):
        for many in (10**5000, -(10**5000)):
            for function, *arguments in [
                (cm.eval, [1], many),
                (cm.eval, [1], [1, many]),
                (cm.eval, [1, many], 1),
                (cm.split, b"", 1, many),
                (cm.join, {many: b""}, 1, 1),
                (cm.evaluate, array("Q", [1]), many),
                (cm.weights_at_roots, 4, [many], 0),
            ]:
                with self.subTest(function=function.__name__):
                    with self.assertRaises(OverflowError) as raised:
                        function(*arguments)
                    self.assertLess(len(str(raised.exception)), 100)
        self.refused(OverflowError, "-1 is not from 0 to 2**64 - 1", cm.eval, [1], -1)
        self.refused(OverflowError, f"{2**64} is not from 0 to 2**64 - 1", cm.eval, [2**64], 1)

    def test_what_is_wanted(self):
        shards = cm.split(b"0123456789", 2, 3)
        for function in (cm.join, cm.join_corrected):
            self.refused(TypeError, "dict(enumerate(shards))", function, shards, 2, 3)
            self.refused(TypeError, "not a list", function, shards, 2, 3)
            self.refused(TypeError, "not a contiguous buffer", function, {0: memoryview(shards[0])[::2]}, 1, 1)
        self.refused(TypeError, "not a contiguous buffer", cm.split, memoryview(shards[0])[::2], 1, 1)
        self.refused(TypeError, "not a contiguous buffer", cm.evaluate, memoryview(array("Q", [1, 2, 3]))[::2])
        for call in (cm.evaluate, lambda words: cm.eval(words, 5)):
            self.refused(TypeError, "dtype=numpy.uint64", call, array("q", [1, 2]))
        self.refused(TypeError, "in place: not a list", cm.evaluate, [1, 2])


class Buffers(unittest.TestCase):
    def test_in_place(self):
        store = bytearray(64)
        view = memoryview(store).cast("Q")
        view[0] = 5
        cm.evaluate(view[:4])
        self.assertEqual(list(view), [5, 5, 5, 5, 0, 0, 0, 0])

    def test_what_is_read(self):
        words = array("Q", [4, 6, 8])
        for given in (words, memoryview(words), memoryview(words.tobytes()).cast("Q"), [4, 6, 8], (4, 6, 8), iter([4, 6, 8])):
            self.assertEqual(cm.eval(given, 5), 234)
        for points in ([0, 1, 5], (0, 1, 5), array("Q", [0, 1, 5]), iter([Number(0), 1, 5]), range(0)):
            expected = [] if points == range(0) else [4, 18, 234]
            self.assertEqual(cm.eval([4, 6, 8], points), expected)
        # an address that 8 does not divide
        self.assertEqual(cm.eval(memoryview(bytearray(7) + words.tobytes() + bytes(1))[7:31].cast("Q"), 5), 234)

    def test_bytes(self):
        data = bytes(range(100))
        shards = cm.split(data, 3, 5)
        for given in (bytearray(data), memoryview(data), memoryview(bytearray(data)), array("Q", data[:96])):
            expected = shards if len(memoryview(given).tobytes()) == 100 else cm.split(data[:96], 3, 5)
            self.assertEqual(cm.split(given, 3, 5), expected)
        left = {i: memoryview(bytearray(shards[i])) for i in (4, 2, 1)}
        self.assertEqual(cm.join(left, 3, 5), data)
        self.assertEqual(cm.join({i: s for i, s in enumerate(cm.split(b"", 1, 2))}, 1, 2), b"")

    def test_rows_of_a_buffer(self):
        old, values = [[4, 1], [6, 0]], [[10, 1], [cm.MODULUS - 2, 1]]
        rows = memoryview(bytearray(array("Q", sum(old, [])).tobytes())).cast("B").cast("Q", (2, 2))
        for cols in (2, None):
            cm.evaluate(rows, cols)
            self.assertEqual(rows.tolist(), values)
            cm.interpolate(rows, cols)
            self.assertEqual(rows.tolist(), old)
        # The rows say themselves how long they are.
        cm.evaluate(rows)
        self.assertEqual(rows.tolist(), values)
        cm.recover(rows, [True] * 2)
        self.assertEqual(rows.tolist(), old)
        cm.evaluate(rows)
        self.assertEqual(cm.correct(rows, [True] * 2, 2), [])
        cm.evaluate(rows)
        for call, *arguments in [(cm.evaluate,), (cm.interpolate,), (cm.recover, [True] * 4), (cm.correct, [True] * 4, 4)]:
            for cols in (1, 4):
                with self.assertRaises(cm.WrongSize) as raised:
                    call(rows, *arguments, cols)
                self.assertIn(f"rows of 2, and cols is {cols}", str(raised.exception))
        self.assertEqual(rows.tolist(), values)
        # Planes of rows count as rows of all their cells.
        planes = memoryview(bytearray(rows.tobytes() * 2)).cast("B").cast("Q", (2, 2, 2))
        cm.interpolate(planes)
        self.assertEqual(planes.tolist(), [values, [[0, 0], [0, 0]]])

    def test_numbers_of_other_types(self):
        data = bytes(range(100))
        two, four, five = Number(2), Number(4), Number(5)
        shards = cm.split(data, two, four)
        self.assertEqual(shards, cm.split(data, 2, 4))
        self.assertEqual(cm.shard_size(100, two, four), len(shards[0]))
        self.assertEqual(cm.join({1: shards[1], 3: shards[3]}, two, four), data)
        self.assertEqual(cm.join_corrected(dict(enumerate(shards)), two, four), (data, []))
        self.assertEqual(cm.decode([1, 2, 3, 4], [3, 5, 8, 9], two)[1], [2])
        self.assertEqual(cm.eval([4, 6, 8], five), 234)

    def test_numpy(self):
        try:
            import numpy
        except ImportError:
            self.skipTest("no numpy")
        cells = numpy.array([4, 6, 8, 0], dtype=numpy.uint64)
        cm.evaluate(cells)
        cm.recover(cells, numpy.array([False, True, True, True]))
        self.assertEqual(list(cells), [4, 6, 8, 0])
        self.assertEqual(cm.eval([numpy.uint64(4), numpy.uint64(6), numpy.uint64(8)], numpy.uint64(5)), 234)
        self.assertEqual(cm.eval(cells, numpy.array([0, 1, 5], dtype=numpy.uint64)), [4, 18, 234])
        with self.assertRaisesRegex(TypeError, "dtype=numpy.uint64"):
            cm.evaluate(numpy.array([4, 6, 8, 0]))
        rows = numpy.array([[4, 1], [6, 0]], dtype=numpy.uint64)
        cm.evaluate(rows)
        self.assertEqual(rows.tolist(), [[10, 1], [cm.MODULUS - 2, 1]])
        for cols in (1, 4):
            with self.assertRaises(cm.WrongSize):
                cm.interpolate(rows, cols)


class Threads(unittest.TestCase):
    def test_two_at_once(self):
        blocks = [random.Random(seed).randbytes(1 << 20) for seed in (1, 2)]
        work = lambda block: cm.split(block, 10, 16)
        best = 9.0
        with ThreadPoolExecutor(2) as pool:
            for _ in range(8):
                start = time.perf_counter()
                alone = [work(block) for block in blocks]
                middle = time.perf_counter()
                together = list(pool.map(work, blocks))
                best = min(best, (time.perf_counter() - middle) / (middle - start))
                self.assertEqual(together, alone)
                if best < 0.75:
                    break
        # Only where two processors are free can it be faster.
        free = len(os.sched_getaffinity(0)) - os.getloadavg()[0]
        if free >= 2:
            self.assertLess(best, 0.75)


def load_tests(loader, tests, pattern):
    tests.addTests(doctest.DocTestSuite(cm))
    return tests


if __name__ == "__main__":
    unittest.main()
