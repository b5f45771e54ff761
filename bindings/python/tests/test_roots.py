"""Roots of systematic shards against a tree of hashes in plain Python, which stands on hashlib alone."""

import doctest
import hashlib
import random
import unittest

import commonware_math as cm
from commonware_math import roots, systematic

SETS = 300


# The model.


def digest(message):
    return hashlib.new("sha512_256", message).digest()


def record(size, index, least, total, mask, row):
    return b"".join(n.to_bytes(8, "big") for n in (size, index, least, total, mask)) + row


def above(level):
    pairs = [digest(b"\1" + level[i] + level[i + 1]) for i in range(0, len(level) - 1, 2)]
    return pairs + level[len(level) // 2 * 2 :]


def root_and_paths(records):
    level = [digest(b"\0" + each) for each in records]
    paths, places = [b""] * len(level), list(range(len(level)))
    while len(level) > 1:
        for i, place in enumerate(places):
            if place ^ 1 < len(level):
                paths[i] += level[place ^ 1]
        level, places = above(level), [place // 2 for place in places]
    return level[0], paths


def tree_of(shards, size, least, masks):
    return root_and_paths([record(size, i, least, len(shards), masks[i], row) for i, row in enumerate(shards)])


class Roots(unittest.TestCase):
    def test_each_number_of_shards(self):
        for total in range(1, 35):
            least = 1 + total // 2
            data = random.Random(total).randbytes(3 * total)
            shards, mask, root, paths = roots.commit(data, least, total)
            self.assertEqual((shards, mask), systematic.encode(data, least, total))
            self.assertEqual((root, paths), tree_of(shards, len(data), least, [mask] * total))
            self.assertEqual([len(path) for path in paths], [roots.path_size(total, i) for i in range(total)])
            for i in range(total):
                self.assertTrue(roots.is_under(root, shards[i], paths[i], i, len(data), least, total, mask))

    def test_what_is_not_under(self):
        data = b"bytes of which any other is told" * 3
        shards, mask, root, paths = roots.commit(data, 3, 7)
        right = [root, shards[2], paths[2], 2, len(data), 3, 7, mask]
        self.assertTrue(roots.is_under(*right))
        for at in range(8):
            if isinstance(right[at], bytes):
                others = [right[at][:k] + bytes([right[at][k] ^ 1]) + right[at][k + 1 :] for k in range(len(right[at]))]
            else:
                others = [right[at] ^ 1 if at != 4 else right[at] - 1]
            for other in others:
                self.assertFalse(roots.is_under(*right[:at], other, *right[at + 1 :]))
        for path in (paths[2][:-32], paths[2][:-1], paths[2] + bytes(32), b"", paths[3]):
            self.assertFalse(roots.is_under(root, shards[2], path, 2, len(data), 3, 7, mask))
        for i in (7, 8, 2**32 - 1):
            self.assertFalse(roots.is_under(root, shards[2], paths[2], i, len(data), 3, 7, mask))
        for shard in (b"", shards[2][:-8], shards[2] + bytes(8)):
            self.assertFalse(roots.is_under(root, shard, paths[2], 2, len(data), 3, 7, mask))

    def test_joins_of_forged_shards(self):
        draw = random.Random(5)
        for _ in range(SETS):
            total = draw.randrange(1, 20)
            least = draw.randrange(1, total + 1)
            data = draw.randbytes(draw.randrange(200))
            if draw.randrange(4) == 0:
                data += b"\xff" * 16
            shards, mask, root, paths = roots.commit(data, least, total)
            handed, wrong = [], []
            for i in draw.sample(range(total), draw.randrange(least, total + 1)) + draw.choices(range(total), k=2):
                own = [i, mask, shards[i], paths[i]]
                fault = draw.randrange(5) if len(handed) > least else 4
                if fault == 0:
                    own[2] = draw.randbytes(draw.choice([len(own[2]) + 8, len(own[2]) + 1]))
                elif fault == 1:
                    own[3] = own[3][32:] if own[3] else bytes(32)
                elif fault == 2:
                    own[0] = total + draw.randrange(3)
                elif fault == 3:
                    own[1] ^= 1
                if fault < 4:
                    wrong.append(len(handed))
                handed.append(tuple(own))
            for strict in (False, True):
                self.assertEqual(roots.join_under(root, handed, len(data), least, total, strict), (data, wrong))

    def test_roots_of_no_data(self):
        size, least, total = 32, 2, 4
        data = bytes(range(size))
        shards, mask = systematic.encode(data, least, total)
        spoiled = shards[:3] + [bytes(16)]
        root, paths = tree_of(spoiled, size, least, [mask] * total)
        handed = [(i, mask, spoiled[i], paths[i]) for i in range(total)]
        self.assertEqual(roots.join_under(root, handed[:3], size, least, total), (data, []))
        for shown in (handed[:3], handed[1:3]):
            self.assertRaises(cm.WrongRoot, roots.join_under, root, shown, size, least, total, True)
        self.assertRaises(cm.Inconsistent, roots.join_under, root, handed, size, least, total)
        masks = [mask, mask, 1, 1]
        root, paths = tree_of(shards, size, least, masks)
        handed = [(i, masks[i], shards[i], paths[i]) for i in range(total)]
        self.assertRaises(cm.Inconsistent, roots.join_under, root, handed, size, least, total)
        self.assertEqual(roots.join_under(root, handed[:2], size, least, total), (data, []))

    def test_refusals(self):
        shards, mask, root, paths = roots.commit(b"0123456789", 2, 3)
        handed = [(i, mask, shards[i], paths[i]) for i in range(3)]
        self.assertRaises(cm.TooFew, roots.join_under, root, handed[:1], 10, 2, 3)
        self.assertRaises(cm.TooFew, roots.join_under, root, [], 10, 2, 3)
        self.assertRaises(cm.TooFew, roots.join_under, bytes(32), handed, 10, 2, 3)
        self.assertRaises(cm.Mismatch, roots.commit, b"", 3, 2)
        self.assertRaises(cm.TooMany, roots.commit, b"", 2, 65537)
        self.assertRaises(cm.TooMany, roots.join_under, root, [], 0, 2, 65537)
        self.assertRaises(cm.WrongIndex, roots.path_size, 3, 3)
        self.assertEqual(str(cm.TooMany("total 65537")), "more than 65536 shards: total 65537")
        self.assertEqual(str(cm.WrongRoot()), "the root of no data")

    def test_commitments_as_text(self):
        _, _, root, _ = roots.commit(b"0123456789", 2, 3)
        self.assertEqual(roots.Commitment(str(root)), root)
        self.assertEqual(eval(repr(root), {"Commitment": roots.Commitment}), root)
        self.assertEqual(roots.Commitment(bytes(root)), root)
        for wrong in (b"", bytes(31), bytes(33), "00" * 31, "0x" + "00" * 31):
            self.assertRaises(ValueError, roots.Commitment, wrong)


def load_tests(loader, tests, pattern):
    tests.addTests(doctest.DocTestSuite(roots))
    return tests


if __name__ == "__main__":
    unittest.main()
