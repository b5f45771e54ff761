"""What mypy says of the package, and of programs that call it; where there is no mypy, this is left out."""

import os
import shutil
import subprocess
import tempfile
import unittest
from pathlib import Path

PACKAGE = Path(__file__).resolve().parents[1] / "commonware_math"

# A program that calls everything as it is meant to be called.
RIGHT = """
import ctypes
from array import array
from typing import Dict, List, Tuple

import commonware_math as cm

data: bytes = b"0123456789"
shards: List[bytes] = cm.split(data, 2, 3)
shards = cm.split(bytearray(data), 2, 3)
shards = cm.split(memoryview(data), 2, 3)
some: Dict[int, bytes] = dict(enumerate(shards))
back: bytes = cm.join({0: shards[0], 2: bytearray(shards[2])}, 2, 3)
found: Tuple[bytes, List[int]] = cm.join_corrected(some, 2, 3)
size: int = cm.shard_size(10, 2, 3)

rows, mask = cm.systematic.encode(data, 2, 3)
beside: Tuple[int, int, int, int] = (10, 2, 3, mask)
rows = cm.systematic.rebuild({0: rows[0], 2: rows[2]}, [1], *beside)
rows = cm.systematic.rebuild([(0, rows[0]), (2, bytearray(rows[2]))], array("I", [1]), *beside)
back = cm.systematic.decode(enumerate(rows), *beside)
back = cm.systematic.decode(some, 10, min=2, total=3, mask=mask)
rows, left_out = cm.systematic.rebuild_corrected(some, [1], *beside)
belong: bool = cm.systematic.verify(dict(enumerate(rows)), *beside)
size = cm.systematic.shard_size(10, 2, 3) + cm.systematic.data_size(10, 2, 3, 0)

cells = array("Q", [4, 6, 8, 0])
cm.evaluate(cells)
cm.interpolate(memoryview(cells), 1)
cm.evaluate((ctypes.c_uint64 * 4)(4, 6, 8, 0), cols=2)
cm.recover(cells, [True, True, True, False])
cm.recover(cells, b"\\1\\1\\1\\0", cols=1)
places: List[int] = cm.correct(cells, [True] * 4, 2)

value: int = cm.eval([4, 6, 8], 5)
values: List[int] = cm.eval(cells, [0, 1, 5])
values = cm.eval(cells, array("Q", [0, 1, 5]))
coefficients, wrong = cm.decode([1, 2, 3, 4], (3, 5, 8, 9), 2)
weights: "array[int]" = cm.weights([1, 2], 3)
weights = cm.weights_at_roots(2, [0, 1], 1)
encoded: bytes = cm.encode_poly([4, 6])
decoded: "array[int]" = cm.decode_poly(encoded)
version: Tuple[int, int, int] = cm.version()
text: str = cm.__version__
try:
    cm.join({}, 1, 1)
except cm.TooFew as error:
    status: int = error.status
    numbers: str = error.numbers
"""

# Each of these calls is wrong.
WRONG = """
import commonware_math as cm

cm.split("text", 2, 3)
cm.evaluate([1, 2])
cm.evaluate(b"12345678")
cm.recover([1, 2], [True, True])
cm.join([b"12345678"], 1, 1)
cm.join({0: "text"}, 1, 1)
cm.split(b"text", 2.5, 3)
cm.eval([4, 6, 8], 5.0)
cm.eval([4.5, 6], 5)
cm.eval([4, 6, 8], [0, 1]) + 1
cm.weights("text", 3)
cm.decode_poly([4, 6])
cm.systematic.encode("text", 2, 3)
cm.systematic.decode([b"12345678"], 8, 1, 1, 0)
cm.systematic.rebuild({0: b"12345678"}, 0, 8, 1, 1, 0)
cm.systematic.verify({0: "12345678"}, 8, 1, 1, 0)
"""


@unittest.skipUnless(shutil.which("mypy"), "no mypy")
class Types(unittest.TestCase):
    @classmethod
    def setUpClass(cls):
        folder = tempfile.TemporaryDirectory()
        cls.addClassCleanup(folder.cleanup)
        cls.made = Path(folder.name)

    def said(self, program):
        """What mypy says of the program, a line each, or of the package."""
        path = PACKAGE
        if program:
            path = self.made / "program.py"
            path.write_text(program)
        run = subprocess.run(
            ["mypy", "--strict", "--no-error-summary", "--hide-error-context", "--cache-dir", "cache", str(path)],
            env={**os.environ, "MYPYPATH": str(PACKAGE.parent)},
            cwd=self.made,
            capture_output=True,
            text=True,
        )
        self.assertEqual(run.stderr, "")
        return [line for line in run.stdout.splitlines() if ": note: " not in line]

    def test_package(self):
        self.assertEqual(self.said(None), [])

    def test_right_calls(self):
        self.assertEqual(self.said(RIGHT), [])

    def test_wrong_calls(self):
        said = self.said(WRONG)
        wrong = [str(number) for number, line in enumerate(WRONG.split("\n"), 1) if line.startswith("cm.")]
        self.assertEqual([line.split(":")[1] for line in said if ": error: " in line], wrong)


if __name__ == "__main__":
    unittest.main()
