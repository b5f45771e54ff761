#!/usr/bin/env python3
"""Combines lines of shares as docs/SHARED_SECRET.md describes them, and nothing else: secretshares.py < LINES > SECRET.

It takes the first t shares that have t distinct indices, corrects none, and ends with an assertion where a line or the secret is
not as the page says.
"""

import re
import sys

P = 2**64 - 2**32 + 1
LETTERS = "34679ACEFHJKMRTX"
CAPITALS = {small: small - 32 for small in range(ord("a"), ord("z") + 1)}
SPACES = {*range(9, 14), 32, 0x85, 0xA0, 0x1680, *range(0x2000, 0x200B), 0x2028, 0x2029, 0x202F, 0x205F, 0x3000, 0xFEFF}


def value(coefficients, x):
    """The value at x of the polynomial with these coefficients, from the constant upwards."""
    total = 0
    for c in reversed(coefficients):
        total = (total * x + c) % P
    return total


def length(data):
    """The number at the begin of the bytes, seven bits a byte, and what follows it."""
    number = 0
    for at, byte in enumerate(data):
        number |= (byte & 127) << 7 * at
        if byte < 128:
            return number, data[at + 1 :]
    raise AssertionError("the bytes end within a length")


def letters(line):
    """The letters of a line, in capitals: all but white space, marks of a quotation and a number before it, and dashes."""
    text = "".join(c for c in line if ord(c) not in SPACES).lstrip(">")
    return re.sub("^[0-9]+:", "", text, flags=re.ASCII).replace("-", "").translate(CAPITALS)


def groups(text):
    """The letters in groups of four, with a dash before each."""
    return "".join("-" + text[i : i + 4] for i in range(0, len(text), 4))


def parts(text):
    """The letters of each share: of a line that begins with the mark, and of those after it that do not."""
    found = [""]
    for line in text.split("\n"):
        if letters(line).startswith("S1"):
            found.append("")
        found[-1] += letters(line)
    assert not found[0]
    return found[1:]


def share(text):
    """What the letters of a share say: threshold, index, deal, values."""
    body, check = text[2:-16], text[-16:]
    data, found = (bytes.fromhex("".join(f"{LETTERS.index(c):x}" for c in part)) for part in (body, check))
    assert int.from_bytes(found, "big") == value(("S1" + groups(body)).encode()[::-1], 0x9E3779B97F4A7C15)
    threshold, data = length(data)
    index, data = length(data)
    deal, data = int.from_bytes(data[:8], "big"), data[8:]
    count, data = length(data)
    assert len(data) == 8 * count
    return threshold, index, deal, [int.from_bytes(data[8 * i : 8 * i + 8], "big") for i in range(count)]


def secret(points, values):
    """The value at zero of the polynomial that has these values at these points."""
    total = 0
    for i, x in enumerate(points):
        above, below = 1, 1
        for j, y in enumerate(points):
            if j != i:
                above, below = above * y % P, below * (y - x) % P
        total += values[i] * above * pow(below, P - 2, P)
    return total % P


shares = [share(part) for part in parts(sys.stdin.buffer.read().decode())]
threshold, _, deal, first = shares[0]
assert all((t, d, len(v)) == (threshold, deal, len(first)) for t, _, d, v in shares)
chosen = list({index: values for _, index, _, values in shares}.items())[:threshold]
assert len(chosen) == threshold
points = [index for index, _ in chosen]
*elements, key, check = [secret(points, [values[k] for _, values in chosen]) for k in range(len(first))]
assert check == (pow(key, len(elements) + 2, P) + value([0, *elements], key)) % P
data = b"".join(element.to_bytes(7, "little") for element in elements[1:])
assert not any(data[elements[0] :])
sys.stdout.buffer.write(data[: elements[0]])
