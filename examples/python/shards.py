"""Bytes are split into eight shards, four of them are lost, and the bytes are got back from the others."""

import commonware_math

# any MIN of TOTAL shards give the data back
MIN, TOTAL = 4, 8
data = b"Any four of these eight shards give back these bytes, unchanged."
shards = commonware_math.split(data, MIN, TOTAL)
print("bytes a shard:", len(shards[0]))

# shards 7, 2, 4 and 1 are left: each is known by its index
left = {i: shards[i] for i in (7, 2, 4, 1)}
print(commonware_math.join(left, MIN, TOTAL).decode())

# fewer than MIN shards, and damage to one of more than MIN, are refused
try:
    commonware_math.join({i: shards[i] for i in (7, 2, 4)}, MIN, TOTAL)
except commonware_math.TooFew as error:
    print("join of three:", error)
damaged = bytes([shards[2][0] ^ 1]) + shards[2][1:]
try:
    commonware_math.join({**left, 0: shards[0], 2: damaged}, MIN, TOTAL)
except commonware_math.Inconsistent as error:
    print("join of five, one damaged:", error)
