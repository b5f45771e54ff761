"""A text stands in four data shards as it is, and two parity shards are added. One shard is lost, and made anew."""

from commonware_math import systematic

MIN, TOTAL = 4, 6
# the data shards one behind the other are the text, and the parity shards stand behind them
text = b"Four shards are these bytes as they stand, two more are parity.\n"
shards, mask = systematic.encode(text, MIN, TOTAL)

# shard 0 is lost, and the shards 1 to 4 give it back
left = {i: shards[i] for i in (1, 2, 3, 4)}
shards[0] = b"?" * len(shards[0])
print(b"".join(shards[:MIN]).decode(), end="")
shards[:1] = systematic.rebuild(left, [0], len(text), MIN, TOTAL, mask)
print(b"".join(shards[:MIN]).decode(), end="")
