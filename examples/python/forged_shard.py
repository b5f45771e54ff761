"""A text stands in four data shards and two parity shards, and one root of 32 bytes binds it. Someone forges a shard; the root tells which."""

from commonware_math import roots

MIN, TOTAL = 4, 6
# the data shards one behind the other are the text, and the parity shards stand behind them
text = b"Only what the root binds is taken, and a forged shard left out.\n"
shards, mask, root, paths = roots.commit(text, MIN, TOTAL)

# shard 1 is forged
shards[1] = b"claims of a liar"
print(b"".join(shards[:MIN]).decode(), end="")
assert not roots.is_under(root, shards[1], paths[1], 1, len(text), MIN, TOTAL, mask)

# all six are handed in, and the text comes back
handed = [(i, mask, shards[i], paths[i]) for i in range(TOTAL)]
data, left_out = roots.join_under(root, handed, len(text), MIN, TOTAL, strict=True)
print(f"left out: {len(left_out)}, at position {left_out[0]}\n{data.decode()}", end="")
