"""Blocks of data are spread over six workers of an engine, dask: shard i of each block lies on the disk of worker i, and nowhere else.
Two of the workers are killed and their disks are lost, and every block comes back from the other four. Each step is a task on a
worker; no block and no shard goes through this process."""

import hashlib
import json
import logging
import operator
import os
import shutil
import signal
import tempfile
from pathlib import Path

import commonware_math
from dask.distributed import Client, LocalCluster, wait

# any MIN of TOTAL shards of a block give it back; there is a worker for each
MIN, TOTAL = 4, 6
BLOCK = 256 * 1024
# a task takes several blocks, since an engine needs some milliseconds for each task; docs/CALLING.md says how many
TASKS, BLOCKS_OF_TASK = 5, 4


def blocks_of(task):
    """The blocks of a task. Here they are made; elsewhere a worker reads them where the data lie."""
    sizes = [BLOCK] * BLOCKS_OF_TASK
    if task == TASKS - 1:
        sizes[-1] -= 5
    return [(b"%d.%d" % (task, n) * size)[:size] for n, size in enumerate(sizes)]


def split(task):
    """Splits the blocks of a task: for each worker what it has to keep."""
    blocks = blocks_of(task)
    shards = [commonware_math.split(block, MIN, TOTAL) for block in blocks]
    sha256 = [hashlib.sha256(block).hexdigest() for block in blocks]
    return [({"index": i, "sha256": sha256}, [of_block[i] for of_block in shards]) for i in range(TOTAL)]


def keep(disk, task, of_worker):
    """Writes the shards of a task onto the disk of this worker. A line before them says all that is needed to join them."""
    beside, shards = of_worker
    beside = {**beside, "min": MIN, "total": TOTAL, "bytes": [len(shard) for shard in shards]}
    path = Path(disk) / str(task)
    path.write_bytes(json.dumps(beside).encode() + b"\n" + b"".join(shards))
    return path.stat().st_size


def read(disk, task):
    """Reads what this worker has of a task."""
    with open(Path(disk) / str(task), "rb") as file:
        beside = json.loads(file.readline())
        return beside, [file.read(size) for size in beside["bytes"]]


def join(of_workers):
    """Joins the blocks of a task from what some workers have of it."""
    blocks = []
    for n, sha256 in enumerate(of_workers[0][0]["sha256"]):
        shards = {beside["index"]: rows[n] for beside, rows in of_workers}
        block = commonware_math.join(shards, MIN, TOTAL)
        # just MIN shards may hide damage; the hash does not
        if hashlib.sha256(block).hexdigest() != sha256:
            raise ValueError(f"block {n} is not what was split")
        blocks.append(block)
    return blocks


def are_those_of(task, blocks):
    """How many blocks of a task came back as they were."""
    return sum(map(operator.eq, blocks, blocks_of(task)))


def main():
    with tempfile.TemporaryDirectory() as folder, LocalCluster(
        n_workers=TOTAL, threads_per_worker=1, dashboard_address=None, local_directory=folder, silence_logs=logging.CRITICAL
    ) as cluster, Client(cluster) as client:
        # the processes of the workers, and their disks: here folders of one machine
        pids = client.run(os.getpid)
        workers = [(address, os.path.join(folder, f"disk{i}")) for i, address in enumerate(pids)]
        for _, disk in workers:
            os.mkdir(disk)

        # of what a split answers, each worker gets its own part, from the worker that split
        kept = []
        for task in range(TASKS):
            parts = client.submit(split, task)
            for i, (address, disk) in enumerate(workers):
                part = client.submit(operator.getitem, parts, i)
                kept.append(client.submit(keep, disk, task, part, workers=[address]))
        on_disks = sum(client.gather(kept))
        print("blocks:", TASKS * BLOCKS_OF_TASK, "workers:", len(workers))
        print("on the disks, of the data:", round(on_disks / (TASKS * BLOCKS_OF_TASK * BLOCK), 2))
        del kept, parts, part

        # two workers are killed, and what they kept is lost
        lost = (1, 4)
        for i in lost:
            address, disk = workers[i]
            os.kill(pids[address], signal.SIGKILL)
            shutil.rmtree(disk)
        print("killed:", len(lost))

        # the others read what they have, and a worker joins it
        left = [worker for i, worker in enumerate(workers) if i not in lost]
        back = []
        for task in range(TASKS):
            rows = [client.submit(read, disk, task, workers=[address]) for address, disk in left]
            back.append(client.submit(are_those_of, task, client.submit(join, rows)))
        print("blocks that came back:", sum(client.gather(back)))

        # a refusal on a worker is the same refusal here
        too_few = client.submit(join, rows[:3])
        print("from three workers:", type(too_few.exception()).__name__, "-", too_few.exception())


if __name__ == "__main__":
    main()
