#!/usr/bin/env python3
"""Sets keys in mixed order in a BTree of Python, or looks for them, and prints the seconds, a 0 and the processor seconds of
the loop alone, the least of some runs. For bench/run.sh:

    bench/trees.py numbers|texts set|find COUNT TIMES
"""

import sys
import time

from BTrees.OOBTree import OOBTree


def run(keys, call):
    tree = OOBTree()
    if call == "find":
        for place, key in enumerate(keys):
            tree[key] = place
    wall, work = time.perf_counter(), time.process_time()
    if call == "set":
        for place, key in enumerate(keys):
            tree[key] = place
    else:
        for key in keys:
            tree[key]
    return time.perf_counter() - wall, time.process_time() - work


kind, call, count, times = sys.argv[1], sys.argv[2], int(sys.argv[3]), int(sys.argv[4])
numbers = [(place * 7919) % count for place in range(count)]
keys = [f"key{number:06d}" for number in numbers] if kind == "texts" else numbers
runs = [run(keys, call) for _ in range(times)]
print(min(it[0] for it in runs), 0, min(it[1] for it in runs))
