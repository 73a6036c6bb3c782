"""Merges so many times three buckets of so many items, from pickles to a pickle, by the BTrees package.

    python3 merges.py MERGES ITEMS
"""

import pickle
import sys

from BTrees.IIBTree import IIBucket

merges, items = int(sys.argv[1]), int(sys.argv[2])
old = {10 * k: 0 for k in range(items)}
keys = sorted(old)
for n in range(1, merges + 1):
    committed = {**old, keys[n % items]: n}
    stored = {**old, keys[(n + items // 2) % items]: n}
    texts = [pickle.dumps(IIBucket(state).__getstate__(), 3) for state in (old, committed, stored)]
    merged = IIBucket()._p_resolveConflict(*(pickle.loads(text) for text in texts))
    text = pickle.dumps(merged, 3)
    bucket = IIBucket()
    bucket.__setstate__(pickle.loads(text))
    old = dict(bucket)
