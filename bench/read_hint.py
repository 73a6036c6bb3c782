#!/usr/bin/env python3
"""read_hint.py HINT MAIN: reads an index file by docs/FORMAT.md, and compares it with what Main has up to its end.

Writes `believed E N M` and `honest` or the first difference; or `not believed`, and by which rule."""
import struct, sys


def entries(hint, long):
    """The end, the transactions and the data records, or the rule that fails."""
    if len(hint) < 25 or hint[0] != 1:
        return "gate"
    end, n, m = struct.unpack(">QQQ", hint[1:25])
    if len(hint) != 25 + 17 * n + 24 * m:
        return "length"
    if not 4 <= end <= long:
        return "end"
    starts = [struct.unpack(">QQB", hint[25 + 17 * i : 42 + 17 * i]) for i in range(n)]
    at = 25 + 17 * n
    records = [struct.unpack(">QQQ", hint[at + 24 * i : at + 24 + 24 * i]) for i in range(m)]
    tid, place = 0, 3
    for s in starts:
        if not (tid < s[0] < 2**64 - 1 and place < s[1] < end and s[2] in (0x20, 0x70)):
            return "transactions"
        tid, place = s[0], s[1]
    last = None
    for r in records:
        behind = last is None or last[0] < r[0] or (last[0] == r[0] and last[1] <= r[1] and last[2] < r[2])
        if not (behind and r[1] <= tid and r[2] < end):
            return "data records"
        last = r
    return end, starts, records


def read(main, end):
    """The transactions and the data records of Main up to an end, where one ends there."""
    starts, records, p = [], [], 4
    while p < end:
        tid, length, status, u, d, e = struct.unpack(">QQBHHH", main[p : p + 23])
        starts.append((tid, p, status))
        q = p + 23 + u + d + e
        while q < p + length:
            oid, serial, _, _, _, n = struct.unpack(">QQQQHQ", main[q : q + 42])
            records.append((oid, serial, q))
            q += 42 + (n or 8)
        p += length + 8
    return (starts, sorted(records, key=lambda r: (r[0], r[2]))) if p == end else None


def main():
    with open(sys.argv[1], "rb") as f:
        hint = f.read()
    with open(sys.argv[2], "rb") as f:
        text = f.read()
    found = entries(hint, len(text))
    if isinstance(found, str):
        print("not believed:", found)
        return
    end, starts, records = found
    print("believed", end, len(starts), len(records))
    there = read(text, end)
    print("honest" if there == (starts, records) else "not what Main has")


main()
