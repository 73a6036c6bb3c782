"""Writes a FileStorage file of one object, or of two revisions of one with a script that undoes in turn.

    python3 make_object.py references FILE COUNT    object 1 is a list of so many references to other objects
    python3 make_object.py bytes FILE COUNT         its state is so many bytes
    python3 make_object.py undos FILE COUNT SCRIPT  it has two revisions, and the script undoes the last transaction so many
                                                    times: each undoes the undo before it
"""

import struct
import sys

CLASS = b"\x80\x03cm\nC\n."
# Later than the clock, so that the script can name the tids that follow.
FIRST = 0x0500000000000000


def references(count):
    one_by_one = b"".join(b"C\x08" + struct.pack(">Q", n + 2) + b"Q" for n in range(count))
    return b"\x80\x03](" + one_by_one + b"e."


def text(count):
    return b"\x80\x03B" + struct.pack("<I", count) + b"a" * count + b"."


def write(path, states):
    with open(path, "wb") as file:
        file.write(b"FS30")
        place = 4
        for n, state in enumerate(states):
            record = CLASS + state
            size = 23 + 42 + len(record)
            file.write(struct.pack(">QQcHHH", FIRST + n, size, b" ", 0, 0, 0))
            file.write(struct.pack(">QQQQHQ", 1, FIRST + n, 0, place, 0, len(record)))
            file.write(record + struct.pack(">Q", size))
            place += size + 8


kind, path, count = sys.argv[1], sys.argv[2], int(sys.argv[3])
if kind == "undos":
    write(path, [b"\x80\x03K" + bytes([n]) + b"." for n in range(2)])
    with open(sys.argv[4], "w") as script:
        script.write("a open local\n")
        for n in range(count):
            script.write(f'a begin\na undo "" "" {FIRST + 1 + n:016x}\na finish\n')
else:
    write(path, [{"references": references, "bytes": text}[kind](count)])
