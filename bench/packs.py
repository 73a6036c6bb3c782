#!/usr/bin/python3
"""Times a pack that is made in turns, turn by turn, beside the pack in one step, and packs a file of which a single
transaction is larger than the memory that the program may have. It is no part of the gate. Give it the built program,
which stands at crates/zodb/out/zodb after `rt run`, and bench/make_tree, compiled:

    cc -O2 -o /tmp/make_tree bench/make_tree.c
    bench/packs.py crates/zodb/out/zodb /tmp/make_tree [RECORDS..]

For each number of records (10000, 100000 and 1000000 where none is given) every object can be reached, and one line
says how many turns the pack took, the longest turn of each kind, all of them, and the pack in one step, in seconds, and the
greatest memory of both runs. A turn is timed from one answer to the next, which the program writes before it takes the
next line. Where valgrind is there, a second line says for up to 100,000 records how many instructions a change the turns
take that mark, and those that copy with the switch, and how many a change the middle and the last turn that marks.
"""
import os
import resource
import shutil
import struct
import subprocess
import sys
import tempfile
import time

KINDS = ("marking", "copying", "packed")
TID = "7fffffffffffffff"


def turns_of(program, path, count):
    """Makes a pack in turns; gives the seconds of each turn by its answer's word, and the greatest resident set."""
    child = subprocess.Popen([program, path, "run"], stdin=subprocess.PIPE, stdout=subprocess.PIPE)
    lines = ["a open local", f"a packbegin {TID}", *["a packturn"] * count]
    child.stdin.write(("\n".join(lines) + "\n").encode())
    child.stdin.close()
    took, last = {}, None
    for line in child.stdout:
        now = time.monotonic()
        words = line.decode().split()
        if last is not None and words[1] in ("marking", "marked", "copying", "copied", "packed"):
            took.setdefault(words[1], []).append(now - last)
        last = now
    _, status, used = os.wait4(child.pid, 0)
    if status:
        sys.exit(f"the program ended with {status}")
    if "packed" not in took:
        sys.exit(f"{count} turns don't end the pack")
    return took, used.ru_maxrss


def step_of(program, path):
    """The seconds of a pack in one step, opening with it, and the greatest resident set."""
    start = time.monotonic()
    child = subprocess.Popen([program, path, "pack", "2100-01-01T00:00:00"], stdout=subprocess.PIPE)
    answer = child.stdout.read().decode()
    _, status, used = os.wait4(child.pid, 0)
    if status or not answer.startswith("packed"):
        sys.exit(f"the pack in one step: {status} {answer}")
    return time.monotonic() - start, used.ru_maxrss


def instructions_of(program, path, count):
    """The instructions of a run that begins a pack and makes so many turns of it; the file stays as it is up to the switch."""
    lines = "\n".join(["a open local", f"a packbegin {TID}", *["a packturn"] * count]) + "\n"
    run = subprocess.run(["valgrind", "--tool=cachegrind", "--cache-sim=no", "--cachegrind-out-file=/dev/null", program, path, "run"],
                         input=lines.encode(), stdout=subprocess.DEVNULL, stderr=subprocess.PIPE)
    return int(next(line for line in run.stderr.decode().splitlines() if "I   refs" in line or "I refs" in line).split(":")[1].replace(",", ""))


def count_packs(program, make_tree, records, marking, turns, folder):
    """Says how many instructions a change the turns of a pack take: so many that mark, of so many in all."""
    path = os.path.join(folder, "counted.fs")
    subprocess.run([make_tree, path, str(records)], check=True)
    begun, half, before_half, marked, before_last = (
        instructions_of(program, path, count) for count in (0, marking // 2, marking // 2 - 1, marking, marking - 1))
    whole = instructions_of(program, path, turns)
    print(f"{records:8} records, instructions a change: marking {(marked - begun) // records}, copying and the switch "
          f"{(whole - marked) // records}; the middle turn that marks {(half - before_half) // 64}, the last {(marked - before_last) // 64}")


def time_packs(program, make_tree, records, folder):
    path = os.path.join(folder, "packed.fs")
    subprocess.run([make_tree, path, str(records)], check=True)
    took, memory = turns_of(program, path, 2 * (records // 64) + 16)
    longest = {kind: max(took.get(kind, [0]) + took.get(end, [0])) for kind, end in (("marking", "marked"), ("copying", "copied"))}
    whole = sum(sum(each) for each in took.values())
    count = sum(len(each) for each in took.values())
    subprocess.run([make_tree, path, str(records)], check=True)
    step, step_memory = step_of(program, path)
    print(f"{records:8} records: {count} turns, the longest that marks {longest['marking']:.4f}, that copies "
          f"{longest['copying']:.4f}, the switch {took['packed'][0]:.4f}, all {whole:.2f}; in one step, with opening, {step:.2f}; "
          f"{memory} and {step_memory} KiB")
    if shutil.which("valgrind") and records <= 100_000:
        count_packs(program, make_tree, records, len(took.get("marking", [])) + 1, count, folder)


def transaction(tid, records):
    """A transaction of a file, from its header to its closing length."""
    place, data = transaction.place, b""
    for oid, content in records:
        data += struct.pack(">QQQQHQ", oid, tid, 0, place, 0, len(content)) + content
    size = 23 + len(data)
    transaction.place += size + 8
    return struct.pack(">QQcHHH", tid, size, b" ", 0, 0, 0) + data + struct.pack(">Q", size)


def pack_large(program, folder, mebibytes=300):
    """Packs a file three times as large as the memory that the program may have, one transaction of which is larger."""
    path, each = os.path.join(folder, "large.fs"), 8 << 20
    transaction.place = 4
    count = mebibytes * 3 // 8
    head, filler = b"\x80\x03cm\nC\n.\x80\x03", b"B" + struct.pack("<I", each) + bytes(each) + b"."
    names = b"".join(b"C\x08" + struct.pack(">Q", oid) + b"Q" for oid in range(1, count + 1))
    root = head + b"(" + names + b"t."
    with open(path, "wb") as out:
        out.write(b"FS30")
        out.write(transaction(0x0400000000000001, [(0, root)]))
        half = count // 2
        for oid in range(1, half + 1):
            out.write(transaction(0x0400000000000001 + oid, [(oid, head + filler)]))
        # one transaction above the tid of the pack, which is larger than the memory
        out.write(transaction(0x0410000000000000, [(oid, head + filler) for oid in range(half + 1, count + 1)]))
        out.write(transaction(0x0410000000000001, [(0, root)]))
    limit = mebibytes << 20
    child = subprocess.run([program, path, "run"], input=b"a open local\na pack 0400000000000fff\n", stdout=subprocess.PIPE,
                           preexec_fn=lambda: resource.setrlimit(resource.RLIMIT_AS, (limit, limit)))
    answer = child.stdout.decode().splitlines()
    print(f"a file of {os.path.getsize(path) >> 20} MiB, one transaction of which has {(count - half) * 8}, with {mebibytes} MiB of memory: "
          f"status {child.returncode}, {answer[-1] if answer else 'no answer'}")
    if child.returncode or not answer[-1].startswith("a packed"):
        sys.exit(1)


def main():
    program, make_tree = os.path.realpath(sys.argv[1]), os.path.realpath(sys.argv[2])
    with tempfile.TemporaryDirectory(prefix="packs.") as folder:
        for records in [int(word) for word in sys.argv[3:]] or [10_000, 100_000, 1_000_000]:
            time_packs(program, make_tree, records, folder)
        pack_large(program, folder)


main()
