#!/usr/bin/python3
"""Times lines of clients with a link beside the same lines of local clients. It is no part of the gate. Give it the built
program, which stands at crates/zodb/out/zodb after `rt run`:

    bench/remote.py crates/zodb/out/zodb [COUNT]

Each row has the processor time of a line in microseconds, the median of five runs, with what the lines before it take
taken off: loads of one object, which a client answers from its cache; loads of more objects in turn than its cache
holds; loads of one of 8 and of 64 clients; commits of one object beside others that only stand open; and `gen N` beside
its script with four local clients.
COUNT is the number of loads (99,900 where it is not given: a script has at most 100,000 lines).
"""
import os
import statistics
import subprocess
import sys
import tempfile

OBJECTS = 10_000
RECORD = "80036370657273697374656e742e6d617070696e670a50657273697374656e744d617070696e670a2e" + "43c8" + "61" * 200 + "2e"


def seconds_of(program, path, words, script):
    """The processor seconds of a run."""
    with open(script) as given, open(os.devnull, "w") as out:
        child = subprocess.Popen([program, path, *words], stdin=given, stdout=out)
        _, status, used = os.wait4(child.pid, 0)
    if status:
        sys.exit(f"the program ended with {status}")
    return used.ru_utime + used.ru_stime


def line_of(program, folder, kept, head, lines, runs=5):
    """Microseconds of a line, over a copy of a file, behind lines that aren't counted."""
    path, script = os.path.join(folder, "data.fs"), os.path.join(folder, "script")
    took = []
    for part in (head, head + lines):
        with open(script, "w") as out:
            out.write("".join(line + "\n" for line in part))
        each = []
        for _ in range(runs):
            with open(path, "wb") as out:
                out.write(kept)
            each.append(seconds_of(program, path, ["run"], script))
        took.append(statistics.median(each))
    return (took[1] - took[0]) * 1e6 / len(lines)


def made(program, folder):
    """A file with so many objects."""
    path, script = os.path.join(folder, "data.fs"), os.path.join(folder, "script")
    with open(script, "w") as out:
        out.write("a open local\na begin\n")
        for oid in range(1, OBJECTS + 1):
            out.write(f"a store {oid:016x} 0000000000000000 {RECORD}\n")
        out.write('a vote "" ""\na finish\n')
    if os.path.exists(path):
        os.remove(path)
    seconds_of(program, path, ["run"], script)
    with open(path, "rb") as it:
        return it.read()


def commits_of(kind, others, count):
    """The lines that open the clients, and so many commits of one object by one of them."""
    head = [f"a open {kind}", *[f"o{n} open {kind}" for n in range(others)]]
    lines = []
    for _ in range(count):
        lines += ["a deliver", "a begin", f"a put 0000000000000001 <m:C> {others}", 'a vote "" ""', "a finish"]
    return head, lines


def gen_lines(number, kinds):
    """The script of `gen`, with clients of these kinds."""
    x = number

    def draw():
        nonlocal x
        x = (1103515245 * x + 12345) % 2**31
        return x // 65536 % 1000

    lines = [f"c{n} open {kind}" for n, kind in enumerate(kinds)] + ["c0 begin", "c0 new"]
    lines += ["c0 put 0000000000000001 <BTrees.OOBTree:OOBTree> None",
              'c0 put 0000000000000000 <persistent.mapping:PersistentMapping> {"data":{"t":@0000000000000001}}',
              'c0 vote "" "setup"', "c0 finish"]
    for k in range(1, number + 1):
        i, j = f"c{k % 4}", f"c{(k + 1) % 4}"
        u, v = draw(), draw()
        lines += [f"{i} deliver", f"{j} deliver", f"{i} begin", f"{j} begin",
                  f'{i} set 0000000000000001 "k{u:03}" {k}', f'{j} set 0000000000000001 "k{v:03}" {k}',
                  f'{i} vote "" ""', f"{i} finish", f'{j} vote "" ""', f"{j} finish", f"{i} abort", f"{j} abort"]
        if k % 100 == 0:
            lines.append("c0 pack ffffffffffffffff")
    return lines


def main():
    program, count = os.path.realpath(sys.argv[1]), int(sys.argv[2]) if len(sys.argv) > 2 else 99_900
    with tempfile.TemporaryDirectory(prefix="remote.") as folder:
        kept = made(program, folder)
        for name, oids in (("loads of one object", [1] * count), ("loads of more than are cached", [n % OBJECTS + 1 for n in range(count)])):
            row = {}
            for kind in ("local", "remote"):
                row[kind] = line_of(program, folder, kept, [f"b open {kind}", "b begin"], [f"b load {oid:016x}" for oid in oids])
            print(f"{name}: local {row['local']:.2f}, remote {row['remote']:.2f}, {row['remote'] / row['local']:.2f} times")
        for kind in ("local", "remote"):
            row = []
            for others in (7, 63):
                head = [f"b open {kind}", *[f"o{n} open {kind}" for n in range(others)], "b begin"]
                row.append(line_of(program, folder, kept, head, ["b load 0000000000000001"] * count))
            print(f"{kind} loads of one object: of 8 clients {row[0]:.2f}, of 64 {row[1]:.2f}, {row[1] / row[0]:.2f} times")
        for others in (0, 8, 63):
            row = {}
            for kind in ("local", "remote"):
                head, lines = commits_of(kind, others, count // 10)
                row[kind] = line_of(program, folder, kept, head, lines, 3) * 5
            print(f"commits beside {others} others: local {row['local']:.1f}, remote {row['remote']:.1f} a commit of five lines")
        path, script = os.path.join(folder, "gen.fs"), os.path.join(folder, "script")
        took = {}
        for name, kinds in (("four local clients", ["local"] * 4), ("its own", ["local", "local", "remote", "remote"])):
            with open(script, "w") as out:
                out.write("".join(line + "\n" for line in gen_lines(8000, kinds)))
            if os.path.exists(path):
                os.remove(path)
            took[name] = seconds_of(program, path, ["run"], script)
        os.remove(path)
        took["gen 8000"] = seconds_of(program, path, ["gen", "8000"], os.devnull)
        print("the script of gen 8000: " + ", ".join(f"{name} {took[name]:.2f} s" for name in took))


main()
