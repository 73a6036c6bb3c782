#!/usr/bin/env python3
"""Many clients of one server, by the built program: counters that all add to, buckets that all set keys in, a client
that is gone in the middle of a vote, and a server that is killed.

    examples/links.py [PROGRAM]

PROGRAM is the built program; without it that is crates/zodb/out/zodb, which `rt run` in crates/zodb makes. It needs
Python alone, works in a folder of its own, binds ports of 127.0.0.1 that the host gives, and ends by itself.

A line a check: `ok` or `FAILED`. The last line is `N passed, M failed`; the status is 0 where none failed.
"""
import os
import pickle
import signal
import socket
import struct
import subprocess
import sys
import tempfile
import threading
import time

HERE = os.path.dirname(os.path.abspath(__file__))
sys.path.insert(0, HERE)
from ask import COUNTER, Link, Refused  # noqa: E402

CLIENTS, ROUNDS = 32, 200
COUNTED, BUCKET = struct.pack(">Q", 1), struct.pack(">Q", 2)
KEYS = b"\x80\x03cBTrees.OOBTree\nOOBucket\nq\x00."
passed = failed = 0


def check(name, good, seen=""):
    global passed, failed
    passed, failed = passed + bool(good), failed + (not good)
    print(f"{'ok     ' if good else 'FAILED '} {name}{'' if good else f': {seen}'}", flush=True)


def free_port():
    with socket.socket() as it:
        it.bind(("127.0.0.1", 0))
        return it.getsockname()[1]


def serve(program, path, count):
    """Starts a server; gives it and its port, once it can be reached."""
    port = free_port()
    server = subprocess.Popen([program, path, "serve", str(port), str(count)], stdout=subprocess.PIPE)
    return server, port


def linked(port):
    """A link, once the server is there."""
    for _ in range(500):
        try:
            return Link(port)
        except ConnectionRefusedError:
            time.sleep(0.01)
    raise SystemExit("no server came")


def set_key(link, key, value):
    """Sets a key of the bucket that all share; a conflict is answered, and the key is set again over the newest state."""
    conflicts = 0
    while True:
        record, serial = link.load(BUCKET)
        items = list(pickle.loads(record[len(KEYS):])[0]) if record else []
        pairs = dict(zip(items[::2], items[1::2]))
        pairs[key] = value
        state = (tuple(x for name in sorted(pairs) for x in (name, pairs[name])),)
        try:
            link.commit([(BUCKET, serial, KEYS + pickle.dumps(state, 3))])
            return conflicts
        except Refused as why:
            if why.args[0] != "Conflict":
                raise
            conflicts += 1
            link.send(1, "tpc_abort")
            link.front, link.switches = link.ask("sync")


def all_of(count, work):
    """Runs so many threads, and gives what each of them gave."""
    given = [None] * count

    def run(number):
        given[number] = work(number)

    threads = [threading.Thread(target=run, args=(number,)) for number in range(count)]
    for it in threads:
        it.start()
    for it in threads:
        it.join()
    return given


def counters(program, path):
    server, port = serve(program, path, CLIENTS + 2)
    first = linked(port)
    first.add(COUNTED, 0)
    set_key(first, "first", 0)
    first.socket.shutdown(socket.SHUT_WR)
    gone = linked(port)
    gone.send(1, "tpc_begin", b"", b"", b"")
    _, serial = gone.load(COUNTED)
    gone.send(1, "storea", COUNTED, serial, COUNTER + pickle.dumps(1000000, 3))
    gone.ask("vote")
    gone.socket.shutdown(socket.SHUT_RDWR)
    gone.socket.close()

    def work(number):
        link = linked(port)
        for _ in range(ROUNDS):
            link.add(COUNTED, 1)
        for round_ in range(3):
            set_key(link, f"k{number:02}", round_)
        record, _ = link.load(COUNTED)
        link.socket.shutdown(socket.SHUT_WR)
        return record is not None

    done = all_of(CLIENTS, work)
    said = server.communicate(timeout=120)[0].decode()
    check("each client made all its commits", all(done))
    check("the server ends once all links have ended", server.returncode == 0 and said.startswith(f"served {CLIENTS + 2}"), said)
    shown = subprocess.run([program, path, "show", "0000000000000001"], stdout=subprocess.PIPE).stdout.decode()
    check("no addition is lost, and the vote that was dropped isn't there", shown.rstrip().endswith(f"> {CLIENTS * ROUNDS}"), shown)
    bucket = subprocess.run([program, path, "show", "0000000000000002"], stdout=subprocess.PIPE).stdout.decode()
    check("no key is lost", all(f'"k{number:02}",2' in bucket for number in range(CLIENTS)), bucket[:300])


def killed(program, path):
    server, port = serve(program, path, 8)
    told = [[] for _ in range(8)]

    def work(number):
        try:
            link = linked(port)
            oid = struct.pack(">Q", 100 + number)
            while True:
                told[number].append(link.add(oid, 1))
        except (OSError, EOFError, struct.error, pickle.UnpicklingError):
            return

    threads = [threading.Thread(target=work, args=(number,)) for number in range(8)]
    for it in threads:
        it.start()
    time.sleep(1.5)
    server.send_signal(signal.SIGKILL)
    server.wait()
    for it in threads:
        it.join()
    listed = subprocess.run([program, path, "undolog"], stdout=subprocess.PIPE).stdout.decode()
    tids = {line.split()[0] for line in listed.splitlines() if line and not line.startswith("cut")}
    all_told = [tid.hex() for each in told for tid in each]
    check("clients were told of commits before the server was killed", len(all_told) > 8, len(all_told))
    check("each commit that a client was told of is there", all(tid in tids for tid in all_told),
          [tid for tid in all_told if tid not in tids][:3])


def main():
    program = os.path.abspath(sys.argv[1] if len(sys.argv) > 1 else os.path.join(HERE, "..", "crates", "zodb", "out", "zodb"))
    with tempfile.TemporaryDirectory(prefix="links.") as folder:
        counters(program, os.path.join(folder, "counted.fs"))
        killed(program, os.path.join(folder, "killed.fs"))
    print(f"{passed} passed, {failed} failed")
    sys.exit(1 if failed else 0)


main()
