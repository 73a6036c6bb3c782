#!/usr/bin/env python3
"""A small client of a server, with Python's pickle and sockets alone. docs/PROTOCOL.md says the rest.

In one shell a server for three links, and in another the client:

    zodb FILE serve 7001 3
    ask.py 7001 add 1 5       adds 5 to the counter that is object 1, and makes it where there is none
    ask.py 7001 load 1        prints object 1: its serial, and its record
    ask.py 7001 wait 2        prints two notices of what others commit, as they come
"""
import io
import pickle
import socket
import struct
import sys

NOTHING = bytes(8)
COUNTER = b"\x80\x03cBTrees.Length\nLength\nq\x00."


class Refused(Exception):
    """The server refused what was asked: the name of the refusal, and its fields."""


class Values(pickle.Unpickler):
    """Reads plain values, and no class."""

    def find_class(self, module, name):
        raise pickle.UnpicklingError(f"a message names {module}.{name}")


class Link:
    """A link to a server of this machine, and a session there."""

    def __init__(self, port):
        self.socket = socket.create_connection(("127.0.0.1", port))
        self.stream = self.socket.makefile("rb")
        self.number = 0
        self.notices = []
        self.newest = self.ask("register", "1", False)
        self.front, self.switches = self.ask("sync")

    def send(self, flag, method, *arguments):
        """Sends a message; with flag 1 it isn't answered."""
        self.number = self.number % (2**31 - 1) + 1
        payload = io.BytesIO()
        pickler = pickle.Pickler(payload, 3)
        pickler.fast = True  # writes no memo, as the protocol wants it
        pickler.dump((self.number, flag, method, arguments))
        text = payload.getvalue()
        self.socket.sendall(struct.pack(">I", len(text)) + text)

    def receive(self):
        """The next message of the server."""
        head = self.stream.read(4)
        if len(head) < 4:
            raise EOFError("the server ended the link")
        return Values(io.BytesIO(self.stream.read(struct.unpack(">I", head)[0]))).load()

    def ask(self, method, *arguments):
        """Asks for something, and keeps the notices that come before its answer."""
        self.send(0, method, *arguments)
        while True:
            number, flag, kind, value = self.receive()
            if flag == 1:
                self.notices.append((kind, value))
            elif kind == ".error":
                raise Refused(*value)
            else:
                return value

    def load(self, oid):
        """The record of an object below the known front and its serial, or None and 0."""
        found = self.ask("loadBefore", oid, self.front)
        return (None, NOTHING) if found[0] is None else (found[0], found[1])

    def commit(self, changes, user=b"", description=b""):
        """Commits records, each an oid, the serial that it was made from, and the bytes."""
        self.send(1, "tpc_begin", user, description, b"")
        for oid, base, record in changes:
            self.send(1, "storea", oid, base, record)
        self.ask("vote")
        tid = self.ask("tpc_finish")
        self.front, self.switches = self.ask("sync")
        return tid

    def add(self, oid, number):
        """Adds to a counter. Where others added meanwhile, the server merges the sums."""
        record, serial = self.load(oid)
        value = pickle.loads(record[len(COUNTER):]) if record else 0
        return self.commit([(oid, serial, COUNTER + pickle.dumps(value + number, 3))])

    def notice(self):
        """The next notice of the server, for which it waits."""
        if not self.notices:
            _, _, kind, value = self.receive()
            return kind, value
        return self.notices.pop(0)


def main(port, what, *words):
    link = Link(int(port))
    if what == "load":
        record, serial = link.load(struct.pack(">Q", int(words[0])))
        print(serial.hex(), record)
    elif what == "add":
        print("committed", link.add(struct.pack(">Q", int(words[0])), int(words[1])).hex())
    elif what == "wait":
        for _ in range(int(words[0])):
            kind, value = link.notice()
            print(kind, value[0].hex(), *(oid.hex() for oid in value[1:] and value[1]), flush=True)


if __name__ == "__main__":
    main(*sys.argv[1:])
