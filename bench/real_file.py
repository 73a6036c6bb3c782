#!/usr/bin/python3
"""Makes a FileStorage file as Python's ZODB writes it, and reads one record by record, by Debian's packages
python3-persistent, python3-btrees and python3-zodbpickle.

    bench/real_file.py make PATH [SEED]    a file of a few dozen transactions: mappings, lists, lengths, trees and sets of
                                           several classes, whose records are written by one pickler each, class then state
    bench/real_file.py read PATH           unpickles each record of each transaction by one unpickler, class then state;
                                           prints how many there are, and the sizes of the trees that the last revisions hold

It ends with status 1 where a record can't be unpickled or a tree isn't sound by BTrees.check.
"""
import io
import random
import struct
import sys

import BTrees.check
from BTrees.IIBTree import IIBTree, IITreeSet
from BTrees.IOBTree import IOBTree
from BTrees.Length import Length
from BTrees.LOBTree import LOBTree
from BTrees.OIBTree import OIBTree
from BTrees.OOBTree import OOBTree, OOTreeSet
from persistent import Persistent
from persistent.list import PersistentList
from persistent.mapping import PersistentMapping
from zodbpickle import binary
from zodbpickle.pickle import Pickler, Unpickler

EPOCH = 0x03F8000000000000


def record_of(jar, thing):
    """The record of an object: class and state by one pickler, whose memo is cleared behind the record."""
    out = io.BytesIO()
    pickler = Pickler(out, 3)
    pickler.persistent_id = jar.reference_to
    pickler.dump(type(thing))
    pickler.dump(thing.__getstate__())
    pickler.clear_memo()
    return out.getvalue()


class Jar:
    """Gives objects their numbers as they are referred to, and remembers which have to be written."""

    def __init__(self):
        self.oids = {}
        self.things = []
        self.last = {}

    def oid_of(self, thing):
        if id(thing) not in self.oids:
            self.oids[id(thing)] = struct.pack('>Q', len(self.things))
            self.things.append(thing)
        return self.oids[id(thing)]

    def reference_to(self, thing):
        if isinstance(thing, type) or not isinstance(thing, Persistent):
            return None
        return binary(self.oid_of(thing)), type(thing)


def write_file(path, transactions):
    """Writes transactions, each a tid, its records (oid, data), a user and a description."""
    last = {}
    out = bytearray(b'FS30')
    for tid, records, user, description in transactions:
        place = len(out)
        body = bytearray()
        head = 23 + len(user) + len(description)
        for oid, data in records:
            at = place + head + len(body)
            body += oid + tid + struct.pack('>QQHQ', last.get(oid, 0), place, 0, len(data)) + data
            last[oid] = at
        length = head + len(body)
        out += tid + struct.pack('>Q', length) + b' ' + struct.pack('>HHH', len(user), len(description), 0)
        out += user + description + body + struct.pack('>Q', length)
    with open(path, 'wb') as file:
        file.write(out)


def make(path, seed):
    chance = random.Random(seed)
    jar = Jar()
    root = PersistentMapping()
    jar.oid_of(root)
    trees = {'names': OOBTree(), 'ages': OIBTree(), 'rows': IOBTree(), 'pairs': IIBTree(), 'far': LOBTree(),
             'words': OOTreeSet(), 'numbers': IITreeSet()}
    for name, tree in trees.items():
        root[name] = tree
    root['list'] = PersistentList([1, 'two', (3, [4, {'five': 6.5}])])
    root['length'] = Length(0)
    transactions = []
    for number in range(40):
        for name, tree in trees.items():
            for _ in range(chance.randrange(60)):
                key = chance.randrange(3000)
                key = 'key %d' % key if name in ('names', 'ages', 'words') else key
                if name in ('words', 'numbers'):
                    tree.add(key)
                elif name in ('ages', 'pairs'):
                    tree[key] = chance.randrange(10 ** 6)
                else:
                    tree[key] = chance.choice([None, 'text', 2 ** 70, -5, [1, 2], {'a': (1,)}])
        root['list'].append({'number': number, 'owner': PersistentMapping({'n': number})})
        root['length'].change(1)
        root['newest'] = number
        waiting, seen, records = [root], set(), []
        while waiting:
            thing = waiting.pop(0)
            if id(thing) in seen:
                continue
            seen.add(id(thing))
            data = record_of(jar, thing)
            records.append((jar.oid_of(thing), data))
            waiting += jar.things
        tid = struct.pack('>Q', EPOCH + (number + 1) * 0x100000)
        kept = [it for it in records if jar.last.get(it[0]) != it[1]]
        jar.last.update(kept)
        transactions.append((tid, kept, b'', b'transaction %d' % number))
    write_file(path, transactions)
    print(len(transactions), 'transactions', sum(len(it[1]) for it in transactions), 'records', len(jar.things), 'objects')


class Ghost:
    """An object that a reference names."""


def read(path):
    with open(path, 'rb') as file:
        data = file.read()
    at, count, newest = 4, 0, {}
    while at < len(data):
        tid, length, status, users, descriptions, extensions = struct.unpack('>QQcHHH', data[at:at + 23])
        place = at + 23 + users + descriptions + extensions
        while place < at + length:
            oid, serial, previous, back, version, size = struct.unpack('>QQQQHQ', data[place:place + 42])
            if size:
                newest[oid] = data[place + 42:place + 42 + size]
                unpickler = Unpickler(io.BytesIO(newest[oid]))
                unpickler.persistent_load = lambda reference: Ghost
                unpickler.load()
                unpickler.load()
                place += 42 + size
            else:
                place += 50
            count += 1
        at += length + 8
    print(count, 'records', len(newest), 'objects')
    things = {}

    def thing_of(oid):
        if oid not in things:
            unpickler = Unpickler(io.BytesIO(newest[oid]))
            unpickler.persistent_load = lambda reference: thing_of(struct.unpack('>Q', reference[0])[0])
            made = unpickler.load()
            made = made[0] if isinstance(made, tuple) else made
            things[oid] = made.__new__(made)
            state = unpickler.load()
            things[oid].__setstate__(state)
        return things[oid]

    root = thing_of(0)
    for name in sorted(root.data):
        held = root.data[name]
        if hasattr(held, '_check'):
            held._check()
            BTrees.check.check(held)
        print(name, type(held).__name__, len(held) if hasattr(held, '__len__') else held() if callable(held) else held)


if __name__ == '__main__':
    if len(sys.argv) < 3 or sys.argv[1] not in ('make', 'read'):
        sys.exit(__doc__)
    if sys.argv[1] == 'make':
        make(sys.argv[2], int(sys.argv[3]) if len(sys.argv) > 3 else 1)
    else:
        read(sys.argv[2])
