#!/usr/bin/env python3
"""Clients side by side: each run of `play` is compared with `run` over the order that it wrote.

    rt run in crates/zodb builds the program; then
    examples/play.py PROGRAM [RUNS]

PROGRAM is the built `zodb`. Each of RUNS runs (200 if none is named) has eight clients with 200 lines each over a
new file: they set keys of one tree, and vote, finish and abort; every second one is remote, and asks for the news
before it begins. The first line that `play` writes is the order; the
script with its lines in that order is run over another new file. What each client is answered must be the same,
but for the stamps of the two clocks: a tid is compared by its place among the tids of its run. The last line but one
says how many runs were alike. Before them, eight clients set 25 keys each: the tree has those whose commit was
answered, and no other, which the last line says. The exit status is 0 where all this holds.
"""
import os
import random
import re
import subprocess
import sys
import tempfile

CLIENTS = 8
LINES = 200
TREE = "0000000000000001"
NUMBER = re.compile(r"\b[0-9a-f]{16}\b")
SETUP = [
    "s open local",
    "s begin",
    f's put {TREE} <BTrees.OOBTree:OOBTree> None',
    's vote "" ""',
    "s finish",
]


def is_remote(name):
    """Every second client is remote."""
    return int(name[1:]) % 2 == 1


def lines_of(name, rng):
    """The lines of a client, which opens its session and then sets keys, votes and reads."""
    remote = is_remote(name)
    lines = [f"{name} open {'remote' if remote else 'local'}"]
    rounds = 0
    while len(lines) < LINES:
        key = f"k{rng.randrange(40):02}" if rng.random() < 0.2 else f"k{name}{rounds:03}"
        round_lines = ["begin", f'set {TREE} "{key}" {rounds}', 'vote "" ""', "finish", "abort"]
        if rng.random() < 0.3:
            round_lines.insert(1, f"items {TREE}")
        if remote:
            round_lines.insert(0, "deliver")
        lines += [f"{name} {line}" for line in round_lines]
        rounds += 1
    return lines[:LINES]


def mixed(parts, rng):
    """The parts' lines in some order, each part's in its own."""
    left = [list(part) for part in parts]
    script = []
    while any(left):
        part = rng.choice([one for one in left if one])
        script.append(part.pop(0))
    return script


def ran(program, path, command, script):
    """What the program writes, in lines."""
    done = subprocess.run([program, path, command], input="\n".join(script) + "\n", capture_output=True, text=True, check=False)
    if done.returncode != 0:
        sys.exit(f"{command} ended with status {done.returncode}")
    return done.stdout.splitlines()


def by_client(lines, names):
    return {name: [line for line in lines if line.split(" ", 1)[0] == name] for name in names}


def leveled(lines):
    """The lines with each tid by its place among the tids that were committed."""
    tids = sorted({line.split()[2] for line in lines if line.split()[1] == "committed"})

    def place(match):
        word = match.group(0)
        below = [tid for tid in tids if tid <= word]
        if not below:
            return word if int(word, 16) < 1 << 32 else "old"
        return f"t{len(below)}+{int(word, 16) - int(below[-1], 16)}"

    return [NUMBER.sub(place, line) for line in lines]


def is_alike(program, folder, seed):
    rng = random.Random(seed)
    names = [f"c{number}" for number in range(CLIENTS)]
    parts = {name: lines_of(name, rng) for name in names}
    script = mixed(parts.values(), rng)
    paths = [os.path.join(folder, f"{seed}-{kind}.fs") for kind in ("play", "run")]
    for path in paths:
        ran(program, path, "run", SETUP)
    played = ran(program, paths[0], "play", script)
    opened = [line.split()[0] for line in script if " open " in line]
    order = [opened[int(number)] for number in played[0].split()[1:]]
    if sorted(order) != sorted(line.split()[0] for line in script):
        return False
    left = {name: list(part) for name, part in parts.items()}
    replies = ran(program, paths[1], "run", [left[name].pop(0) for name in order])
    one, other = by_client(played[1:], names), by_client(replies, names)
    together = [line for name in opened for line in one[name]]
    for path in paths:
        for name in os.listdir(folder):
            if name.startswith(os.path.basename(path)):
                os.unlink(os.path.join(folder, name))
    levels = [leveled([line for name in names for line in each[name]]) for each in (one, other)]
    return played[1:] == together and levels[0] == levels[1]


def keys_set(name):
    """The lines of a client that sets 25 keys, each in a transaction of its own."""
    remote = is_remote(name)
    lines = [f"open {'remote' if remote else 'local'}"]
    for number in range(25):
        lines += ["deliver"] if remote else []
        lines += ["begin", f'set {TREE} "k{name[1:]}{number:02}" {number}', 'vote "" ""', "finish", "abort"]
    return [f"{name} {line}" for line in lines]


def has_what_was_committed(program, folder):
    """Eight clients set keys; then the tree has exactly those whose `finish` was answered as committed."""
    path = os.path.join(folder, "keys.fs")
    ran(program, path, "run", SETUP)
    names = [f"c{number}" for number in range(CLIENTS)]
    parts = {name: keys_set(name) for name in names}
    played = ran(program, path, "play", mixed(parts.values(), random.Random(27)))
    wanted = set()
    for name in names:
        answers = [line for line in played[1:] if line.split(" ", 1)[0] == name]
        for line, answer in zip(parts[name], answers):
            if f" set {TREE}" in line:
                key = line.split('"')[1]
            if answer.split()[1] == "committed":
                wanted.add(key)
    items = ran(program, path, "run", ["r open local", "r begin", f"r items {TREE}"])[-1]
    has = set(re.findall(r'"(k\d{3})"', items))
    return len(played[0].split()) == 1 + 1108 and 0 < len(wanted) and has == wanted


def main():
    program = os.path.abspath(sys.argv[1])
    runs = int(sys.argv[2]) if len(sys.argv) > 2 else 200
    with tempfile.TemporaryDirectory() as folder:
        right = has_what_was_committed(program, folder)
        alike = sum(is_alike(program, folder, seed) for seed in range(runs))
    print(f"{alike} of {runs} alike")
    print("the tree has what was committed" if right else "the tree has not what was committed")
    sys.exit(alike != runs or not right)


main()
