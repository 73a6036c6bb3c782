#!/bin/bash
# Times reading, referring and writing pickles against Python's C pickle, in one run, and prints one table. It is no part of
# the gate. Give it a folder outside the repository:
#
#     bench/pickles.sh /tmp/pickle-bench
#
# It copies the crates that read and write pickles, and those below, there, beside a small program that does one call many
# times, has rt prove and build that program, and makes five pickles of protocol 3. It needs rt and python3. Each time is that
# of a processor, the least of some runs, without the start of the process. With valgrind there are instructions for each node
# too, which say the same on a loaded machine.
# Python's side is pickle.loads and pickle.dumps of protocol 3. Of the record it is an Unpickler over an io.BytesIO that calls a
# persistent_load in C, since loads reads no persistent ids; and its writer writes what that gave, without persistent ids.
set -eu
folder=${1:?a folder outside the repository}
here=$(dirname "$(realpath "$0")")
mkdir -p "$folder/crates/timing/src" "$folder/pickles"
for name in zb_base zb_ids pickle_ops pickle_graph pickle_reading pickle_references pickle_writing; do
    # What rt made is left behind: it is large, and rt takes over what it kept on this machine.
    rm -rf "$folder/crates/$name/src" "$folder/crates/$name/specs" "$folder/crates/$name/proofs"
    mkdir -p "$folder/crates/$name"
    for part in src specs proofs; do
        [ ! -d "$here/../crates/$name/$part" ] || cp -r "$here/../crates/$name/$part" "$folder/crates/$name/$part"
    done
done
grep -E '^(zb_base|zb_ids|pickle_ops|pickle_graph|pickle_reading|pickle_references|pickle_writing):' "$here/../crates.txt" >"$folder/crates.txt"
echo 'timing: pickle_graph pickle_reading pickle_references pickle_writing zb_ids' >>"$folder/crates.txt"
[ -d "$folder/.git" ] || git init -q "$folder"
cat >"$folder/crates/timing/src/main.rt" <<'PROGRAM'
//! Reads, refers or writes the pickle on the standard input so many times.
#![tactic(auto)]

use pickle_reading::read_pickle;
use pickle_references::references_of;
use pickle_writing::write_pickle;
use std::env;
use std::io::{self, Read};
use std::process::ExitCode;
use std::alloc::Global;

fn words_of(rt: &HostRuntime) -> Option<Vec<String>> {
    let mut words = Vec::new(rt.alloc());
    match env::args(rt) {
        Ok(all) => {
            for word in all.skip(1) {
                words.push(word).ok()?;
            }
        }
        Err(_) => {}
    }
    Some(words)
}

fn number_of(words: &[String], at: usize) -> u32 {
    match words.get(at) {
        Some(word) => match word.as_str().parse::<u32>() {
            Ok(n) => n,
            Err(_) => 0,
        },
        None => 0,
    }
}

fn times_read(alloc: Global, input: &[u8], count: u32) -> usize {
    let mut all = 0;
    for _i in 0..count {
        match read_pickle(alloc, input, 0) {
            Ok((pickle, _)) => all = pickle.nodes().len(),
            Err(_) => return 0,
        }
    }
    all
}

fn times_referred(alloc: Global, input: &[u8], count: u32) -> usize {
    let mut all = 0;
    for _i in 0..count {
        match references_of(alloc, input, 0) {
            Ok((oids, _)) => all = oids.len(),
            Err(_) => return 7,
        }
    }
    all
}

fn times_written(alloc: Global, input: &[u8], count: u32) -> usize {
    let mut all = 0;
    let Ok((pickle, _)) = read_pickle(alloc, input, 0) else {
        return 0;
    };
    for _i in 0..count {
        match write_pickle(alloc, &pickle) {
            Ok(text) => all = text.len(),
            Err(_) => return 0,
        }
    }
    all
}

fn main(rt: HostRuntime) -> ExitCode {
    let alloc = rt.alloc();
    let Some(words) = words_of(&rt) else {
        return ExitCode::from(1);
    };
    let mut input: Vec<u8> = Vec::new(alloc);
    if rt.stdin().read_to_end(&mut input).is_err() {
        return ExitCode::from(2);
    }
    let count = number_of(words.as_slice(), 1);
    let all = match number_of(words.as_slice(), 0) {
        0 => times_read(alloc, input.as_slice(), count),
        1 => times_referred(alloc, input.as_slice(), count),
        _ => times_written(alloc, input.as_slice(), count),
    };
    let _ = println!(rt; "{all}");
    ExitCode::from(0)
}
PROGRAM
(cd "$folder/crates/timing" && rt run -- 0 1 </dev/null >"$folder/proof.txt" 2>&1) || true
grep 'logic=' "$folder/proof.txt" || { echo "the program isn't proved: see $folder/proof.txt"; exit 1; }
python3 - "$folder" <<'PYTHON'
import io, os, pickle, resource, shutil, subprocess, sys, time
folder = sys.argv[1]
program = folder + '/crates/timing/out/timing'


class Named:
    def __init__(self, oid):
        self.oid = oid


class Writer(pickle.Pickler):
    def persistent_id(self, value):
        return (value.oid, dict) if isinstance(value, Named) else None


def nested(depth, width):
    return [] if depth == 0 else [nested(depth - 1, width) for _ in range(width)]


def record():
    oid = lambda number: Named(number.to_bytes(8, 'big'))
    state = {'title': 'a document', 'number': 17, 'owner': oid(1), 'parent': oid(2),
             'children': [oid(256 + i) for i in range(20)], 'tags': ('a', 'b', 'c'), 'size': 12.5,
             'text': 'some words in a text ' * 10, 'when': (2026, 11, 28, 13),
             'flags': {'open': True, 'shown': False, 'none': None}}
    out = io.BytesIO()
    Writer(out, 3).dump(state)
    return out.getvalue()


def load(data):
    reader = pickle.Unpickler(io.BytesIO(data))
    reader.persistent_load = tuple
    return reader.load()


pickles = {
    'a dict of 1,000 strings to numbers': pickle.dumps({'key%06d' % i: 7 * i for i in range(1000)}, 3),
    'nested lists of 13,000 nodes': pickle.dumps(nested(8, 3) + nested(7, 3), 3),
    'a list of 100,000 numbers': pickle.dumps([i * 7919 % 100000 for i in range(100000)], 3),
    '10,000 strings': pickle.dumps(['string number %06d' % i for i in range(10000)], 3),
    'a persistent record': record(),
}


def least(call, times):
    best = 1e9
    for _ in range(7):
        start = time.process_time()
        for _ in range(times):
            call()
        best = min(best, time.process_time() - start)
    return best / times


def run(mode, times, name):
    before = resource.getrusage(resource.RUSAGE_CHILDREN)
    with open(name, 'rb') as data:
        subprocess.run([program, str(mode), str(times)], stdin=data, stdout=subprocess.DEVNULL, check=True)
    after = resource.getrusage(resource.RUSAGE_CHILDREN)
    return after.ru_utime + after.ru_stime - before.ru_utime - before.ru_stime


def ours(mode, times, name):
    """A call, without the start of the process, which reads the pickle, and once more where it is to be written."""
    start = call = 1e9
    for _ in range(7):
        start = min(start, run(mode, 0, name))
        call = min(call, run(mode, times, name))
    return (call - start) / times


def instructions(mode, times, name):
    with open(name, 'rb') as data:
        run = subprocess.run(['valgrind', '--tool=callgrind', '--callgrind-out-file=/dev/null', program, str(mode), str(times)],
                             stdin=data, stdout=subprocess.DEVNULL, stderr=subprocess.PIPE, text=True)
    return int(next(line.split()[-1] for line in run.stderr.splitlines() if 'Collected' in line))


print('%-36s %9s %9s  %9s %5s  %9s %5s  %9s %5s' % ('microseconds', 'loads', 'dumps', 'read', '', 'refer', '', 'write', ''))
for name, data in pickles.items():
    path = folder + '/pickles/' + name.replace(' ', '_')
    with open(path, 'wb') as file:
        file.write(data)
    times = min(3000, max(20, 6000000 // len(data)))
    value = load(data)
    loads = least((lambda: load(data)) if name == 'a persistent record' else (lambda: pickle.loads(data)), times)
    dumps = least(lambda: pickle.dumps(value, 3), times)
    took = [ours(mode, times, path) for mode in (0, 1, 2)]
    print('%-36s %9.1f %9.1f  %9.1f %5.2f  %9.1f %5.2f  %9.1f %5.2f' % (
        name, loads * 1e6, dumps * 1e6, took[0] * 1e6, took[0] / loads, took[1] * 1e6, took[1] / loads, took[2] * 1e6, took[2] / dumps))
    if shutil.which('valgrind'):
        nodes = int(subprocess.run([program, '0', '1'], stdin=open(path, 'rb'), capture_output=True, check=True).stdout)
        many = max(2, 3000 // nodes)
        each = [(instructions(mode, 1 + many, path) - instructions(mode, 1, path)) / many / nodes for mode in (0, 1, 2)]
        print('%-36s %9s %9s  %9.0f %5s  %9.0f %5s  %9.0f' % ('  instructions for each node', '', '', each[0], '', each[1], '', each[2]))
PYTHON
