#!/bin/bash
# Measures loads and commits of 1, 2, 4 and 8 threads over one shared hub whose list is in memory, against one thread that
# asks a hub of its own without a lock. It is no part of the gate:
#
#     bench/threads.sh
#
# It copies the files of this repository as they stand to a folder below TMPDIR, which is removed at the end, adds a program
# `thread_costs` to them, and proves and builds that: the crates below it too, where rt has nothing of them. With KEPT, a
# folder with a crates/NAME/out of each, their libraries are taken from there. It needs cc, and valgrind where it is there.
#
# A row has the calls a second of all threads together, without and with the lock, and the ratio of both. A commit is two
# calls. The last rows have instructions a call of one thread, by valgrind, and how many more they are under the lock: what
# the lock, the word and the passes cost. Sizes can be set: LOADS (400000), COMMITS (20000), TIMES (3, of which the least
# is taken).
set -u
loads=${LOADS:-400000} commits=${COMMITS:-20000} times=${TIMES:-3}
root=$(dirname "$(dirname "$(realpath "$0")")")
folder=$(mktemp -d "${TMPDIR:-/tmp}/threads.XXXXXX") || exit 1
trap 'rm -rf "$folder"' EXIT
cd "$root" || exit 1
git ls-files -z --cached --others --exclude-standard |
    while IFS= read -r -d '' file; do [ ! -f "$file" ] || printf '%s\0' "$file"; done |
    tar --null --no-recursion -T - -cf - | tar -xf - -C "$folder" || exit 1
if [ -n "${KEPT:-}" ]; then
    for out in "$KEPT"/crates/*/out; do
        name=$(basename "$(dirname "$out")")
        [ ! -d "$folder/crates/$name" ] || { mkdir -p "$folder/crates/$name/out" && cp -r "$out/rlib" "$folder/crates/$name/out/" 2>/dev/null; }
    done
fi
cc -O2 -o "$folder/measure" bench/measure.c || exit 1
cd "$folder" || exit 1
git init -q .
echo 'thread_costs may_wait=6: zb_ids zb_outside zb_model mapping_store commit_phases zodb_core hub_clock hub_shared' >>crates.txt
mkdir -p crates/thread_costs/src crates/thread_costs/proofs/sharing/share
cp crates/host_tests/src/made.rt crates/thread_costs/src/made.rt
: >crates/thread_costs/proofs/Lib.antt
cat >crates/thread_costs/src/main.rt <<'RATTLE'
//! Loads or commits over a list in memory: by one thread over a hub of its own, or by threads over a shared one.
#![tactic(auto)]

mod asking;
mod made;
mod sharing;

use asking::{Work, ask_alone};
use hub_clock::OpenedClock;
use made::new_hub;
use sharing::share;
use std::alloc::{AllocError, Global};
use std::env;
use std::process::ExitCode;
use std::sync::Wait;
use std::thread::Threads;
use zb_ids::Stamp;
use zb_outside::ListClock;

/// The words behind the program's name.
fn words_of(rt: &HostRuntime) -> Option<Vec<String>> {
    let mut words = Vec::new(rt.alloc());
    for word in env::args(rt).ok()?.skip(1) {
        words.push(word).ok()?;
    }
    Some(words)
}

/// Asks so often by one thread, over a hub of its own without a lock.
fn run_alone(alloc: Global, stamp: Stamp, work: Work, count: u64) -> Result<u64, AllocError> {
    let mut hub = new_hub(alloc, stamp)?;
    let mut clock = ListClock::new(stamp, Vec::new(alloc));
    Ok(ask_alone(alloc, &mut hub, &mut clock, work, count))
}

/// Asks so often by threads, over a shared hub.
fn run_shared<W: Threads + Wait + Sync>(
    rt: &W,
    alloc: Global,
    stamp: Stamp,
    work: Work,
    threads: u64,
    count: u64,
) -> Result<u64, AllocError> {
    let hub = new_hub(alloc, stamp)?;
    let clock = ListClock::new(stamp, Vec::new(alloc));
    let opened = OpenedClock::new(alloc)?;
    share(rt, alloc, opened, hub, clock, work, threads, count)
}

/// Does what the words say: `alone` or a number of threads, `loads` or `commits`, and how many of them in all.
fn run<W: Threads + Wait + Sync>(rt: &W, alloc: Global, words: &[String]) -> Option<u64> {
    let work = if words.get(1)?.as_str() == "loads" {
        Work::Loads
    } else {
        Work::Commits
    };
    let count = words.get(2)?.as_str().parse::<u64>().ok()?;
    let stamp = Stamp::new(2026, 1, 2, 3, 4, 0).ok()?;
    if words.first()?.as_str() == "alone" {
        return run_alone(alloc, stamp, work, count).ok();
    }
    let threads = words.first()?.as_str().parse::<u64>().ok()?;
    run_shared(rt, alloc, stamp, work, threads, count).ok()
}

fn main(rt: HostRuntime) -> ExitCode {
    let Some(words) = words_of(&rt) else {
        return ExitCode::FAILURE;
    };
    match run(&rt, rt.alloc(), words.as_slice()) {
        Some(done) => match println!(rt; "{done}") {
            Ok(()) => ExitCode::SUCCESS,
            Err(_) => ExitCode::FAILURE,
        },
        None => ExitCode::FAILURE,
    }
}
RATTLE
cat >crates/thread_costs/src/asking.rt <<'RATTLE'
//! What is asked, by one thread without a lock.

ghost use Rattle.std.specs.Prelude.{IfOk};
ghost use Rattle.zodb_core.specs.HubState.{IsFitting};

use crate::made::vote_on;
use std::alloc::{AllocError, Global};
use zb_ids::{Oid, Tid};
use zb_model::{Refs, Resolver, Store};
use zb_outside::Clock;
use zodb_core::{Hub, Request};

/// What is asked.
#[derive(Clone, Copy, Debug, PartialEq, Eq)]
pub enum Work {
    /// The root, again and again.
    Loads,
    /// A new object each.
    Commits,
}

/// What is asked first: a load, or a vote on an object.
pub(crate) fn first_request(alloc: Global, work: Work, number: u64) -> Result<Request, AllocError>
    ensures { IfOk result (λ request. IsFitting request) }
{
    match work {
        Work::Loads => Ok(Request::LoadBefore {
            oid: Oid(0),
            front: Tid(u64::MAX - 1),
        }),
        Work::Commits => vote_on(alloc, Oid(number.saturating_add(1))),
    }
}

/// Asks so often, and answers how often it was.
pub(crate) fn ask_alone<St: Store, R: Resolver, F: Refs, C: Clock>(
    alloc: Global,
    hub: &mut Hub<St, R, F>,
    clock: &mut C,
    work: Work,
    count: u64,
) -> u64 {
    let Ok(session) = hub.open_session() else {
        return 0;
    };
    for number in 0..count {
        let Ok(request) = first_request(alloc, work, number) else {
            return number;
        };
        let _ = hub.step(alloc, session, request, clock);
        if work == Work::Commits {
            let _ = hub.step(alloc, session, Request::Finish, clock);
        }
    }
    count
}
RATTLE
cat >crates/thread_costs/src/sharing.rt <<'RATTLE'
//! The same by threads over one shared hub.

ghost use Rattle.std.specs.Prelude.{◌≡◌, []};
ghost use Rattle.zodb_core.specs.HubState.{StandsForMachine, counts_of, rules_of};
ghost use Rattle.zodb_core.specs.Machine.{machine_over};

use crate::asking::{Work, first_request};
use hub_clock::OpenedClock;
use hub_shared::{HistoryEntry, Origin, Pass, Shared};
use std::alloc::{AllocError, Global};
use std::marker::Brand;
use std::sync::Wait;
use std::thread;
use std::thread::Threads;
use zb_model::{Refs, Resolver, Store};
use zb_outside::Clock;
use zodb_core::{Hub, Request};

/// A thread's session, how often it asks, and how often it did.
#[derive(Drop)]
struct Asker<J: Origin> {
    pass: Option<Pass<J>>,
    first: u64,
    count: u64,
    done: u64,
}

/// Asks as often as an asker is to.
fn ask<St: Store + Drop, R: Resolver + Drop, F: Refs + Drop, C: Clock + Drop, J: Origin, W: Wait>(
    rt: &W,
    alloc: Global,
    shared: &Shared<St, R, F, C, J>,
    asker: &mut Asker<J>,
    work: Work,
) {
    for number in 0..asker.count {
        let Some(pass) = asker.pass.take() else {
            return;
        };
        let Ok(request) = first_request(alloc, work, asker.first.saturating_add(number)) else {
            return;
        };
        let (pass, _) = shared.call_waiting(rt, alloc, pass, request);
        let pass = if work == Work::Commits {
            shared.call(rt, alloc, pass, Request::Finish).0
        } else {
            pass
        };
        asker.pass = Some(pass);
        asker.done = asker.done.saturating_add(1);
    }
}

/// Lets threads ask, each the same part of the count, and answers how often they did.
fn share_from<
    St: Store + Drop + Send,
    R: Resolver + Drop + Send,
    F: Refs + Drop + Send,
    C: Clock + Drop + Send,
    J: Origin + Send + Sync,
    W: Threads + Wait + Sync,
>(
    rt: &W,
    alloc: Global,
    opened: OpenedClock<HistoryEntry>,
    hub: Hub<St, R, F>,
    clock: C,
    work: Work,
    threads: u64,
    count: u64,
) -> Result<u64, AllocError>
    requires word { opened ≡ J.table }
    requires empty { hub.sessions ≡ [] }
    requires rules { rules_of R.rules F.named hub ≡ J.rules }
    requires counts { counts_of hub.store ≡ J.counts }
    requires stands { St.told → StandsForMachine hub (machine_over J.list) }
{
    let (word, seat) = opened.into_named::<J>();
    let (shared, mut seen) = Shared::new(word, seat, hub, clock);
    let part = count.checked_div(threads).unwrap_or(0);
    let mut askers = Vec::new(alloc);
    for number in 0..threads {
        let (now, entered) = shared.enter(rt, seen);
        seen = now;
        askers.push(Asker {
            pass: entered.ok(),
            first: number.wrapping_mul(part),
            count: part,
            done: 0,
        })?;
    }
    let lent = &shared;
    thread::for_each_mut(
        rt,
        askers.as_mut_slice(),
        64,
        &|_place: usize, asker: &mut Asker<J>| { ask(rt, alloc, lent, asker, work) },
    );
    let mut done = 0u64;
    for asker in askers {
        done = done.saturating_add(asker.done);
    }
    drop(seen);
    Ok(done)
}

/// The same over a hub without sessions.
pub(crate) fn share<
    St: Store + Drop + Send,
    R: Resolver + Drop + Send,
    F: Refs + Drop + Send,
    C: Clock + Drop + Send,
    W: Threads + Wait + Sync,
>(
    rt: &W,
    alloc: Global,
    opened: OpenedClock<HistoryEntry>,
    hub: Hub<St, R, F>,
    clock: C,
    work: Work,
    threads: u64,
    count: u64,
) -> Result<u64, AllocError>
    requires empty { hub.sessions ≡ [] }
    requires stands { St.told → StandsForMachine hub (machine_over hub.store.list) }
{
    share_from::<St, R, F, C, Brand, W>(rt, alloc, opened, hub, clock, work, threads, count)
}
RATTLE
sed 's/pushes\.push_all/sharing.share/; s/push_from/share_from/g; s/host_tests/thread_costs/' \
    crates/host_tests/proofs/pushes/push_all/Invariants.antt >crates/thread_costs/proofs/sharing/share/Invariants.antt
(cd crates/thread_costs && rt run -- alone loads 0) >told.txt 2>&1
program=crates/thread_costs/out/thread_costs
[ -x "$program" ] || { tail -n 20 told.txt; echo "thread_costs isn't built"; exit 1; }
: >empty

# seconds that a count of calls takes, without those that a start takes
cost() { # THREADS WORK COUNT
    { ./measure "$times" empty "$program" "$1" "$2" "$3"; ./measure "$times" empty "$program" "$1" "$2" 0; } |
        awk 'NR == 1 { whole = $1 } NR == 2 { printf "%.6f\n", whole - $1 }'
}
# instructions that a count of calls takes
instructions() { # THREADS WORK COUNT
    local count
    for count in "$3" 0; do
        valgrind --tool=callgrind --callgrind-out-file=/dev/null "$program" "$1" "$2" "$count" 2>&1 >/dev/null |
            awk '/Collected/ { print $NF }'
    done | awk 'NR == 1 { whole = $1 } NR == 2 { printf "%.0f\n", whole - $1 }'
}
echo "load: $(cut -d' ' -f1-3 /proc/loadavg), processors: $(nproc)"
printf '%-10s %8s %14s %14s %7s\n' what threads "alone a second" "shared" ratio
for work in loads commits; do
    count=$loads each=1
    [ "$work" = loads ] || { count=$commits each=2; }
    alone=$(cost alone "$work" "$count")
    for threads in 1 2 4 8; do
        shared=$(cost "$threads" "$work" "$count")
        awk -v work="$work" -v threads="$threads" -v calls=$((count * each)) -v alone="$alone" -v shared="$shared" \
            'BEGIN { printf "%-10s %8d %14.0f %14.0f %7.2f\n", work, threads, calls / alone, calls / shared, alone / shared }'
    done
done
if ! command -v valgrind >/dev/null; then
    echo "instructions: skipped, valgrind isn't there"
    exit 0
fi
for work in loads commits; do
    count=20000 each=1
    [ "$work" = loads ] || { count=2000 each=2; }
    alone=$(instructions alone "$work" "$count") shared=$(instructions 1 "$work" "$count")
    awk -v work="$work" -v calls=$((count * each)) -v alone="$alone" -v shared="$shared" \
        'BEGIN { printf "%-10s instructions a call: %.0f alone, %.0f shared, %.0f more\n", work, alone / calls, shared / calls, (shared - alone) / calls }'
done
