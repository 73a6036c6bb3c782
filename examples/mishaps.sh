#!/usr/bin/env bash
# What happens to a database file in daily use, done to the built program: streams that are closed,
# two processes on one file, paths that lead to something else than a file, words that aren't UTF-8,
# a disk that is full, a process that is killed. After each the file has to hold every commit that was
# acknowledged, and what isn't the database has to be as it was.
#
#     examples/mishaps.sh [PROGRAM]
#
# PROGRAM is the built program; without it that is crates/zodb/out/zodb, which `rt run` in crates/zodb
# makes. It needs Linux and bash with the usual tools (coreutils, grep, sed). A device node, a small
# disk and a file without permission need root (mknod, mount, setpriv); where they can't be had, what
# needs them is skipped, with a line that says so. It takes about a minute, works in a folder of its
# own below TMPDIR, and removes it.
#
# A line a check: `ok`, `FAILED` or `skipped`. The last line is `N passed, M failed`; the status is 0
# where none failed.

set -u
LC_ALL=C
export LC_ALL
umask 022

HERE=$(cd "$(dirname "$0")" && pwd)
PROGRAM=${1:-$HERE/../crates/zodb/out/zodb}
if [ ! -f "$PROGRAM" ] || [ ! -x "$PROGRAM" ]; then
    echo "no program at $PROGRAM: build it by 'rt run' in crates/zodb, or give its path" >&2
    exit 2
fi
WORK=$(mktemp -d "${TMPDIR:-/tmp}/mishaps.XXXXXX") || exit 2
chmod 755 "$WORK"
# A copy, so that another user may run it too.
cp "$PROGRAM" "$WORK/zodb" && chmod 755 "$WORK/zodb" || exit 2
ZODB=$WORK/zodb

passed=0
failed=0
skipped=0
declare -A running
mounted=

# Ends what was started and still runs, by its id, and removes the folder.
clean() {
    local id
    for id in "${!running[@]}"; do kill -9 "$id" 2>/dev/null; done
    wait 2>/dev/null
    if [ -n "$mounted" ]; then umount "$mounted" 2>/dev/null; fi
    rm -rf "$WORK"
}
trap clean EXIT
trap 'exit 130' INT TERM

ok() {
    passed=$((passed + 1))
    echo "ok      $1"
}

bad() {
    failed=$((failed + 1))
    local why=${2//$'\n'/ | }
    echo "FAILED  $1: ${why:0:300}"
}

skip() {
    skipped=$((skipped + 1))
    echo "skipped $1: $2"
}

# check NAME WHY: passed where WHY is empty.
check() {
    if [ -z "$2" ]; then ok "$1"; else bad "$1" "$2"; fi
}

# A place of its own for each check.
fresh() {
    D=$WORK/$1
    mkdir -p "$D"
    F=$D/data.fs
}

# program SECONDS WORD..: the program, ended where it takes longer.
program() {
    local limit=$1
    shift
    timeout -s KILL "$limit" "$ZODB" "$@"
}

# commits FIRST COUNT: a script of COUNT commits of one new object each, from FIRST on.
commits() {
    local n
    echo 'c open local'
    for ((n = $1; n < $1 + $2; n++)); do
        printf 'c begin\nc store %016x 0000000000000000 %064x\nc vote "" ""\nc finish\n' "$n" "$n"
    done
}

# make PATH COUNT: a database with so many commits of the objects from 1 on.
make() {
    commits 1 "$2" | program 60 "$1" run >"$WORK/made" || echo "making $1 ended with status $?"
}

# The tids that the replies in these files acknowledge.
acknowledged() {
    sed -n 's/^c committed \([0-9a-f]\{16\}\)$/\1/p' "$@" | sort -u
}

# lost PATH REPLIES..: says what is wrong with a file that has to hold every acknowledged commit.
lost() {
    local path=$1 status missing
    shift
    program 60 "$path" undolog >"$WORK/listed" </dev/null
    status=$?
    if [ "$status" != 0 ]; then
        echo "the list ended with status $status: $(head -n 1 "$WORK/listed"); "
        return
    fi
    grep -v '^cut ' "$WORK/listed" | cut -d ' ' -f 1 | sort >"$WORK/tids"
    missing=$(acknowledged "$@" | comm -23 - "$WORK/tids" | wc -l)
    if [ "$missing" != 0 ]; then echo "$missing acknowledged commits are lost; "; fi
    if [ -n "$(uniq -d "$WORK/tids")" ]; then echo "a tid stands twice; "; fi
}

# differs WHAT WANTED FOUND
differs() {
    if [ "$2" != "$3" ]; then echo "$1 is $3 and not $2; "; fi
}

# changed FILE COPY
changed() {
    if ! cmp -s "$1" "$2"; then echo "$1 has changed; "; fi
}

# What stands at a path: its kind, number, mode and time of change.
stands() {
    stat -c '%F %i %a %Y %s' "$1" 2>/dev/null || echo nothing
}

# await ID: waits for what was started, and gives its status.
await() {
    local status
    wait "$1" 2>/dev/null
    status=$?
    unset "running[$1]"
    return "$status"
}

# pause MILLISECONDS
pause() {
    sleep "$(printf '%d.%03d' $(($1 / 1000)) $(($1 % 1000)))"
}

# ---------------------------------------------------------------- streams that are closed

echo "streams that are closed"

# with_closed STREAMS WORD..: the program with these streams closed; its output is in $WORK/out.
with_closed() {
    local streams=$1
    shift
    case $streams in
    output) program 20 "$@" >&- 2>/dev/null <"$WORK/script" ;;
    input) program 20 "$@" >"$WORK/out" 2>/dev/null <&- ;;
    'input and output') program 20 "$@" >&- 2>/dev/null <&- ;;
    'all three') program 20 "$@" >&- 2>&- <&- ;;
    esac
}

fresh closed
commits 100 1 >"$WORK/script"
make "$F" 1
cp "$F" "$WORK/copy"
OBJECT=0000000000000001
for streams in output input 'input and output' 'all three'; do
    for command in 'no word' undolog history run; do
        : >"$WORK/out"
        case $command in
        'no word') with_closed "$streams" ;;
        history) with_closed "$streams" "$F" history "$OBJECT" ;;
        *) with_closed "$streams" "$F" "$command" ;;
        esac
        status=$?
        case "$command/$streams" in
        'no word/'*) wanted=2 ;;
        run/output) wanted=4 ;;
        run/*) wanted=3 ;;
        */input) wanted=0 ;;
        *) wanted=4 ;;
        esac
        why=$(differs status "$wanted" "$status")$(changed "$F" "$WORK/copy")
        if [ -s "$F.side" ]; then why="${why}bytes stand in PATH.side; "; fi
        why=$why$(lost "$F" "$WORK/made")
        check "closed $streams: $command" "$why"
        cp "$WORK/copy" "$F"
    done
done
for streams in output input 'input and output' 'all three'; do
    for command in undolog run; do
        rm -f "$D/new.fs" "$D/new.fs.side"
        with_closed "$streams" "$D/new.fs" "$command"
        status=$?
        case "$command/$streams" in
        run/output) wanted=4 ;;
        run/*) wanted=3 ;;
        */input) wanted=0 ;;
        *) wanted=4 ;;
        esac
        why=$(differs status "$wanted" "$status")
        if [ -s "$D/new.fs.side" ]; then why="${why}bytes stand in PATH.side; "; fi
        why=$why$(lost "$D/new.fs" /dev/null)
        check "closed $streams, no file yet: $command" "$why"
    done
done
if [ -c /dev/full ]; then
    program 20 "$F" undolog >/dev/full
    check "output that takes nothing: undolog" "$(differs status 4 $?)$(changed "$F" "$WORK/copy")"
    program 20 "$F" run <"$WORK/script" >/dev/full
    check "output that takes nothing: run" "$(differs status 4 $?)$(changed "$F" "$WORK/copy")"
fi
commits 200 100 >"$WORK/long"
program 20 "$F" run <"$WORK/long" | head -n 40 >"$WORK/replies"
check "output whose reader goes away" "$(lost "$F" "$WORK/made" "$WORK/replies")"

# ---------------------------------------------------------------- two processes

echo "two processes on one file"

# hold PATH: starts a run of which the output isn't read, so that it stands still in the midst of its
# turns with the file open. Its id is in $holder.
hold() {
    mkfifo "$D/pipe"
    exec 7<>"$D/pipe"
    {
        printf 'h open local\nh begin\n'
        local n
        for ((n = 0; n < 20000; n++)); do echo 'h load 0000000000000001'; done
    } >"$WORK/holding"
    "$ZODB" "$1" run <"$WORK/holding" >"$D/pipe" &
    holder=$!
    running[$holder]=1
    read -r _ <&7
}

# let_go: ends that run.
let_go() {
    kill -9 "$holder"
    await "$holder"
    exec 7>&-
    rm "$D/pipe"
}

fresh held
make "$F" 3
cp "$F" "$WORK/copy"
ln "$F" "$D/second_name.fs"
ln -s data.fs "$D/link.fs"
hold "$F"
for path in "$F" "$D/second_name.fs" "$D/link.fs" "$F.side"; do
    for command in undolog history run; do
        words=("$path" "$command")
        if [ "$command" = history ]; then words+=("$OBJECT"); fi
        program 20 "${words[@]}" <"$WORK/script" >"$WORK/out"
        why=$(differs status 5 $?)$(differs "the output" "store fault" "$(cat "$WORK/out")")
        why=$why$(changed "$F" "$WORK/copy")
        check "beside a run, by the name $(basename "$path"): $command" "$why"
    done
done
let_go
check "behind a run that was killed, at once" "$(lost "$F" "$WORK/made")"
for path in "$D/second_name.fs" "$D/link.fs"; do
    check "by the name $(basename "$path"), once the run is gone" "$(lost "$path" "$WORK/made")"
done

# Lists every few milliseconds beside a run: from its first reply on each is refused, until it ends.
fresh lists
make "$F" 1
cp "$WORK/made" "$D/made"
commits 10 200 >"$WORK/script"
: >"$D/replies"
"$ZODB" "$F" run <"$WORK/script" >"$D/replies" &
runner=$!
running[$runner]=1
while [ ! -s "$D/replies" ] && kill -0 "$runner" 2>/dev/null; do pause 1; done
refused=0
answered=0
why=
while kill -0 "$runner" 2>/dev/null; do
    program 20 "$F" undolog >"$WORK/out"
    status=$?
    case $status in
    0) answered=$((answered + 1)) ;;
    5) refused=$((refused + 1)) ;;
    *) why="${why}a list ended with status $status; " ;;
    esac
    pause 3
done
await "$runner"
why=$why$(differs "the run's status" 0 $?)
why=$why$(differs "the number of commits" 200 "$(acknowledged "$D/replies" | wc -l)")
why=$why$(lost "$F" "$D/made" "$D/replies")
if [ "$refused" = 0 ]; then why="${why}no list came while it ran; "; fi
check "lists beside a run of 200 commits ($refused refused, $answered answered)" "$why"

# Lists without a pause, three at a time, and runs that are begun among them until they are taken.
fresh crowd
make "$F" 1
cp "$WORK/made" "$D/made"
for n in 1 2 3; do
    (while [ ! -e "$D/done" ]; do
        program 20 "$F" undolog >"$D/list.$n"
        case $? in 0 | 5) ;; *) echo "status $?" >>"$D/wrong" ;; esac
        sleep 0.004
    done) &
    lister[n]=$!
    running[${lister[n]}]=1
done
why=
refused=0
for ((n = 0; n < 10; n++)); do
    commits $((1000 + 20 * n)) 20 >"$WORK/script"
    for ((turn = 0; turn < 400; turn++)); do
        program 60 "$F" run <"$WORK/script" >"$D/replies.$n"
        status=$?
        if [ "$status" != 5 ]; then break; fi
        if [ "$(cat "$D/replies.$n")" != "store fault" ]; then
            why="${why}a run was refused behind its first turn; "
            break
        fi
        refused=$((refused + 1))
        pause 2
    done
    why=$why$(differs "the status of a run" 0 "$status")
done
touch "$D/done"
for n in 1 2 3; do await "${lister[n]}"; done
if [ -e "$D/wrong" ]; then why="${why}a list ended with another status; "; fi
why=$why$(differs "the number of commits" 200 "$(acknowledged "$D"/replies.* | wc -l)")
why=$why$(lost "$F" "$D/made" "$D"/replies.*)
check "ten runs of 20 commits among lists ($refused refused at first)" "$why"

# Two runs of 200 commits, one begun a few milliseconds behind the other, or at the same time.
two_runs() {
    local first second one two
    commits 10000 200 >"$D/script.1"
    commits 20000 200 >"$D/script.2"
    "$ZODB" "$F" run <"$D/script.1" >"$D/replies.1" &
    first=$!
    running[$first]=1
    pause "$1"
    "$ZODB" "$F" run <"$D/script.2" >"$D/replies.2" &
    second=$!
    running[$second]=1
    await "$first"
    one=$?
    await "$second"
    two=$?
    case $one/$two in
    0/0 | 0/5 | 5/0) ;;
    *) why="${why}the runs ended with $one and $two; " ;;
    esac
    for n in 1 2; do
        if [ "$(acknowledged "$D/replies.$n" | wc -l)" = 200 ]; then continue; fi
        if [ "$(cat "$D/replies.$n")" = "store fault" ]; then continue; fi
        why="${why}a run was stopped in its midst; "
    done
    why=$why$(lost "$F" "$D/replies.1" "$D/replies.2")
}
for delay in 0 4 40; do
    why=
    for ((round = 0; round < 4; round++)); do
        fresh "two.$delay.$round"
        make "$F" 1
        two_runs "$delay"
    done
    check "two runs of 200 commits, $delay milliseconds apart, 4 times" "$why"
    why=
    for ((round = 0; round < 4; round++)); do
        fresh "new.$delay.$round"
        two_runs "$delay"
    done
    check "two runs that make the file, $delay milliseconds apart, 4 times" "$why"
done

# ---------------------------------------------------------------- what isn't a file

echo "what isn't a file"
commits 300 1 >"$WORK/script"

# refused_at NAME PATH: both commands are refused, and what stands at the path stays.
refused_at() {
    local before why='' command
    before=$(stands "$2")
    for command in undolog run; do
        program 20 "$2" "$command" <"$WORK/script" >"$WORK/out"
        why=$why$(differs "the status of $command" 5 $?)
        why=$why$(differs "the output" "store fault" "$(cat "$WORK/out")")
        why=$why$(differs "what stands there" "$before" "$(stands "$2")")
    done
    if [ -e "$2.side" ]; then why="${why}PATH.side was made; "; fi
    check "$1 at PATH" "$why"
}

# refused_beside NAME MAKE..: MAKE makes what is to stand at PATH.side. Both commands are refused, and
# the file and what stands beside it stay; where there is no file yet, none is made.
refused_beside() {
    local name=$1 why='' before command
    shift
    make "$F" 2
    rm -f "$F.side"
    cp "$F" "$WORK/copy"
    if ! "$@" "$F.side" 2>/dev/null; then
        skip "$name at PATH.side" "it can't be made here"
        return
    fi
    before=$(stands "$F.side")
    for command in undolog run; do
        program 20 "$F" "$command" <"$WORK/script" >"$WORK/out"
        why=$why$(differs "the status of $command" 5 $?)
        why=$why$(differs "what stands there" "$before" "$(stands "$F.side")")$(changed "$F" "$WORK/copy")
    done
    rm -f "$F"
    program 20 "$F" run <"$WORK/script" >"$WORK/out"
    why=$why$(differs "the status of run" 5 $?)
    why=$why$(differs "what stands at PATH" nothing "$(stands "$F")")
    why=$why$(differs "what stands there" "$before" "$(stands "$F.side")")
    check "$name at PATH.side" "$why"
}

fresh kinds
mkfifo "$D/fifo" && refused_at "a FIFO" "$D/fifo"
mkdir "$D/folder" && refused_at "a folder" "$D/folder"
ln -s nowhere "$D/dangling" && refused_at "a dangling link" "$D/dangling"
if [ -e "$D/nowhere" ]; then bad "a dangling link at PATH" "its file was made"; fi
ln -s fifo "$D/link_to_fifo" && refused_at "a link to a FIFO" "$D/link_to_fifo"
ln -s round "$D/round" && refused_at "a link to itself" "$D/round"
if mknod "$D/device" c 1 3 2>/dev/null; then
    refused_at "a device" "$D/device"
    ln -s device "$D/link_to_device" && refused_at "a link to a device" "$D/link_to_device"
else
    skip "a device at PATH" "mknod needs root"
fi

fresh side_fifo && refused_beside "a FIFO" mkfifo
fresh side_folder && refused_beside "a folder" mkdir
fresh side_dangling && refused_beside "a dangling link" ln -s nowhere
fresh side_device
device_at() { mknod "$1" c 1 3; }
refused_beside "a device" device_at
fresh side_link
echo precious >"$D/target"
cp "$D/target" "$WORK/target"
refused_beside "a link to a file" ln -s target
check "a link to a file at PATH.side: its file" "$(changed "$D/target" "$WORK/target")"

# A link to a file is followed, and what is replaced is replaced beside the file.
fresh link
mkdir "$D/elsewhere"
: >"$D/elsewhere/real.fs"
ln -s elsewhere/real.fs "$F"
commits 1 2 | program 20 "$F" run >"$WORK/replies"
why=$(differs status 0 $?)$(lost "$D/elsewhere/real.fs" "$WORK/replies")$(lost "$F" "$WORK/replies")
why=$why$(differs "what stands at the link" "symbolic link" "$(stat -c %F "$F")")
if [ -e "$F.side" ]; then why="${why}PATH.side stands beside the link; "; fi
check "a link to an empty file at PATH" "$why"
commits 3 2 | program 20 "$F" run >>"$WORK/replies"
why=$(differs status 0 $?)$(lost "$D/elsewhere/real.fs" "$WORK/replies")
why=$why$(differs "what stands at the link" "symbolic link" "$(stat -c %F "$F")")
check "a link to a database at PATH" "$why"

# The new file takes over the mode of the empty one, and so does what stands beside it.
for mode in 600 640 666 444; do
    fresh "mode.$mode"
    : >"$F"
    chmod "$mode" "$F"
    if [ ! -w "$F" ]; then
        skip "an empty file of mode $mode" "only root may write it"
        continue
    fi
    commits 1 1 | program 20 "$F" run >"$WORK/replies"
    why=$(differs status 0 $?)$(differs "the mode" "$mode" "$(stat -c %a "$F")")
    why=$why$(differs "the mode of PATH.side" "$mode" "$(stat -c %a "$F.side")")
    why=$why$(lost "$F" "$WORK/replies")
    check "an empty file of mode $mode" "$why"
done

# PATH.side belongs to the database: what an earlier process left there is no part of it.
fresh leftover
head -c 100000 /dev/urandom >"$F.side"
commits 1 2 | program 20 "$F" run >"$WORK/replies"
why=$(differs status 0 $?)$(lost "$F" "$WORK/replies")
if [ -s "$F.side" ]; then why="${why}PATH.side isn't empty; "; fi
check "bytes that were left in PATH.side" "$why"

# As a user who owns nothing.
as_nobody() {
    timeout -s KILL 20 setpriv --reuid=65534 --regid=65534 --clear-groups "$ZODB" "$@"
}

# without_permission NAME: as a user who may not, both commands are refused.
without_permission() {
    local why='' command
    cp "$F" "$WORK/copy"
    for command in undolog run; do
        if [ "$(id -u)" = 0 ]; then
            as_nobody "$F" "$command" <"$WORK/script" >"$WORK/out"
        else
            program 20 "$F" "$command" <"$WORK/script" >"$WORK/out"
        fi
        why=$why$(differs "the status of $command" 5 $?)$(differs "the output" "store fault" "$(cat "$WORK/out")")
    done
    why=$why$(changed "$F" "$WORK/copy")
    check "$1" "$why"
}
if [ "$(id -u)" != 0 ]; then
    fresh readonly
    make "$F" 1
    rm -f "$F.side"
    chmod 444 "$F"
    without_permission "a file that may not be written at PATH"
    fresh readonly_side
    make "$F" 1
    chmod 444 "$F.side"
    without_permission "a file that may not be written at PATH.side"
    fresh readonly_folder
    make "$F" 1
    rm -f "$F.side"
    chmod 555 "$D"
    without_permission "a folder in which PATH.side may not be made"
    chmod 755 "$D"
elif setpriv --reuid=65534 --regid=65534 --clear-groups "$ZODB" >/dev/null 2>&1; [ $? = 2 ]; then
    fresh readonly
    make "$F" 1
    chmod 600 "$F"
    without_permission "a file without permission at PATH"
    fresh readonly_side
    make "$F" 1
    chmod 666 "$F"
    chmod 600 "$F.side"
    without_permission "a file without permission at PATH.side"
    fresh readonly_folder
    make "$F" 1
    rm -f "$F.side"
    chmod 666 "$F"
    without_permission "a folder in which PATH.side may not be made"
else
    skip "files without permission" "setpriv can't be had"
fi

# ---------------------------------------------------------------- what opening cuts

echo "what opening cuts"

# flip_length PATH: flips the highest bit of the length of the second transaction, so that it and all
# behind it read as a transaction that was never finished. Prints where it begins.
flip_length() {
    local first second
    first=$(od -An -tu8 --endian=big -j 12 -N 8 "$1" | tr -d ' ')
    second=$((4 + first + 8))
    printf '\x80' | dd of="$1" bs=1 seek=$((second + 8)) conv=notrunc status=none
    echo "$second"
}

fresh flipped
make "$F" 20
chmod 640 "$F"
at=$(flip_length "$F")
cp -p "$F" "$WORK/copy"
program 20 "$F" undolog >"$WORK/out"
why=$(differs status 0 $?)$(differs "the first line" "cut $at" "$(head -n 1 "$WORK/out")")
why=$why$(differs "the length" "$at" "$(stat -c %s "$F")")
cat "$F" "$F.cut-$at" >"$D/both"
why=$why$(changed "$D/both" "$WORK/copy")
why=$why$(differs "the mode of what was cut" 640 "$(stat -c %a "$F.cut-$at")")
check "a flipped bit in a length: what is cut stands beside the file" "$why"
cp -p "$WORK/copy" "$F"
program 20 "$F" undolog >"$WORK/out"
cat "$F" "$F.cut-$at.1" >"$D/both"
check "the same again, beside what stands there" "$(changed "$D/both" "$WORK/copy")"
commits 10 1 | program 20 "$F" run >"$WORK/replies"
why=$(differs status 0 $?)$(lost "$F" "$WORK/replies")
check "commits go on behind the cut" "$why"

fresh aborted
make "$F" 2
printf 'c open local\nc begin\nc store 0000000000000009 0000000000000000 00\nc vote "" ""\nc abort\n' |
    program 20 "$F" run >"$WORK/out"
why=$(differs status 0 $?)
if ls "$F".cut-* >/dev/null 2>&1; then why="${why}a file was kept; "; fi
check "an abort keeps nothing" "$why"

# The owner of a file stays where a pack by root puts a new one in its place.
fresh owner
make "$F" 3
if [ "$(id -u)" = 0 ] && chown 65534:65534 "$F" 2>/dev/null; then
    program 20 "$F" pack 2100-01-01T00:00:00 >"$WORK/out"
    why=$(differs status 0 $?)$(differs "the owner" 65534:65534 "$(stat -c %u:%g "$F")")
    check "a pack by root of another's file" "$why"
else
    skip "a pack by root of another's file" "chown needs root"
fi

# ---------------------------------------------------------------- words

echo "words that aren't UTF-8"
fresh words
odd=$'\xff\xfe'
for words in path command number; do
    case $words in
    path) (cd "$D" && program 20 "$odd" run <"$WORK/script" >"$WORK/out") ;;
    command) program 20 "$F" "$odd" <"$WORK/script" >"$WORK/out" ;;
    number) program 20 "$F" history "$odd" <"$WORK/script" >"$WORK/out" ;;
    esac
    why=$(differs status 2 $?)$(differs "the output" usage "$(cat "$WORK/out")")
    if [ -n "$(ls -A "$D")" ]; then why="${why}a file was made; "; fi
    check "a $words that isn't UTF-8" "$why"
done

# ---------------------------------------------------------------- no room

echo "no room"

# A limit on the length of files, in units of 1,024 bytes.
fresh limit
make "$F" 1
cp "$WORK/made" "$D/made"
commits 10 400 >"$WORK/script"
(
    trap '' XFSZ
    ulimit -f 20
    exec "$ZODB" "$F" run <"$WORK/script"
) | cat >"$D/replies"
status=${PIPESTATUS[0]}
why=$(differs status 5 "$status")$(differs "the last line" "store fault" "$(tail -n 1 "$D/replies")")
why=$why$(lost "$F" "$D/made" "$D/replies")
if [ "$(acknowledged "$D/replies" | wc -l)" = 0 ]; then why="${why}nothing was committed; "; fi
check "a limit on the length of files, as an error" "$why"
fresh limit_signal
make "$F" 1
cp "$WORK/made" "$D/made"
(
    ulimit -c 0
    ulimit -f 20
    exec "$ZODB" "$F" run <"$WORK/script"
) 2>/dev/null | cat >"$D/replies"
status=${PIPESTATUS[0]}
why=$(differs status 5 "$status")$(differs "the last line" "store fault" "$(tail -n 1 "$D/replies")")
why=$why$(lost "$F" "$D/made" "$D/replies")
if [ "$(acknowledged "$D/replies" | wc -l)" = 0 ]; then why="${why}nothing was committed; "; fi
check "a limit on the length of files, whose signal would end the program" "$why"
(
    trap '' XFSZ
    ulimit -f 0
    exec "$ZODB" "$D/none.fs" run <"$WORK/script"
) | cat >"$D/none"
why=$(differs status 5 "${PIPESTATUS[0]}")$(lost "$D/none.fs" /dev/null)
check "no room for a new file, and then some" "$why"

fresh disk
mkdir "$D/small"
if mount -t tmpfs -o size=24k,mode=755 mishaps "$D/small" 2>/dev/null; then
    mounted=$D/small
    F=$D/small/data.fs
    make "$F" 1
    cp "$WORK/made" "$D/made"
    program 60 "$F" run <"$WORK/script" >"$D/replies"
    why=$(differs status 5 $?)$(differs "the last line" "store fault" "$(tail -n 1 "$D/replies")")
    if [ "$(acknowledged "$D/replies" | wc -l)" = 0 ]; then why="${why}nothing was committed; "; fi
    # What was written of the last transaction is cut off only once there is room to keep it.
    cp "$F" "$WORK/copy"
    program 20 "$F" undolog >"$WORK/out"
    case $? in
    0) ;;
    5) why=$why$(differs "the output" "store fault" "$(cat "$WORK/out")")$(changed "$F" "$WORK/copy") ;;
    *) why="${why}a list ended with another status; " ;;
    esac
    check "a disk that fills up" "$why"
    mount -o remount,size=1m "$D/small"
    commits 5000 5 | program 60 "$F" run >"$D/more"
    why=$(differs status 0 $?)$(lost "$F" "$D/made" "$D/replies" "$D/more")
    check "the same file, once there is room" "$why"
    rm -f "$D/small"/*
    mount -o remount,size=48k "$D/small"
    make "$F" 300
    flip_length "$F" >/dev/null
    cp "$F" "$WORK/copy"
    program 20 "$F" undolog >"$WORK/out"
    why=$(differs status 5 $?)$(differs "the output" "store fault" "$(cat "$WORK/out")")
    why=$why$(changed "$F" "$WORK/copy")
    if ls "$F".cut-* >/dev/null 2>&1; then why="${why}a part of it was left; "; fi
    check "a disk without room for what is cut" "$why"
    rm -f "$D/small"/*
    mount -o remount,size=8k "$D/small"
    head -c 100000 /dev/zero >"$D/small/filler" 2>/dev/null
    program 60 "$F" run <"$WORK/script" >"$D/replies"
    why=$(differs status 5 $?)
    rm -f "$D/small/filler"
    commits 1 5 | program 60 "$F" run >"$D/more"
    why=$why$(differs "the status with room" 0 $?)$(lost "$F" "$D/more")
    check "a full disk, and a file that is made once there is room" "$why"
    umount "$D/small" && mounted=
else
    skip "a disk that fills up" "mounting a small one needs root"
fi

# ---------------------------------------------------------------- kill

# Runs the script over the file, its answers to REPLIES, and kills the run at random
# within MILLISECONDS: killed_within MILLISECONDS REPLIES
killed_within() {
    "$ZODB" "$F" run <"$WORK/script" >"$2" &
    runner=$!
    running[$runner]=1
    pause $((RANDOM % $1))
    kill -9 "$runner" 2>/dev/null
    await "$runner"
}

echo "kill -9"
fresh kill
make "$F" 1
cp "$WORK/made" "$D/replies.0"
why=
for ((n = 1; n <= 40; n++)); do
    commits $((1000 * n)) 100 >"$WORK/script"
    : >"$D/replies.$n"
    killed_within 120 "$D/replies.$n"
    why=$why$(lost "$F" "$D"/replies.*)
    if [ -n "$why" ]; then break; fi
done
check "40 runs killed at random, $(acknowledged "$D"/replies.* | wc -l) commits acknowledged" "$why"
why=
for ((n = 1; n <= 40; n++)); do
    fresh "kill.$n"
    commits 1 50 >"$WORK/script"
    : >"$D/replies"
    killed_within 12 "$D/replies"
    why=$why$(lost "$F" "$D/replies")
done
check "40 runs killed at random while they make the file" "$why"

echo
if [ "$skipped" != 0 ]; then echo "$skipped skipped"; fi
echo "$passed passed, $failed failed"
[ "$failed" = 0 ]
