#!/usr/bin/env bash
# The index file of a database, made by the built program: its bytes, what is believed of it, and that
# a file that is opened with it lists the same. bench/read_hint.py reads each index file by docs/FORMAT.md.
#
#     examples/index_file.sh [PROGRAM]
#
# PROGRAM is the built program; without it that is crates/zodb/out/zodb, which `rt run` in crates/zodb
# makes. It needs bash, coreutils and python3, works in a folder of its own below TMPDIR, and removes it.
#
# A line a check: `ok` or `FAILED`. The last line is `N passed, M failed`; the status is 0 where none failed.

set -u
LC_ALL=C
export LC_ALL

HERE=$(cd "$(dirname "$0")" && pwd)
PROGRAM=${1:-$HERE/../crates/zodb/out/zodb}
if [ ! -x "$PROGRAM" ]; then
    echo "no program at $PROGRAM: build it by 'rt run' in crates/zodb, or give its path" >&2
    exit 2
fi
WORK=$(mktemp -d "${TMPDIR:-/tmp}/index_file.XXXXXX") || exit 2
trap 'rm -rf "$WORK"' EXIT

passed=0
failed=0

# is NAME WANTED GIVEN
is() {
    if [ "$2" = "$3" ]; then
        passed=$((passed + 1))
        echo "ok      $1"
    else
        failed=$((failed + 1))
        echo "FAILED  $1: $3"
    fi
}

hex() {
    od -An -v -tx1 "$1" | tr -d ' \n'
}

read_by_format() {
    python3 "$HERE/../bench/read_hint.py" "$1.hint" "$1" | tr '\n' ' '
}

# The bytes that docs/FORMAT.md lists for the file of two transactions.
bytes=0100000000000000ea00000000000000020000000000000002
bytes=${bytes}03f58e0000000000000000000000000420
bytes=${bytes}03f58e0000000001000000000000009e20
bytes=${bytes}000000000000000003f58e00000000000000000000000034
bytes=${bytes}000000000000000103f58e000000000100000000000000b5

F=$WORK/data.fs
cp "$HERE/first_commit.fs" "$F"
lines=$("$PROGRAM" "$F" undolog)
is 'the list has two lines' 2 "$(printf '%s\n' "$lines" | wc -l)"
is 'index tells the end' 'indexed 234' "$("$PROGRAM" "$F" index)"
is 'the index file has 107 bytes' 107 "$(wc -c <"$F.hint")"
is 'they are those of the format' "$bytes" "$(hex "$F.hint")"
is 'a reader by the format finds the same' 'believed 234 2 2 honest ' "$(read_by_format "$F")"
is 'the list is the same with it' "$lines" "$("$PROGRAM" "$F" undolog)"
is 'which leaves it' "$bytes" "$(hex "$F.hint")"

printf '\0' | dd of="$F.hint" bs=1 conv=notrunc status=none
is 'with a closed gate' "$lines" "$("$PROGRAM" "$F" undolog)"
is 'a reader by the format' 'not believed: gate ' "$(read_by_format "$F")"

"$PROGRAM" "$F" index >/dev/null
truncate -s 106 "$F.hint"
is 'cut to 106 bytes' "$lines" "$("$PROGRAM" "$F" undolog)"
is 'a reader by the format' 'not believed: length ' "$(read_by_format "$F")"

# It is used: a transaction that it leaves out isn't listed. (Such an index file says less than the file
# has, as none that the program leaves does; it shows that the front of the file isn't read.)
"$PROGRAM" "$F" index >/dev/null
other=$(printf '%s' "$bytes" | sed 's/03f58e000000000100000000000000b5$/03f58e000000000100000000000000b4/')
printf '%s' "$other" | sed 's/../\\x&/g' | xargs -0 printf '%b' >"$F.hint"
is 'the place of a record is taken from it' 1 "$("$PROGRAM" "$F" show 0000000000000001 | grep -vc '^03f58e0000000001 ')"

# Behind a commit the end is behind that of the index file.
G=$WORK/more.fs
cp "$HERE/first_commit.fs" "$G"
"$PROGRAM" "$G" index >/dev/null
"$PROGRAM" "$G" run >/dev/null <"$HERE/two_writers.txt"
is 'commits leave it' "$bytes" "$(hex "$G.hint")"
is 'a reader by the format' 'believed 234 2 2 honest ' "$(read_by_format "$G")"
with=$("$PROGRAM" "$G" undolog)
cp "$G" "$WORK/plain.fs"
is 'the file is read on from its end' "$("$PROGRAM" "$WORK/plain.fs" undolog)" "$with"
is 'index goes on to the end' "indexed $(wc -c <"$G")" "$("$PROGRAM" "$G" index)"
is 'a reader by the format' 'honest' "$(read_by_format "$G" | awk '{print $5}')"

"$PROGRAM" "$G" pack 2100-01-01T00:00:00 >/dev/null
is 'a pack closes it' 'not believed: gate ' "$(read_by_format "$G")"
is 'index behind a pack' "indexed $(wc -c <"$G")" "$("$PROGRAM" "$G" index)"
is 'a reader by the format' 'honest' "$(read_by_format "$G" | awk '{print $5}')"

echo "$passed passed, $failed failed"
[ "$failed" -eq 0 ]
