#!/bin/bash
# Counts what other open sessions cost a commit, in instructions for each of them, and what many commits cost the front of a
# session that was told of all of them. It is no part of the gate. Give it the built program, which stands at
# crates/zodb/out/zodb after `rt run`:
#
#     bench/sessions.sh crates/zodb/out/zodb
#
# It needs bash, awk and valgrind. Sizes can be set: COMMITS (800, fewer than a session can be told at once), SESSIONS (33
# clients, at most 64).
#
# One client commits; the others only stand open. The same script with one client is taken off, and so are the lines that open
# the others: each of these is run by itself, too.
set -u
program=$(realpath "${1:?the built program}")
commits=${COMMITS:-800} sessions=${SESSIONS:-33}
folder=$(mktemp -d "${TMPDIR:-/tmp}/sessions.XXXXXX") || exit 1
trap 'rm -rf "$folder"' EXIT
cd "$folder" || exit 1

# a script of so many clients and commits
script() { # CLIENTS COMMITS
    awk -v clients="$1" -v commits="$2" 'BEGIN {
        for (i = 0; i < clients; i++) printf "c%d open local\n", i
        print "c0 begin"; print "c0 new"; print "c0 put 0000000000000001 <m:C> 0"; print "c0 vote \"\" \"\""; print "c0 finish"
        for (i = 1; i <= commits; i++) {
            print "c0 begin"; printf "c0 put 0000000000000001 <m:C> %d\n", i; print "c0 vote \"\" \"\""; print "c0 finish" } }'
}
# the instructions of a run of it
counted() { # CLIENTS COMMITS
    rm -f new.fs new.fs.side
    script "$1" "$2" >script.txt
    valgrind --tool=callgrind --callgrind-out-file=out.txt "$program" new.fs run <script.txt >/dev/null 2>told.txt || return 1
    awk '/^summary:/ { print $2 } /^totals:/ { total = $2 } END { if (total) print total }' out.txt | head -1
}

alone=$(counted 1 "$commits") && alone_opened=$(counted 1 0) || { cat told.txt; exit 1; }
many=$(counted "$sessions" "$commits") && many_opened=$(counted "$sessions" 0) || { cat told.txt; exit 1; }
awk -v a="$alone" -v b="$alone_opened" -v c="$many" -v d="$many_opened" -v commits="$commits" -v others="$((sessions - 1))" 'BEGIN {
    printf "a commit alone: %.0f instructions\n", (a - b) / commits
    printf "for each other open session: %.0f instructions\n", ((c - d) - (a - b)) / commits / others }'
