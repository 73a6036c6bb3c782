#!/bin/bash
# Measures clients side by side: the seconds from start to end, and those that the run had a processor, of `play` with 1, 4 and 8
# clients against `run` of the same script. Each client reads an object of ten kibibytes many times, each time in a new view, so that it
# parses and spells much. It is no part of the gate. Give it the built program, which stands at crates/zodb/out/zodb after `rt run`, and a
# folder for its files:
#
#     bench/play.sh crates/zodb/out/zodb /tmp
#
# It needs bash and awk. GETS sets how many reads each client makes (2000), RUNS how often each is run (3; the least is told).
set -u
program=$(realpath "${1:?the built program}")
folder=$(mktemp -d "${2:-/tmp}/zodb-play.XXXXXX")
trap 'rm -rf "$folder"' EXIT
gets=${GETS:-2000} runs=${RUNS:-3}
cd "$folder" || exit 1

awk 'BEGIN { print "s open local"; print "s begin"; printf "s put 0000000000000001 <BTrees.OOBTree:OOBucket> (("
    for (i = 0; i < 400; i++) printf "%s\"key%04d\",\"value%012d\"", (i ? "," : ""), i, i
    print "),)"; print "s vote \"\" \"\""; print "s finish" }' >setup.txt
"$program" start.fs run <setup.txt >setup.out || { echo "the object isn't put"; cat setup.out; exit 1; }

script() { # CLIENTS
    awk -v clients="$1" -v gets="$gets" 'BEGIN {
        for (c = 0; c < clients; c++) printf "c%d open local\n", c
        for (i = 0; i < gets; i++) for (c = 0; c < clients; c++) printf "c%d begin\nc%d get 0000000000000001\nc%d abort\n", c, c, c }'
}
TIMEFORMAT='%R %U %S'
row() { # COMMAND CLIENTS
    local best="" took
    for _ in $(seq "$runs"); do
        rm -f new.fs*; cp start.fs new.fs
        took=$( { time "$program" new.fs "$1" <script.txt >out.txt; } 2>&1 ) || { echo "$1 failed"; exit 1; }
        best=$(printf '%s\n%s\n' "$best" "$took" | awk 'NF { if (!n || $1 < best) { best = $1; line = $0; n = 1 } } END { print line }')
    done
    echo "$best" | awk -v command="$1" -v clients="$2" -v reads="$(($2 * gets))" '{ printf "%-6s %8d %10d %10.2f %10.2f %12.0f\n", command, clients, reads, $1, $2 + $3, reads / $1 }'
}
printf '%-6s %8s %10s %10s %10s %12s\n' "" clients reads seconds worked "reads/s"
for clients in 1 4 8; do
    script "$clients" >script.txt
    row run "$clients"
    row play "$clients"
done
