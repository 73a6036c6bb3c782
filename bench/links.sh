#!/bin/bash
# Loads and commits a second of 1, 8 and 32 links of one server, beside redis-server where it is there (GET; SET with
# `appendfsync always`), and beside what two syncs a commit allow: alone, with a client that is asked between them, as a vote
# and its finish are, and with 8 and 32 such clients, of which all others are told of each commit. It is no part of the gate:
#
#     bench/links.sh [PROGRAM]
#
# PROGRAM is the built program; without it that is crates/zodb/out/zodb. It needs cc, works in a folder below TMPDIR, which
# is removed at the end, binds ports of 127.0.0.1, and ends by itself. A row has ours, redis's and the ratio. SECONDS_EACH
# (3) is how long a row measures, PAIRS (2000) how many pairs are made. With SYNC_US each sync of our server and of the pairs takes so many microseconds longer, as
# on a slower disk; redis is left out then.
set -u
here=$(dirname "$(realpath "$0")")
program=$(realpath "${1:-$here/../crates/zodb/out/zodb}")
each=${SECONDS_EACH:-3}
folder=$(mktemp -d "${TMPDIR:-/tmp}/links.XXXXXX") || exit 1
redis=
trap '[ -z "$redis" ] || kill "$redis"; rm -rf "$folder"' EXIT
for name in links pairs; do
    cc -O2 -o "$folder/$name" "$here/$name.c" -lpthread || { echo "cc doesn't compile $name.c"; exit 1; }
done
slow=
if [ -n "${SYNC_US:-}" ]; then
    slow=$folder/slow_sync.so
    cc -O2 -shared -fPIC -o "$slow" "$here/slow_sync.c" -ldl || { echo "cc doesn't compile slow_sync.c"; exit 1; }
fi
port_of() { python3 -c 'import socket
with socket.socket() as it:
    it.bind(("127.0.0.1", 0)); print(it.getsockname()[1])'; }
cd "$folder" || exit 1
if [ -z "$slow" ] && command -v redis-server >/dev/null; then
    at=$(port_of)
    redis-server --port "$at" --bind 127.0.0.1 --save '' --appendonly yes --appendfsync always --dir "$folder" >/dev/null 2>&1 &
    redis=$!
fi
printf '%-7s %5s %10s %10s %7s\n' work links ours redis ratio
for work in load commit; do
    for count in 1 8 32; do
        port=$(port_of)
        LD_PRELOAD=$slow "$program" data.fs serve "$port" "$count" >served &
        server=$!
        ours=$(./links "$port" "$count" "$each" ours "$work")
        wait "$server"
        theirs=-
        [ -z "$redis" ] || theirs=$(./links "$at" "$count" "$each" redis "$work")
        printf '%-7s %5d %10s %10s %7s\n' "$work" "$count" "$ours" "$theirs" \
            "$(awk -v a="$ours" -v b="$theirs" 'BEGIN { if (b > 0) printf "%.2f", a / b; else printf "-" }')"
        rm -f data.fs*
    done
done
for how in "" asked "asked 8" "asked 32"; do
    case $how in
        "") what= ;;
        asked) what=", each with a round trip between" ;;
        *) what=", and so for ${how#asked } links that are told of each" ;;
    esac
    begun=$(date +%s.%N)
    # shellcheck disable=SC2086
    LD_PRELOAD=$slow ./pairs pairs.data "${PAIRS:-2000}" $how || { echo "the pairs fail"; exit 1; }
    awk -v a="$begun" -v b="$(date +%s.%N)" -v count="${PAIRS:-2000}" -v what="$what" \
        'BEGIN { printf "pairs of syncs a second%s: %.0f\n", what, count / (b - a) }'
done
