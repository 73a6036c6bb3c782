#!/bin/bash
# Times the built program against other programs of this machine, in one run, and prints one table of ratios. It is no part
# of the gate. Give it the built program, which stands at crates/zodb/out/zodb after `rt run`, and a folder on the disk that
# is to be measured:
#
#     bench/run.sh crates/zodb/out/zodb /tmp
#
# It needs bash, awk, head and cc; sqlite3, LMDB's library, strace, Python and its BTrees package where they are there. What isn't there is skipped, and it says so. Sizes
# can be set: TRANSACTIONS (1300000), COMMITS (300), LOADS (20000), LINES (100000), RECORDS (1000000), KEYS (1000000), SETS (20000), UNDOS (2000), TIMES (3, of which the least is taken).
#
# A row has the seconds that each of the two took, the seconds that each had a processor, and both ratios. Where the machine
# has other work, the second ratio is the one to read, but for commits, which wait for the disk.
set -u
program=$(realpath "${1:?the built program}")
folder=$(mktemp -d "${2:-/tmp}/zodb-bench.XXXXXX")
trap 'rm -rf "$folder"' EXIT
here=$(dirname "$(realpath "$0")")
transactions=${TRANSACTIONS:-1300000} commits=${COMMITS:-300} loads=${LOADS:-20000} lines=${LINES:-100000} records=${RECORDS:-1000000} keys=${KEYS:-1000000} sets=${SETS:-20000} undos=${UNDOS:-2000} times=${TIMES:-3}
for name in measure make_file make_tree make_keys walk pairs loads; do
    cc -O2 -o "$folder/$name" "$here/$name.c" || { echo "cc doesn't compile $name.c"; exit 1; }
done
cd "$folder" || exit 1
: >empty

# seconds, KiB and processor seconds of a command with a file as its standard input
cost() { ./measure "$times" "$@"; }
# a Python that has the BTrees package, if there is one
python=
for each in python3 /usr/bin/python3; do
    if [ -z "$python" ] && "$each" -c 'import BTrees' 2>/dev/null; then python=$each; fi
done
# the same of a run of a script over a file that isn't there yet
cost_anew() { # FILE SCRIPT
    local made
    for made in $(seq "$times"); do
        rm -f "$1" "$1.side"
        ./measure 1 "$2" "$program" "$1" run
    done | least
}
# the least of each column, and of the second the greatest
least() {
    awk 'NR == 1 || $1 < wall { wall = $1 } $2 > room { room = $2 } NR == 1 || $3 < work { work = $3 } END { print wall, room, work }'
}
row() { awk -v name="$1" -v ours="$2" -v than="$3" -v theirs="$4" 'function ratio(one, other) { return one / (other > 0.0001 ? other : 0.0001) }
    BEGIN { split(ours, a, " "); split(theirs, b, " ");
    printf "%-38s %8.3f %8.3f   %-34s %8.3f %8.3f   %7.2f %7.2f\n", name, a[1], a[3], than, b[1], b[3], ratio(a[1], b[1]), ratio(a[3], b[3]) }'; }
skipped() { printf '%-38s skipped: %s\n' "$1" "$2"; }

echo "load: $(cut -d' ' -f1-3 /proc/loadavg), processors: $(nproc)"
printf '%-38s %8s %8s   %-34s %8s %8s   %7s %7s\n' "ours" seconds worked "against" seconds worked ratio "of work"

# opening by a scan
./make_file many.fs "$transactions" 1 3
opening=$(cost empty "$program" many.fs run)
row "opening, an empty script" "$opening" "C, headers in pieces of 64 KiB" "$(cost empty ./walk many.fs pieces)"
row "opening, an empty script" "$opening" "C, each header by a read" "$(cost empty ./walk many.fs places)"
row "opening, an empty script" "$opening" "cat" "$(cost empty cat many.fs)"
row "opening, the history of one object" "$(cost empty "$program" many.fs history 0000000000000001)" \
    "C, headers in pieces of 64 KiB" "$(cost empty ./walk many.fs pieces)"
./make_file mixed.fs "$transactions" 1 3 shuffled
row "opening, objects in mixed order" "$(cost empty "$program" mixed.fs run)" "C, headers in pieces of 64 KiB" "$(cost empty ./walk mixed.fs pieces)"
rm -f mixed.fs mixed.fs.side
row "opening, the undo list" "$(cost empty "$program" many.fs undolog)" "C, each header by a read" "$(cost empty ./walk many.fs places)"

# loads of objects that lie apart
awk -v loads="$loads" -v objects="$transactions" 'BEGIN {
    print "a open local"; print "a begin"; at = 12345
    for (i = 0; i < loads; i++) { at = (at * 1103515245 + 12345) % 2147483648; printf "a load %016x\n", at % objects } }' >loads.txt
row "$loads loads, with opening" "$(cost loads.txt "$program" many.fs run)" "C, reads at places" "$(cost empty ./loads many.fs "$loads")"
if cc -O2 -o lmdb "$here/lmdb.c" -llmdb 2>/dev/null; then
    ./make_file apart.fs 1000000 1 200; mkdir objects.mdb; ./lmdb objects.mdb make 1000000 200
    awk -v loads="$loads" 'BEGIN { print "a open local"; print "a begin"; at = 12345
        for (i = 0; i < loads; i++) { at = (at * 1103515245 + 12345) % 2147483648; printf "a load %016x\n", at % 1000000 } }' >apart.txt
    fetched=$(cost apart.txt "$program" apart.fs run); opened=$(cost empty "$program" apart.fs run)
    row "$loads loads of 200 bytes, no opening" "$(echo "$fetched $opened" | awk '{ print $1 - $4, $2, $3 - $6 }')" \
        "LMDB, a write a line" "$(cost apart.txt ./lmdb objects.mdb load each)"
    rm -rf apart.fs apart.fs.side objects.mdb
else
    skipped "loads against LMDB" "its library isn't there"
fi

# commits of one object of 1 KiB
content=$(head -c 1024 /dev/zero | tr '\0' a | od -An -tx1 -v | tr -d ' \n')
awk -v commits="$commits" -v content="$content" 'BEGIN {
    print "a open local"
    for (i = 1; i <= commits; i++) printf "a begin\na store %016x 0000000000000000 %s\na vote \"\" \"\"\na finish\n", i, content }' >commits.txt
best=$(cost_anew commits.fs commits.txt)
row "$commits commits of 1 KiB" "$best" "C, pwrite and fsync twice each" "$(cost empty ./pairs pairs.bin "$commits")"
if command -v sqlite3 >/dev/null; then
    { echo "PRAGMA journal_mode=WAL; PRAGMA synchronous=FULL; CREATE TABLE o (k INTEGER PRIMARY KEY, v BLOB);"
      for i in $(seq "$commits"); do echo "INSERT INTO o VALUES ($i, x'$content');"; done; } >commits.sql
    best_sql=$(for _ in $(seq "$times"); do
        rm -f commits.db commits.db-wal commits.db-shm
        ./measure 1 commits.sql sqlite3 commits.db
    done | least)
    row "$commits commits of 1 KiB" "$best" "sqlite3, WAL, synchronous=FULL" "$best_sql"
else
    skipped "commits against sqlite3" "it isn't there"
fi

# a script read, and stores that stay pending
awk -v lines="$lines" 'BEGIN { print "a open local"; print "a begin"
    for (i = 2; i < lines; i++) printf "a load %016x\n", 0 }' >read.txt
row "a script of $lines loads of nothing" "$(cost read.txt "$program" read.fs run)" "cat of the script" "$(cost read.txt cat)"
awk -v lines="$lines" 'BEGIN { print "a open local"; print "a begin"
    for (i = 2; i < lines; i++) printf "a store %016x 0000000000000000 616263\n", i }' >stores.txt
row "$lines pending stores" "$(cost stores.txt "$program" stores.fs run)" "cat of the script" "$(cost stores.txt cat)"

awk -v lines="$lines" 'BEGIN { print "a open local"
    for (i = 1; i < lines; i++) print "a new" }' >new.txt
row "$lines lines, all but one new" "$(cost new.txt "$program" new.fs run)" "cat of the script" "$(cost new.txt cat)"

# keys that are set in a tree in mixed order, in one transaction: the time of a line grows with the height of the tree
set_script() { # KEYS
    awk -v keys="$1" 'BEGIN { print "a open local"; print "a begin"; print "a new"
        print "a put 0000000000000001 <BTrees.OOBTree:OOBTree> None"
        for (i = 0; i < keys; i++) printf "a set 0000000000000001 %d %d\n", (i * 7919) % keys, i
        print "a vote \"\" \"\""; print "a finish" }'
}
set_script 1000 >few.txt; set_script 10000 >more.txt
row "10000 keys set, a tenth of it" "$(cost_anew more.fs more.txt | awk '{ print $1 / 10, $2, $3 / 10 }')" \
    "ours, 1000 keys set" "$(cost_anew few.fs few.txt)"

# keys set in mixed order in one transaction, and then looked for, in a tree with whole numbers and in one with texts; BTrees of
# Python does the same in a loop, whose time alone is taken
tree_script() { # KIND CALL: the script of $sets calls
    awk -v sets="$sets" -v kind="$1" -v call="$2" 'BEGIN { print "a open local"; print "a begin"
        if (call == "set") { print "a new"; print "a put 0000000000000001 <BTrees.OOBTree:OOBTree> None" }
        for (i = 0; i < sets; i++) { key = (i * 7919) % sets
            key = kind == "texts" ? sprintf("\"key%06d\"", key) : key
            if (call == "set") printf "a set 0000000000000001 %s %d\n", key, i; else printf "a find 0000000000000001 %s\n", key }
        if (call == "set") { print "a vote \"\" \"\""; print "a finish" } }'
}
for kind in numbers texts; do
    tree_script $kind set >sets.txt; tree_script $kind find >finds.txt
    ours=$(cost_anew sets.fs sets.txt)
    if [ -n "$python" ]; then
        row "$sets $kind set in a tree" "$ours" "BTrees of Python, in a loop" "$("$python" "$here/trees.py" $kind set "$sets" "$times")"
        row "$sets $kind looked for in it" "$(cost finds.txt "$program" sets.fs run)" "BTrees of Python, in a loop" "$("$python" "$here/trees.py" $kind find "$sets" "$times")"
    else
        row "$sets $kind set in a tree" "$ours" "cat of the script" "$(cost sets.txt cat)"
    fi
done
rm -f sets.fs sets.txt finds.txt

# all items of that tree: the time grows with their number
printf 'a open local\na begin\na items 0000000000000001\n' >items.txt
row "items of 10000 keys, a tenth of it" "$(cost items.txt "$program" more.fs run | awk '{ print $1 / 10, $2, $3 / 10 }')" \
    "ours, items of 1000 keys" "$(cost items.txt "$program" few.fs run)"

# a tree is checked, and all its items are listed
./make_keys keys.fs "$keys"
if "$program" keys.fs check 0000000000000001 <empty 2>/dev/null | grep -q "^sound $keys "; then
    row "a check of a tree of $keys keys" "$(cost empty "$program" keys.fs check 0000000000000001)" "ours, its items" "$(cost items.txt "$program" keys.fs run)"
else
    skipped "a check of a tree of $keys keys" "the program has no command for it"
fi
rm -f keys.fs

# two writers of one bucket, who both commit: merges of three buckets of so many items, with the script read and the
# commits. The script of the row below has the same puts and commits, one behind the other, so that nothing is merged.
merge_script() { # MERGES ITEMS APART
    awk -v merges="$1" -v items="$2" -v apart="$3" 'function put(c, k,  n) { printf "%s put 0000000000000001 <BTrees.IIBTree:IIBucket> ((", c
            for (n = 0; n < items; n++) printf "%s%d,%d", (n ? "," : ""), 10 * n, (n == k ? round : value[n])
            print "),)" }
        BEGIN { print "a open local"; print "b open local"; print "a begin"; put("a", -1); print "a vote \"\" \"\""; print "a finish"
            for (round = 1; round <= merges; round++) {
                one = round % items; other = (round + int(items / 2)) % items
                print "a begin"; if (!apart) print "b begin"
                put("a", one); if (!apart) put("b", other)
                print "a vote \"\" \"\""; print "a finish"; value[one] = round
                if (apart) { print "b begin"; put("b", other) }
                print "b vote \"\" \"\""; print "b finish"; value[other] = round } }'
}
merges() { # MERGES ITEMS
    local ours alone
    merge_script "$1" "$2" 0 >merges.txt
    merge_script "$1" "$2" 1 >apart.txt
    ours=$(cost_anew merges.fs merges.txt)
    alone=$(cost_anew merges.fs apart.txt)
    if [ -n "$python" ]; then
        row "$1 merges of $2 items" "$ours" "BTrees of Python, merges alone" "$(cost empty "$python" "$here/merges.py" "$1" "$2")"
    else
        row "$1 merges of $2 items" "$ours" "cat of the script" "$(cost merges.txt cat)"
    fi
    row "$1 merges of $2 items" "$ours" "ours, the same without a merge" "$alone"
}
merges 300 30
merges 10 10000

# a pack of a file of one record a transaction, all of which are reached; its sync is ours alone
pack_anew() {
    local made
    for made in $(seq "$times"); do
        cp tree.fs packed.fs; rm -f packed.fs.side; sync packed.fs
        ./measure 1 empty "$program" packed.fs pack 2030-01-01T00:00:00
    done | least
}
./make_tree tree.fs "$records"; ./make_tree small.fs 7
if "$program" small.fs pack 2030-01-01T00:00:00 <empty 2>/dev/null | grep -q '^packed'; then
    row "a pack of $records records" "$(pack_anew)" "cp" "$(cost empty cp tree.fs copy.fs)"
else
    skipped "a pack of $records records" "the program has no command for it"
fi
rm -f tree.fs packed.fs copy.fs small.fs small.fs.side

# one large object, and one object that is undone in turn: twice the undos against twice the time
if command -v python3 >/dev/null; then
    python3 "$here/make_object.py" references references.fs 1000000
    row "1000000 references in one record shown" "$(cost empty "$program" references.fs show 0000000000000001)" "cat of the file" "$(cost empty cat references.fs)"
    python3 "$here/make_object.py" bytes large.fs 50000000
    printf 'a open local\na begin\na get 0000000000000001\n' >get.txt
    fetched=$(cost get.txt "$program" large.fs run)
    row "get of an object of 50 MB" "$fetched" "cat of the file" "$(cost empty cat large.fs)"
    echo "$fetched" | awk '{ printf "%-38s %9.1f MB\n", "get of an object of 50 MB, memory", $2 / 1000 }'
    undone() { python3 "$here/make_object.py" undos undone.fs "$1" undone.txt; rm -f undone.fs.side; ./measure 1 undone.txt "$program" undone.fs run; }
    row "$undos undos of one object in turn, half" "$(undone "$undos" | awk '{ print $1 / 2, $2, $3 / 2 }')" "ours, half as many" "$(undone $((undos / 2)))"
    rm -f references.fs* large.fs* undone.fs*
else
    skipped "large objects and undos" "Python isn't there"
fi

# the resident set
grown() { # KIND SMALL LARGE: bytes for each of 900,000 more
    awk -v kind="$1" -v small="$2" -v large="$3" 'BEGIN { split(small, a, " "); split(large, b, " ");
        printf "%-38s %9.1f bytes\n", kind, (b[2] - a[2]) * 1024 / 900000 }'; }
./make_file small.fs 1 100000 3; ./make_file large.fs 1 1000000 3
grown "an object with one revision" "$(cost empty "$program" small.fs run)" "$(cost empty "$program" large.fs run)"
./make_file small.fs 100000 0 0; ./make_file large.fs 1000000 0 0
grown "a transaction" "$(cost empty "$program" small.fs run)" "$(cost empty "$program" large.fs run)"

# calls of the host
if command -v strace >/dev/null; then
    calls() { # NAME FILE INPUT COUNT: calls by name, for each of COUNT
        strace -f -c -o calls.txt "$program" "$2" run <"$3" >/dev/null
        awk -v name="$1" -v count="$4" '$4 ~ /^[0-9]+$/ && $NF !~ /total/ && $NF ~ /read|write|seek|sync|ftruncate|stat/ { printf "%s %s %.2f", (n++ ? "," : name ":"), $NF, $4 / count }
            END { print "" }' calls.txt
    }
    rm -f commits.fs
    calls "calls for one commit" commits.fs commits.txt "$commits"
    calls "calls for one load, with opening" many.fs loads.txt "$loads"
    calls "calls for opening" many.fs empty 1
    ./make_file log.fs 100000 0 0
    strace -f -c -o calls.txt "$program" log.fs undolog <empty >/dev/null
    awk '$4 ~ /^[0-9]+$/ && $NF ~ /^(p?read(64)?|p?write(64)?)$/ { printf "%s %s %d", (n++ ? "," : "calls for an undo list of 100000:"), $NF, $4 } END { print "" }' calls.txt
else
    skipped "calls of the host" "strace isn't there"
fi
