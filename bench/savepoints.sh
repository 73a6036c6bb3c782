#!/bin/bash
# Measures what the savepoints of one transaction take: the memory of a run and the seconds that it had a processor, against the
# size of its script. It is no part of the gate. Give it the built program, which stands at crates/zodb/out/zodb after `rt run`,
# and a folder for its files:
#
#     bench/savepoints.sh crates/zodb/out/zodb /tmp
#
# It needs bash, awk and cc. Sizes can be set: SAVED (1500 savepoints over one megabyte), STORES (4000 objects with a savepoint
# each), AGAIN (49900 stores of 640 bytes of one object with a savepoint each), MARKS (99900 savepoints alone), KEYS (2000 keys
# set in a tree, and in one alone bucket, with a savepoint each). With those that are written here the third script has nearly as
# many bytes as a script may have, and it and the fourth nearly as many lines.
set -u
program=$(realpath "${1:?the built program}")
folder=$(mktemp -d "${2:-/tmp}/zodb-savepoints.XXXXXX")
trap 'rm -rf "$folder"' EXIT
here=$(dirname "$(realpath "$0")")
saved=${SAVED:-1500} stores=${STORES:-4000} again=${AGAIN:-49900} marks=${MARKS:-99900} keys=${KEYS:-2000}
cc -O2 -o "$folder/measure" "$here/measure.c" || { echo "cc doesn't compile measure.c"; exit 1; }
cd "$folder" || exit 1

row() { # NAME SCRIPT
    local cost size
    rm -f new.fs new.fs.side
    size=$(stat -c %s "$2")
    cost=$(./measure 1 "$2" "$program" new.fs run)
    awk -v name="$1" -v cost="$cost" -v size="$size" 'BEGIN { split(cost, a, " ")
        printf "%-48s %12d %12d %8.2f %10.3f\n", name, size, a[2] * 1024, a[2] * 1024 / size, a[3] }'
    rm -f "$2"
}

begin='print "a open local"; print "a begin"'
tree() { # CLASS STATE
    awk -v keys="$keys" -v class="$1" -v state="$2" 'BEGIN { '"$begin"'; print "a new"
        print "a put 0000000000000001 <BTrees.OOBTree:" class "> " state
        for (i = 0; i < keys; i++) printf "a set 0000000000000001 %d %d\na savepoint\n", (i * 7919) % keys, i
        print "a rollback 0"; print "a abort" }'
}

printf '%-48s %12s %12s %8s %10s\n' "" "script" "memory" ratio worked
{ printf 'a open local\na begin\na store 0000000000000001 0000000000000000 '
  head -c 1000000 /dev/zero | tr '\0' a | od -An -tx1 -v | tr -d ' \n'; echo
  awk -v saved="$saved" 'BEGIN { for (i = 0; i < saved; i++) print "a savepoint"; print "a rollback 0"; print "a abort" }'; } >one.txt
row "$saved savepoints over one megabyte" one.txt
awk -v stores="$stores" 'BEGIN { '"$begin"'
    for (i = 1; i <= stores; i++) printf "a store %016x 0000000000000000 61\na savepoint\n", i
    print "a rollback 0"; print "a abort" }' >many.txt
row "$stores objects, a savepoint each" many.txt
awk -v again="$again" 'BEGIN { '"$begin"'
    for (n = 0; n < 256; n++) { pair = sprintf("%02x", n); text = pair; for (k = 0; k < 6; k++) text = text text; content[n] = text text text text text text text text text text }
    for (i = 0; i < again; i++) printf "a store 0000000000000001 0000000000000000 %s\na savepoint\n", content[i % 256]
    print "a rollback 0"; print "a abort" }' >again.txt
row "$again stores of one object, a savepoint each" again.txt
awk -v marks="$marks" 'BEGIN { '"$begin"'
    for (i = 0; i < marks; i++) print "a savepoint"
    print "a rollback 0"; print "a abort" }' >marks.txt
row "$marks savepoints alone" marks.txt
tree OOBTree None >tree.txt
row "$keys keys of a tree, a savepoint each" tree.txt
tree OOBucket '((),)' >bucket.txt
row "$keys keys of one bucket, a savepoint each" bucket.txt
