#!/bin/bash
# Counts what it costs to feed frames and to read their messages, in instructions, beside Python's `struct` and `pickle.loads`
# on the same bytes, and the greatest heap while one long message is read. It is no part of the gate. Give it the program that
# makes the calls of frames.rows, as `rt run` builds it:
#
#     bench/frames.sh PROGRAM
#
# It needs bash, awk, python3 and valgrind. Sizes can be set: COUNT (100000 messages of RECORD bytes, 1024), LARGE (16777216
# bytes in one message), PIECE (65536 bytes in a piece).
#
# The making of the bytes is taken off each count: it is what the program needs for the same bytes behind a length above the
# limit, at which it stops.
set -u
program=$(realpath "${1:?the built program}")
count=${COUNT:-100000} record=${RECORD:-1024} large=${LARGE:-16777216} piece=${PIECE:-65536}
folder=$(mktemp -d "${TMPDIR:-/tmp}/frames.XXXXXX") || exit 1
trap 'rm -rf "$folder"' EXIT
cd "$folder" || exit 1

cat >make.py <<'PYTHON'
import io, os, pickle, struct, sys

def frame(size):
    """The frame of a store of so many bytes."""
    file = io.BytesIO()
    pickler = pickle.Pickler(file, 3)
    pickler.fast = True
    pickler.dump((6, 1, 'storea', (bytes(7) + b'\5', bytes(8), b'a' * size)))
    return struct.pack('>I', len(file.getvalue())) + file.getvalue()

def row(folder, call, field, answer):
    os.makedirs(folder)
    with open(folder + '/one.rows', 'w') as file:
        file.write('%s %s\n= %s\n' % (call, field, answer))

NONE = 'FrameTooLong { length: 4294967295 }'
count, record, large, piece = map(int, sys.argv[1:])
small = frame(record)
row('small', 'stream %d' % piece, '%s*%d' % (small.hex(), count), '%d payloads of %d bytes, %d messages' % (count, count * (len(small) - 4), count))
row('small_made', 'stream %d' % piece, 'ffffffff+%s*%d' % (small.hex(), count), NONE)
head, tail = frame(large).split(b'a' * large)
field = '%s+61*%d+%s' % (head.hex(), large, tail.hex())
row('large', 'stream %d' % piece, field, '1 payloads of %d bytes, 1 messages' % (len(head) + large + len(tail) - 4))
row('large_made', 'stream %d' % piece, 'ffffffff+' + field, NONE)
row('whole', 'stream %d' % (large + 1000), field, '1 payloads of %d bytes, 1 messages' % (len(head) + large + len(tail) - 4))
open('small.bytes', 'wb').write(small * count)
open('large.bytes', 'wb').write(frame(large))
PYTHON
cat >read.py <<'PYTHON'
import pickle, struct, sys

bytes_of_all = open(sys.argv[1], 'rb').read()
at, messages = 0, 0
while sys.argv[2] == 'read' and at < len(bytes_of_all):
    size, = struct.unpack_from('>I', bytes_of_all, at)
    messages += type(pickle.loads(bytes_of_all[at + 4:at + 4 + size])) is tuple
    at += 4 + size
print(messages, 'messages')
PYTHON
python=$(python3 -c 'import sys; print(sys.executable)')
"$python" make.py "$count" "$record" "$large" "$piece" || exit 1

# instructions of a command, which must end well
cost() {
    valgrind --tool=callgrind --callgrind-out-file=calls.txt "$@" >out.txt 2>err.txt || { cat out.txt err.txt >&2; exit 1; }
    awk '/Collected/ { print $NF }' err.txt
}
# the greatest heap of a command, in bytes
heap() {
    valgrind --tool=massif --massif-out-file=heap.txt "$@" >out.txt 2>err.txt || { cat out.txt err.txt >&2; exit 1; }
    awk -F= '/^mem_heap_B=/ && $2 + 0 > most { most = $2 + 0 } END { print most }' heap.txt
}
for name in small large; do
    ours=$(($(cost "$program" $name) - $(cost "$program" ${name}_made)))
    theirs=$(($(cost "$python" read.py $name.bytes read) - $(cost "$python" read.py $name.bytes nothing)))
    size=$(stat -c %s $name.bytes)
    awk -v name=$name -v ours=$ours -v theirs=$theirs -v size="$size" \
        'BEGIN { printf "%-6s %12d bytes: %.2f instructions a byte, Python %.2f, ratio %.2f\n", name, size, ours / size, theirs / size, ours / theirs }'
done
read_heap=$(heap "$program" large)
made_heap=$(heap "$program" large_made)
awk -v read_heap="$read_heap" -v made_heap="$made_heap" -v large="$large" \
    'BEGIN { printf "heap while a message of %d bytes is read: %d, where its bytes are made: %d\n", large, read_heap, made_heap }'
