/* Writes a FileStorage file with one sound tree: make_keys FILE KEYS
   Object 1 is an OOBTree with the keys 0 to KEYS - 1, each with itself as its value: 30 keys in a leaf, and 250 leaves in each
   object between the root and the leaves, which are numbered before those objects. KEYS is from 31 to 1,875,000, so that the
   root has no more than 250 children either. Each object is a transaction. */
#include <stdint.h>
#include <stdio.h>
#include <stdlib.h>
#include <string.h>

enum { LEAF = 30, INNER = 250 };

static FILE *file;
static uint64_t place = 4, made;
static unsigned char state[1 << 16];
static size_t size;

static void number(unsigned char *at, int length, uint64_t n) {
    for (int i = length - 1; i >= 0; i--, n >>= 8) at[i] = n & 255;
}

static void text(const char *bytes, size_t length) {
    memcpy(state + size, bytes, length);
    size += length;
}

/* An integer, by the shortest of its opcodes. */
static void integer(uint64_t n) {
    int length = n < 256 ? 1 : n < 65536 ? 2 : 4;
    state[size++] = length == 1 ? 'K' : length == 2 ? 'M' : 'J';
    for (int i = 0; i < length; i++, n >>= 8) state[size++] = n & 255;
}

static void reference(uint64_t oid, const char *class) {
    text("C\x08", 2);
    number(state + size, 8, oid);
    size += 8;
    text("cBTrees.OOBTree\n", 16);
    text(class, strlen(class));
    text("\n\x86Q", 3);
}

static void begin(const char *class) {
    size = 0;
    text("\x80\x03" "cBTrees.OOBTree\n", 18);
    text(class, strlen(class));
    text("\n.\x80\x03", 4);
}

/* Writes what was begun as the one record of a transaction. */
static void write_object(uint64_t oid) {
    unsigned char header[42];
    uint64_t tid = 0x0400000000000000 + made++, length = 23 + 42 + size;
    memset(header, 0, 23);
    number(header, 8, tid);
    number(header + 8, 8, length);
    header[16] = ' ';
    fwrite(header, 1, 23, file);
    memset(header, 0, 42);
    number(header, 8, oid);
    number(header + 8, 8, tid);
    number(header + 24, 8, place);
    number(header + 34, 8, size);
    fwrite(header, 1, 42, file);
    fwrite(state, 1, size, file);
    number(header, 8, length);
    fwrite(header, 1, 8, file);
    place += length + 8;
}

static void write_leaf(uint64_t leaf, uint64_t leaves, uint64_t keys) {
    begin("OOBucket");
    text("(", 1);
    for (uint64_t key = leaf * LEAF; key < keys && key < (leaf + 1) * LEAF; key++) { integer(key); integer(key); }
    text("t", 1);
    if (leaf + 1 < leaves) { reference(2 + leaf + 1, "OOBucket"); text("\x86.", 2); } else text("\x85.", 2);
    write_object(2 + leaf);
}

/* An object above some children: the first child and its leaf, how many there are, and the keys that each has below it. */
static void write_inner(uint64_t oid, uint64_t child, const char *class, uint64_t count, uint64_t key, uint64_t each, uint64_t first) {
    begin("OOBTree");
    text("(", 1);
    for (uint64_t i = 0; i < count; i++) {
        if (i) integer(key + i * each);
        reference(child + i, class);
    }
    /* A tuple of one is written by its own opcode, but a mark is read as well. */
    text("t", 1);
    reference(first, "OOBucket");
    text("\x86.", 2);
    write_object(oid);
}

int main(int argc, char **argv) {
    uint64_t keys = argc == 3 ? strtoull(argv[2], NULL, 10) : 0;
    if (keys <= LEAF || keys > LEAF * INNER * INNER || !(file = fopen(argv[1], "w"))) return 2;
    uint64_t leaves = (keys + LEAF - 1) / LEAF, inners = (leaves + INNER - 1) / INNER;
    fwrite("FS30", 1, 4, file);
    begin("OOBTree"); text("N.", 2); write_object(0);
    write_inner(1, 2 + leaves, "OOBTree", inners, 0, LEAF * INNER, 2);
    for (uint64_t leaf = 0; leaf < leaves; leaf++) write_leaf(leaf, leaves, keys);
    for (uint64_t inner = 0; inner < inners; inner++)
        write_inner(2 + leaves + inner, 2 + inner * INNER, "OOBucket", inner + 1 < inners ? INNER : leaves - inner * INNER, inner * LEAF * INNER, LEAF, 2 + inner * INNER);
    return fclose(file);
}
