/* Objects in LMDB, by their numbers: lmdb FOLDER make OBJECTS LENGTH; lmdb FOLDER load each|pieces
   `make` puts so many objects of so many bytes there, each behind its serial of eight bytes. `load` reads a script of lines
   `CLIENT load OID` on the standard input and answers each as the program does, CLIENT data SERIAL BYTES, in one read
   transaction: by a write a line, as the program does it, or in pieces of 64 KiB. Other lines aren't answered.
   cc -O2 -o lmdb lmdb.c -llmdb */
#include <lmdb.h>
#include <stdint.h>
#include <stdio.h>
#include <stdlib.h>
#include <string.h>
#include <unistd.h>

static void number(unsigned char *at, uint64_t n) {
    for (int i = 7; i >= 0; i--, n >>= 8) at[i] = n & 255;
}

static int fails(int status) {
    if (status) fprintf(stderr, "%s\n", mdb_strerror(status));
    return status;
}

static int make(MDB_env *env, MDB_dbi dbi, MDB_txn *txn, uint64_t objects, uint64_t length) {
    unsigned char key[8], *value = malloc(length + 8);
    memset(value, 'a', length + 8);
    for (uint64_t oid = 0; oid < objects; oid++) {
        number(key, oid);
        number(value, 0x0400000000000000 + oid);
        MDB_val k = {8, key}, v = {length + 8, value};
        if (fails(mdb_put(txn, dbi, &k, &v, MDB_APPEND))) return 1;
    }
    return fails(mdb_txn_commit(txn));
}

static char held[1 << 20];
static size_t count;

static int give(void) {
    for (size_t at = 0; at < count;) {
        ssize_t n = write(1, held + at, count - at);
        if (n < 0) return 1;
        at += n;
    }
    count = 0;
    return 0;
}

static void digits(const unsigned char *bytes, size_t length) {
    static const char hex[] = "0123456789abcdef";
    char *out = held + count;
    for (size_t i = 0; i < length; i++) {
        out[2 * i] = hex[bytes[i] >> 4];
        out[2 * i + 1] = hex[bytes[i] & 15];
    }
    count += 2 * length;
}

static int load(MDB_dbi dbi, MDB_txn *txn, int by_pieces) {
    char *line = 0;
    size_t room = 0;
    while (getline(&line, &room, stdin) > 0) {
        char *at = strstr(line, " load ");
        if (!at) continue;
        unsigned char key[8];
        number(key, strtoull(at + 6, 0, 16));
        MDB_val k = {8, key}, v;
        if (fails(mdb_get(txn, dbi, &k, &v))) return 1;
        memcpy(held + count, line, at - line);
        count += at - line;
        memcpy(held + count, " data ", 6);
        count += 6;
        digits(v.mv_data, 8);
        held[count++] = ' ';
        digits((unsigned char *)v.mv_data + 8, v.mv_size - 8);
        held[count++] = '\n';
        if ((!by_pieces || count >= 65536) && give()) return 1;
    }
    return give();
}

int main(int argc, char **argv) {
    if (argc < 4) return 2;
    int makes = !strcmp(argv[2], "make");
    MDB_env *env;
    MDB_txn *txn;
    MDB_dbi dbi;
    if (fails(mdb_env_create(&env)) || fails(mdb_env_set_mapsize(env, 4ull << 30))) return 1;
    if (fails(mdb_env_open(env, argv[1], makes ? MDB_NOSYNC : MDB_RDONLY, 0644))) return 1;
    if (fails(mdb_txn_begin(env, 0, makes ? 0 : MDB_RDONLY, &txn)) || fails(mdb_dbi_open(txn, 0, 0, &dbi))) return 1;
    if (makes) return make(env, dbi, txn, atoll(argv[3]), argc > 4 ? atoll(argv[4]) : 200);
    return load(dbi, txn, !strcmp(argv[3], "pieces"));
}
