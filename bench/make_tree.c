/* Writes a FileStorage file in which every object can be reached: make_tree FILE OBJECTS
   Each transaction has one data record. The object with number k names those with the numbers 2k + 1 and 2k + 2, as far as
   they are there, and the last transaction changes object 0 once more. */
#include <stdint.h>
#include <stdio.h>
#include <stdlib.h>
#include <string.h>

static void number(unsigned char *at, int size, uint64_t n) {
    for (int i = size - 1; i >= 0; i--, n >>= 8) at[i] = n & 255;
}

/* A record: the class m.C, and as its state a tuple of two references, or an empty tuple. */
static size_t record(unsigned char *to, uint64_t oid, uint64_t objects) {
    size_t long_is = 0;
    memcpy(to, "\x80\x03" "cm\nC\n.\x80\x03", 10);
    long_is = 10;
    if (2 * oid + 2 < objects) {
        for (int i = 1; i <= 2; i++) {
            memcpy(to + long_is, "C\x08", 2);
            number(to + long_is + 2, 8, 2 * oid + i);
            to[long_is + 10] = 'Q';
            long_is += 11;
        }
        to[long_is++] = 0x86;
    } else {
        to[long_is++] = ')';
    }
    to[long_is++] = '.';
    return long_is;
}

int main(int argc, char **argv) {
    if (argc < 3) return 2;
    FILE *file = fopen(argv[1], "w");
    uint64_t objects = atoll(argv[2]), place = 4;
    unsigned char header[42], content[64];
    fwrite("FS30", 1, 4, file);
    for (uint64_t i = 0; i <= objects; i++) {
        uint64_t tid = 0x0400000000000000 + i, oid = i < objects ? i : 0;
        size_t length = record(content, oid, objects);
        uint64_t size = 23 + 42 + length;
        memset(header, 0, 23);
        number(header, 8, tid);
        number(header + 8, 8, size);
        header[16] = ' ';
        fwrite(header, 1, 23, file);
        memset(header, 0, 42);
        number(header, 8, oid);
        number(header + 8, 8, tid);
        number(header + 24, 8, place);
        number(header + 34, 8, length);
        fwrite(header, 1, 42, file);
        fwrite(content, 1, length, file);
        number(header, 8, size);
        fwrite(header, 1, 8, file);
        place += size + 8;
    }
    return fclose(file);
}
