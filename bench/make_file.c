/* Writes a FileStorage file: make_file FILE TRANSACTIONS RECORDS LENGTH [shuffled]
   Each transaction has RECORDS data records of LENGTH bytes, each of an object of its own. One record of 3 bytes makes
   transactions of 76 bytes, none makes transactions of 31. The objects are numbered from 0 on in the order of their records,
   or `shuffled`, always in the same way. */
#include <stdint.h>
#include <stdio.h>
#include <stdlib.h>
#include <string.h>

static void number(unsigned char *at, int size, uint64_t n) {
    for (int i = size - 1; i >= 0; i--, n >>= 8) at[i] = n & 255;
}

/* The numbers below n in mixed order. */
static uint64_t *mixed(uint64_t n) {
    uint64_t *numbers = malloc(8 * n + 8), state = 88172645463325252u;
    for (uint64_t i = 0; i < n; i++) numbers[i] = i;
    for (uint64_t i = n; i > 1; i--) {
        state ^= state << 13;
        state ^= state >> 7;
        state ^= state << 17;
        uint64_t other = state % i, held = numbers[i - 1];
        numbers[i - 1] = numbers[other];
        numbers[other] = held;
    }
    return numbers;
}

int main(int argc, char **argv) {
    if (argc < 5) return 2;
    FILE *file = fopen(argv[1], "w");
    uint64_t transactions = atoll(argv[2]), records = atoll(argv[3]), length = atoll(argv[4]);
    unsigned char header[42], *content = calloc(1, length + 1);
    memset(content, 'a', length);
    uint64_t *numbers = argc > 5 && !strcmp(argv[5], "shuffled") ? mixed(transactions * records) : 0;
    uint64_t place = 4, oid = 0, size = 23 + records * (42 + length);
    fwrite("FS30", 1, 4, file);
    for (uint64_t i = 0; i < transactions; i++) {
        uint64_t tid = 0x0400000000000000 + i;
        memset(header, 0, 23);
        number(header, 8, tid);
        number(header + 8, 8, size);
        header[16] = ' ';
        fwrite(header, 1, 23, file);
        for (uint64_t r = 0; r < records; r++) {
            memset(header, 0, 42);
            number(header, 8, numbers ? numbers[oid] : oid);
            oid++;
            number(header + 8, 8, tid);
            number(header + 24, 8, place);
            number(header + 34, 8, length);
            fwrite(header, 1, 42, file);
            fwrite(content, 1, length, file);
        }
        number(header, 8, size);
        fwrite(header, 1, 8, file);
        place += size + 8;
    }
    return fclose(file);
}
