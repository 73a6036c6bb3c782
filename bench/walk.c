/* Walks the headers of a FileStorage file, as the least that opening it takes: walk FILE pieces|places
   pieces: it reads the file forward in pieces of 64 KiB. places: it reads each header by a read at its place. Each
   transaction's header, its closing length and the headers of its data records are looked at. */
#define _GNU_SOURCE
#include <fcntl.h>
#include <stdint.h>
#include <stdio.h>
#include <string.h>
#include <sys/stat.h>
#include <unistd.h>

enum { PIECE = 65536 };

static unsigned char held[PIECE];
static uint64_t held_at, held_count;
static int file, by_places;

static uint64_t number(const unsigned char *at, int size) {
    uint64_t n = 0;
    for (int i = 0; i < size; i++) n = n << 8 | at[i];
    return n;
}

static const unsigned char *bytes(uint64_t at, unsigned size) {
    if (by_places) {
        if (pread(file, held, size, at) != size) return 0;
        return held;
    }
    if (at < held_at || at + size > held_at + held_count) {
        ssize_t n = pread(file, held, PIECE, at);
        if (n < size) return 0;
        held_at = at;
        held_count = n;
    }
    return held + (at - held_at);
}

int main(int argc, char **argv) {
    struct stat is;
    file = open(argv[1], O_RDONLY);
    if (argc < 3 || file < 0 || fstat(file, &is)) return 2;
    by_places = !strcmp(argv[2], "places");
    uint64_t end = is.st_size, place = 4, transactions = 0, records = 0, newest = 0;
    while (place + 23 <= end) {
        const unsigned char *header = bytes(place, 23);
        if (!header || header[16] != ' ') break;
        uint64_t tid = number(header, 8), length = number(header + 8, 8);
        uint64_t texts = number(header + 17, 2) + number(header + 19, 2) + number(header + 21, 2);
        if (place + length + 8 > end || tid <= newest) break;
        newest = tid;
        for (uint64_t at = place + 23 + texts; at < place + length; records++) {
            const unsigned char *data = bytes(at, 42);
            if (!data || number(data + 8, 8) != tid || number(data + 24, 8) != place) return 1;
            uint64_t size = number(data + 34, 8);
            at += 42 + (size ? size : 8);
        }
        const unsigned char *closing = bytes(place + length, 8);
        if (!closing || number(closing, 8) != length) return 1;
        place += length + 8;
        transactions++;
    }
    printf("%lu transactions, %lu records, end %lu\n", transactions, records, place);
    return place == end ? 0 : 1;
}
