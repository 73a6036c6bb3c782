/* Reads of objects at places that jump through a file, after a walk over its headers: loads FILE LOADS
   For the files of make_file with transactions of 76 bytes. */
#define _GNU_SOURCE
#include <fcntl.h>
#include <stdint.h>
#include <stdio.h>
#include <stdlib.h>
#include <sys/stat.h>
#include <unistd.h>

int main(int argc, char **argv) {
    if (argc < 3) return 2;
    struct stat is;
    int file = open(argv[1], O_RDONLY);
    if (file < 0 || fstat(file, &is)) return 2;
    uint64_t count = (is.st_size - 4) / 76, at = 12345;
    unsigned char bytes[45];
    for (int i = 0; i < atoi(argv[2]); i++) {
        at = (at * 6364136223846793005u + 1442695040888963407u);
        if (pread(file, bytes, 45, 4 + (at >> 20) % count * 76 + 23) != 45) return 1;
    }
    return 0;
}
