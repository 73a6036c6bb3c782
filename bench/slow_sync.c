/* Makes each fsync and fdatasync of a program take SYNC_US microseconds (1000) longer, where it is preloaded: a disk of which a
   sync takes about so long. Built as a shared library by bench/links.sh. */
#define _GNU_SOURCE
#include <dlfcn.h>
#include <stdlib.h>
#include <time.h>

static int late(const char *name, int file) {
    const char *told = getenv("SYNC_US");
    long us = told ? atol(told) : 1000;
    struct timespec more = {us / 1000000, us % 1000000 * 1000};
    int (*real)(int) = (int (*)(int))dlsym(RTLD_NEXT, name), result = real(file);
    nanosleep(&more, NULL);
    return result;
}

int fsync(int file) { return late("fsync", file); }
int fdatasync(int file) { return late("fdatasync", file); }
