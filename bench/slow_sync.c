// Preloaded into a program: each of its syncs takes so many microseconds more as SLOW_SYNC says, as on a slower disk.
#define _GNU_SOURCE
#include <dlfcn.h>
#include <stdlib.h>
#include <unistd.h>

static int slow(const char *name, int file) {
    int (*sync)(int) = (int (*)(int))dlsym(RTLD_NEXT, name);
    const char *delay = getenv("SLOW_SYNC");
    if (delay) {
        usleep((useconds_t)strtoul(delay, NULL, 10));
    }
    return sync(file);
}

int fsync(int file) { return slow("fsync", file); }

int fdatasync(int file) { return slow("fdatasync", file); }
