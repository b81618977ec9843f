// A library to be preloaded before blobtool: it counts the program's calls of the C library by kinds, and fails those
// that are named. FAILING_CALLS is a kind, a number from 1, and perhaps an error's number, as `pwrite 3 28`; without
// an error, the call moves half of its bytes. The kinds are memory, pread, pwrite and fsync. COUNTED_CALLS is a file
// that gets four numbers of 8 bytes, how many calls of each kind there were; it has 32 bytes already.
#define _GNU_SOURCE
#include <dlfcn.h>
#include <errno.h>
#include <fcntl.h>
#include <stdatomic.h>
#include <stdint.h>
#include <stdlib.h>
#include <string.h>
#include <sys/mman.h>
#include <unistd.h>

enum kind { MEMORY, PREAD, PWRITE, FSYNC, KINDS };

static const char *const names[KINDS] = {"memory", "pread", "pwrite", "fsync"};
static _Atomic uint64_t counts_here[KINDS];
static _Atomic uint64_t *counts = counts_here;
static int failing_kind = KINDS;
static uint64_t failing_number;
static int failing_error;
static int is_ready;

// The program's calls count from here on, and not those by which it is started.
__attribute__((constructor)) static void start(void) {
    const char *text = getenv("FAILING_CALLS"), *file = getenv("COUNTED_CALLS");
    for (int kind = 0; text && kind < KINDS; kind++) {
        size_t length = strlen(names[kind]);
        if (strncmp(text, names[kind], length) == 0 && text[length] == ' ') {
            char *end;
            failing_kind = kind;
            failing_number = strtoull(text + length, &end, 10);
            failing_error = atoi(end);
        }
    }
    int counted = file ? open(file, O_RDWR) : -1;
    if (counted >= 0) {
        void *shared = mmap(NULL, sizeof counts_here, PROT_READ | PROT_WRITE, MAP_SHARED, counted, 0);
        if (shared != MAP_FAILED) counts = shared;
        close(counted);
    }
    is_ready = 1;
}

// Whether this call, the next of its kind, is the one that fails.
static int fails(enum kind kind) {
    if (!is_ready) return 0;
    uint64_t number = atomic_fetch_add(&counts[kind], 1) + 1;
    return (int)kind == failing_kind && number == failing_number;
}

void *__libc_malloc(size_t size);
void *__libc_calloc(size_t count, size_t size);
void *__libc_realloc(void *old, size_t size);
void *__libc_memalign(size_t alignment, size_t size);

static void *refused(void) {
    errno = ENOMEM;
    return NULL;
}

void *malloc(size_t size) { return fails(MEMORY) ? refused() : __libc_malloc(size); }

void *calloc(size_t count, size_t size) { return fails(MEMORY) ? refused() : __libc_calloc(count, size); }

void *realloc(void *old, size_t size) { return fails(MEMORY) ? refused() : __libc_realloc(old, size); }

void *aligned_alloc(size_t alignment, size_t size) {
    return fails(MEMORY) ? refused() : __libc_memalign(alignment, size);
}

int posix_memalign(void **into, size_t alignment, size_t size) {
    if (fails(MEMORY)) return ENOMEM;
    *into = __libc_memalign(alignment, size);
    return *into ? 0 : ENOMEM;
}

static ssize_t moved(const char *name, int file, void *bytes, size_t size, off_t at, enum kind kind) {
    ssize_t (*call)(int, void *, size_t, off_t) = dlsym(RTLD_NEXT, name);
    if (!fails(kind)) return call(file, bytes, size, at);
    if (!failing_error) return call(file, bytes, size / 2, at);
    errno = failing_error;
    return -1;
}

ssize_t pread(int file, void *into, size_t size, off_t at) { return moved("pread", file, into, size, at, PREAD); }

ssize_t pwrite(int file, const void *from, size_t size, off_t at) {
    return moved("pwrite", file, (void *)from, size, at, PWRITE);
}

static int synced(const char *name, int file) {
    int (*call)(int) = dlsym(RTLD_NEXT, name);
    if (!fails(FSYNC)) return call(file);
    errno = failing_error ? failing_error : EIO;
    return -1;
}

int fsync(int file) { return synced("fsync", file); }

int fdatasync(int file) { return synced("fdatasync", file); }
