// Faults for a program of the C library, by LD_PRELOAD: one allocation, read or write fails, or reads and writes are cut short.
//     FAIL_ALLOC=N   the allocation or growth of number N fails, counted from 1
//     FAIL_READ=N    the read of number N from a file fails
//     FAIL_WRITE=N   the write of number N fails
//     SHORT_IO=1     each read and write takes one byte
// At its end the program tells on descriptor 9, where that is open, how many of each it made.
#define _GNU_SOURCE
#include <dlfcn.h>
#include <errno.h>
#include <stdio.h>
#include <stdlib.h>
#include <string.h>
#include <sys/uio.h>
#include <unistd.h>

static long allocations, reads, writes;

static long wanted(const char *name) {
    const char *word = getenv(name);
    return word ? atol(word) : 0;
}

static int fails(long *count, const char *name) { return ++*count == wanted(name); }

#define REAL(name) ((__typeof__(&name))dlsym(RTLD_NEXT, #name))

void *malloc(size_t size) { return fails(&allocations, "FAIL_ALLOC") ? NULL : REAL(malloc)(size); }
void *realloc(void *old, size_t size) { return fails(&allocations, "FAIL_ALLOC") ? NULL : REAL(realloc)(old, size); }
void *aligned_alloc(size_t align, size_t size) { return fails(&allocations, "FAIL_ALLOC") ? NULL : REAL(aligned_alloc)(align, size); }
int posix_memalign(void **result, size_t align, size_t size) {
    return fails(&allocations, "FAIL_ALLOC") ? ENOMEM : REAL(posix_memalign)(result, align, size);
}

ssize_t read(int file, void *bytes, size_t size) {
    if (fails(&reads, "FAIL_READ")) {
        errno = EIO;
        return -1;
    }
    return REAL(read)(file, bytes, wanted("SHORT_IO") && size ? 1 : size);
}

ssize_t write(int file, const void *bytes, size_t size) {
    if (fails(&writes, "FAIL_WRITE")) {
        errno = EIO;
        return -1;
    }
    return REAL(write)(file, bytes, wanted("SHORT_IO") && size ? 1 : size);
}

__attribute__((destructor)) static void tell(void) {
    char line[128];
    int size = snprintf(line, sizeof line, "%ld %ld %ld\n", allocations, reads, writes);
    if (REAL(write)(9, line, size) < 0)
        return;
}
