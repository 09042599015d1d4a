// Stands before the C library's read of standard input and write of standard output. The FAIL_READ-th read and the FAIL_WRITE-th write fail, and
// the SHORT_READ-th read and the SHORT_WRITE-th write move one byte. With 0 or nothing none does. READ_PIECE is the most that a read moves. At its end the program leaves the numbers of
// reads and of writes in the file IO_COUNT.
#define _GNU_SOURCE
#include <dlfcn.h>
#include <errno.h>
#include <stdio.h>
#include <stdlib.h>
#include <unistd.h>

static unsigned long reads, writes;

static unsigned long wanted(const char *name) {
    const char *text = getenv(name);
    return text ? strtoul(text, NULL, 10) : 0;
}

// How many bytes the call may move, or -1 where it fails.
static ssize_t allowed(unsigned long call, const char *fail, const char *few, size_t size) {
    if (call == wanted(fail)) return -1;
    return call == wanted(few) && size > 1 ? 1 : (ssize_t)size;
}

ssize_t read(int descriptor, void *room, size_t size) {
    static ssize_t (*next)(int, void *, size_t);
    if (!next) next = (ssize_t (*)(int, void *, size_t))dlsym(RTLD_NEXT, "read");
    if (descriptor != STDIN_FILENO) return next(descriptor, room, size);
    unsigned long piece = wanted("READ_PIECE");
    if (piece && size > piece) size = piece;
    ssize_t most = allowed(++reads, "FAIL_READ", "SHORT_READ", size);
    if (most < 0) errno = EIO;
    return most < 0 ? -1 : next(descriptor, room, (size_t)most);
}

static ssize_t taken(ssize_t (*next)(int, const void *, size_t), int descriptor, const void *bytes, size_t size) {
    if (descriptor != STDOUT_FILENO) return next(descriptor, bytes, size);
    ssize_t most = allowed(++writes, "FAIL_WRITE", "SHORT_WRITE", size);
    if (most < 0) errno = EIO;
    return most < 0 ? -1 : next(descriptor, bytes, (size_t)most);
}

ssize_t write(int descriptor, const void *bytes, size_t size) {
    static ssize_t (*next)(int, const void *, size_t);
    if (!next) next = (ssize_t (*)(int, const void *, size_t))dlsym(RTLD_NEXT, "write");
    return taken(next, descriptor, bytes, size);
}

ssize_t __write(int descriptor, const void *bytes, size_t size) {
    static ssize_t (*next)(int, const void *, size_t);
    if (!next) next = (ssize_t (*)(int, const void *, size_t))dlsym(RTLD_NEXT, "__write");
    return taken(next, descriptor, bytes, size);
}

__attribute__((destructor)) static void leave_count(void) {
    const char *name = getenv("IO_COUNT");
    FILE *file = name ? fopen(name, "w") : NULL;
    if (!file) return;
    fprintf(file, "%lu %lu\n", reads, writes);
    fclose(file);
}
