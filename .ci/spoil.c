// Preloaded into a program, spoils one of the program's calls of the C library.
//
// SPOIL says how: `memory` refuses a request for memory, `fail-read` lets a read fail and `fail-write` a write, and with
// `short` one of either does one byte alone. SPOIL_CALL is the number of the call among those, from 1; with 0, or a
// number that is not reached, none is spoiled. At the end their count is written to the file descriptor that
// SPOIL_COUNT names. Only calls from the program itself count, so that the C library can start and end it.
// SPOIL_CLOCK is what the clock shows, in seconds and nanoseconds; with other words it can't be read.
#define _GNU_SOURCE
#include <dlfcn.h>
#include <errno.h>
#include <link.h>
#include <stdint.h>
#include <stdio.h>
#include <stdlib.h>
#include <string.h>
#include <time.h>
#include <unistd.h>

static uintptr_t first_byte, last_byte;
static const char *way;
static long wanted, calls;

static int find_program(struct dl_phdr_info *info, size_t size, void *data) {
    (void)size, (void)data;
    for (int at = 0; at < info->dlpi_phnum; at++) {
        const ElfW(Phdr) *part = &info->dlpi_phdr[at];
        if (part->p_type == PT_LOAD && (part->p_flags & PF_X)) {
            first_byte = info->dlpi_addr + part->p_vaddr;
            last_byte = first_byte + part->p_memsz;
        }
    }
    return 1; // the first object is the program
}

__attribute__((constructor)) static void begin(void) {
    const char *number = getenv("SPOIL_CALL");
    wanted = number ? atol(number) : 0;
    way = getenv("SPOIL");
    dl_iterate_phdr(find_program, NULL);
}

__attribute__((destructor)) static void end(void) {
    const char *to = getenv("SPOIL_COUNT");
    if (to)
        dprintf(atoi(to), "%ld\n", calls);
}

static int is_spoiled(const char *by, void *caller) {
    uintptr_t at = (uintptr_t)caller;
    return way && !strcmp(way, by) && at >= first_byte && at < last_byte && ++calls == wanted;
}

#define NEXT(name) ((__typeof__(&name))dlsym(RTLD_NEXT, #name))

void *malloc(size_t size) {
    static void *(*next)(size_t);
    if (!next)
        next = NEXT(malloc);
    return is_spoiled("memory", __builtin_return_address(0)) ? NULL : next(size);
}

void *realloc(void *old, size_t size) {
    static void *(*next)(void *, size_t);
    if (!next)
        next = NEXT(realloc);
    return is_spoiled("memory", __builtin_return_address(0)) ? NULL : next(old, size);
}

void *aligned_alloc(size_t align, size_t size) {
    static void *(*next)(size_t, size_t);
    if (!next)
        next = NEXT(aligned_alloc);
    return is_spoiled("memory", __builtin_return_address(0)) ? NULL : next(align, size);
}

int posix_memalign(void **to, size_t align, size_t size) {
    static int (*next)(void **, size_t, size_t);
    if (!next)
        next = NEXT(posix_memalign);
    return is_spoiled("memory", __builtin_return_address(0)) ? 12 : next(to, align, size);
}

ssize_t read(int from, void *to, size_t size) {
    static ssize_t (*next)(int, void *, size_t);
    void *caller = __builtin_return_address(0);
    if (!next)
        next = NEXT(read);
    if (is_spoiled("fail-read", caller))
        return errno = EIO, -1;
    return next(from, to, size && is_spoiled("short", caller) ? 1 : size);
}

ssize_t write(int to, const void *from, size_t size) {
    static ssize_t (*next)(int, const void *, size_t);
    void *caller = __builtin_return_address(0);
    if (!next)
        next = NEXT(write);
    if (is_spoiled("fail-write", caller))
        return errno = EIO, -1;
    return next(to, from, size && is_spoiled("short", caller) ? 1 : size);
}

int clock_gettime(clockid_t of, struct timespec *to) {
    static int (*next)(clockid_t, struct timespec *);
    const char *shown = getenv("SPOIL_CLOCK");
    long long secs;
    long nanos;
    if (!next)
        next = NEXT(clock_gettime);
    if (!shown)
        return next(of, to);
    if (sscanf(shown, "%lld %ld", &secs, &nanos) != 2)
        return errno = EINVAL, -1;
    *to = (struct timespec){secs, nanos};
    return 0;
}
