// Refuses one allocation of the program into which bench/refused loads this. It needs the C library of GNU, whose own calls it stands before.
//
// Allocations are counted from the program's begin: calls of malloc, calloc, realloc and aligned ones. The one with the number REFUSED_AT is answered by no
// memory; without it none is. At the end how many there were is written to the file REFUSED_COUNT. With REFUSED_AWAKE a sleep has ended as soon as it begins.
#define _GNU_SOURCE
#include <errno.h>
#include <fcntl.h>
#include <stdatomic.h>
#include <stdio.h>
#include <stdlib.h>
#include <sys/syscall.h>
#include <time.h>
#include <unistd.h>

void *__libc_malloc(size_t size);
void *__libc_calloc(size_t items, size_t size);
void *__libc_realloc(void *old, size_t size);
void *__libc_memalign(size_t align, size_t size);

static atomic_ulong asked;
static unsigned long refused;
static int awake;

__attribute__((constructor)) static void begin(void) {
    const char *at = getenv("REFUSED_AT");
    refused = at ? strtoul(at, NULL, 10) : 0;
    awake = getenv("REFUSED_AWAKE") != NULL;
    atomic_store(&asked, 0);
}

__attribute__((destructor)) static void end(void) {
    const char *path = getenv("REFUSED_COUNT");
    int file = path ? open(path, O_WRONLY | O_CREAT | O_TRUNC, 0600) : -1;
    if (file >= 0) {
        dprintf(file, "%lu\n", atomic_load(&asked));
        close(file);
    }
}

// The program ends by this call, behind which no destructor runs.
void _exit(int status) {
    end();
    syscall(SYS_exit_group, status);
    __builtin_unreachable();
}

static int is_refused(void) {
    if (atomic_fetch_add(&asked, 1) + 1 != refused) {
        return 0;
    }
    errno = ENOMEM;
    return 1;
}

void *malloc(size_t size) { return is_refused() ? NULL : __libc_malloc(size); }

void *calloc(size_t items, size_t size) { return is_refused() ? NULL : __libc_calloc(items, size); }

void *realloc(void *old, size_t size) { return is_refused() ? NULL : __libc_realloc(old, size); }

void *memalign(size_t align, size_t size) { return is_refused() ? NULL : __libc_memalign(align, size); }

void *aligned_alloc(size_t align, size_t size) { return memalign(align, size); }

int posix_memalign(void **made, size_t align, size_t size) {
    void *block = memalign(align, size);
    if (block == NULL) {
        return ENOMEM;
    }
    *made = block;
    return 0;
}

int clock_nanosleep(clockid_t clock, int flags, const struct timespec *span, struct timespec *left) {
    return awake ? 0 : syscall(SYS_clock_nanosleep, clock, flags, span, left) == 0 ? 0 : errno;
}

int nanosleep(const struct timespec *span, struct timespec *left) {
    return awake ? 0 : (int)syscall(SYS_nanosleep, span, left);
}
