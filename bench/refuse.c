// Refuses requests for memory that a program makes between the lines `call` and `done` of its output. It is loaded
// before the C library, whose routines it stands for.
//
// REFUSE in the environment says which request of those is refused, counted from 1: `7` the seventh alone, `7+` that
// one and each after it; 0 none. As the program writes `done`, a line `REQUESTS REFUSED` goes to the error output.
#define _GNU_SOURCE
#include <errno.h>
#include <stdio.h>
#include <stdlib.h>
#include <string.h>
#include <sys/syscall.h>
#include <unistd.h>

void *__libc_malloc(size_t size);
void *__libc_calloc(size_t count, size_t size);
void *__libc_realloc(void *block, size_t size);
void *__libc_memalign(size_t alignment, size_t size);

enum { BEFORE, DURING, AFTER };

static int stage = BEFORE, to_the_end;
static unsigned long nth, requests, refusals;

__attribute__((constructor)) static void begin(void) {
    const char *text = getenv("REFUSE");
    nth = text ? strtoul(text, NULL, 10) : 0;
    to_the_end = text && strchr(text, '+');
}

static int refuses(void) {
    if (stage != DURING) return 0;
    requests++;
    if (nth == 0 || requests < nth || (requests > nth && !to_the_end)) return 0;
    refusals++;
    errno = ENOMEM;
    return 1;
}

void *malloc(size_t size) { return refuses() ? NULL : __libc_malloc(size); }

void *calloc(size_t count, size_t size) { return refuses() ? NULL : __libc_calloc(count, size); }

void *realloc(void *block, size_t size) { return refuses() ? NULL : __libc_realloc(block, size); }

void *memalign(size_t alignment, size_t size) { return refuses() ? NULL : __libc_memalign(alignment, size); }

void *aligned_alloc(size_t alignment, size_t size) { return memalign(alignment, size); }

int posix_memalign(void **block, size_t alignment, size_t size) {
    void *found = memalign(alignment, size);
    if (!found) return ENOMEM;
    *block = found;
    return 0;
}

static int is(const char *line, int fd, const void *bytes, size_t size) {
    return fd == 1 && size == strlen(line) && memcmp(bytes, line, size) == 0;
}

ssize_t write(int fd, const void *bytes, size_t size) {
    if (stage == DURING && is("done\n", fd, bytes, size)) {
        char text[64];
        stage = AFTER;
        syscall(SYS_write, 2, text, snprintf(text, sizeof text, "%lu %lu\n", requests, refusals));
    }
    ssize_t written = syscall(SYS_write, fd, bytes, size);
    if (stage == BEFORE && is("call\n", fd, bytes, size)) stage = DURING;
    return written;
}
