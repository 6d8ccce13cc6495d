/* Preloaded before a program, this refuses some of its requests for memory, to show what the program does then.

   REFUSE_AT=N      the N-th request, from 1, is refused; with 0, or without it, none is
   REFUSE_ON=1      so is each behind it
   REFUSE_FOR=K     so are those behind it, K in a row
   REFUSE_COUNT=F   at the end the number of requests is written to the file F, also where the program leaves by _exit

   A request is a call of malloc, calloc, realloc, aligned_alloc, memalign or posix_memalign by the program, on whichever
   of its threads. Calls made before this library has found the real ones are served from a small block of its own, and
   not counted. */
#define _GNU_SOURCE
#include <dlfcn.h>
#include <errno.h>
#include <fcntl.h>
#include <stdio.h>
#include <stdlib.h>
#include <string.h>
#include <sys/syscall.h>
#include <unistd.h>

static void *(*real_malloc)(size_t);
static void *(*real_calloc)(size_t, size_t);
static void *(*real_realloc)(void *, size_t);
static void *(*real_aligned)(size_t, size_t);
static void (*real_free)(void *);
static unsigned long requests, refuse_at, in_a_row = 1;
static int is_ready;
static char early[65536];
static size_t early_used;

static void *serve_early(size_t size)
{
    size_t begin = (early_used + 15) & ~(size_t)15;
    if (size > sizeof early || begin > sizeof early - size)
        return NULL;
    early_used = begin + size;
    return early + begin;
}

static int is_early(const void *block)
{
    return (const char *)block >= early && (const char *)block < early + sizeof early;
}

static int is_refused(void)
{
    unsigned long request = __atomic_add_fetch(&requests, 1, __ATOMIC_SEQ_CST);
    if (refuse_at != 0 && request >= refuse_at && request - refuse_at < in_a_row) {
        errno = ENOMEM;
        return 1;
    }
    return 0;
}

__attribute__((constructor)) static void begin(void)
{
    const char *at = getenv("REFUSE_AT"), *row = getenv("REFUSE_FOR");
    real_calloc = dlsym(RTLD_NEXT, "calloc");
    real_malloc = dlsym(RTLD_NEXT, "malloc");
    real_realloc = dlsym(RTLD_NEXT, "realloc");
    real_aligned = dlsym(RTLD_NEXT, "aligned_alloc");
    real_free = dlsym(RTLD_NEXT, "free");
    refuse_at = at ? strtoul(at, NULL, 10) : 0;
    in_a_row = getenv("REFUSE_ON") ? (unsigned long)-1 : row ? strtoul(row, NULL, 10) : 1;
    is_ready = 1;
}

/* (by system calls alone, which ask for no memory, and are the same wherever the program ends) */
__attribute__((destructor)) static void end(void)
{
    const char *path = getenv("REFUSE_COUNT");
    char line[32];
    int length = snprintf(line, sizeof line, "%lu\n", __atomic_load_n(&requests, __ATOMIC_SEQ_CST));
    int file = path ? (int)syscall(SYS_openat, AT_FDCWD, path, O_WRONLY | O_CREAT | O_TRUNC | O_CLOEXEC, 0600) : -1;
    if (file >= 0) {
        syscall(SYS_write, file, line, (size_t)length);
        syscall(SYS_close, file);
    }
}

void _exit(int status)
{
    end();
    for (;;)
        syscall(SYS_exit_group, status);
}

void _Exit(int status)
{
    _exit(status);
}

void *malloc(size_t size)
{
    if (!is_ready)
        return serve_early(size);
    return is_refused() ? NULL : real_malloc(size);
}

void *calloc(size_t count, size_t size)
{
    if (!is_ready)
        return size != 0 && count > sizeof early / size ? NULL : serve_early(count * size);
    return is_refused() ? NULL : real_calloc(count, size);
}

void *realloc(void *block, size_t size)
{
    if (!is_ready || is_early(block)) {
        void *moved = malloc(size);
        if (moved && block)
            memcpy(moved, block, size < (size_t)(early + sizeof early - (char *)block) ? size : (size_t)(early + sizeof early - (char *)block));
        return moved;
    }
    return is_refused() ? NULL : real_realloc(block, size);
}

void *aligned_alloc(size_t alignment, size_t size)
{
    if (!is_ready)
        return NULL;
    return is_refused() ? NULL : real_aligned(alignment, size);
}

void *memalign(size_t alignment, size_t size)
{
    return aligned_alloc(alignment, size);
}

int posix_memalign(void **block, size_t alignment, size_t size)
{
    void *made = aligned_alloc(alignment, size);
    if (!made)
        return ENOMEM;
    *block = made;
    return 0;
}

void free(void *block)
{
    if (block && !is_early(block))
        real_free(block);
}
