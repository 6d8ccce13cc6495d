/* Preloaded before a program, this lets some of its reads and writes fail, to show what the program does then.

   TROUBLE_READ=K    the K-th read, from 1, fails; with 0, or without it, none does
   TROUBLE_WRITE=K   the K-th write, from 1, fails; likewise
   TROUBLE_ON=1      so does each read, or write, behind it
   TROUBLE_ERROR=E   with the error of this number; with 0 it moves nothing, and tells no error
   TROUBLE_BYTES=N   each other read and write moves N bytes at most
   TROUBLE_LOG=F     each read and write is told in the file F, a line each: `r 0 17` for 17 bytes that were read from
                     descriptor 0, `w 1 -1` for a write to descriptor 1 that failed

   A read is a call of read, readv or pread, a write one of write, writev or pwrite, by the program. */
#define _GNU_SOURCE
#include <errno.h>
#include <fcntl.h>
#include <stdio.h>
#include <stdlib.h>
#include <sys/syscall.h>
#include <sys/uio.h>
#include <unistd.h>

static unsigned long reads, writes, read_fails, write_fails, most;
static int from_then_on, failure = EIO, log_file = -1;

static unsigned long number(const char *name, unsigned long otherwise)
{
    const char *text = getenv(name);
    return text ? strtoul(text, NULL, 10) : otherwise;
}

__attribute__((constructor)) static void begin(void)
{
    const char *path = getenv("TROUBLE_LOG");
    read_fails = number("TROUBLE_READ", 0);
    write_fails = number("TROUBLE_WRITE", 0);
    from_then_on = getenv("TROUBLE_ON") != NULL;
    failure = (int)number("TROUBLE_ERROR", EIO);
    most = number("TROUBLE_BYTES", 0);
    if (path) {
        int file = (int)syscall(SYS_openat, AT_FDCWD, path, O_WRONLY | O_CREAT | O_APPEND | O_CLOEXEC, 0600);
        /* (beyond the descriptors that the program gets) */
        log_file = (int)syscall(SYS_fcntl, file, F_DUPFD_CLOEXEC, 500);
        syscall(SYS_close, file);
    }
}

static ssize_t told(char what, int file, ssize_t moved)
{
    int error = errno;
    char line[64];
    if (log_file >= 0)
        syscall(SYS_write, log_file, line, (size_t)snprintf(line, sizeof line, "%c %d %zd\n", what, file, moved));
    errno = error;
    return moved;
}

static int meets(unsigned long call, unsigned long at)
{
    return at != 0 && (call == at || (from_then_on && call > at));
}

static ssize_t fails(char what, int file)
{
    errno = failure;
    return told(what, file, failure ? -1 : 0);
}

static size_t at_most(size_t count)
{
    return most && count > most ? most : count;
}

ssize_t read(int file, void *bytes, size_t count)
{
    if (meets(__atomic_add_fetch(&reads, 1, __ATOMIC_SEQ_CST), read_fails))
        return fails('r', file);
    return told('r', file, syscall(SYS_read, file, bytes, at_most(count)));
}

ssize_t pread(int file, void *bytes, size_t count, off_t at)
{
    if (meets(__atomic_add_fetch(&reads, 1, __ATOMIC_SEQ_CST), read_fails))
        return fails('r', file);
    return told('r', file, syscall(SYS_pread64, file, bytes, at_most(count), at));
}

ssize_t pread64(int file, void *bytes, size_t count, off64_t at)
{
    return pread(file, bytes, count, at);
}

ssize_t write(int file, const void *bytes, size_t count)
{
    if (meets(__atomic_add_fetch(&writes, 1, __ATOMIC_SEQ_CST), write_fails))
        return fails('w', file);
    return told('w', file, syscall(SYS_write, file, bytes, at_most(count)));
}

ssize_t pwrite(int file, const void *bytes, size_t count, off_t at)
{
    if (meets(__atomic_add_fetch(&writes, 1, __ATOMIC_SEQ_CST), write_fails))
        return fails('w', file);
    return told('w', file, syscall(SYS_pwrite64, file, bytes, at_most(count), at));
}

ssize_t pwrite64(int file, const void *bytes, size_t count, off64_t at)
{
    return pwrite(file, bytes, count, at);
}

/* A read into, or a write from, several places: into or from the first of them that has bytes, which may be all that
   is moved. */
static const struct iovec *first(const struct iovec *places, int count)
{
    while (count > 1 && places->iov_len == 0)
        places++, count--;
    return count > 0 ? places : NULL;
}

ssize_t readv(int file, const struct iovec *places, int count)
{
    const struct iovec *place = first(places, count);
    return read(file, place ? place->iov_base : NULL, place ? place->iov_len : 0);
}

ssize_t writev(int file, const struct iovec *places, int count)
{
    const struct iovec *place = first(places, count);
    return write(file, place ? place->iov_base : NULL, place ? place->iov_len : 0);
}
