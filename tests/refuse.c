/* Refuses one call of the C library, for tests: it is loaded in front of the library, by LD_PRELOAD, and lets every
 * call through but one.
 *
 * REFUSE_CALL names the call: malloc (with calloc, realloc and those for aligned memory); read, pread, write and
 * pwrite; fsync, fdatasync and ftruncate; open and close; rename and unlink, of the names of files; statx, which tells
 * of a file; or fcntl, which locks it. With "disk" each of pread, pwrite, fsync, fdatasync and ftruncate is one, and
 * those after the refused one are refused, too: the disk has stopped. REFUSE_AT is which of these calls is refused,
 * from 1. REFUSE_WITH is what it answers: the number of an error; 0 for a read or a write that moves one byte; or -1,
 * where the process ends there. Memory is refused by a null pointer, and a file that is refused to be closed is
 * closed. One byte is written to the descriptor REFUSE_MARK then.
 */
#define _GNU_SOURCE
#include <dlfcn.h>
#include <errno.h>
#include <fcntl.h>
#include <stdarg.h>
#include <stdio.h>
#include <stdlib.h>
#include <string.h>
#include <sys/stat.h>
#include <sys/types.h>
#include <unistd.h>

extern void *__libc_malloc(size_t size);
extern void *__libc_calloc(size_t count, size_t size);
extern void *__libc_realloc(void *memory, size_t size);
extern void *__libc_memalign(size_t alignment, size_t size);

static const char *call = NULL;
static long left = 0;
static int answer = 0;
static int mark = -1;

static ssize_t (*real_write)(int, const void *, size_t);

static long number(const char *name, long otherwise)
{
    const char *text = getenv(name);
    return text == NULL ? otherwise : atol(text);
}

__attribute__((constructor)) static void begin(void)
{
    real_write = (ssize_t(*)(int, const void *, size_t))dlsym(RTLD_NEXT, "write");
    left = number("REFUSE_AT", 0);
    answer = (int)number("REFUSE_WITH", 0);
    mark = (int)number("REFUSE_MARK", -1);
    call = getenv("REFUSE_CALL");
}

/* Whether a call of this name is one of a disk. */
static int is_of_disk(const char *name)
{
    return strcmp(name, "pread") == 0 || strcmp(name, "pwrite") == 0 || strcmp(name, "fsync") == 0 ||
           strcmp(name, "fdatasync") == 0 || strcmp(name, "ftruncate") == 0;
}

/* Whether this call is the one that is refused, or one after it of a disk that has stopped. */
static int is_refused(const char *name)
{
    int stops = call != NULL && strcmp(call, "disk") == 0;
    if (call == NULL || (stops ? !is_of_disk(name) : strcmp(call, name) != 0))
        return 0;
    left--;
    if (stops ? left > 0 : left != 0)
        return 0;
    if (left == 0 && mark >= 0 && real_write(mark, "!", 1) != 1)
        _exit(99);
    if (answer < 0)
        _exit(0);
    errno = strcmp(name, "malloc") == 0 ? ENOMEM : answer;
    return 1;
}

void *malloc(size_t size)
{
    return is_refused("malloc") ? NULL : __libc_malloc(size);
}

void *calloc(size_t count, size_t size)
{
    return is_refused("malloc") ? NULL : __libc_calloc(count, size);
}

void *realloc(void *memory, size_t size)
{
    return is_refused("malloc") ? NULL : __libc_realloc(memory, size);
}

void *aligned_alloc(size_t alignment, size_t size)
{
    return is_refused("malloc") ? NULL : __libc_memalign(alignment, size);
}

int posix_memalign(void **memory, size_t alignment, size_t size)
{
    if (is_refused("malloc"))
        return ENOMEM;
    *memory = __libc_memalign(alignment, size);
    return *memory == NULL ? ENOMEM : 0;
}

/* The next call of this name behind this file. */
#define NEXT(name) ((__typeof__(&name))dlsym(RTLD_NEXT, #name))

ssize_t read(int file, void *bytes, size_t count)
{
    if (!is_refused("read"))
        return NEXT(read)(file, bytes, count);
    return answer == 0 ? NEXT(read)(file, bytes, count < 1 ? count : 1) : -1;
}

ssize_t pread(int file, void *bytes, size_t count, off_t place)
{
    if (!is_refused("pread"))
        return NEXT(pread)(file, bytes, count, place);
    return answer == 0 ? NEXT(pread)(file, bytes, count < 1 ? count : 1, place) : -1;
}

ssize_t write(int file, const void *bytes, size_t count)
{
    if (!is_refused("write"))
        return NEXT(write)(file, bytes, count);
    return answer == 0 ? NEXT(write)(file, bytes, count < 1 ? count : 1) : -1;
}

ssize_t pwrite(int file, const void *bytes, size_t count, off_t place)
{
    if (!is_refused("pwrite"))
        return NEXT(pwrite)(file, bytes, count, place);
    return answer == 0 ? NEXT(pwrite)(file, bytes, count < 1 ? count : 1, place) : -1;
}

int fsync(int file)
{
    return is_refused("fsync") ? -1 : NEXT(fsync)(file);
}

int ftruncate(int file, off_t length)
{
    return is_refused("ftruncate") ? -1 : NEXT(ftruncate)(file, length);
}

int fdatasync(int file)
{
    return is_refused("fdatasync") ? -1 : NEXT(fdatasync)(file);
}

int open(const char *path, int flags, ...)
{
    va_list rest;
    va_start(rest, flags);
    mode_t mode = (flags & O_CREAT) != 0 ? va_arg(rest, mode_t) : 0;
    va_end(rest);
    return is_refused("open") ? -1 : NEXT(open)(path, flags, mode);
}

int close(int file)
{
    int closed = NEXT(close)(file);
    return is_refused("close") ? -1 : closed;
}

int rename(const char *from, const char *to)
{
    return is_refused("rename") ? -1 : NEXT(rename)(from, to);
}

int unlink(const char *path)
{
    return is_refused("unlink") ? -1 : NEXT(unlink)(path);
}

int statx(int folder, const char *restrict path, int flags, unsigned int mask, struct statx *restrict told)
{
    return is_refused("statx") ? -1 : NEXT(statx)(folder, path, flags, mask, told);
}

int fcntl(int file, int command, ...)
{
    va_list rest;
    va_start(rest, command);
    void *argument = va_arg(rest, void *);
    va_end(rest);
    return is_refused("fcntl") ? -1 : NEXT(fcntl)(file, command, argument);
}
