/* Records what a program does to its files, for tests: it is loaded in front of the C library, by LD_PRELOAD, and lets
 * every call through.
 *
 * To the descriptor RECORD_TO it writes, in the order of the calls that succeed, a line for each, with spaces between:
 *
 *   write FILE PLACE COUNT    by write and pwrite, with the bytes behind the line
 *   length FILE COUNT         by ftruncate, and by an open that empties a file
 *   sync FILE                 by fsync and fdatasync, also of a folder
 *   create FILE NAME          by an open that makes a file
 *   rename FROM TO, unlink NAME
 *   print COUNT               by a write to the standard output, with the bytes behind the line
 *
 * FILE is its number in the file system, which a rename keeps. A write that moves a part counts as that part.
 */
#define _GNU_SOURCE
#include <dlfcn.h>
#include <errno.h>
#include <fcntl.h>
#include <stdarg.h>
#include <stdio.h>
#include <stdlib.h>
#include <sys/stat.h>
#include <sys/syscall.h>
#include <sys/types.h>
#include <unistd.h>

/* The next call of this name behind this file. */
#define NEXT(name) ((__typeof__(&name))dlsym(RTLD_NEXT, #name))

/* Writes bytes to the record. A record that is not whole is none, and the process ends. */
static void put(const char *bytes, size_t count)
{
    static int record = -1;
    if (record < 0)
        record = atoi(getenv("RECORD_TO"));
    while (count > 0) {
        long moved = syscall(SYS_write, record, bytes, count);
        if (moved <= 0)
            _exit(99);
        bytes += moved;
        count -= (size_t)moved;
    }
}

/* Writes a line to the record, and bytes behind it. */
static void note(const void *bytes, size_t count, const char *form, ...)
{
    char line[8192];
    int kept = errno;
    va_list rest;
    va_start(rest, form);
    int length = vsnprintf(line, sizeof line, form, rest);
    va_end(rest);
    put(line, (size_t)length);
    put(bytes, count);
    errno = kept;
}

/* The number of a file in the file system. */
static unsigned long number(int file)
{
    struct stat told;
    return fstat(file, &told) == 0 ? (unsigned long)told.st_ino : 0;
}

/* Notes bytes that were written at a place. */
static void note_write(int file, const void *bytes, ssize_t moved, off_t place)
{
    if (moved > 0)
        note(bytes, (size_t)moved, "write %lu %lld %zd\n", number(file), (long long)place, moved);
}

ssize_t write(int file, const void *bytes, size_t count)
{
    ssize_t moved = NEXT(write)(file, bytes, count);
    if (file > STDERR_FILENO)
        note_write(file, bytes, moved, lseek(file, 0, SEEK_CUR) - moved);
    else if (file == STDOUT_FILENO && moved > 0)
        note(bytes, (size_t)moved, "print %zd\n", moved);
    return moved;
}

ssize_t pwrite(int file, const void *bytes, size_t count, off_t place)
{
    ssize_t moved = NEXT(pwrite)(file, bytes, count, place);
    note_write(file, bytes, moved, place);
    return moved;
}

int ftruncate(int file, off_t length)
{
    int answer = NEXT(ftruncate)(file, length);
    if (answer == 0)
        note("", 0, "length %lu %lld\n", number(file), (long long)length);
    return answer;
}

int fsync(int file)
{
    int answer = NEXT(fsync)(file);
    if (answer == 0)
        note("", 0, "sync %lu\n", number(file));
    return answer;
}

int fdatasync(int file)
{
    int answer = NEXT(fdatasync)(file);
    if (answer == 0)
        note("", 0, "sync %lu\n", number(file));
    return answer;
}

int open(const char *path, int flags, ...)
{
    va_list rest;
    va_start(rest, flags);
    mode_t mode = (flags & O_CREAT) != 0 ? va_arg(rest, mode_t) : 0;
    va_end(rest);
    int is_new = (flags & O_CREAT) != 0 && access(path, F_OK) != 0;
    int file = NEXT(open)(path, flags, mode);
    if (file >= 0 && is_new)
        note("", 0, "create %lu %s\n", number(file), path);
    else if (file >= 0 && (flags & O_TRUNC) != 0)
        note("", 0, "length %lu 0\n", number(file));
    return file;
}

int rename(const char *from, const char *to)
{
    int answer = NEXT(rename)(from, to);
    if (answer == 0)
        note("", 0, "rename %s %s\n", from, to);
    return answer;
}

int unlink(const char *path)
{
    int answer = NEXT(unlink)(path);
    if (answer == 0)
        note("", 0, "unlink %s\n", path);
    return answer;
}
