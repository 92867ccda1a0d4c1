/* Loaded before the C library (LD_PRELOAD), it counts the files that a program opens, its reads, writes and bytes of memory. It can
   also refuse one allocation, or one open, read, write or close of a file.

   SHIM_COUNTS    names the file that gets six numbers at the end: the files opened, the reads, the writes, the greatest number of bytes
                  of memory at one time, the bytes asked for over the whole run, and the allocations
   SHIM_OPENS     names the file to which the name of each opened file is appended, as a line
   SHIM_REFUSE    the number of the allocation that is refused, counted from 1; SHIM_REFUSE_OPEN, SHIM_REFUSE_READ, SHIM_REFUSE_WRITE
                  and SHIM_REFUSE_CLOSE are those of calls on files
   SHIM_ERROR     the number of the error with which such a call is refused, by default ENOMEM
   SHIM_ELSEWHERE names what is reported to be on another device */
#define _GNU_SOURCE
#include <dlfcn.h>
#include <errno.h>
#include <fcntl.h>
#include <malloc.h>
#include <stdarg.h>
#include <stdio.h>
#include <stdlib.h>
#include <string.h>
#include <sys/stat.h>
#include <sys/syscall.h>
#include <unistd.h>

static unsigned long opens, reads, writes, closes, held, most, asked, allocations;
static unsigned long refused, refused_open, refused_read, refused_write, refused_close;
static int file_error;
static void *(*real_malloc)(size_t);
static void *(*real_realloc)(void *, size_t);
static void (*real_free)(void *);

static unsigned long number_in(const char *name, unsigned long otherwise)
{
    const char *number = getenv(name);

    return number ? strtoul(number, NULL, 10) : otherwise;
}

__attribute__((constructor)) static void begin(void)
{
    real_malloc = dlsym(RTLD_NEXT, "malloc");
    real_realloc = dlsym(RTLD_NEXT, "realloc");
    real_free = dlsym(RTLD_NEXT, "free");
    opens = reads = writes = closes = asked = allocations = 0;
    refused = number_in("SHIM_REFUSE", 0);
    refused_open = number_in("SHIM_REFUSE_OPEN", 0);
    refused_read = number_in("SHIM_REFUSE_READ", 0);
    refused_write = number_in("SHIM_REFUSE_WRITE", 0);
    refused_close = number_in("SHIM_REFUSE_CLOSE", 0);
    file_error = (int)number_in("SHIM_ERROR", ENOMEM);
}

__attribute__((destructor)) static void end(void)
{
    const char *name = getenv("SHIM_COUNTS");
    char text[100];
    int length = snprintf(text, sizeof text, "%lu %lu %lu %lu %lu %lu\n", opens, reads, writes, most, asked, allocations);
    int file = name ? (int)syscall(SYS_openat, AT_FDCWD, name, O_WRONLY | O_CREAT | O_TRUNC, 0666) : -1;

    if (0 <= file)
        syscall(SYS_write, file, text, (size_t)length);
}

static int is_refused(size_t size)
{
    asked += size;
    if (++allocations != refused)
        return 0;
    errno = ENOMEM;
    return 1;
}

static void *granted(void *block)
{
    held += block ? malloc_usable_size(block) : 0;
    most = most < held ? held : most;
    return block;
}

void *malloc(size_t size)
{
    if (!real_malloc)
        begin();
    return is_refused(size) ? NULL : granted(real_malloc(size));
}

/* A block that is moved counts twice for a moment, as it does while it is copied. */
void *realloc(void *block, size_t size)
{
    size_t old = block ? malloc_usable_size(block) : 0;
    void *other;

    if (is_refused(size))
        return NULL;
    other = real_realloc(block, size);
    granted(other);
    held -= other ? old : 0;
    return other;
}

void free(void *block)
{
    held -= block ? malloc_usable_size(block) : 0;
    real_free(block);
}

/* Whether this is the one of its kind that is refused. */
static int fails(unsigned long at, unsigned long which)
{
    if (at == which)
        errno = file_error;
    return at == which;
}

static void note(const char *opened)
{
    const char *name = getenv("SHIM_OPENS");
    int file = name ? (int)syscall(SYS_openat, AT_FDCWD, name, O_WRONLY | O_CREAT | O_APPEND, 0666) : -1;

    if (file < 0)
        return;
    syscall(SYS_write, file, opened, strlen(opened));
    syscall(SYS_write, file, "\n", (size_t)1);
    syscall(SYS_close, file);
}

/* The mode of a file that may be created is the last argument. */
#define OPENS(place)                                                        \
    va_list rest;                                                           \
    mode_t mode;                                                            \
                                                                            \
    note(name);                                                             \
    if (fails(++opens, refused_open))                                       \
        return -1;                                                          \
    va_start(rest, flags);                                                  \
    mode = flags & (O_CREAT | O_TMPFILE) ? (mode_t)va_arg(rest, int) : 0;   \
    va_end(rest);                                                           \
    return (int)syscall(SYS_openat, place, name, flags, mode)

int open(const char *name, int flags, ...)
{
    OPENS(AT_FDCWD);
}

int open64(const char *name, int flags, ...)
{
    OPENS(AT_FDCWD);
}

int openat(int folder, const char *name, int flags, ...)
{
    OPENS(folder);
}

ssize_t read(int file, void *bytes, size_t count)
{
    return fails(++reads, refused_read) ? -1 : syscall(SYS_read, file, bytes, count);
}

ssize_t write(int file, const void *bytes, size_t count)
{
    return fails(++writes, refused_write) ? -1 : syscall(SYS_write, file, bytes, count);
}

ssize_t __write(int file, const void *bytes, size_t count)
{
    return write(file, bytes, count);
}

/* The file is closed, as it is if the system reports that an earlier write has failed. */
int close(int file)
{
    int status = (int)syscall(SYS_close, file);

    return fails(++closes, refused_close) ? -1 : status;
}

int statx(int folder, const char *restrict name, int flags, unsigned mask, struct statx *restrict found)
{
    const char *elsewhere = getenv("SHIM_ELSEWHERE");
    int status = (int)syscall(SYS_statx, folder, name, flags, mask, found);

    if (status == 0 && elsewhere && strcmp(name, elsewhere) == 0)
        found->stx_dev_minor ^= 1;
    return status;
}
