/* A library for LD_PRELOAD that makes one call of a program fail, and writes a line for each call
   to the file FAULT_LOG: its kind, its bytes, its file descriptor (0 for a call without one), and
   whether it failed.

   FAULT is the kind of the call that fails (memory, read, write or random) and its number, as in
   `read 2`. If it is `short`, no call fails, but each read and write transfers only one byte. */
#define _GNU_SOURCE
#include <errno.h>
#include <fcntl.h>
#include <stdbool.h>
#include <stdio.h>
#include <stdlib.h>
#include <string.h>
#include <sys/syscall.h>
#include <sys/types.h>
#include <unistd.h>

extern void *__libc_malloc(size_t size);
extern void *__libc_realloc(void *old, size_t size);
extern void *__libc_calloc(size_t count, size_t size);

static unsigned long memory_calls, read_calls, write_calls, random_calls;

/* Returns whether FAULT asks for the failure of the call of this kind with this number. */
static bool is_asked_for(const char *kind, unsigned long number)
{
    const char *fault = getenv("FAULT");
    size_t length = strlen(kind);

    if (fault == NULL || strncmp(fault, kind, length) != 0 || fault[length] != ' ')
        return false;
    return strtoul(fault + length, NULL, 10) == number;
}

static void log_call(const char *kind, size_t bytes, int file, bool has_failed)
{
    static int log_file = -1;
    const char *path = getenv("FAULT_LOG");
    const char *end = has_failed ? " failed" : "";
    char line[64];
    int size;

    if (path != NULL && log_file < 0)
        log_file = (int)syscall(SYS_openat, AT_FDCWD, path, O_WRONLY | O_CREAT | O_APPEND, 0600);
    if (log_file < 0)
        return;
    size = snprintf(line, sizeof line, "%s %zu %d%s\n", kind, bytes, file, end);
    syscall(SYS_write, log_file, line, (size_t)size);
}

/* Counts and logs a call, and returns whether it must fail. */
static bool fails(const char *kind, unsigned long *calls, size_t bytes, int file)
{
    bool must_fail = is_asked_for(kind, ++*calls);

    log_call(kind, bytes, file, must_fail);
    return must_fail;
}

static int failed(int error)
{
    errno = error;
    return -1;
}

static void *without_memory(void)
{
    errno = ENOMEM;
    return NULL;
}

/* Returns how many bytes a read or write may transfer. */
static size_t transferable(size_t size)
{
    const char *fault = getenv("FAULT");
    bool is_short = fault != NULL && strcmp(fault, "short") == 0;

    return is_short && size > 1 ? 1 : size;
}

void *malloc(size_t size)
{
    if (fails("memory", &memory_calls, size, 0))
        return without_memory();
    return __libc_malloc(size);
}

void *realloc(void *old, size_t size)
{
    if (fails("memory", &memory_calls, size, 0))
        return without_memory();
    return __libc_realloc(old, size);
}

void *calloc(size_t count, size_t size)
{
    if (fails("memory", &memory_calls, count * size, 0))
        return without_memory();
    return __libc_calloc(count, size);
}

/* Not every allocator has this call, so the program must not use it. */
size_t malloc_usable_size(void *block)
{
    (void)block;
    abort();
}

ssize_t read(int file, void *bytes, size_t size)
{
    if (fails("read", &read_calls, size, file))
        return failed(EIO);
    return syscall(SYS_read, file, bytes, transferable(size));
}

ssize_t write(int file, const void *bytes, size_t size)
{
    if (fails("write", &write_calls, size, file))
        return failed(ENOSPC);
    return syscall(SYS_write, file, bytes, transferable(size));
}

int getentropy(void *bytes, size_t size)
{
    if (fails("random", &random_calls, size, 0))
        return failed(ENOSYS);
    return syscall(SYS_getrandom, bytes, size, 0) == (long)size ? 0 : -1;
}
