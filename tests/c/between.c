/* A library for LD_PRELOAD that acts as another user, or as another file system, while a program
   replaces a file. Each time the program is about to exchange PATH with another file, the library
   renames a file over PATH: first PATH.1, then PATH.2, and so on, as long as these exist.

   NO_EXCHANGE=1   the file system can't exchange files
   NO_TMPFILE=1    the file system has no O_TMPFILE
   NO_LOCKS=1      the file system has no locks
   NO_LINKS=1      reading a symbolic link fails
   CHMOD=1         somebody changes PATH's mode before the first exchange
   REMOVED=PATH    somebody removes PATH before the program writes its note of the exchange
   KILL=fsync      the program is killed before its file is on the disk
   KILL=linkat     the program is killed after its file has got a name
   KILL=exchange   the program is killed after the exchange
   KILL=unlinkat   the program is killed before it removes the old file */
#define _GNU_SOURCE
#include <errno.h>
#include <fcntl.h>
#include <limits.h>
#include <signal.h>
#include <stdarg.h>
#include <stdbool.h>
#include <stdio.h>
#include <stdlib.h>
#include <string.h>
#include <sys/stat.h>
#include <sys/syscall.h>
#include <unistd.h>

static void kill_at(const char *call)
{
    const char *wanted = getenv("KILL");

    if (wanted != NULL && strcmp(wanted, call) == 0)
        (void)raise(SIGKILL);
}

static int refused(int error)
{
    errno = error;
    return -1;
}

int renameat2(int from_folder, const char *from, int to_folder, const char *to, unsigned int flags)
{
    static int calls;
    char other[PATH_MAX];
    int result;

    if (snprintf(other, sizeof other, "%s.%d", to, ++calls) >= (int)sizeof other)
        abort();
    (void)syscall(SYS_renameat2, to_folder, other, to_folder, to, 0);
    if (calls == 1 && getenv("CHMOD") != NULL)
        (void)fchmodat(to_folder, to, S_IRUSR | S_IWUSR | S_IROTH, 0);
    if (flags != 0 && getenv("NO_EXCHANGE") != NULL)
        return refused(EINVAL);
    result = (int)syscall(SYS_renameat2, from_folder, from, to_folder, to, flags);
    kill_at("exchange");
    return result;
}

int openat(int folder, const char *path, int flags, ...)
{
    va_list arguments;
    mode_t mode;

    va_start(arguments, flags);
    mode = va_arg(arguments, mode_t);
    va_end(arguments);
    if ((flags & O_TMPFILE) == O_TMPFILE && getenv("NO_TMPFILE") != NULL)
        return refused(EOPNOTSUPP);
    return (int)syscall(SYS_openat, folder, path, flags, mode);
}

/* Python calls openat by this name. */
int openat64(int folder, const char *path, int flags, ...) __attribute__((alias("openat")));

int flock(int file, int operation)
{
    if (getenv("NO_LOCKS") != NULL)
        return refused(ENOLCK);
    return (int)syscall(SYS_flock, file, operation);
}

ssize_t readlinkat(int folder, const char *path, char *target, size_t size)
{
    if (getenv("NO_LINKS") != NULL)
        return refused(EIO);
    return (ssize_t)syscall(SYS_readlinkat, folder, path, target, size);
}

int symlinkat(const char *target, int folder, const char *path)
{
    const char *removed = getenv("REMOVED");

    if (removed != NULL)
        (void)syscall(SYS_unlinkat, AT_FDCWD, removed, 0);
    return (int)syscall(SYS_symlinkat, target, folder, path);
}

int linkat(int from_folder, const char *from, int to_folder, const char *to, int flags)
{
    int result = (int)syscall(SYS_linkat, from_folder, from, to_folder, to, flags);

    kill_at("linkat");
    return result;
}

int unlinkat(int folder, const char *path, int flags)
{
    struct stat status;

    if (fstatat(folder, path, &status, AT_SYMLINK_NOFOLLOW) == 0)
        kill_at("unlinkat");
    return (int)syscall(SYS_unlinkat, folder, path, flags);
}

int fsync(int file)
{
    kill_at("fsync");
    return (int)syscall(SYS_fsync, file);
}
