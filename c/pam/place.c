/* Finds the folder of a password file, and names the files that the protocol puts beside it. */
#include "place.h"
#include <errno.h>
#include <fcntl.h>
#include <stdio.h>
#include <stdlib.h>
#include <string.h>
#include <unistd.h>

static bool put_name(char *name, const char *file_name, const char *ending)
{
    int len = snprintf(name, NAME_SIZE, "%s%s", file_name, ending);

    if (len >= 0 && len < NAME_SIZE)
        return true;
    errno = ENAMETOOLONG;
    return false;
}

static bool put_names(struct place *place, const char *file_name)
{
    return put_name(place->name, file_name, "")
        && put_name(place->lock_name, file_name, ".mkpasswd.lock")
        && put_name(place->new_name, file_name, ".mkpasswd.new")
        && put_name(place->exchange_name, file_name, ".mkpasswd.exchange");
}

bool open_place(const char *path, struct place *place)
{
    char resolved[PATH_MAX];
    char *slash;

    place->folder = -1;
    if (realpath(path, resolved) == NULL)
        return false;
    slash = strrchr(resolved, '/');
    if (!put_names(place, slash + 1))
        return false;
    slash[1] = '\0'; /* what is left is the folder */
    place->folder = open(resolved, O_RDONLY | O_DIRECTORY | O_CLOEXEC);
    return place->folder >= 0;
}

void close_place(const struct place *place)
{
    int error = errno;

    if (place->folder >= 0)
        (void)close(place->folder);
    errno = error;
}

bool is_same_file(const struct stat *first, const struct stat *second)
{
    return first->st_dev == second->st_dev && first->st_ino == second->st_ino;
}
