/* Makes the new version of a password file. It also copies the owner, the mode and the extended
 * attributes, which hold ACLs and security labels. */
#define _GNU_SOURCE /* for O_TMPFILE */
#include "new_file.h"
#include <errno.h>
#include <fcntl.h>
#include <stdio.h>
#include <stdlib.h>
#include <string.h>
#include <sys/resource.h>
#include <sys/xattr.h>
#include <unistd.h>

#define MODE_BITS 07777

/* Opens a file without a name, which is gone if this process is killed. On a file system that
 * doesn't support such files, it gets its name at once. */
static bool open_new_file(const struct place *place, struct new_file *new)
{
    new->fd = openat(place->folder, ".", O_TMPFILE | O_RDWR | O_CLOEXEC, S_IRUSR | S_IWUSR);
    if (new->fd >= 0)
        return true;
    new->fd = openat(place->folder, place->new_name,
        O_CREAT | O_EXCL | O_NOFOLLOW | O_RDWR | O_CLOEXEC, S_IRUSR | S_IWUSR);
    new->has_name = new->fd >= 0;
    return new->has_name;
}

static bool write_bytes(int fd, const char *bytes, size_t len)
{
    while (len > 0) {
        ssize_t written = write(fd, bytes, len);

        if (written < 0)
            return false;
        bytes += written;
        len -= (size_t)written;
    }
    return true;
}

/* Returns whether this process may write a file of this size. A write beyond the limit would kill
 * the process. */
static bool is_within_limit(size_t size)
{
    struct rlimit limit;

    if (getrlimit(RLIMIT_FSIZE, &limit) != 0)
        return false;
    if (size <= limit.rlim_cur)
        return true;
    errno = EFBIG;
    return false;
}

static bool write_lines(
    int fd, const struct password_file *old, struct mkpasswd_field field, const char *new_field)
{
    size_t new_len = strlen(new_field);
    const char *start = (const char *)field.bytes;
    const char *rest = start + field.length;
    size_t before = (size_t)(start - old->bytes);
    size_t after = old->size - before - field.length;

    if (!is_within_limit(before + new_len + after))
        return false;
    if (!write_bytes(fd, old->bytes, before))
        return false;
    if (!write_bytes(fd, new_field, new_len))
        return false;
    return write_bytes(fd, rest, after);
}

/* Returns whether a file has this owner and mode. If not, errno is EPERM. */
static bool has_owner_and_mode(int fd, const struct stat *wanted)
{
    struct stat file;

    if (fstat(fd, &file) != 0)
        return false;
    if (file.st_uid == wanted->st_uid && file.st_gid == wanted->st_gid
        && file.st_mode == wanted->st_mode)
        return true;
    errno = EPERM;
    return false;
}

/* Gives a file the owner and mode of another one. It sets the owner first, since that clears bits
 * of the mode. Then it checks the result, since the system may drop bits silently. */
static bool copy_owner_and_mode(int fd, const struct stat *old)
{
    if (fchown(fd, old->st_uid, old->st_gid) != 0)
        return false;
    if (fchmod(fd, old->st_mode & MODE_BITS) != 0)
        return false;
    return has_owner_and_mode(fd, old);
}

/* The names of a file's extended attributes, each followed by a zero byte. */
struct names {
    char *bytes;
    size_t len;
};

/* Reads the names. A file system without attributes has none. */
static bool read_names(int fd, struct names *names)
{
    ssize_t len;

    names->bytes = malloc(XATTR_LIST_MAX);
    names->len = 0;
    if (names->bytes == NULL)
        return false;
    len = flistxattr(fd, names->bytes, XATTR_LIST_MAX);
    if (len > 0)
        names->len = (size_t)len;
    return len >= 0 || errno == ENOTSUP;
}

static bool is_among(const struct names *names, const char *wanted)
{
    const char *end = names->bytes + names->len;

    for (const char *name = names->bytes; name < end; name += strlen(name) + 1)
        if (strcmp(name, wanted) == 0)
            return true;
    return false;
}

/* Returns whether a file has an attribute with this value. */
static bool has_value(int fd, const char *name, const char *value, size_t len)
{
    char *own = malloc(XATTR_SIZE_MAX);
    bool is_same = own != NULL && fgetxattr(fd, name, own, XATTR_SIZE_MAX) == (ssize_t)len
        && memcmp(own, value, len) == 0;

    free(own);
    return is_same;
}

/* Gives a file an attribute of another one. Sets nothing if the file already has the value, as it
 * may in the case of a label, since this process may not be allowed to set it. */
static bool copy_attribute(int to, int from, const char *name)
{
    char *value = malloc(XATTR_SIZE_MAX);
    ssize_t len;
    bool is_copied;

    if (value == NULL)
        return false;
    len = fgetxattr(from, name, value, XATTR_SIZE_MAX);
    is_copied = len >= 0 && has_value(to, name, value, (size_t)len);
    if (len >= 0 && !is_copied)
        is_copied = fsetxattr(to, name, value, (size_t)len, 0) == 0;
    free(value);
    return is_copied;
}

static bool copy_named_attributes(const struct names *names, int to, int from)
{
    const char *end = names->bytes + names->len;

    for (const char *name = names->bytes; name < end; name += strlen(name) + 1)
        if (!copy_attribute(to, from, name))
            return false;
    return true;
}

/* Removes the attributes, such as an ACL, that the new file inherited from its folder and that the
 * old one doesn't have. */
static bool remove_others(const struct names *own, const struct names *wanted, int fd)
{
    const char *end = own->bytes + own->len;

    for (const char *name = own->bytes; name < end; name += strlen(name) + 1)
        if (!is_among(wanted, name) && fremovexattr(fd, name) != 0)
            return false;
    return true;
}

/* Gives a file all attributes of another one, and no others. */
static bool copy_attributes(int to, int from)
{
    struct names wanted = {NULL, 0}, own = {NULL, 0};
    bool is_copied = read_names(from, &wanted) && read_names(to, &own);

    if (is_copied)
        is_copied = remove_others(&own, &wanted, to);
    if (is_copied)
        is_copied = copy_named_attributes(&wanted, to, from);
    free(wanted.bytes);
    free(own.bytes);
    return is_copied;
}

bool make_new_file(const struct place *place, const struct password_file *old,
    struct mkpasswd_field field, const char *new_field, struct new_file *new)
{
    *new = (struct new_file){.fd = -1};
    if (!open_new_file(place, new))
        return false;
    if (!write_lines(new->fd, old, field, new_field))
        return false;
    if (!copy_attributes(new->fd, old->fd))
        return false;
    if (!copy_owner_and_mode(new->fd, &old->status))
        return false;
    return fsync(new->fd) == 0 && fstat(new->fd, &new->status) == 0;
}

bool name_new_file(const struct place *place, struct new_file *new)
{
    char link[sizeof "/proc/self/fd/" + 3 * sizeof(int)]; /* a byte has at most 3 digits */

    if (new->has_name)
        return true;
    /* linkat(2) gives a name to the open file to which this link leads. */
    (void)snprintf(link, sizeof link, "/proc/self/fd/%d", new->fd);
    new->has_name = linkat(AT_FDCWD, link, place->folder, place->new_name, AT_SYMLINK_FOLLOW) == 0;
    return new->has_name;
}

void remove_new_file(const struct place *place, const struct new_file *new)
{
    int error = errno;

    if (new->has_name)
        (void)unlinkat(place->folder, place->new_name, 0);
    errno = error;
}

void close_new_file(const struct new_file *new)
{
    int error = errno;

    if (new->fd >= 0)
        (void)close(new->fd);
    errno = error;
}
