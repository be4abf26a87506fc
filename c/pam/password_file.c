/* Reads a password file, and finds a name's line in it. */
#include "password_file.h"
#include <errno.h>
#include <fcntl.h>
#include <stdlib.h>
#include <string.h>
#include <unistd.h>

/* Opens a regular file. If a FIFO has its path, O_NONBLOCK keeps the call from waiting. */
static int open_regular(int folder, const char *path, struct password_file *file)
{
    file->fd = openat(folder, path, O_RDONLY | O_CLOEXEC | O_NOCTTY | O_NONBLOCK);
    if (file->fd < 0 || fstat(file->fd, &file->status) != 0)
        return errno;
    if (S_ISDIR(file->status.st_mode))
        return EISDIR;
    return S_ISREG(file->status.st_mode) ? 0 : EINVAL;
}

/* Reads as many bytes as the file had when it was opened. */
static int read_bytes(struct password_file *file)
{
    size_t size = (size_t)file->status.st_size;

    file->bytes = malloc(size + 1); /* malloc(0) may return NULL */
    if (file->bytes == NULL)
        return ENOMEM;
    while (file->size < size) {
        ssize_t len = read(file->fd, file->bytes + file->size, size - file->size);

        if (len < 0)
            return errno;
        if (len == 0) /* somebody has truncated the file meanwhile */
            break;
        file->size += (size_t)len;
    }
    return 0;
}

/* Wipes the bytes and frees them. They contain the hashes of all users, and the service keeps
 * running. */
static void wipe_and_free_bytes(struct password_file *file)
{
    if (file->bytes == NULL)
        return;
    explicit_bzero(file->bytes, file->size);
    free(file->bytes);
    file->bytes = NULL;
    file->size = 0;
}

int read_password_file(int folder, const char *path, struct password_file *file)
{
    int error;

    *file = (struct password_file){.fd = -1};
    error = open_regular(folder, path, file);
    if (error == 0)
        error = read_bytes(file);
    if (error != 0)
        wipe_and_free_bytes(file);
    return error;
}

void close_password_file(struct password_file *file)
{
    int error = errno;

    wipe_and_free_bytes(file);
    if (file->fd >= 0)
        (void)close(file->fd);
    errno = error;
}

/* Returns where a character first is, or `end` if it isn't there. */
static const char *find_character(const char *start, const char *end, char character)
{
    const char *place = memchr(start, character, (size_t)(end - start));

    return place != NULL ? place : end;
}

/* Returns whether a line begins with this name and a colon. A line that begins with # is a
 * comment. */
static bool has_name(const char *line, const char *line_end, const char *name, size_t name_len)
{
    const char *colon = find_character(line, line_end, ':');

    return colon < line_end && name_len > 0 && name[0] != '#' && (size_t)(colon - line) == name_len
        && memcmp(line, name, name_len) == 0;
}

/* Returns the field from `start` up to the next colon. */
static struct mkpasswd_field field_between(const char *start, const char *line_end)
{
    const char *end = find_character(start, line_end, ':');

    return mkpasswd_field_bytes(start, (size_t)(end - start));
}

struct line find_line(const struct password_file *file, const char *name)
{
    struct line found = {0, mkpasswd_field(NULL)};
    const char *line = file->bytes;
    const char *end;
    size_t name_len = strlen(name);

    if (file->size == 0) /* `bytes` may be null */
        return found;
    end = file->bytes + file->size;
    for (unsigned long number = 1; line < end; number++) {
        const char *line_end = find_character(line, end, '\n');

        if (has_name(line, line_end, name, name_len) && found.number == 0) {
            found.number = number;
            found.field = field_between(line + name_len + 1, line_end);
        }
        line = line_end < end ? line_end + 1 : end;
    }
    return found;
}

bool is_locked(struct mkpasswd_field field)
{
    return field.length > 0 && (field.bytes[0] == '!' || field.bytes[0] == '*');
}

bool is_same_field(struct mkpasswd_field first, struct mkpasswd_field second)
{
    return first.length == second.length && memcmp(first.bytes, second.bytes, first.length) == 0;
}
