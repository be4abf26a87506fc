/* Replaces a field, in the order of the steps in REPLACING A FIELD of pam_mkpasswd(8). */
#include "replacement.h"
#include "exchange.h"
#include "lock.h"
#include "new_file.h"
#include <errno.h>
#include <fcntl.h>
#include <unistd.h>

/* Gives the new file a name and exchanges it for the old one. If this process is killed meanwhile,
 * the next one that replaces a field cleans up. */
static enum outcome put_in_place(
    const struct place *place, const struct password_file *old, struct new_file *new)
{
    enum outcome outcome;

    if (!name_new_file(place, new))
        return FAILED;
    outcome = exchange_files(place, &old->status, &new->status);
    if (outcome == DONE)
        (void)fsync(place->folder); /* some file systems don't support this */
    return outcome;
}

/* Makes a new file with the new field, and puts it in place. */
static enum outcome replace_in_file(const struct place *place, const struct password_file *old,
    struct mkpasswd_field field, const char *new_field)
{
    struct new_file new;
    enum outcome outcome = FAILED;

    if (make_new_file(place, old, field, new_field, &new))
        outcome = put_in_place(place, old, &new);
    else
        remove_new_file(place, &new);
    close_new_file(&new);
    return outcome;
}

/* Replaces the field in a file that was read, if it is still the one that was checked. */
static enum outcome replace_if_same(const struct place *place, const struct password_file *file,
    const struct replacement *replacement)
{
    struct line line = find_line(file, replacement->name);

    if (line.number == 0 || !is_same_field(line.field, replacement->checked))
        return FILE_CHANGED;
    return replace_in_file(place, file, line.field, replacement->hash);
}

/* Reads the file, and replaces the field in it. */
static enum outcome read_and_replace(
    const struct place *place, const struct replacement *replacement)
{
    struct password_file file;
    enum outcome outcome = FAILED;
    int error = read_password_file(place->folder, place->name, &file);

    if (error == 0)
        outcome = replace_if_same(place, &file, replacement);
    else
        errno = error;
    close_password_file(&file);
    return outcome;
}

static enum outcome replace_under_lock(
    const struct place *place, const struct replacement *replacement)
{
    enum outcome outcome = FAILED;
    int lock;

    switch (take_lock(place, &lock)) {
    case LOCK_FAILED:
        return FAILED;
    case LOCK_HELD:
        return LOCK_IS_HELD;
    case LOCK_TAKEN:
        break;
    }
    if (end_earlier_exchange(place))
        outcome = read_and_replace(place, replacement);
    release_lock(lock);
    return outcome;
}

enum outcome replace_field(const char *path, const struct replacement *replacement)
{
    struct place place;
    enum outcome outcome = FAILED;

    if (open_place(path, &place))
        outcome = replace_under_lock(&place, replacement);
    close_place(&place);
    return outcome;
}

bool can_replace(const char *path)
{
    struct place place;
    bool is_possible = open_place(path, &place);

    if (is_possible)
        is_possible = faccessat(place.folder, ".", W_OK | X_OK, AT_EACCESS) == 0;
    close_place(&place);
    return is_possible;
}
