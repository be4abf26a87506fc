/* Exchanges the new file for the old one. The file that comes out keeps a name until the process
 * knows which one it is. So no version is lost, even if the process is killed in between. */
#define _GNU_SOURCE /* for O_PATH and renameat2 */
#include "exchange.h"
#include <errno.h>
#include <fcntl.h>
#include <inttypes.h>
#include <stdio.h>
#include <unistd.h>

/* Each exchange after the first is needed only if somebody changed the file between two calls. */
#define MAX_EXCHANGES 8

/* The inodes of the two files that are exchanged. */
struct pair {
    uintmax_t old;
    uintmax_t new;
};

/* The size of the longest note, with its zero byte. */
#define NOTE_SIZE sizeof "18446744073709551615 18446744073709551615"

/* Notes in the target of a link which files are exchanged. A link and its target appear at once,
 * and creating one never overwrites another file. */
static bool write_note(const struct place *place, const struct pair *pair)
{
    char note[NOTE_SIZE];

    (void)snprintf(note, sizeof note, "%ju %ju", pair->old, pair->new);
    return symlinkat(note, place->folder, place->exchange_name) == 0;
}

/* Reads the number at *text, and steps over it. It doesn't call strtoumax: a module built with
 * glibc 2.38 or later then couldn't be loaded with an earlier glibc. */
static uintmax_t read_number(const char **text)
{
    uintmax_t number = 0;

    for (; **text >= '0' && **text <= '9'; (*text)++)
        number = 10 * number + (uintmax_t)(**text - '0');
    return number;
}

static bool read_note(const struct place *place, struct pair *pair)
{
    char note[NOTE_SIZE];
    const char *text = note;
    ssize_t len = readlinkat(place->folder, place->exchange_name, note, sizeof note - 1);

    if (len < 0)
        return false;
    note[len] = '\0';
    pair->old = read_number(&text);
    if (*text == ' ')
        text++;
    pair->new = read_number(&text);
    return true;
}

static bool swap(const struct place *place)
{
    return renameat2(place->folder, place->new_name, place->folder, place->name, RENAME_EXCHANGE)
        == 0;
}

static bool read_status(const struct place *place, const char *name, struct stat *status)
{
    return fstatat(place->folder, name, status, AT_SYMLINK_NOFOLLOW) == 0;
}

/* Removes the file with new_name if it is one of the pair: the old one after an exchange, or the
 * new one if there was none. Any other file is somebody's version, and stays. */
static bool remove_own_file(const struct place *place, const struct pair *pair)
{
    struct stat left;

    if (!read_status(place, place->new_name, &left))
        return errno == ENOENT;
    if (left.st_ino != pair->old && left.st_ino != pair->new) {
        errno = EEXIST;
        return false;
    }
    return unlinkat(place->folder, place->new_name, 0) == 0;
}

/* Puts back a file that was exchanged by mistake, if the new file is still in its place. */
static bool put_back(const struct place *place, const struct pair *pair)
{
    struct stat left, file;

    if (!read_status(place, place->new_name, &left) || !read_status(place, place->name, &file))
        return errno == ENOENT; /* then there is nothing to put back, or no file in its place */
    if (left.st_ino == pair->old || left.st_ino == pair->new || file.st_ino != pair->new)
        return true;
    return swap(place);
}

/* Removes a new file that was never in place: without a note, nothing was exchanged. */
static bool remove_unused(const struct place *place)
{
    return unlinkat(place->folder, place->new_name, 0) == 0 || errno == ENOENT;
}

bool end_earlier_exchange(const struct place *place)
{
    struct pair pair;

    if (!read_note(place, &pair))
        return errno == ENOENT && remove_unused(place);
    if (!put_back(place, &pair) || !remove_own_file(place, &pair))
        return false;
    return unlinkat(place->folder, place->exchange_name, 0) == 0;
}

/* Returns whether a file is still as it was: the same file, and nobody has written to it or changed
 * its owner or mode. The time of the last change (ctime) can't show that, since the exchange itself
 * sets it. */
static bool is_unchanged(const struct stat *now, const struct stat *before)
{
    return is_same_file(now, before) && now->st_size == before->st_size
        && now->st_mtim.tv_sec == before->st_mtim.tv_sec
        && now->st_mtim.tv_nsec == before->st_mtim.tv_nsec && now->st_mode == before->st_mode
        && now->st_uid == before->st_uid && now->st_gid == before->st_gid;
}

/* Returns whether a file is the same one, and nobody has changed anything about it, attributes
 * included. This works only before an exchange, which sets the time of the last change (ctime). */
static bool is_untouched(const struct stat *now, const struct stat *before)
{
    return is_same_file(now, before) && now->st_ctim.tv_sec == before->st_ctim.tv_sec
        && now->st_ctim.tv_nsec == before->st_ctim.tv_nsec;
}

/* The files that have come out so far, held open. Until one is closed, no new file can get its
 * inode, by which this process knows it. */
struct held {
    int fds[MAX_EXCHANGES];
    int count;
};

static void hold(const struct place *place, struct held *held)
{
    int fd = openat(place->folder, place->new_name, O_PATH | O_NOFOLLOW | O_CLOEXEC);

    if (fd >= 0)
        held->fds[held->count++] = fd;
}

static void release(struct held *held)
{
    int error = errno;

    while (held->count > 0)
        (void)close(held->fds[--held->count]);
    errno = error;
}

/* Exchanges the file with new_name and the password file until the expected file comes out: at
 * first the old one. If somebody's version comes out instead, the next exchange puts it back, and
 * should take out the file that is in its place now. So the newest of their versions stays. */
static enum outcome exchange_until_expected(
    const struct place *place, const struct stat *old, const struct stat *new, struct held *held)
{
    struct stat expected = *old, in_place = *new, out;

    for (int count = 0; count < MAX_EXCHANGES; count++) {
        if (!swap(place) || !read_status(place, place->new_name, &out))
            return FAILED;
        hold(place, held);
        if (is_unchanged(&out, &expected))
            return is_same_file(&in_place, new) ? DONE : FILE_CHANGED;
        expected = in_place;
        in_place = out;
    }
    errno = EBUSY;
    return FAILED;
}

/* Removes the file with new_name, and then the note. After a failure that file may be somebody's
 * version, which stays. */
static void clean_up(const struct place *place, const struct pair *pair, enum outcome outcome)
{
    int error = errno;
    bool is_removed;

    if (outcome == FAILED)
        is_removed = remove_own_file(place, pair);
    else
        is_removed = unlinkat(place->folder, place->new_name, 0) == 0;
    if (is_removed)
        (void)unlinkat(place->folder, place->exchange_name, 0);
    errno = error;
}

enum outcome exchange_files(
    const struct place *place, const struct stat *old, const struct stat *new)
{
    const struct pair pair = {old->st_ino, new->st_ino};
    struct held held = {.count = 0};
    struct stat file;
    enum outcome outcome;

    if (!write_note(place, &pair) || !read_status(place, place->name, &file))
        outcome = FAILED;
    else if (!is_untouched(&file, old))
        outcome = FILE_CHANGED;
    else
        outcome = exchange_until_expected(place, old, new, &held);
    clean_up(place, &pair, outcome);
    release(&held);
    return outcome;
}
